# SPDX-License-Identifier: MIT OR Apache-2.0
"""Pictures of one slice whose rows are long, by sets of few and of many values, and payloads of
residuals of any size: what the crates do in blocks of a row is asked by them."""
import ffv1

MANY = [[2, 3, 5, 7, 11, 13, 87]] + [[4, 20, 104]] * 4
NEAR = [[9, 119], [1] * 128, [9, 119], [128], [128]]
SETS = [ffv1.SMALL, ffv1.LARGE, MANY, NEAR]
SHARES = [0, 1, 2, 3, 8, 16, 31]            # the greatest binary digits of residuals


def config_of(random, depth):
    """A configuration of one slice: mono or RCT, by the standard's table or another coder type."""
    rct = random.random() < 0.5
    return ffv1.Config(random.randrange(17, 301), random.randrange(2, 5), rct=rct, chroma=rct,
                       extra=rct and random.random() < 0.2, sets=[random.choice(SETS)],
                       ec=random.randrange(2), depth=depth, wide=depth != 8)


def line_of(random, width, most, kind):
    """Samples: any, nearly alike, long runs, or by leaps of half or of all of their range."""
    run = random.randrange(most)
    line = []
    for _ in range(width):
        if random.random() < 0.03:
            run = random.randrange(most)
        line.append([random.randrange(most), min(100, most - 3) + random.randrange(3), run,
                     random.randrange(2) * (most // 2), random.randrange(2) * (most - 1)][kind])
    return line


def picture_of(random, config):
    """Planes of one kind of samples each."""
    planes = []
    for plane in range(ffv1.plane_count(config)):
        width, height = ffv1.reduced(config, plane, config.width, config.height)
        kind = random.randrange(5)
        planes.append([line_of(random, width, 2 ** config.depth, kind) for _ in range(height)])
    return planes


def pictures(random, count, depth):
    """A configuration, its picture, what is said of it, and the payload."""
    for _ in range(count):
        config = config_of(random, depth)
        planes, info = picture_of(random, config), [random.randrange(4), 0, 0]
        yield config, planes, info, ffv1.encode_frame(config, planes, info)


def residual_of(random, digits):
    """A residual of at most so many binary digits."""
    size = random.randrange(2 ** random.randrange(digits + 1))
    return random.choice([-size, size])


def put_residuals(random, encoder, config, plane, cell):
    """Puts a line of residuals, and lets the cell have the samples that they make."""
    runs, digits = config.sets[0], random.choice(SHARES)
    cell.lines.append([])
    for x in range(cell.width):
        around = cell.around(x, len(cell.lines) - 1)
        context, negated = ffv1.context_of(runs, *around)
        residual = residual_of(random, digits) if random.random() < 0.5 else 0
        ffv1.put_number(encoder, ("sample", ffv1.class_of(plane), context), residual, signed=True)
        residual = -residual if negated else residual
        sample = ffv1.predicted(config, *around[:3]) + residual
        cell.lines[-1].append(sample % 2 ** ffv1.bits_of(config))


def payload_of(random, config):
    """A slice of residuals of any size, ended as it should be, or cut short."""
    encoder = ffv1.Encoder(config.table())
    ffv1.put_head(encoder, config, 0, [0] * ffv1.index_count(config), 0, 0, 0)
    cells = [ffv1.Cell(ffv1.cell_of(config, 0, plane)[2]) for plane in range(ffv1.plane_count(config))]
    for plane, _ in ffv1.lines_in(config, 0):
        put_residuals(random, encoder, config, plane, cells[plane])
    data = encoder.sentinel()
    if random.random() < 0.3:
        data = data[:random.randrange(3, len(data))] + b"\0"
    return data + ffv1.footer(data, config.ec)


def payloads(random, count, depth):
    """A configuration and a payload of residuals; every other one is of mono."""
    for number in range(count):
        config = config_of(random, depth)
        if number % 2:
            config.rct = config.chroma = config.extra = False
        yield config, payload_of(random, config)
