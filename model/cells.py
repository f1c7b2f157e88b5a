# SPDX-License-Identifier: MIT OR Apache-2.0
"""Planes, the cells that slices code of them, colours, and samples as range coded residuals (RFC 9043,
3 and 4.7 to 4.8): a part of `ffv1.py`.
"""
from range_coder import Fault, get_number, put_number
from record import edge


# --------------------------------------------------------------------- planes and cells (3.2, 4.7, 4.8)

def plane_count(config):
    return 1 if not config.chroma else 4 if config.extra else 3


def reduced(config, plane, width, height):
    """4.2.8, 4.2.9: a width and a height in a plane: those of chroma over the factors, rounded up."""
    if plane in (1, 2):
        width, height = -(-width // 2 ** config.log2_h), -(-height // 2 ** config.log2_v)
    return width, height


def sides_of(config, plane):
    """The two sides of a plane, each as its samples of luma, how many parts it has, and the factor."""
    log2_h, log2_v = (config.log2_h, config.log2_v) if plane in (1, 2) else (0, 0)
    return (config.width, config.columns, 2 ** log2_h), (config.height, config.rows, 2 ** log2_v)


def coded_part(side, k):
    """4.7.2, 4.7.4, 4.8.1, 4.8.3: where part k of a side begins and how long it is. Own: it begins at
    the sample in which its edge lies, so it may have a sample that the part before has too."""
    size, count, factor = side
    begin, end = edge(k, size, count), edge(k + 1, size, count)
    return begin // factor, -(-(end - begin) // factor)


def shared_of(side, k):
    """How many samples of part k the part before has too: 0 or 1."""
    return sum(coded_part(side, k - 1)) - coded_part(side, k)[0] if k else 0


def place_in(config, slice):
    """The column and the row of a slice."""
    return slice % config.columns, slice // config.columns


def cell_of(config, slice, plane):
    """Where the cell that a slice codes begins in a plane, and how wide and high it is."""
    parts = [coded_part(*part) for part in zip(sides_of(config, plane), place_in(config, slice))]
    (left, width), (top, height) = parts
    return left, top, width, height


def shared_in(config, slice, plane):
    """How many columns of its cell the slice to the left codes too, and how many lines the one above."""
    return [shared_of(*part) for part in zip(sides_of(config, plane), place_in(config, slice))]


def lines_in(config, slice):
    """4.7: the lines of a slice in the order of coding, as plane and line of its cell."""
    planes = range(plane_count(config))
    heights = [cell_of(config, slice, plane)[3] for plane in planes]
    if config.rct:
        return [(plane, y) for y in range(heights[0]) for plane in planes]
    return [(plane, y) for plane in planes for y in range(heights[plane])]


def swaps(config):
    """3.7.2: with 9 to 15 bits and no transparency, green and blue change places."""
    return 8 < config.depth < 16 and not config.extra


def forward(config, red, green, blue):
    """3.7.2: Y, and Cb and Cr raised by 2 to the bits of a sample."""
    if swaps(config):
        green, blue = blue, green
    cb, cr = blue - green, red - green
    return green + (cb + cr) // 4, cb + 2 ** config.depth, cr + 2 ** config.depth


def inverse(config, y, cb, cr):
    """3.7.2: red, green and blue. Own: each of so many bits, or none."""
    cb, cr = cb - 2 ** config.depth, cr - 2 ** config.depth
    green = y - (cb + cr) // 4
    colour = [cr + green, green, cb + green]
    if not all(0 <= sample < 2 ** config.depth for sample in colour):
        return None
    return [colour[0], colour[2], colour[1]] if swaps(config) else colour


def coded_planes(config, planes):
    """The planes as they are coded; each is a list of lines."""
    if not config.rct:
        return planes
    lines = [[forward(config, *place) for place in zip(*line)] for line in zip(*planes[:3])]
    return [[[place[k] for place in line] for line in lines] for k in range(3)] + planes[3:]


# ------------------------------------------------------------------------ samples (3.1 to 3.6, 3.8)

def quantised(runs, scale, difference):
    """4.1: the entry of a table for the low eight bits of a difference."""
    index = difference & 255
    sign, index = (1, index) if index < 128 else (-1, min(256 - index, 127))
    value = sum(1 for k in range(len(runs)) if sum(runs[:k + 1]) <= index)
    return sign * scale * value


def scales_of(runs):
    """4.1: the scale of each table: the product of how many values those before have."""
    scales = [1]
    for table in runs[:-1]:
        scales.append(scales[-1] * (2 * len(table) - 1))
    return scales


class Cell:
    """3.1, 3.2: the samples of a cell that are known so far, and what is seen of them."""

    def __init__(self, width):
        self.width, self.lines = width, []

    def seen(self, x, y):
        if y < 0 or x == -2:
            return 0
        if x == -1:
            return self.seen(0, y - 1)
        return self.lines[y][min(x, self.width - 1)]

    def around(self, x, y):
        places = [(-1, 0), (0, -1), (-1, -1), (1, -1), (-2, 0), (0, -2)]
        return [self.seen(x + right, y + down) for right, down in places]


def predicted(config, l, t, tl):
    """3.3: the median of left, top, and left plus top less top left. Of 16 bits of YCbCr these are
    read as signed numbers."""
    if bits_of(config) == 16:
        l, t, tl = (value - 65536 * (value >= 32768) for value in (l, t, tl))
    return sorted([l, t, l + t - tl])[1]


def context_of(runs, l, t, tl, tr, ll, tt):
    """3.5: the context, and whether the difference is negated."""
    differences = [l - tl, tl - t, t - tr, ll - l, tt - t]
    context = sum(quantised(table, scale, difference)
                  for table, scale, difference in zip(runs, scales_of(runs), differences))
    return abs(context), context < 0


def bits_of(config):
    """3.8: the bits of a coded sample."""
    return config.depth + config.rct


def class_of(plane):
    """3.6: Y, Cb with Cr, and transparency have states of their own."""
    return [0, 1, 1, 2][plane]


def put_line(encoder, config, runs, plane, cell, y):
    """3.8: the residuals of a line, each folded to the bits of a sample."""
    half = 2 ** (bits_of(config) - 1)
    for x in range(cell.width):
        around = cell.around(x, y)
        context, negated = context_of(runs, *around)
        difference = cell.lines[y][x] - predicted(config, *around[:3])
        if negated:
            difference = -difference
        put_number(encoder, ("sample", class_of(plane), context), (difference + half) % (2 * half) - half,
                   signed=True)


def get_line(decoder, config, runs, plane, cell):
    """3.8: the samples of the next line. Own: 4 at the first that has none."""
    y = len(cell.lines)
    cell.lines.append([])
    for x in range(cell.width):
        around = cell.around(x, y)
        context, negated = context_of(runs, *around)
        try:
            residual = get_number(decoder, ("sample", class_of(plane), context), signed=True)
        except Fault as fault:
            raise Fault(fault.number, x=x)
        residual = -residual if negated else residual
        cell.lines[y].append((predicted(config, *around[:3]) + residual) % 2 ** bits_of(config))
