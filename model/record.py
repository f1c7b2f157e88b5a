# SPDX-License-Identifier: MIT OR Apache-2.0
"""Quantisation table sets, parameters, parity and the configuration record of FFV1 (RFC 9043, 3.4 and
4.1 to 4.3): a part of `ffv1.py`.
"""
from range_coder import STANDARD, Decoder, Encoder, Fault, get_number, put_number, table_of


# ------------------------------------------------------------------- quantisation table sets (3.4, 4.1)

SMALL = [[1, 1, 3, 7, 11, 105]] * 3 + [[128]] * 2           # own: 666 contexts
LARGE = [[1, 1, 3, 7, 11, 105]] * 3 + [[3, 11, 114]] * 2    # own: 16638 contexts


def contexts_of(runs):
    """4.1: how many contexts a set of five tables has, by the runs of their entries."""
    product = 1
    for table in runs:
        product *= 2 * len(table) - 1
    return (product + 1) // 2


# -------------------------------------------------------------------------------- parameters (4.2)

DEPTHS = [8, 9, 10, 12, 14, 16]     # own: the bits of a sample that are accepted at the wide profile


class Config:
    """The parameters of the profile, and the size of the pictures, which the container tells; and
    whether the profile is the wide one, of other depths than 8 and of heads without an aspect, in
    which a slice is not read too far."""

    def __init__(self, width, height, coder=1, deltas=None, rct=False, chroma=False, log2_h=0,
                 log2_v=0, extra=False, columns=1, rows=1, sets=None, ec=1, intra=1, depth=8,
                 wide=False):
        self.width, self.height, self.coder = width, height, coder
        self.deltas = deltas if deltas is not None else [0] * 255
        self.rct, self.chroma, self.log2_h, self.log2_v = rct, chroma, log2_h, log2_v
        self.extra, self.columns, self.rows = extra, columns, rows
        self.sets = sets if sets is not None else [SMALL]
        self.ec, self.intra, self.depth, self.wide = ec, intra, depth, wide

    def table(self):
        return table_of(self.deltas) if self.coder == 2 else STANDARD

    def slices(self):
        return self.columns * self.rows


def edge(k, size, count):
    """4.7.4, 4.8.3: where part k of a size in count parts begins."""
    return k * size // count


def depths_of(wide):
    """4.2.7, own: the bits of a sample that are accepted."""
    return DEPTHS if wide else [8]


def check(config):
    """Own: which parameters are of the profile; the first fault in this order."""
    c = config
    if not (1 <= c.width <= 8192 and 1 <= c.height <= 8192):
        raise Fault(10)
    if c.depth not in depths_of(c.wide):
        raise Fault(21)
    plain = c.log2_h == 0 and c.log2_v == 0
    if c.log2_h > 2 or c.log2_v > 2 or (c.rct and not c.chroma) or \
            ((c.rct or not c.chroma) and not plain):
        raise Fault(13)
    if c.extra and not c.chroma:
        raise Fault(25)
    if not 1 <= len(c.sets) <= 8:
        raise Fault(14)
    c.table()
    if not (1 <= c.columns <= min(32, c.width) and 1 <= c.rows <= min(32, c.height)):
        raise Fault(11)
    for side in [(c.width, c.columns, 2 ** c.log2_h), (c.height, c.rows, 2 ** c.log2_v)]:
        if not (is_reached(*side) if c.wide else are_multiples(*side)):
            raise Fault(12)
    if c.coder == 0 and (not c.wide or c.depth != 8):
        raise Fault(19)


def are_multiples(size, count, factor):
    """Whether each inner edge of so many parts is a multiple of a chroma factor."""
    return not any(edge(k, size, count) % factor for k in range(1, count))


def is_reached(size, count, factor):
    """Whether the last part of a side has the last sample of chroma: with its first one where its edge
    lies, and its length rounded up."""
    last = edge(count - 1, size, count)
    return last // factor - (last - size) // factor == -(-size // factor)


# --------------------------------------------------------------------------- parity (4.3.2, 4.9.3)

def remainder(data):
    """The remainder of a polynomial over bits on long division by 0x104C11DB7; no inversion."""
    number = int.from_bytes(data, "big")
    while number.bit_length() > 32:
        number ^= 0x104C11DB7 << (number.bit_length() - 33)
    return number


def parity(data):
    """The four bytes that make the remainder of all 0."""
    return remainder(data + bytes(4)).to_bytes(4, "big")


# ---------------------------------------------------------------------- configuration record (4.3)

def put_sets(encoder, sets):
    """4.1: the runs of each table less 1, each table by states of its own."""
    for number, runs in enumerate(table for tables in sets for table in tables):
        for run in runs:
            put_number(encoder, f"table {number}", run - 1)


def write_record(config):
    c, e = config, Encoder()
    for value in [3, 4, c.coder]:                                    # version to coder_type
        put_number(e, "record", value)
    if c.coder == 2:
        for delta in c.deltas:                                       # state_transition_delta
            put_number(e, "record", delta, signed=True)
    put_number(e, "record", int(c.rct))                              # colorspace_type
    put_number(e, "record", c.depth)                                 # bits_per_raw_sample
    e.put(("record", 0), int(c.chroma))                              # chroma_planes
    put_number(e, "record", c.log2_h)
    put_number(e, "record", c.log2_v)
    e.put(("record", 0), int(c.extra))                               # extra_plane
    for value in [c.columns - 1, c.rows - 1, len(c.sets)]:
        put_number(e, "record", value)
    put_sets(e, c.sets)
    for _ in c.sets:
        e.put(("record", 0), 0)                                      # states_coded
    put_number(e, "record", c.ec)
    put_number(e, "record", c.intra)
    coded = e.full()
    return coded + parity(coded)


def get_set(decoder, number):
    """4.1: one set; own: 5 where a run passes 128, 6 after the last where there are too many contexts."""
    tables = []
    for which in range(5):
        runs = []
        while sum(runs) < 128:
            run = get_number(decoder, f"table {5 * number + which}") + 1
            if sum(runs) + run > 128:
                raise Fault(5)
            runs.append(run)
        tables.append(runs)
    if contexts_of(tables) > 32768:
        raise Fault(6)
    return tables


def get_judged(decoder, accepted, number):
    """The next parameter, which is to be one of these."""
    value = get_number(decoder, "record")
    if value not in accepted:
        raise Fault(number)
    return value


def read_record(data, width, height, wide=False):
    """The configuration that a record codes, or the first fault in the order of its bytes."""
    if len(data) < 5:
        raise Fault(15)
    if remainder(data):
        raise Fault(16)
    d = Decoder(data[:-4])
    get_judged(d, [3], 17)
    get_judged(d, [4], 18)
    coder = get_judged(d, [0, 1, 2] if wide else [1, 2], 19)
    deltas = [get_number(d, "record", signed=True) for _ in range(255)] if coder == 2 else None
    if deltas:
        table_of(deltas)
    rct = get_judged(d, [0, 1], 20) == 1
    depth = get_judged(d, [0, *depths_of(wide)], 21) or 8
    chroma = d.get(("record", 0)) == 1
    log2_h, log2_v = get_number(d, "record"), get_number(d, "record")
    extra = d.get(("record", 0)) == 1
    if extra and not chroma:
        raise Fault(25)
    columns, rows = get_number(d, "record") + 1, get_number(d, "record") + 1
    count = get_judged(d, range(1, 9), 14)
    sets = [get_set(d, number) for number in range(count)]
    for _ in sets:
        if d.get(("record", 0)):
            raise Fault(22)
    ec, intra = get_judged(d, [0, 1], 23), get_judged(d, [0, 1], 24)
    config = Config(width, height, coder, deltas, rct, chroma, log2_h, log2_v, extra, columns, rows,
                    sets, ec, intra, depth, wide)
    check(config)
    return config
