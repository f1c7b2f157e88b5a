#!/usr/bin/env python3
# SPDX-License-Identifier: MIT OR Apache-2.0
"""FFV1 version 3, range coded (RFC 9043), in plain Python: the standard in small.

It is written from the text of the standard, apart from the crates, and is there to be compared with
them. Numbers have no limit, states are found by going along the decisions of their slot, and nothing
is done for speed. Each rule is one function, with the section of RFC 9043 that it comes from; what is
this project's own choice says so.

Here are slice headers, slice footers, how a frame is cut into its slices, and frames, encoded and
decoded; the range coder and its symbols are in `range_coder.py`, the configuration record in
`record.py`, files in `files.py`, and the program's commands in `commands.py`.
"""
# Some of these names are for those that import this module.
from cells import (
    Cell, bits_of, cell_of, class_of, coded_part, coded_planes, context_of, forward, get_line, inverse, lines_in,
    place_in, plane_count, predicted, put_line, quantised, reduced, scales_of, shared_in, shared_of, sides_of, swaps,
)
from range_coder import FAULTS, Decoder, Encoder, Fault, get_number, put_number, table_of
from record import (
    DEPTHS, LARGE, SMALL, Config, are_multiples, check, contexts_of, edge, is_reached, parity, read_record,
    remainder, write_record,
)
from rice import Reader, packed, slice_bits


# ------------------------------------------------------------------ slices: key and header (4.4, 4.6)

def index_count(config):
    """4.6.5: a set index for luma, one for chroma, and one for transparency. Own: mono has two."""
    return 3 if config.extra else 2


def place_of(config, slice):
    """4.6.1 to 4.6.4: slice_x, slice_y, and slice_width and slice_height less 1, of one cell."""
    return [slice % config.columns, slice // config.columns, 0, 0]


def aspect_of(config, num, den):
    """4.6.8, 4.6.9: what two numbers say; own: 34 where one is above 65535, or, strict, just one is
    0. Wide, that says what 0 and 0 say, that the aspect is unknown."""
    if num > 65535 or den > 65535 or (num == 0) != (den == 0) and not config.wide:
        raise Fault(34)
    return (0, 0) if 0 in (num, den) else (num, den)


def put_head(encoder, config, slice, indexes, structure, num, den):
    """The keyframe of the first slice, and the header, by 32 states."""
    if slice == 0:
        encoder.put("key", 1)
    for value in place_of(config, slice) + indexes + [structure, num, den]:
        put_number(encoder, "head", value)


def get_key(decoder, slice):
    if slice == 0 and not decoder.get("key"):
        raise Fault(30)


def get_head(decoder, config, slice):
    """The header: indexes, structure and aspect; each value judged after its symbol."""
    for wanted in place_of(config, slice):
        if get_number(decoder, "head") != wanted:
            raise Fault(31)
    indexes = []
    for _ in range(index_count(config)):
        index = get_number(decoder, "head")
        if index >= len(config.sets):
            raise Fault(32)
        indexes.append(index)
    structure = get_number(decoder, "head")
    if structure > 3:
        raise Fault(33)
    num = get_number(decoder, "head")
    den = get_number(decoder, "head")
    return indexes, structure, *aspect_of(config, num, den)


# --------------------------------------------------------------------- slice footers, cutting (4.9)

def footer(coded, ec):
    """slice_size, and with ec error_status and slice_crc_parity. Own: slice_size counts the bytes
    before the footer."""
    if len(coded) > 0xFFFFFF:
        raise Fault(40)
    size = len(coded).to_bytes(3, "big")
    return size + bytes(1) + parity(coded + size + bytes(1)) if ec else size


def cut(config, payload):
    """Where the coded bytes of each slice begin and end. Slices are found from the last to the first;
    then each is judged, from the first to the last."""
    foot = 8 if config.ec else 3
    spans, end = [], len(payload)
    for slice in reversed(range(config.slices())):
        size = int.from_bytes(payload[end - foot:end - foot + 3], "big") if end >= foot else 0
        if end < foot + size:
            raise Fault(35, slice)
        spans.insert(0, (end - foot - size, end - foot))
        end -= foot + size
    if end:
        raise Fault(36)
    if config.ec:
        for slice, (begin, end) in enumerate(spans):
            if remainder(payload[begin:end + foot]):
                raise Fault(37, slice)
            if payload[end + 3]:
                raise Fault(38, slice)
    return spans


# ------------------------------------------------------------------------------- frames (4.4, 4.5)

def encode_slice(config, coded, slice, info):
    """The coded bytes of a slice. Own: class k takes set k, or the last one."""
    encoder = Encoder(config.table())
    indexes = [min(k, len(config.sets) - 1) for k in range(index_count(config))]
    put_head(encoder, config, slice, indexes, *info)
    if config.coder == 0:
        return encoder.sentinel() + packed(slice_bits(config, coded, slice, indexes))
    cells = []
    for plane in range(plane_count(config)):
        left, top, width, height = cell_of(config, slice, plane)
        cells.append(Cell(width))
        cells[plane].lines = [line[left:left + width] for line in coded[plane][top:top + height]]
    for plane, y in lines_in(config, slice):
        put_line(encoder, config, config.sets[indexes[class_of(plane)]], plane, cells[plane], y)
    return encoder.sentinel()


def encode_frame(config, planes, info):
    """The payload of a picture: each slice with its footer. Structure, sar_num, sar_den are the info."""
    coded = coded_planes(config, planes)
    slices = [encode_slice(config, coded, slice, info) for slice in range(config.slices())]
    return b"".join(data + footer(data, config.ec) for data in slices)


class Slice:
    """A slice that is being decoded: its decoder, its set indexes, and its cells so far; the samples of
    one that is Golomb-Rice coded are bits behind its head."""

    def __init__(self, config, number, data):
        self.config, self.number, self.data = config, number, data
        self.decoder, self.indexes, self.bits = None, [], None
        self.cells = [Cell(cell_of(config, number, plane)[2]) for plane in range(plane_count(config))]

    def open(self):
        """The start, the key and the head, and what it says of the picture."""
        self.decoder = Decoder(self.data, self.config.table())
        get_key(self.decoder, self.number)
        self.indexes, *info = get_head(self.decoder, self.config, self.number)
        self.look()
        if self.config.coder == 0:
            self.bits = Reader(self.config, self.data[self.decoder.bits_place():])
        return info

    def read(self, plane):
        """The next line of a plane."""
        runs = self.config.sets[self.indexes[class_of(plane)]]
        if self.bits:
            self.bits.line(runs, plane, self.cells[plane])
        else:
            get_line(self.decoder, self.config, runs, plane, self.cells[plane])

    def look(self, *place):
        """Own: wide, 8 where more than two bytes after the end were read: there are more
        renormalisations than coded bytes."""
        if self.config.wide and self.decoder.interval.count - 2 > len(self.data):
            raise Fault(8, self.number, *place)

    def end(self, *place):
        """Own: wide, 9 after the last line, where the slice does not end where its coder ends (3.8.1.1.1,
        the sentinel mode): a decision of state 129 that would come next is 1, or it would not leave one
        renormalisation fewer than there are coded bytes. 29 where bits are not followed by zeros up to a
        byte, and by nothing more."""
        if self.bits:
            if not self.bits.bits.are_padding():
                raise Fault(29, self.number, *place)
        elif self.config.wide and not self.decoder.is_ended():
            raise Fault(9, self.number, *place)


class Decoded:
    """What decoding a payload gives: the info, or the fault; the lines that were handed over, and how
    many decisions were made: ones, zeros, and renormalisations."""

    def __init__(self):
        self.info, self.fault, self.lines = None, None, []
        self.ones = self.zeros = self.renormalisations = 0

    def count(self, slices):
        for decoder in (slice.decoder for slice in slices if slice.decoder):
            bits = [bit for slot in decoder.history.slots.values() for bit in slot]
            self.ones += sum(bits)
            self.zeros += len(bits) - sum(bits)
            self.renormalisations += decoder.interval.count - 2


def finished(config, row, planes, y):
    """Line y of these planes as it is handed over, a sample that two slices code once. Own: 7 where
    samples have no colour."""
    lines = [sum((slice.cells[plane].lines[y][shared_in(config, slice.number, plane)[0]:] for slice in row), [])
             for plane in planes]
    if not config.rct:
        return lines
    colours = [inverse(config, *place) for place in zip(*lines[:3])]
    for x, colour in enumerate(colours):
        if colour is None or (config.extra and lines[3][x] >= 2 ** config.depth):
            slice = [k for k in row if cell_of(config, k.number, 0)[0] <= x][-1]
            raise Fault(7, slice.number, 0, cell_of(config, row[0].number, 0)[1] + y, x)
    return [[colour[k] for colour in colours] for k in range(3)] + lines[3:]


def said_before(config, slices, slice, plane, y):
    """The samples of line y of a cell that a slice before it codes too, with their columns: those of
    the cell to the left, and of line 0 those of the cell above."""
    column, line = shared_in(config, slice.number, plane)
    said = []
    if column:
        said.append((0, slices[slice.number - 1].cells[plane].lines[y][-1]))
    if y < line:
        said.extend(enumerate(slices[slice.number - config.columns].cells[plane].lines[-1]))
    return said


def compare(config, slices, slice, plane, y):
    """Own: 39 at the first sample of line y of a cell of which a slice before says another value."""
    left, top = cell_of(config, slice.number, plane)[:2]
    line = slice.cells[plane].lines[y]
    differ = [x for x, sample in said_before(config, slices, slice, plane, y) if line[x] != sample]
    if differ:
        raise Fault(39, slice.number, plane, top + y, left + min(differ))


def read_line(config, slices, slice, plane, y):
    """Own: the next line of a cell, after which it is looked at how far its slice was read, whether its
    samples are those that slices before it say, and, of the last line, whether the slice ends there."""
    left, top = cell_of(config, slice.number, plane)[:2]
    try:
        slice.read(plane)
    except Fault as fault:
        raise Fault(fault.number, slice.number, plane, top + y, left + fault.x)
    slice.look(plane, top + y)
    compare(config, slices, slice, plane, y)
    if (plane, y) == lines_in(config, slice.number)[-1]:
        slice.end(plane, top + y)


def decode_line(config, slices, row, planes, y, out, room):
    """Own: a line of these planes: in each slice from the left; then as a whole, then handed over to a
    sink that takes so many lines. One that the row above has handed over is not handed over again."""
    for slice in row:
        for plane in planes:
            read_line(config, slices, slice, plane, y)
    for plane, samples in zip(planes, finished(config, row, planes, y)):
        if y < shared_in(config, row[0].number, plane)[1]:
            continue
        line = cell_of(config, row[0].number, plane)[1] + y
        if len(out.lines) == room:
            raise Fault(42, row[0].number, plane, line)
        out.lines.append((plane, line, samples))


def decode_row(config, slices, r, out, room):
    """Own: a row of slices: each is opened, from the left, and then its lines, side by side."""
    row = slices[r * config.columns:(r + 1) * config.columns]
    for slice in row:
        try:
            info = slice.open()
        except Fault as fault:
            raise Fault(fault.number, slice.number)
        if out.info not in (None, info):
            raise Fault(41, slice.number)
        out.info = info
    planes = range(plane_count(config))
    for series in [planes] if config.rct else [[plane] for plane in planes]:
        for y in range(cell_of(config, row[0].number, series[0])[3]):
            decode_line(config, slices, row, series, y, out, room)


def decode_frame(config, payload, room=None):
    """What a payload decodes to, the first fault in the order of decoding; with a room, by a sink
    that refuses the line after so many."""
    out, slices = Decoded(), []
    try:
        spans = cut(config, payload)
        slices = [Slice(config, n, payload[begin:end]) for n, (begin, end) in enumerate(spans)]
        for r in range(config.rows):
            decode_row(config, slices, r, out, room)
    except Fault as fault:
        out.fault = fault
    out.count(slices)
    return out
