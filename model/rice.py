# SPDX-License-Identifier: MIT OR Apache-2.0
"""Golomb-Rice coded samples of version 3 (RFC 9043, 3.8.2): key frames of 8 bits.

Behind its head a slice has bits, the high one of each byte first, and zeros up to a byte. They
are a function of its samples alone, and a payload that has other ones is refused. Here bits are made
of samples, and samples are read of bits.
"""
from cells import Cell, bits_of, cell_of, class_of, context_of, lines_in, plane_count, predicted
from range_coder import Fault

# 3.8.2.2.1: the binary logarithm of how many differences a 1 of a run stands for.
LOG2_RUN = [0, 0, 0, 0, 1, 1, 1, 1, 2, 2, 2, 2, 3, 3, 3, 3, 4, 4, 5, 5, 6, 6, 7, 7, *range(8, 25)]

# 3.8.2.1.1: so many zeros and no 1 begin a number that is written whole.
LIMIT = 12


def fold(value, bits):
    """3.8: a difference of so many bits, with a sign."""
    half = 2 ** (bits - 1)
    return (value + half) % (2 * half) - half


class State:
    """3.8.2.4: what is known of the differences of a context."""

    def __init__(self):
        self.drift, self.error_sum, self.bias, self.count = 0, 4, 0, 1

    def parameter(self):
        """The least k for which the mean of the differences is at most 2^k."""
        k = 0
        while self.count << k < self.error_sum:
            k += 1
        return k

    def turns(self):
        return 2 * self.drift + self.count < 0

    def take(self, value):
        """One difference less the bias more."""
        self.error_sum, self.drift = self.error_sum + abs(value), self.drift + value
        if self.count == 128:
            self.count, self.drift, self.error_sum = 64, self.drift >> 1, self.error_sum >> 1
        self.count += 1
        if self.drift <= -self.count:
            self.bias = max(self.bias - 1, -128)
            self.drift = max(self.drift + self.count, 1 - self.count)
        elif self.drift > 0:
            self.bias, self.drift = min(self.bias + 1, 127), min(self.drift - self.count, 0)


def binary(number, bits):
    return format(number, f"0{bits}b") if bits else ""


def number_bits(number, k, bits):
    """3.8.2.1: a number: how many times it has 2^k, in zeros and a 1, and its low k bits; if it has
    it 12 times or more, 12 zeros and the number less 11."""
    if number >> k < LIMIT:
        return "0" * (number >> k) + "1" + binary(number & (1 << k) - 1, k)
    return "0" * LIMIT + binary(number - (LIMIT - 1), bits)


class Line:
    """3.8.2.2: the run of a plane or of a slice: the next line has its index and no more."""

    def __init__(self):
        self.index = 0


def put_scalar(state, value, bits, behind_run):
    """3.8.2.3: a difference by the state of its context; behind a run it is not 0, and a positive
    one counts one less."""
    if behind_run and value > 0:
        value -= 1
    value = fold(value - state.bias, bits)
    turned = -1 - value if state.turns() else value
    text = number_bits(2 * turned if turned >= 0 else -2 * turned - 1, state.parameter(), bits)
    state.take(value)
    return text


def line_bits(places, states, run, bits):
    """The bits of a line: of each place its context and its difference, turned."""
    text, length = "", None
    for context, value in places:
        if length is None and context == 0:
            length = 0
        if length is not None and value == 0:
            length += 1
            if length == 1 << LOG2_RUN[run.index]:
                text, length, run.index = text + "1", 0, run.index + 1
            continue
        behind_run = length is not None
        if behind_run:
            text += "0" + binary(length, LOG2_RUN[run.index])
            run.index, length = max(run.index - 1, 0), None
        text += put_scalar(states.setdefault(context, State()), value, bits, behind_run)
    return text + "1" if length else text


def slice_bits(config, coded, slice, indexes):
    """The bits of a slice: its lines in the order of coding."""
    cells, states, runs = [], {}, {}
    for plane in range(plane_count(config)):
        left, top, width, height = cell_of(config, slice, plane)
        cells.append(Cell(width))
        cells[plane].lines = [line[left:left + width] for line in coded[plane][top:top + height]]
    text = ""
    for plane, y in lines_in(config, slice):
        cell, tables = cells[plane], config.sets[indexes[class_of(plane)]]
        run = runs.setdefault(0 if config.rct else plane, Line())
        places = []
        for x in range(cell.width):
            around = cell.around(x, y)
            context, turned = context_of(tables, *around)
            difference = cell.lines[y][x] - predicted(config, *around[:3])
            places.append((context, fold(-difference if turned else difference, bits_of(config))))
        text += line_bits(places, states.setdefault(class_of(plane), {}), run, bits_of(config))
    return text


def packed(text):
    """Bits as bytes, with zeros up to the last one's end."""
    text += "0" * (-len(text) % 8)
    return bytes(int(text[k:k + 8], 2) for k in range(0, len(text), 8))


# ------------------------------------------------------------------------------------------ reading

class Bits:
    """3.8.2: bytes as bits, the high one of each first, of which the first so many were read. Own: no
    bit is read behind the last byte (27)."""

    def __init__(self, data):
        self.text = "".join(format(byte, "08b") for byte in data)
        self.place = 0

    def take(self, count, x):
        """The number of the next so many bits, as a sample needs them."""
        text = self.text[self.place:self.place + count]
        if len(text) < count:
            raise Fault(27, x=x)
        self.place += count
        return int(text, 2) if count else 0

    def are_padding(self):
        """Own: whether zeros are left, fewer than a byte has."""
        left = self.text[self.place:]
        return len(left) < 8 and "1" not in left


def get_folded(reader, k, bits, x):
    """3.8.2.1: a number. Own: 28 where it has more bits than a sample, or is written whole and need
    not be."""
    zeros = 0
    while zeros < LIMIT and not reader.take(1, x):
        zeros += 1
    if zeros < LIMIT:
        number = (zeros << k) + reader.take(k, x)
    else:
        number = reader.take(bits, x) + LIMIT - 1
        if number >> k < LIMIT:
            raise Fault(28, x=x)
    if number >= 1 << bits:
        raise Fault(28, x=x)
    return number


def get_scalar(reader, state, bits, behind_run, x):
    """3.8.2.3: a difference by the state of its context. Own: 28 where one behind a run is none of so
    many bits."""
    number = get_folded(reader, state.parameter(), bits, x)
    value = -(number + 1) // 2 if number % 2 else number // 2
    value = -1 - value if state.turns() else value
    difference = fold(value + state.bias, bits)
    if behind_run and difference >= 0:
        difference += 1
        if difference == 1 << bits - 1:
            raise Fault(28, x=x)
    state.take(value)
    return difference


class Samples:
    """3.8.2.2: the samples of a line, each predicted from those that are known, and its difference."""

    def __init__(self, config, tables, cell):
        self.config, self.tables, self.cell, self.y = config, tables, cell, len(cell.lines)
        self.line = []
        cell.lines.append(self.line)

    def left(self):
        return self.cell.width - len(self.line)

    def context(self):
        return context_of(self.tables, *self.cell.around(len(self.line), self.y))

    def add(self, difference):
        """The next sample, by its difference as it is coded."""
        around = self.cell.around(len(self.line), self.y)
        difference = -difference if self.context()[1] else difference
        self.line.append((predicted(self.config, *around[:3]) + difference) % 2 ** bits_of(self.config))


def get_run(reader, samples, run):
    """3.8.2.2.1: a run, up to the difference that ends it or to the end of the line. Own: 28 where one
    that ends before would leave the line."""
    while samples.left() and reader.take(1, len(samples.line)):
        length = 1 << LOG2_RUN[run.index]
        if length <= samples.left():
            run.index += 1
        for _ in range(min(length, samples.left())):
            samples.add(0)
    if samples.left():
        x = len(samples.line)
        length = reader.take(LOG2_RUN[run.index], x)
        if length >= samples.left():
            raise Fault(28, x=x)
        run.index = max(run.index - 1, 0)
        for _ in range(length):
            samples.add(0)


def get_line(reader, config, tables, cell, states, run):
    """3.8.2: the samples of the next line. Own: 27 and 28 at the first that has none."""
    samples = Samples(config, tables, cell)
    while samples.left():
        behind_run = samples.context()[0] == 0
        if behind_run:
            get_run(reader, samples, run)
        if samples.left():
            state = states.setdefault(samples.context()[0], State())
            samples.add(get_scalar(reader, state, bits_of(config), behind_run, len(samples.line)))


class Reader:
    """The bits of a slice as they are read: states by class, and how many bits of whole lines were
    read."""

    def __init__(self, config, data):
        self.config, self.bits, self.states, self.runs = config, Bits(data), {}, {}
        self.read = 0

    def line(self, tables, plane, cell):
        """The next line of a plane. Own: the run index is 0 at each plane of YCbCr, and at each slice
        of RCT."""
        run = self.runs.setdefault(0 if self.config.rct else plane, Line())
        get_line(self.bits, self.config, tables, cell, self.states.setdefault(class_of(plane), {}), run)
        self.read = self.bits.place
