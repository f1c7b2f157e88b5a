# SPDX-License-Identifier: MIT OR Apache-2.0
"""The range coder of FFV1 and its symbols (RFC 9043, 3.8.1), and why something is refused, by number:
a part of `ffv1.py`.
"""

# ------------------------------------------------------------------------------------------ faults

FAULTS = {
    1: "StateTable", 3: "BadStart", 4: "SymbolTooLong", 5: "Runs", 6: "Contexts", 7: "Colour",
    8: "Overread", 9: "Ending", 10: "Size", 11: "Grid", 12: "ChromaEdge", 13: "Subsampling", 14: "Sets", 15: "Short", 16: "Parity",
    17: "Version", 18: "MicroVersion", 19: "Coder", 20: "ColourSpace", 21: "Depth",
    22: "CodedStates", 23: "Ec", 24: "Intra", 25: "ExtraPlane", 27: "BitsEnd", 28: "BadCode",
    29: "Padding", 30: "NotKey", 31: "Place",
    32: "SetIndex", 33: "Structure", 34: "Aspect", 35: "Footer", 36: "Leftover",
    37: "SliceParity", 38: "SliceStatus", 39: "Overlap", 40: "SliceTooLong", 41: "InfoDiffers",
    42: "Sink", 50: "NotAvi", 51: "NoFfv1", 52: "Truncated", 53: "ChunkTooLong", 54: "EmptyFrame",
    55: "TooLarge", 56: "Read", 57: "Write", 60: "Header", 61: "Tag", 62: "Unsupported",
    63: "FrameLine", 64: "FrameTruncated", 65: "SampleTooLarge", 66: "List", 70: "NoFrames",
    71: "FormatChanged", 72: "NoY4mName", 73: "NoPpm", 80: "NotMatroska", 81: "BadElement",
    82: "NoTracks", 83: "Encoded", 84: "Laced", 85: "Checksum", 86: "Rate", 87: "NotSame",
    88: "Another", 89: "Differs",
}


class Fault(Exception):
    """Why something is refused, by its number; with the slice that it was met in, and in a frame with
    the plane, the line and the column; and what is noted of a file that was read to its end, by
    number."""

    def __init__(self, number, slice=0, plane=0, line=0, x=0):
        super().__init__(f"{number} {FAULTS[number]}")
        self.number, self.slice, self.plane, self.line, self.x = number, slice, plane, line, x
        self.notes = {}


# ------------------------------------------------------- state transition tables (3.8.1.4 to 3.8.1.6)

# 3.8.1.5: where each state from 8 to 248 goes after a decision 1
ONE_STATE = [0] * 8 + [
    20, 21, 22, 23, 24, 25, 26, 27, 28, 29, 30, 31, 32, 33, 34, 35, 36, 37, 37, 38, 39, 40, 41, 42,
    43, 44, 45, 46, 47, 48, 49, 50, 51, 52, 53, 54, 55, 56, 56, 57, 58, 59, 60, 61, 62, 63, 64, 65,
    66, 67, 68, 69, 70, 71, 72, 73, 74, 75, 75, 76, 77, 78, 79, 80, 81, 82, 83, 84, 85, 86, 87, 88,
    89, 90, 91, 92, 93, 94, 94, 95, 96, 97, 98, 99, 100, 101, 102, 103, 104, 105, 106, 107, 108,
    109, 110, 111, 112, 113, 114, 114, 115, 116, 117, 118, 119, 120, 121, 122, 123, 124, 125, 126,
    127, 128, 129, 130, 131, 132, 133, 133, 134, 135, 136, 137, 138, 139, 140, 141, 142, 143, 144,
    145, 146, 147, 148, 149, 150, 151, 152, 152, 153, 154, 155, 156, 157, 158, 159, 160, 161, 162,
    163, 164, 165, 166, 167, 168, 169, 170, 171, 171, 172, 173, 174, 175, 176, 177, 178, 179, 180,
    181, 182, 183, 184, 185, 186, 187, 188, 189, 190, 190, 191, 192, 194, 194, 195, 196, 197, 198,
    199, 200, 201, 202, 202, 204, 205, 206, 207, 208, 209, 209, 210, 211, 212, 213, 215, 215, 216,
    217, 218, 219, 220, 220, 222, 223, 224, 225, 226, 227, 227, 229, 229, 230, 231, 232, 234, 234,
    235, 236, 237, 238, 239, 240, 241, 242, 243, 244, 245, 246, 247, 248, 248,
] + [0] * 7


def table_of(deltas):
    """3.8.1.6, 4.2.4: the table changed by state_transition_delta, that of state 1 first.

    Own: it is accepted where some floor from 1 to 128 is such that each state from the floor to
    256 less it goes to one of them, and no delta is -2147483648.
    """
    one = [0] + [ONE_STATE[state] + deltas[state - 1] for state in range(1, 256)]
    for floor in range(1, 129):
        held = range(floor, 257 - floor)
        if -2147483648 not in deltas and all(one[state] in held for state in held):
            return one
    raise Fault(1)


def moved(one, state, bit):
    """3.8.1.4: the state after a decision; zero_state[i] is 256 - one_state[256 - i]."""
    return one[state] if bit else 256 - one[256 - state]


STANDARD = table_of([0] * 255)


# --------------------------------------------------------------------- range binary values (3.8.1.1)

class Interval:
    """3.8.1.1: the numbers of count bytes from low to below low + width."""

    def __init__(self):
        self.low, self.width, self.count = 0, 65280, 2

    def narrow(self, state, bit):
        """One decision: the upper part, of the state's share, is for a 1; then at most one byte more."""
        share = self.width * state // 256
        if bit:
            self.low, self.width = self.low + self.width - share, share
        else:
            self.width -= share
        if self.width < 256:
            self.low, self.width, self.count = 256 * self.low, 256 * self.width, self.count + 1

    def ended(self, bit=0):
        """3.8.1.1.1: what one more decision by the state 129, a 0, would leave."""
        end = Interval()
        end.low, end.width, end.count = self.low, self.width, self.count
        end.narrow(129, bit)
        return end


class History:
    """3.8.1.3, 3.8.1.4: the decisions so far, by their slots; a state is 128, moved along those of
    its slot."""

    def __init__(self, one):
        self.one, self.slots, self.count = one, {}, 0

    def state(self, slot):
        state = 128
        for bit in self.slots.get(slot, []):
            state = moved(self.one, state, bit)
        return state

    def append(self, slot, bit):
        self.slots.setdefault(slot, []).append(bit)
        self.count += 1


class Encoder:
    """A list of decisions, and the interval that they leave."""

    def __init__(self, one=STANDARD):
        self.history, self.interval = History(one), Interval()

    def put(self, slot, bit):
        self.interval.narrow(self.history.state(slot), bit)
        self.history.append(slot, bit)

    def full(self):
        """Own: all bytes of the low end."""
        return self.interval.low.to_bytes(self.interval.count, "big")

    def sentinel(self):
        """Own: after one more decision 0 by the state 129 the least multiple of 256 that is at least
        the low end, without its last byte."""
        end = self.interval.ended()
        return (-(-end.low // 256)).to_bytes(end.count - 1, "big")


class Decoder:
    """What bytes code, decision by decision: the bit for which the number of the first bytes lies in
    the narrowed interval. Own: bytes after the end are 0."""

    def __init__(self, data, one=STANDARD):
        self.data, self.history, self.interval = data, History(one), Interval()
        if self.number(2) >= 65280:
            raise Fault(3)

    def number(self, count):
        return int.from_bytes((self.data + bytes(count))[:count], "big")

    def get(self, slot):
        state = self.history.state(slot)
        share = self.interval.width * state // 256
        middle = self.interval.low + self.interval.width - share
        bit = int(self.number(self.interval.count) >= middle)
        self.interval.narrow(state, bit)
        self.history.append(slot, bit)
        return bit

    def bits_place(self):
        """3.8.2: where bits begin behind these decisions: after one more by the state 129, whichever it
        is, with the last byte that was read."""
        middle = self.interval.low + self.interval.width - self.interval.width * 129 // 256
        return self.interval.ended(int(self.number(self.interval.count) >= middle)).count - 1

    def is_ended(self):
        """Whether the bytes are those of a list that the sentinel ends here."""
        end = self.interval.ended()
        return end.low <= self.number(end.count) < end.low + end.width and end.count == len(self.data) + 1


# ------------------------------------------------------------------ range nonbinary values (3.8.1.2)

def steps_of(value, signed):
    """The decisions of a number: (slot, bit) of 32 slots. Zero, exponent, mantissa, sign."""
    if value == 0:
        return [(0, 1)]
    size = abs(value)
    exponent = size.bit_length() - 1
    assert exponent <= 30
    steps = [(0, 0)]
    steps += [(1 + min(k, 9), 1) for k in range(exponent)] + [(1 + min(exponent, 9), 0)]
    steps += [(22 + min(k, 9), size >> k & 1) for k in reversed(range(exponent))]
    return steps + ([(11 + min(exponent, 10), int(value < 0))] if signed else [])


def put_number(encoder, base, value, signed=False):
    """A number, by the 32 slots from base on."""
    for slot, bit in steps_of(value, signed):
        encoder.put((base, slot), bit)


def get_number(decoder, base, signed=False):
    """The number that comes next. Own: a 31st exponent decision of 1 is refused at once."""
    if decoder.get((base, 0)):
        return 0
    exponent = 0
    while decoder.get((base, 1 + min(exponent, 9))):
        exponent += 1
        if exponent == 31:
            raise Fault(4)
    size = 1
    for k in reversed(range(exponent)):
        size = 2 * size + decoder.get((base, 22 + min(k, 9)))
    if signed and decoder.get((base, 11 + min(exponent, 10))):
        return -size
    return size
