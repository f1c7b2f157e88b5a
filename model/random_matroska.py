# SPDX-License-Identifier: MIT OR Apache-2.0
"""Files of Matroska at random: what is given to the writer, and files of elements as other programs
have them, spelled here, of which it is known what they are read as.
"""
import matroska
import matroska_writer
from known_answers.matroska import FRAME, H, LOOSE, element, size, spell, summed
from known_answers.matroska_tracks import BITMAP

RATES = [(0, 0), (25, 1), (24, 1), (30000, 1001), (24000, 1001), (60, 1), (15, 2), (25, 6), (1, 1)]


class Small:
    """A file of these parts of a Segment, each an element and the frames that it has, or the header
    of a Cluster of unknown size; what its Tracks say, which are one of the parts; and the Voids before
    the Segment."""

    def __init__(self, name, said, parts, is_open, voids=b""):
        self.name, self.said, self.parts, self.is_open = name, said, parts, is_open
        self.voids = voids
        self.frames = [frame for _, frames in parts for frame in frames]

    def size(self):
        """The size of the Segment, none where it is open."""
        return None if self.is_open else sum(len(part) for part, _ in self.parts)

    def file(self):
        begin = spell("18538067", "01FFFFFFFFFFFFFF" if self.is_open else size(self.size()))
        return H + self.voids + begin + b"".join(part for part, _ in self.parts)

    def begin(self):
        """Where the first part begins."""
        return len(H) + len(self.voids) + 12

    def ends(self):
        """Where parts end, and how many frames are before that."""
        ends, at, count = {self.begin(): 0}, self.begin(), 0
        for part, frames in self.parts:
            at, count = at + len(part), count + len(frames)
            ends[at] = count
        return ends

    def tracks_end(self):
        """Where Tracks end."""
        at = self.begin()
        for part, _ in self.parts:
            at += len(part)
            if part.startswith(bytes.fromhex("1654AE6B")):
                return at
        return None


# --------------------------------------------------------------------------------- what is written

def some_frames(numbers, most):
    return [numbers.randbytes(numbers.choice([1, 2, 5, numbers.randrange(1, 200)]))
            for _ in range(numbers.randrange(1, most))]


def written(numbers):
    """A head, how it is shown, and frames."""
    width, height = numbers.choice([(1, 1), (352, 288), (8192, 8192), (720, 576), (3, 500)])
    head = matroska.Head(1, width, height, *numbers.choice(RATES),
                         numbers.randbytes(numbers.choice([0, 5, 26, 43, 150])))
    aspect = numbers.choice([(0, 0), (1, 1), (16, 15), (65535, 1), (10, 11)])
    return head, matroska_writer.Shown(numbers.randrange(4), aspect), some_frames(numbers, 9)


# --------------------------------------------------------------------------- elements of all kinds

class Maker:
    """Elements of a file whose frames are of this track."""

    def __init__(self, numbers):
        self.numbers = numbers
        self.track = numbers.choice([1, 1, 2, 100, 127, 200, 20000])

    def one_of(self, *choices):
        return self.numbers.choice(choices)

    def sized(self, ident, content):
        """An element whose size has some length in which it is known."""
        least = next(k for k in range(1, 9) if len(content) < (1 << 7 * k) - 1)
        return element(ident, content, length=self.one_of(least, least, 8, 4))

    def number(self, ident, value):
        least = (value.bit_length() + 7) // 8
        return self.sized(ident, value.to_bytes(self.one_of(least, max(1, least), 8), "big"))

    def void(self):
        return self.sized("EC", self.numbers.randbytes(self.numbers.randrange(12)))

    def judged(self, content):
        """A content with its CRC-32, or without."""
        return summed(content) if self.one_of(True, False) else content

    def tagged(self):
        """An element of the Segment that is passed."""
        ident = self.one_of("114D9B74", "1549A966", "1C53BB6B", "1941A469", "1043A770", "1254C367")
        content = self.sized("4DBB", self.numbers.randbytes(self.numbers.randrange(30)))
        return self.sized(ident, self.judged(self.one_of(b"", content, content + self.void())))

    def entry(self, record, width, height, duration):
        """The entry of the track."""
        fields = [self.number("D7", self.track), self.number("83", 1)]
        if self.one_of(True, False):
            fields += [self.sized("86", b"V_FFV1" + self.one_of(b"", b"\0")),
                       self.sized("63A2", record)]
        else:
            fields += [self.sized("86", b"V_MS/VFW/FOURCC"), self.sized("63A2", BITMAP + record)]
        if duration:
            fields.append(self.number("23E383", duration))
        fields.append(self.sized("E0", self.number("B0", width) + self.void()
                                 + self.number("BA", height)))
        fields += [self.void() for _ in range(self.numbers.randrange(3))]
        self.numbers.shuffle(fields)
        return self.sized("AE", b"".join(fields))

    def video(self):
        """The record, and the width and the height."""
        record = self.numbers.randbytes(self.one_of(0, 26, 60))
        return record, self.numbers.randrange(9000), self.numbers.randrange(9000)

    def frame(self):
        return self.one_of(FRAME, self.numbers.randbytes(self.numbers.randrange(1, 40)))

    def tracks(self):
        """The element Tracks, with the track and sound before or after it, and what it says."""
        record, width, height = self.video()
        duration, rate, scale = self.one_of((0, 0, 0), (40000000, 25, 1), (41666666, 24, 1),
                                            (33366667, 30000, 1001), (240000000, 25, 6))
        sound = self.sized("AE", self.number("D7", self.track + 1) + self.number("83", 2)
                           + self.sized("86", b"A_PCM/INT/LIT"))
        entry = self.entry(record, width, height, duration)
        content = self.one_of(entry + sound, sound + entry, self.void() + entry + sound)
        return self.sized("1654AE6B", self.judged(content)), \
            (self.track, width, height, rate, scale, record)

    def block(self, ident, frame, other):
        """A block of the track, or of another, which may be laced."""
        track = self.track + other
        least = next(k for k in range(1, 9) if track < 1 << 7 * k)
        flags = self.one_of(0x00, 0x80, 0x81, 0x88, 0x06 if other else 0x00)
        return self.sized(ident, size(track, self.one_of(least, least, 8))
                          + self.numbers.randbytes(2) + bytes([flags]) + frame)

    def item(self):
        """An element of any Cluster, and its frames."""
        frame = self.frame()
        other = self.one_of(0, 0, 0, 1)
        kind = self.numbers.randrange(8)
        if kind < 4:
            return self.block("A3", frame, other), [] if other else [frame]
        if kind < 6:
            around = [self.block("A1", frame, other), self.number("9B", 1), self.void()]
            self.numbers.shuffle(around)
            return self.sized("A0", b"".join(around)), [] if other else [frame]
        return self.one_of(self.void(), self.number("A7", 5), self.number("AB", 9),
                           self.sized("5854", b"")), []

    def items(self):
        count = self.numbers.randrange(5)
        return [(self.number("E7", 7), [])] + [self.item() for _ in range(count)]

    def cluster(self):
        """A Cluster, in parts of the Segment."""
        items = self.items()
        if self.one_of(True, False, False):
            return [(spell(self.one_of(LOOSE, "1F43B675FF")), []), *items]
        content = b"".join(item for item, _ in items)
        frames = [frame for _, frames in items for frame in frames]
        return [(self.sized("1F43B675", self.judged(content)), frames)]

    def between(self):
        """What stands between the others."""
        return [(self.one_of(self.void(), self.tagged()), [])
                for _ in range(self.one_of(0, 0, 0, 1, 2))]


def made(numbers, name):
    """A file of elements of all kinds."""
    return made_by(Maker(numbers), name)


def made_by(maker, name):
    """A file of a maker's elements."""
    numbers = maker.numbers
    tracks, said = maker.tracks()
    parts = maker.between() + [(tracks, [])] + maker.between()
    for _ in range(numbers.randrange(4)):
        parts += maker.cluster() + maker.between()
    voids = b"".join(maker.void() for _ in range(maker.one_of(0, 0, 0, 1, 3)))
    return Small(name, said, parts, numbers.random() < 0.5, voids)
