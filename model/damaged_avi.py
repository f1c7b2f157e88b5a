# SPDX-License-Identifier: MIT OR Apache-2.0
"""AVI that is damaged, in plain Python: its frames, and its faults from its first movi on, each of
which is told, and passed.

All of it is this project's own choice. Behind a fault the next chunk of frames of the stream is sought
that has at least one byte, from the second byte of the chunk at fault on; where a RIFF is owed and other
bytes stand, from the first one on. An index is passed there, and where it is at fault itself, since its
bytes name frames. From the first fault on no size of RIFF
or movi is trusted: all count as not known, and no frame is owed. A frame in RIFF behind a movi is told,
and passed by its size. Another file behind the last RIFF is told, and ends the frames.
"""
import struct

from chunks import is_known, padded
from damaged_files import Told
from ffv1 import Fault
from files import EBML_ID, FRAME_LIMIT

OPEN = -1                   # left in a list whose size is not known


class Cut(Exception):
    """The input has ended inside a chunk."""


class Refused(Exception):
    """A fault of a chunk, and the bytes of it that are looked at again."""

    def __init__(self, number, again):
        super().__init__(number)
        self.fault, self.again = Fault(number), again


class Passed(Exception):
    """A fault of a chunk of which so many bytes are passed."""

    def __init__(self, number, rest):
        super().__init__(number)
        self.fault, self.rest = Fault(number), rest


class Ended(Exception):
    """Nothing more comes."""


def is_index(name):
    return name == b"idx1" or name[:2] == b"ix" and name[2:].isdigit()


def is_other_file(name, form):
    return name == EBML_ID or name == b"RIFF" and form != b"AVIX"


def tail(header):
    """What is looked at again of a chunk at fault: all but its first byte; of an index all."""
    return header if is_index(header[:4]) else header[1:]


class Damaged:
    """The chunks of a file from its first movi on, which has so many bytes left, in a RIFF that has so
    many behind it."""

    def __init__(self, source, opening, movi, riff):
        self.source, self.opening, self.movi, self.riff = source, opening, movi, riff
        self.again, self.lost, self.count, self.repeated = b"", False, 0, 0
        self.open, self.begun = OPEN in (movi, riff), 0

    # bytes, of which some may be looked at again

    def position(self):
        return self.source.position - len(self.again)

    def some(self, count):
        part, self.again = self.again[:count], self.again[count:]
        return part + self.source.some(count - len(part))

    def exactly(self, count):
        data = self.some(count)
        if len(data) < count:
            raise Cut
        return data

    def skip(self, count):
        while count:
            count -= len(self.exactly(min(count, 1 << 16)))

    # one chunk

    def header(self, left):
        """The name and the size of a chunk of a list, with their bytes; no name at the end of one whose
        size is not known. A name that ends such a list has no size here."""
        if left != OPEN:
            if left < 8:
                raise Refused(52, b"")
            head = self.exactly(8)
        else:
            head = self.some(4)
            if not head:
                return b"", 0, b""
            if len(head) < 4:
                raise Cut
            if head == b"RIFF" or head == b"idx1" and self.movi == OPEN:
                return head, 0, head
            head += self.exactly(4)
        return head[:4], struct.unpack("<I", head[4:])[0], head

    def owed(self):
        return not self.lost and self.count < (self.opening.total or 0)

    def end(self):
        """Nothing stands where a RIFF would begin, or other bytes do, which are none."""
        if self.owed():
            raise Cut
        raise Ended

    def chunk(self):
        """The frame of the next chunk, if it has one."""
        if self.movi:
            return self.in_movi()
        if self.riff:
            return self.in_riff()
        name = self.some(4)
        if name == b"RIFF" or name == EBML_ID:
            return self.next_riff(name, True)
        if name and not self.owed():
            self.source.notes[94] = f"After byte {self.begun}"
        if len(name) == 4 and self.owed():
            raise Refused(52, name)         # which may be the name of a frame itself
        self.end()

    def in_movi(self):
        opening = self.opening
        name, size, head = self.header(self.movi)
        if not name:
            self.end()
        if name == b"RIFF" and len(head) == 4:
            return self.next_riff(name, False)
        if len(head) == 4:                      # idx1, of the open RIFF
            self.movi, self.riff = 0, OPEN
            self.skip(padded(struct.unpack("<I", self.exactly(4))[0]))
            return None
        if opening.bars(name):
            raise Refused(50, tail(head))
        if self.movi != OPEN and self.movi < 8 + padded(size):
            raise Refused(52, tail(head))
        if name == b"LIST" and size < 4:
            raise Refused(50, tail(head))
        if name == b"LIST":
            own = self.exactly(4)
            if own != b"rec ":
                raise Refused(50, tail(head + own))
            size = 4
        if self.movi != OPEN:
            self.movi -= 8 + padded(size)
        if name == b"LIST":
            return None
        if not opening.is_frame(name):
            self.skip(padded(size))
            return None
        if size > FRAME_LIMIT:
            raise Refused(53, tail(head))
        return self.exactly(padded(size))[:size]

    def in_riff(self):
        name, size, head = self.header(self.riff)
        if not name:
            self.end()
        if name == b"RIFF" and len(head) == 4:
            return self.next_riff(name, False)
        sized = self.riff != OPEN or is_known(size) or name != b"LIST"
        if self.riff != OPEN and self.riff < 8 + padded(size):
            raise Refused(52, tail(head))
        if sized and name == b"LIST" and size < 4:
            raise Refused(50, tail(head))
        if name != b"LIST":
            if self.riff != OPEN:
                self.riff -= 8 + padded(size)
            if self.opening.is_frame(name):
                raise Passed(50, padded(size))
            self.skip(padded(size))
            return None
        own = self.exactly(4)
        if own != b"movi" and not sized:
            raise Refused(50, tail(head + own))
        if own != b"movi":
            self.skip(padded(size) - 4)
        elif self.lost or not sized:
            self.open = self.open or not sized and not self.lost
            self.movi = self.riff = OPEN
            return None
        else:
            self.movi = size - 4
        if self.riff != OPEN:
            self.riff -= 8 + padded(size)
        return None

    def next_riff(self, name, sized):
        """A RIFF, or another file, by its first four bytes, where one may begin: behind one that has a
        size fewer than twelve bytes of it are none."""
        if name == EBML_ID:
            raise Refused(88, b"")
        more = self.some(8)
        if len(more) < 8 and sized:
            if not self.owed():
                self.source.notes[94] = f"After byte {self.begun}"
            self.end()
        if len(more) < 8:
            raise Cut
        size, form = struct.unpack("<I", more[:4])[0], more[4:]
        if is_other_file(name, form):
            raise Refused(88, b"")
        known = sized and is_known(size)
        if known and size < 4:
            raise Refused(50, name[1:] + more)
        self.open = self.open or not known and not self.lost
        self.movi, self.riff = 0, size - 4 if known else OPEN
        return None

    # behind a fault

    def seek(self):
        """Bytes are passed up to the next chunk of frames; whether there is one."""
        head = b""
        while True:
            more = self.some(8 - len(head))
            head += more
            if len(head) < 8:
                return False
            name, size = head[:4], struct.unpack("<I", head[4:])[0]
            if self.opening.is_frame(name) and 1 <= size <= FRAME_LIMIT:
                self.again = head + self.again
                return True
            if is_index(name):
                try:
                    self.skip(padded(size))
                except Cut:
                    return False
                head = b""
            else:
                head = head[1:]

    def lose(self, again):
        self.again = again + self.again
        self.lost, self.movi, self.riff = True, OPEN, 0

    def items(self):
        """The frames, and what is told, in turn."""
        while True:
            self.begun = self.position()
            self.source.begun = self.begun
            try:
                frame = self.chunk()
                if frame is not None:
                    yield frame
                    self.count += 1
                    self.repeated += not frame
            except Ended:
                return
            except Cut:
                yield Told(Fault(52), self.begun)
                return
            except Passed as passed:
                self.lost_count()
                yield Told(passed.fault, self.begun)
                try:
                    self.skip(passed.rest)
                except Cut:
                    yield Told(Fault(52), self.begun)
                    return
            except Refused as refused:
                yield Told(refused.fault, self.begun)
                if refused.fault.number == 88:
                    return
                self.lose(refused.again)
                if not self.seek():
                    return

    def lost_count(self):
        """No frame is owed behind a fault."""
        self.opening.total = None

    def all(self):
        """The same; at the end there are notes."""
        yield from self.items()
        if self.open:
            self.source.notes[90] = "Open"
        if self.opening.others:
            self.source.notes[91] = f"OtherVideo {self.opening.others}"
        if self.repeated:
            self.source.notes[93] = f"Repeated {self.repeated}"


def items(source, opening, size, end):
    """What a file gives from its first movi on, of this size, of which the header was read, in a RIFF
    that ends at that byte, or whose size is not known."""
    known = is_known(size)
    riff = end - (source.position - 4 + padded(size)) if known and end is not None else OPEN
    return Damaged(source, opening, size - 4 if known else OPEN, riff).all()
