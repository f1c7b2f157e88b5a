# SPDX-License-Identifier: MIT OR Apache-2.0
"""Matroska that is damaged, in plain Python: its frames, and its faults, each of which is told, and
passed.

All of it is this project's own choice. A Cluster whose CRC-32 fails gives all its frames, then its
fault. A block that is refused, or an element that a Cluster does not hold, is passed by its size. An
element of the Segment that begins in a Cluster is read as one of the Segment, and one that passes the
Segment is read as if that were open. Behind all other faults the next Cluster is sought. Behind the
end it is looked as behind a file that is sound: another file there is told, too. Whether Cues came
after the last Cluster is said by the IDs that were read.
"""
import ebml
from ffv1 import Fault
from matroska import BLOCK_GROUP, CLUSTER, CUES, OPEN, OUTSIDE, SIMPLE_BLOCK, Segment

CLUSTER_ID = CLUSTER.to_bytes(4, "big")


class Passed(Exception):
    """A fault of an element, of which so many bytes are left."""

    def __init__(self, fault, rest):
        super().__init__(fault)
        self.fault, self.rest = fault, rest


class Told:
    """A fault that is told, and the bytes before its element."""

    def __init__(self, fault, offset):
        self.fault, self.offset = fault, offset


class Kept:
    """A source that keeps what it gave since an element began, and knows whether it has ended."""

    def __init__(self, source):
        self.source, self.given, self.ended = source, b"", False
        self.some_of = source.some
        source.some = self.some

    def some(self, count):
        data = self.some_of(count)
        self.ended = self.ended or len(data) < count
        self.given = (self.given + data)[:16]
        return data

    def begin(self):
        self.given = b""

    def give_back(self):
        """What was given since then is read again."""
        source, data = self.source, self.given
        read = source.read

        def again(count):
            nonlocal data
            if not data:
                return read(count)
            part, data = data[:count], data[count:]
            return part
        source.read, self.given = again, b""
        source.position -= len(data)


class Damaged(Segment):
    """A Segment of which what is refused may be passed."""

    def block(self, size, number):
        start = self.source.position
        try:
            return super().block(size, number)
        except Fault as fault:
            read = self.source.position - start
            unnamed = read == 1 and self.kept.given[-1:] == b"\0"
            known = fault.number in (53, 54, 84) or fault.number == 81 and not unnamed
            if known and not self.kept.ended:
                raise Passed(fault, size - read)
            raise

    def in_cluster(self, ident, size, number):
        start = self.source.position
        try:
            return super().in_cluster(ident, size, number)
        except Fault as fault:
            if ident not in (SIMPLE_BLOCK, BLOCK_GROUP) and self.source.position == start \
                    and fault.number == 81:
                raise Passed(fault, size)
            raise

    def element(self, number):
        """The frame of the next element, if it has one; false at the end."""
        self.kept.begin()
        if self.group:
            ident, size, left = ebml.known(ebml.get_header(self.source, self.group))
            self.group = left - size
            return self.in_group(ident, size, number)
        if self.cluster:
            ident, size, left = ebml.known(
                ebml.get_header(self.source, self.cluster, outside=OUTSIDE))
            self.cluster = left - size
            return self.in_cluster(ident, size, number)
        self.in_header = True
        header = self.header()
        self.in_header = False
        return False if header is None else self.step(header, number)

    def closed(self):
        """The CRC-32 of a Cluster that has nothing left is judged."""
        if not self.group and not self.cluster:
            self.source.judge()

    def inside(self):
        return self.cluster or self.group

    def outside(self, left):
        """It stands in the Segment again, which has so many bytes left."""
        self.left, self.cluster, self.group, self.loose = left, 0, 0, False
        self.source.wanted = None

    def seek(self, left):
        """The next Cluster among so many bytes that fits in them; whether there is one."""
        last = b""
        while left:
            byte = self.source.some(1)
            if not byte:
                return False
            left, last = left - 1, (last + byte)[-4:]
            if last != CLUSTER_ID:
                continue
            self.cued = False
            last, start = b"", self.source.position
            try:
                size, length = ebml.get_size(self.source, left)
            except Fault as fault:
                if fault.number == 56:
                    raise
                size, length = left, self.source.position - start + 1
            if size is not None and left - length < size:
                left -= self.source.position - start
                continue
            self.left = left - length - (size or 0)
            self.enter(size)
            return True
        return False

    def behind(self, fault, left):
        """How reading goes on behind a fault, so many bytes before the Segment's end; whether it
        does."""
        given, inside = self.kept.given, self.inside_before
        if self.kept.ended:
            return False
        if inside and not self.group_before and fault.number == 81 \
                and int.from_bytes(given, "big") in OUTSIDE and len(given) == 4:
            self.kept.give_back()
            self.outside(left + 4)
            return True
        if not inside and fault.number == 52 and self.in_header:
            self.kept.give_back()
            self.outside_open()
            return True
        self.outside(left)
        return self.seek(left)

    def outside_open(self):
        loose = self.loose
        self.outside(OPEN + 12)     # and a header, of 12 bytes at most
        self.is_open, self.loose = True, loose

    def came(self):
        """What the ID says, behind a fault of the header of an element of the Segment."""
        given = self.kept.given
        length = ebml.length_of(given[0]) if given else 5
        if length <= 4 and len(given) >= length:
            ident = int.from_bytes(given[:length], "big")
            self.cued = ident != CLUSTER and (self.cued or ident == CUES)

    def items(self, number):
        """The frames of a track, and what is told, in turn; and behind the end another file."""
        yield from self.inner_items(number)
        try:
            self.look_behind()
        except Fault as fault:
            if fault.number == 56:
                raise
            yield Told(fault, self.source.begun)

    def inner_items(self, number):
        """Those of the Segment."""
        source = self.source
        self.kept = Kept(source)
        while True:
            start, room = source.position, self.left + self.cluster + self.group
            self.inside_before, self.group_before = self.inside(), self.group
            self.in_header, cued = False, self.cued
            source.mark()
            try:
                frame = self.element(number)
                if frame is False:
                    return
                if frame is not None:
                    yield frame
                self.closed()
            except Passed as passed:
                yield Told(passed.fault, source.begun)
                try:
                    source.skip(passed.rest, 52)
                    self.closed()
                except Fault as fault:
                    if fault.number == 56:
                        raise
                    yield Told(fault, source.begun)
                    if fault.number != 85:
                        return
            except Fault as fault:
                if fault.number == 56:
                    raise
                if self.kept.ended:
                    self.cued = cued
                elif self.in_header:
                    self.came()
                yield Told(fault, source.begun)
                if fault.number == 85:
                    self.loose = self.loose and bool(self.inside_before)
                elif not self.behind(fault, room - (source.position - start)):
                    return


def items(segment, number):
    """What a Segment that was entered gives from there on."""
    segment.__class__ = Damaged
    return segment.items(number)
