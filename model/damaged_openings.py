# SPDX-License-Identifier: MIT OR Apache-2.0
"""Matroska that is damaged before its first frame, in plain Python: the faults there are told, and
reading goes on.

All of it is this project's own choice. Up to its first frame a file is read once. A CRC-32 of the
header of EBML, or of an element of the Segment, that is not the sum is told, and the content is taken
as it is; an element of known size that no Segment has is told, and passed. At most sixteen are told.
What ends that is the answer, behind what was told.

Where its first Tracks stand behind Clusters it is read twice from its beginning. Where nothing was told
that is as in a file that is sound. Where that is refused for a fault that may be told, or something was
told before, nothing is told up to the first Tracks; and then, with what they say, what stands before the
first Cluster is told. Without any Tracks it is refused where it was at first.
"""
import contextlib

import damaged_files
import ebml
import ffv1
import matroska
from ebml import known
from ffv1 import Fault
from matroska import CLUSTER, INFO, JUDGED, PASSED, TRACKS, Segment, head_in, segment_size, to_tracks

MOST = 16


def sound_part(content):
    """A content without the CRC-32 that it begins with, where that is not the sum; and that fault."""
    try:
        ebml.judge(content)
    except Fault as fault:
        if fault.number == 85:
            _, size, left = known(ebml.get_header(ebml.in_memory(content), len(content)))
            return content[len(content) - (left - size):], fault
    return content, None


class Opening:
    """What is told of a file before its frames."""

    def __init__(self, source):
        self.source, self.told = source, []

    def tell(self, fault):
        """A fault of the element that was begun last."""
        if fault is None:
            return
        if len(self.told) == MOST:
            raise fault
        self.told.append(damaged_files.Told(fault, self.source.begun))

    @contextlib.contextmanager
    def telling(self, fault):
        """What is told of an element once it is taken; where it is refused that is told, too, if as many
        may be."""
        try:
            yield
        except Fault:
            if len(self.told) < MOST:
                self.tell(fault)
            raise
        self.tell(fault)

    def header(self):
        """The header of EBML."""
        content, fault = sound_part(ebml.header_content(self.source))
        with self.telling(fault):
            ebml.judge_header(content)

    def tracks(self, size):
        """What Tracks say."""
        content, fault = sound_part(self.source.exactly(ebml.limited(size), 52))
        with self.telling(fault):
            return head_in(content)

    def passed(self, header, times):
        """Another element of the Segment. Info says how long a tick is."""
        ident, size = known(header)
        if ident not in JUDGED:
            with self.telling(None if ident in PASSED else Fault(81)):
                self.source.skip(size, 52)
            return
        try:
            if ident == INFO:
                times.tick = matroska.scale_in(self.source, size)
            else:
                ebml.pass_judged(self.source, size)
        except Fault as fault:
            if fault.number != 85:
                raise
            self.tell(fault)

    def segment(self, head=None):
        """The head of a file, unless it is known, and its Segment where the frames begin. Where something
        is told, or it is known, nothing is noted of when frames come."""
        self.header()
        segment, timed = Segment(self.source, segment_size(self.source)), head is None
        while (header := segment.header()) and header[0] != CLUSTER:
            if header[0] == TRACKS and head is None:
                head = self.tracks(header[1])
            else:
                self.passed(header, segment.times)
        if head is None:
            raise Fault(82)
        segment.known, segment.others = head.known, head.others
        segment.times.duration = head.duration if timed and not self.told else 0
        if header:
            segment.enter(header[1])
        return head, segment

    def items(self, head, segment):
        """What is told, and then what the Segment gives."""
        yield from self.told
        yield from damaged_files.items(segment, head.number)

    def late(self, place):
        """The same as `segment` gives, of a file that lacks Tracks before its first Cluster, at this
        place, and has begun again."""
        self.told = []
        head = Seeking(self.source).head(place)
        if not self.source.again():
            raise Fault(56)
        return self.segment(head)

    def opened(self):
        """The head of a file, the size of its Segment, and what it gives."""
        try:
            head, segment = self.segment()
        except Fault as fault:
            place = self.source.begun
            if fault.number != 82 or not self.source.again():
                raise
            if not self.told:
                try:
                    return matroska.open_late(self.source, place, damaged_files.items)
                except Fault as plain:
                    if plain.number not in (81, 85):
                        raise
                if not self.source.again():
                    raise Fault(56)
            head, segment = self.late(place)
        return head, segment.size, self.items(head, segment)


class Seeking(Opening):
    """A file up to its first Tracks, of which nothing is told."""

    def tell(self, fault):
        pass

    def head(self, place):
        """What they say, wherever they stand; a file that has none is refused at this place."""
        self.header()
        segment = Segment(self.source, segment_size(self.source))
        return self.tracks(to_tracks(segment, lambda header: self.passed(header, segment.times), place))


def opened(source):
    """The head of a file, its configuration, what it gives, and the line of its Segment. What was told
    before a fault that ends it is said with that."""
    opening = Opening(source)
    try:
        head, size, items = opening.opened()
        config = ffv1.read_record(head.record, head.width, head.height, wide=True)
    except Fault as fault:
        fault.before = opening.told
        raise
    return head, config, items, [f"segment {'open' if size is None else size}"]
