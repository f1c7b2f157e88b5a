# SPDX-License-Identifier: MIT OR Apache-2.0
"""FFV1 in Matroska (RFC 9559; RFC 9043, 4.3.3), read in plain Python, over the
elements of `ebml.py`. What is this project's own choice says so.

A file is an EBML header and a Segment: Tracks, which say what the frames are, and Clusters, which
have the frames in their blocks. One of unknown size is open: it ends where the input does.
"""
import math

import ebml
from ebml import CRC_32, VOID, get_header, known
from ffv1 import Fault
from files import EBML_ID, FRAME_LIMIT

SEGMENT, SEEK_HEAD, INFO, TRACKS = 0x18538067, 0x114D9B74, 0x1549A966, 0x1654AE6B
CLUSTER, CUES = 0x1F43B675, 0x1C53BB6B
ATTACHMENTS, CHAPTERS, TAGS = 0x1941A469, 0x1043A770, 0x1254C367
TIMESTAMP, POSITION, PREV_SIZE, SILENT_TRACKS, ENCRYPTED_BLOCK = 0xE7, 0xA7, 0xAB, 0x5854, 0xAF
SIMPLE_BLOCK, BLOCK_GROUP, BLOCK = 0xA3, 0xA0, 0xA1
TRACK_ENTRY, TRACK_NUMBER, TRACK_UID, TRACK_TYPE = 0xAE, 0xD7, 0x73C5, 0x83
FLAG_LACING, LANGUAGE, CODEC_ID, CODEC_PRIVATE = 0x9C, 0x22B59C, 0x86, 0x63A2
DEFAULT_DURATION, CONTENT_ENCODINGS, VIDEO = 0x23E383, 0x6D80, 0xE0
TIMESTAMP_SCALE = 0x2AD7B1
PIXEL_WIDTH, PIXEL_HEIGHT, FLAG_INTERLACED, FIELD_ORDER = 0xB0, 0xBA, 0x9A, 0x9D
DISPLAY_WIDTH, DISPLAY_HEIGHT, DISPLAY_UNIT = 0x54B0, 0x54BA, 0x54B2

OPEN = 2 ** 56 - 1          # the bytes of an open Segment: what the bits of its size say
MOST = 2 ** 32 - 1


# 5.1.4.1.28.16: what Colour says, and its defaults, which say nothing, in the order that is written:
# MatrixCoefficients, ChromaSitingHorz and ChromaSitingVert, Range, TransferCharacteristics, Primaries
COLOUR = 0x55B0
MATRIX, SITING_HORZ, SITING_VERT, RANGE, TRANSFER, PRIMARIES = (
    0x55B1, 0x55B7, 0x55B8, 0x55B9, 0x55BA, 0x55BB)
NO_COLOUR = {MATRIX: 2, SITING_HORZ: 0, SITING_VERT: 0, RANGE: 0, TRANSFER: 2, PRIMARIES: 2}


class Head:
    """What Tracks say of the frames: their track, the size of the pictures, rate and scale, of
    which rate / scale is the pictures a second, and the configuration record; and the numbers of
    all tracks; what Video says of colours; how many other tracks are FFV1 video; and how many
    nanoseconds a frame lasts."""

    def __init__(self, number, width, height, rate, scale, record, known=(), colour=None, others=0,
                 duration=0):
        self.number, self.width, self.height = number, width, height
        self.rate, self.scale, self.record, self.known = rate, scale, record, known
        self.colour, self.others, self.duration = colour or dict(NO_COLOUR), others, duration


# -------------------------------------------------------------------------------------------- rates

def rate_of(duration):
    """Own: the rate and the scale of frames of so many nanoseconds: of the rates n, 1000 n / 1001
    and n / 2, and n / 100 and n / 1000 whose duration is not whole, the first whose duration they
    are nearly; else the fraction itself. Both are 0 where there is no duration, or the scale passes
    four bytes."""
    if duration == 0:
        return 0, 0
    for whole, factor, scale in [(10 ** 9, 1, 1), (1001 * 10 ** 6, 1000, 1001), (2 * 10 ** 9, 1, 2),
                                 (10 ** 11, 1, 100), (10 ** 12, 1, 1000)]:
        n = (2 * whole + duration) // (2 * duration)
        if abs(whole - n * duration) < n and (scale not in (100, 1000) or n * duration != whole):
            return n * factor, scale
    common = math.gcd(1000000000, duration)
    rate, scale = 1000000000 // common, duration // common
    return (rate, scale) if scale <= MOST else (0, 0)


def duration_of(rate, scale):
    """Own: how many nanoseconds a frame has, to the nearest, halves up; 0 without a rate."""
    return (2000000000 * scale + rate) // (2 * rate) if rate else 0


# ----------------------------------------------------------------------------- Tracks (9559, 5.1.4)

def record_in(entry):
    """The configuration record of a TrackEntry, where this is FFV1 video, else none. A field is
    looked for only as long as it may be."""
    if ebml.find_number(entry, TRACK_TYPE, 0) != 1:
        return None
    codec = ebml.find_text(entry, CODEC_ID)
    if codec not in (b"V_FFV1", b"V_MS/VFW/FOURCC"):
        return None
    private = ebml.find(entry, CODEC_PRIVATE) or b""
    if codec == b"V_FFV1":
        return private
    if len(private) < 40 or private[16:20].upper() != b"FFV1":
        return None
    end = int.from_bytes(private[:4], "little")
    return private[40:end] if 40 < end < len(private) else private[40:]


def told(number):
    """Own: as which number one of a track is told."""
    return number if number <= MOST_KNOWN else 0


def numbers_in(content):
    """Own: the numbers of the entries, up to the first element that cannot be read."""
    found = set()
    try:
        for ident, entry in ebml.elements(content):
            if ident == TRACK_ENTRY:
                found.add(told(ebml.find_number(entry, TRACK_NUMBER, 0)))
    except Fault:
        pass
    return found


def is_video(ident, entry):
    """Whether an element of Tracks is an entry of FFV1 video. Own: one of which a field that tells
    this can't be read is none."""
    try:
        return ident == TRACK_ENTRY and record_in(entry) is not None
    except Fault:
        return False


def others_in(content):
    """Own: how many entries are FFV1 video beside the first, up to the first element that cannot be
    read."""
    count = 0
    try:
        for ident, entry in ebml.elements(content):
            count += is_video(ident, entry)
    except Fault:
        pass
    return max(count - 1, 0)


def colour_field(content, ident):
    """A number of Colour. Own: above 255, or where it cannot be read, it says nothing."""
    try:
        number = ebml.find_number(content, ident, NO_COLOUR[ident])
    except Fault:
        return NO_COLOUR[ident]
    return number if number < 256 else NO_COLOUR[ident]


def colour_in(video):
    """What Video says of colours. Own: nothing where its Colour cannot be read."""
    try:
        content = ebml.find(video, COLOUR) or b""
    except Fault:
        content = b""
    return {ident: colour_field(content, ident) for ident in NO_COLOUR}


def head_in(content):
    """What a content of Tracks says: the first TrackEntry of FFV1 video counts."""
    ebml.judge(content)
    for ident, entry in ebml.elements(content):
        record = record_in(entry) if ident == TRACK_ENTRY else None
        if record is None:
            continue
        if ebml.find(entry, CONTENT_ENCODINGS) is not None:
            raise Fault(83)
        number = ebml.find_number(entry, TRACK_NUMBER, 0)
        duration = ebml.find_number(entry, DEFAULT_DURATION, 0)
        rate, scale = rate_of(duration)
        video = ebml.find(entry, VIDEO) or b""
        width, height = (min(ebml.find_number(video, field, 0), MOST)
                         for field in [PIXEL_WIDTH, PIXEL_HEIGHT])
        return Head(number, width, height, rate, scale, record, numbers_in(content),
                    colour_in(video), others_in(content), duration)
    raise Fault(51)


# -------------------------------------------------------------------------------- times (9559, 11)

def scale_of(content):
    """What a TimestampScale says (9559, 5.1.2.9): how many nanoseconds a tick has. Own: 0, which is
    not judged, where it has more than 8 bytes."""
    return (int.from_bytes(content, "big") or 1000000 * (not content)) if len(content) <= 8 else 0


def scale_in(source, size):
    """The TimestampScale of Info, which has so many bytes and is passed, with its CRC-32 judged.
    Own: it is the first element of Info, or is looked for in the 4096 bytes after that; where it is
    not found there and there are more, or another element can't be read before it, it is 0."""
    if size == 0:
        return 1000000
    ident, first, left = known(get_header(source, size))
    left -= first
    if ident == TIMESTAMP_SCALE:
        scale = scale_of(source.exactly(first, 52))
        source.skip(left, 52)
        return scale
    if ident == CRC_32 and first == 4:
        source.await_sum()
    else:
        source.skip(first, 52)
    window = source.exactly(min(left, 4096), 52)
    source.skip(left - len(window), 52)
    source.judge()
    try:
        content = ebml.find(window, TIMESTAMP_SCALE)
    except Fault:
        return 0
    return scale_of(b"" if content is None else content) if content is not None or left <= 4096 else 0


class Times:
    """When frames come: frame i is noted where it comes more than a tick and i nanoseconds away from
    where i durations lead to from the first one. Own: it is not judged where the tick or the duration
    is 0, and a time past 2^64 - 1 - 32768 ticks counts as that."""

    def __init__(self):
        self.tick, self.duration, self.cluster, self.first, self.count, self.off = 0, 0, 0, 0, 0, None

    def frame(self, bits):
        """A frame whose block has these two bytes of time (9559, 10.1), which are signed."""
        ticks = min(self.cluster + int.from_bytes(bits, "big", signed=True), 2 ** 64 - 1 - 32768)
        self.first = ticks if self.count == 0 else self.first
        late = (ticks - self.first) * self.tick - self.count * self.duration
        if self.tick and self.duration and self.off is None and abs(late) > self.tick + self.count:
            self.off = self.count
        self.count += 1


# ----------------------------------------------------------------------- a Segment and its Clusters

JUDGED = {SEEK_HEAD, INFO, TRACKS, CUES, ATTACHMENTS, CHAPTERS, TAGS}
PASSED = {VOID, CRC_32}
OF_CLUSTER = {TIMESTAMP, POSITION, PREV_SIZE, SILENT_TRACKS, ENCRYPTED_BLOCK}
OUTSIDE = JUDGED | {CLUSTER, ebml.EBML, SEGMENT}    # own: their IDs are refused in a Cluster
MOST_KNOWN = 127                # own: all greater numbers of tracks are told as one, as 0 is


class Segment:
    """Where a reader stands: how many bytes are left of the Segment, of a Cluster of known size in
    it, and of a BlockGroup in that, the innermost of which is walked; and whether the elements of
    the Segment are those of a Cluster of unknown size, too."""

    def __init__(self, source, size):
        self.source, self.is_open, self.size, self.cued = source, size is None, size, False
        self.left = OPEN if size is None else size
        self.end = None if size is None else source.position + size
        self.cluster, self.group, self.begins, self.loose = 0, 0, False, False
        self.known, self.others, self.times = (), 0, Times()

    def header(self):
        """The ID and the size of the next element of the Segment, or none at its end; an open one
        ends where the input ends."""
        self.source.mark()
        first = self.source.some(1) if self.is_open and self.left else b""
        if self.left == 0 or self.is_open and not first:
            return None
        ident, size, self.left = get_header(self.source, self.left, first)
        self.left -= size or 0
        return ident, size

    def enter(self, size):
        """A Cluster: of unknown size its elements are read as elements of the Segment."""
        self.loose, self.cued = size is None, False
        self.cluster, self.begins = size or 0, True

    def other(self, header):
        """An element of the Segment that is passed. Own: one that no Segment has is refused, since
        no CRC-32 guards the IDs."""
        self.cued = self.cued or header[0] == CUES
        ident, size = known(header)
        if ident in JUDGED:
            ebml.pass_judged(self.source, size)
            self.loose = False
        elif ident in PASSED or self.loose and ident in OF_CLUSTER:
            self.source.skip(size, 52)
        else:
            raise Fault(81)

    def step(self, header, number):
        """The element with this header; of the track with this number it may be a frame."""
        ident, size = header
        if self.loose and (ident in (SIMPLE_BLOCK, BLOCK_GROUP) or ident in OF_CLUSTER):
            return self.in_cluster(*known(header), number)
        if ident == CLUSTER:
            self.enter(size)
        else:
            self.other(header)
        return None

    def in_cluster(self, ident, size, number):
        """An element of a Cluster. Own: one that no Cluster has is refused, and a number of more
        than 8 bytes."""
        begins, self.begins = self.begins, False
        if ident == SIMPLE_BLOCK:
            return self.block(size, number)
        if ident == BLOCK_GROUP:
            return self.first_block(size, number)
        if begins and ident == CRC_32 and size == 4:
            self.source.await_sum()
        elif ident not in OF_CLUSTER and ident not in (VOID, CRC_32):
            raise Fault(81)
        elif ident in (TIMESTAMP, POSITION, PREV_SIZE) and size > 8:
            raise Fault(81)
        elif ident == TIMESTAMP:
            self.times.cluster = int.from_bytes(self.source.exactly(size, 52), "big")
        else:
            self.source.skip(size, 52)
        return None

    def first_block(self, size, number):
        """A BlockGroup of so many bytes, up to its first Block. Own: one without a Block is refused,
        since it may be a frame whose Block has another ID; the place is that of the group."""
        self.group = size
        while self.group:
            ident, size, left = known(get_header(self.source, self.group))
            self.group = left - size
            if ident == BLOCK:
                return self.block(size, number)
            self.source.skip(size, 52)
        raise Fault(81)

    def in_group(self, ident, size, number):
        """An element of a BlockGroup after its first Block."""
        if ident == BLOCK:
            return self.block(size, number)
        self.source.skip(size, 52)
        return None

    def block(self, size, number):
        """9559, 10.1: the frame of a block of so many bytes, or none where it is of another track.
        Own: that is a track of the file, no lacing, and a frame has from 1 to 1073741824 bytes; all
        that before it is read."""
        track = ebml.vint(self.source, 8, size)
        said, left = ebml.data_of(track), size - len(track)
        if said != number:
            if told(said) not in self.known:
                raise Fault(81)
            self.source.skip(left, 52)
            return None
        if left < 3:
            raise Fault(52)
        fields, left = self.source.exactly(3, 52), left - 3
        if fields[2] & 6:
            raise Fault(84)
        if left > FRAME_LIMIT:
            raise Fault(53)
        if left == 0:
            raise Fault(54)
        self.times.frame(fields[:2])
        return self.source.exactly(left, 52)

    def walk(self, number):
        """The frame of the next element, if it has one. As soon as a Cluster has nothing left, its
        CRC-32 is judged: before its last frame is given, where nothing is after that."""
        self.source.mark()
        if self.group:
            ident, size, left = known(get_header(self.source, self.group))
            self.group = left - size
            frame = self.in_group(ident, size, number)
        else:
            ident, size, left = known(get_header(self.source, self.cluster, outside=OUTSIDE))
            self.cluster = left - size
            frame = self.in_cluster(ident, size, number)
        if not self.group and not self.cluster:
            self.source.judge()
        return frame

    def look_behind(self):
        """What the end leaves to be said. Own: an open Segment that has no Cues behind its last
        Cluster may have been cut; behind one of known size another file is 88, and for other bytes
        there is a note. There is one of further tracks of FFV1 video, too, which are not read."""
        if self.others:
            self.source.notes[91] = f"OtherVideo {self.others}"
        if self.size is None:
            if not self.cued:
                self.source.notes[90] = "Open"
            return
        self.source.begun = self.end
        data = self.source.some(4)
        if data in (EBML_ID, b"RIFF"):
            raise Fault(88)
        if data:
            self.source.notes[94] = f"After byte {self.end}"

    def frames(self, number):
        """The frames of a track, in turn."""
        while True:
            if self.group or self.cluster:
                frame = self.walk(number)
            else:
                header = self.header()
                if header is None:
                    if self.times.off is not None:
                        self.source.notes[92] = f"Times frame {self.times.off}"
                    return self.look_behind()
                frame = self.step(header, number)
            if frame is not None:
                yield frame


def segment_size(source):
    """The size of the Segment, none where it is unknown. Own: Voids before it are passed (8794, 11.3),
    and any other element there is refused."""
    source.mark()
    while (first := source.exactly(1, 52)) == bytes([VOID]):
        source.skip(ebml.known_size(source), 52)
        source.mark()
    if first + source.exactly(3, 52) != SEGMENT.to_bytes(4, "big"):
        raise Fault(80)
    return ebml.get_size(source, 8)[0]


def open_matroska(source, read=Segment.frames, head=None):
    """What the first Tracks of a file say; the size of its Segment, none where it is open; and its
    frames in turn, which are read so. Own: Tracks stand before the first Cluster, or what they say is
    known."""
    ebml.open_ebml(source)
    size = segment_size(source)
    segment = Segment(source, size)
    while (header := segment.header()) and header[0] != CLUSTER:
        if header[0] == TRACKS and head is None:
            head = head_in(source.exactly(ebml.limited(header[1]), 52))
        elif header[0] == INFO:
            segment.times.tick = scale_in(source, known(header)[1])
        else:
            segment.other(header)
    if head is None:
        raise Fault(82)
    segment.known, segment.others, segment.times.duration = head.known, head.others, head.duration
    if header:
        segment.enter(header[1])
    return head, size, read(segment, head.number)


def to_tracks(segment, passed, place):
    """The size of the first Tracks of a Segment, wherever they stand; the elements before them are
    passed so. Own: a Cluster of known size is passed as a whole, and of one of unknown size each
    element; a Segment without Tracks is refused at this place."""
    while header := segment.header():
        ident, size = header
        if ident == TRACKS:
            return size
        if ident == CLUSTER:
            segment.loose = size is None
            segment.source.skip(size or 0, 52)
        elif segment.loose and (ident in (SIMPLE_BLOCK, BLOCK_GROUP) or ident in OF_CLUSTER):
            segment.source.skip(known(header)[1], 52)
        else:
            passed(header)
            segment.loose = segment.loose and ident in PASSED
    segment.source.begun = place
    raise Fault(82)


def sought(source, place):
    """What the first Tracks of a file say, wherever they stand."""
    ebml.open_ebml(source)
    segment = Segment(source, segment_size(source))
    size = to_tracks(segment, segment.other, place)
    return head_in(source.exactly(ebml.limited(size), 52))


def open_again(source, read=Segment.frames):
    """A file whose first Tracks may stand behind Clusters. Own: then it is read from its beginning up to
    these, and from its beginning again, with what they say; a source that cannot begin again is
    refused."""
    try:
        return open_matroska(source, read)
    except Fault as fault:
        place = source.begun
        if fault.number != 82 or not source.again():
            raise
    return open_late(source, place, read)


def open_late(source, place, read):
    """The same of a file that lacks Tracks before its first Cluster, at this place, and has begun again."""
    head = sought(source, place)
    if not source.again():
        raise Fault(56)
    return open_matroska(source, read, head)
