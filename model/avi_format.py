# SPDX-License-Identifier: MIT OR Apache-2.0
"""AVI, read and written, in plain Python: the format in small.

It is written from the AVI RIFF File Reference (Microsoft) and OpenDML's AVI File Format Extensions;
what is this project's own choice says so.
"""
import struct

import movi
from chunks import Open, chunks, get_chunk, is_known, marked, padded
from ffv1 import Fault
from files import EBML_ID, FRAME_LIMIT, LIMIT

MOST = 2 ** 31 - 1          # own: the greatest size of RIFF that is written


class AviHead:
    """The head of a file: the size of the pictures, rate and scale, of which rate / scale is the
    pictures a second, and the configuration record; and how many other streams are FFV1 video."""

    def __init__(self, width, height, rate, scale, record):
        self.width, self.height, self.rate, self.scale = width, height, rate, scale
        self.record, self.others = record, 0


def numbers(*values):
    """Numbers of four bytes, little end first."""
    return struct.pack(f"<{len(values)}I", *values)


def chunk(name, data):
    """A name, a size, the bytes, and one more where they are odd."""
    return name + numbers(len(data)) + data + bytes(len(data) % 2)


def chunk_list(own, data):
    return chunk(b"LIST", own + data)


def riff_size(record_length, lengths):
    """The size of RIFF, of a record and frames of so many bytes."""
    return 172 + padded(40 + record_length) + 4 + sum(8 + padded(length) for length in lengths)


def write_avi(head, frames):
    """The file of these frames. Own: 55 where it is too large; 0 microseconds a frame where there
    is no rate."""
    if riff_size(len(head.record), map(len, frames)) > MOST:
        raise Fault(55)
    microseconds = min(1000000 * head.scale // head.rate, 2 ** 32 - 1) if head.rate else 0
    size = head.width, head.height
    avih = numbers(microseconds, 0, 0, 0, len(frames), 0, 1, 0, *size, 0, 0, 0, 0)
    strh = b"vidsFFV1" + numbers(0, 0, 0, head.scale, head.rate, 0, len(frames), 0, 0, 0) \
        + struct.pack("<4H", 0, 0, *size)
    strf = numbers(40, *size) + struct.pack("<2H", 1, 24) + b"FFV1" + numbers(0, 0, 0, 0, 0)
    strl = chunk_list(b"strl", chunk(b"strh", strh) + chunk(b"strf", strf + head.record))
    movi = chunk_list(b"movi", b"".join(chunk(b"00dc", frame) for frame in frames))
    return chunk(b"RIFF", b"AVI " + chunk_list(b"hdrl", chunk(b"avih", avih) + strl) + movi)


def get_stream(source, left, wide):
    """The head that a stream says, if it is FFV1 video: its first header and its first format
    count. Wide, the letters of FFV1 may be small, and the record ends where biSize says, if that
    lies inside the format."""
    fields = {}
    for name, size in chunks(source, left):
        if name not in (b"strh", b"strf") or name in fields:
            source.skip(padded(size), 52)
            continue
        if name == b"strf" and size > LIMIT:
            raise Fault(53)
        fields[name] = get_chunk(source, size)
    strh, strf = fields.get(b"strh", b""), fields.get(b"strf", b"")
    codec = strf[16:20].upper() if wide else strf[16:20]
    if len(strh) < 56 or strh[:4] != b"vids" or len(strf) < 40 or codec != b"FFV1":
        return None
    scale, rate = struct.unpack("<2I", strh[20:28])
    if (scale == 0) != (rate == 0):
        raise Fault(50)
    (end,) = struct.unpack("<I", strf[:4])
    record = strf[40:end] if wide and 40 < end < len(strf) else strf[40:]
    return AviHead(*struct.unpack("<2I", strf[4:12]), rate, scale, record)


def get_total(source, left, total):
    """How many frames the whole file has, by the chunks of a list odml (OpenDML AVI File Format
    Extensions): the first dmlh counts, if it has room for that number."""
    for name, size in chunks(source, left):
        if name == b"dmlh" and size >= 4 and total is None:
            (total,) = struct.unpack("<I", get_chunk(source, size)[:4])
        else:
            source.skip(padded(size), 52)
    return total


def begins_video(data):
    """Own: whether the first 100 bytes of a stream's list are those of FFV1 video: a header of video,
    of 56 or 64 bytes, and then a format of FFV1."""
    at = {56: 64, 64: 72}.get(int.from_bytes(data[4:8], "little"))
    return at is not None and data[:4] == b"strh" and data[8:12] == b"vids" \
        and data[at:at + 4] == b"strf" and data[at + 24:at + 28].upper() == b"FFV1"


class Opening:
    """What the chunks before movi say so far: how many streams were read, the head that counts with
    the number of its stream, how many frames the whole file has, how many streams there are, and how
    many after the one that counts begin as FFV1 video."""

    def __init__(self, wide):
        self.wide, self.streams, self.head, self.number, self.total = wide, 0, None, 0, None
        self.all = self.others = 0
        self.begun = False

    def stream(self, source, size):
        """A list of a stream. The first counts; wide, the first of FFV1 video, up to number 99."""
        self.all += 1
        if self.head is not None and self.wide and size >= 104:
            self.others += begins_video(source.exactly(100, 52))
            source.skip(padded(size) - 104, 52)
            return
        if self.head is not None or self.streams > 99:
            source.skip(padded(size) - 4, 52)
            return
        self.head, self.number = get_stream(source, size - 4, self.wide), self.streams
        self.streams += 1
        source.skip(size % 2, 52)
        if self.head is None and not self.wide:
            raise Fault(51)

    def is_frame(self, name):
        return movi.is_frame(name, self.number, self.wide)

    def stands(self, name):
        return movi.stands(name, self.number, self.all, self.wide)

    def bars(self, name):
        return self.wide and not self.stands(name)

    def may_be_unknown(self):
        """Whether a list of RIFF may have no size: up to the first movi, if all of the file is read."""
        return self.wide and not self.begun

    def header(self, source, left):
        """The chunks of a list hdrl."""
        for name, size in chunks(source, left):
            own = source.exactly(4, 52) if name == b"LIST" else b""
            if own == b"strl":
                self.stream(source, size)
            elif own == b"odml" and self.wide:
                self.total = get_total(source, size - 4, self.total)
                source.skip(size % 2, 52)
            else:
                source.skip(padded(size) - len(own), 52)


def own_name(source, name, size):
    """The own name of a list of RIFF; of a list of unknown size that is no movi 50."""
    if name != b"LIST":
        return b""
    own = source.exactly(4, 52)
    if own != b"movi" and not is_known(size):
        raise Fault(50)
    return own


def open_avi(source, wide, read=None):
    """The head of a file, and its frames in turn: those of the first list movi or, wide, those of
    every movi of every RIFF; or what else is read from there on, by where that RIFF ends, if that is
    known. Own: up to its first movi, a RIFF of unknown size has as many bytes as it can have at most."""
    first = source.exactly(12, 52)
    size = struct.unpack("<I", first[4:8])[0]
    if first[:4] != b"RIFF" or first[8:] != b"AVI " or size < 4 and not (wide and size == 0):
        raise Fault(50)
    opening, end = Opening(wide), 8 + size if is_known(size) else None
    sized = not wide or is_known(size)
    parts = marked(source, (size if sized else 2 ** 32 - 1) - 4, unknown=opening.may_be_unknown)
    for name, size in parts:
        own = own_name(source, name, size)
        if own == b"movi":
            if opening.head is None:
                raise Fault(51)
            opening.begun, opening.head.others = True, opening.others
            if read:
                return opening.head, read(source, opening, size, end)
            chunks = None if sized else Open(source, {b"RIFF"})
            return opening.head, Frames(source, opening, chunks, chunks or parts).all(size)
        if own == b"hdrl":
            opening.header(source, size - 4)
            source.skip(size % 2, 52)
        else:
            source.skip(padded(size) - len(own), 52)
    raise Fault(50)


def is_another(data):
    """Whether another file begins with these bytes, as an RIFF that goes on with its file does not."""
    return data[:4] == EBML_ID or data[:4] == b"RIFF" and data[8:] != b"AVIX"


class Frames:
    """The frames of a file, in turn, from its first movi on, in a RIFF of which these chunks are left.
    Own: wide, an empty chunk is a frame of no bytes, which repeats the one before it, and the chunks of
    a list `rec ` are those of movi, which has no other list. A RIFF of which the first movi has no size
    has none either, nor has one that comes after a RIFF without size. At the end there are notes."""

    def __init__(self, source, opening, chunks, parts):
        self.source, self.opening, self.chunks, self.parts = source, opening, chunks, parts
        self.parts = iter(parts)
        self.count = self.repeated = 0

    def owes(self):
        return self.count < (self.opening.total or 0)

    def of_movi(self, chunks):
        """The frames of a movi."""
        opening, source = self.opening, self.source
        for name, size in chunks:
            if not opening.stands(name):
                raise Fault(50)
            if name == b"LIST":
                if source.exactly(4, 52) != b"rec ":
                    raise Fault(50)
                continue
            if not opening.is_frame(name):
                source.skip(padded(size), 52)
                continue
            if size > (FRAME_LIMIT if opening.wide else LIMIT):
                raise Fault(53)
            if size == 0 and not opening.wide:
                raise Fault(54)
            frame = get_chunk(source, size)
            yield frame
            self.count += 1
            self.repeated += not frame

    def next_riff(self):
        """The chunks of the next RIFF; none at the end of the file. Own: another file behind it is 88,
        and for other bytes there is a note."""
        source, ended = self.source, self.chunks is not None
        if ended and not self.chunks.end:
            head = b""
        else:
            if not ended:
                source.mark()
            begin, head = source.position, self.chunks.end if ended else source.some(4)
            if head == b"RIFF":
                head += source.exactly(8, 52) if ended else source.some(8)
            if head[:4] == b"RIFF" and head[8:] == b"AVIX":
                size = struct.unpack("<I", head[4:8])[0]
                if ended or not is_known(size):
                    self.chunks = Open(source, {b"RIFF"})
                    return iter(self.chunks)
                if size < 4:
                    raise Fault(50)
                return marked(source, size - 4)
            if len(head) == 12 and is_another(head) or head[:4] == EBML_ID:
                raise Fault(88)
            if head:
                source.notes[94] = f"After byte {begin}"
        if self.owes():
            raise Fault(52)
        return None

    def next_movi(self):
        """The size of the next movi; none at the end of the file. Own: no frame stands in RIFF."""
        while self.parts is not None:
            for name, size in self.parts:
                own = own_name(self.source, name, size)
                if own == b"movi":
                    return size
                if self.opening.is_frame(name):
                    raise Fault(50)
                self.source.skip(padded(size) - len(own), 52)
            self.parts = self.next_riff()
        return None

    def all(self, size):
        source, opening = self.source, self.opening
        while size is not None:
            if opening.wide and not is_known(size):
                chunks = Open(source, {b"idx1", b"RIFF"}, opening.bars, True)
                yield from self.of_movi(chunks)
                self.chunks = Open(source, {b"RIFF"}, name=chunks.end or b"")
                self.parts = iter(self.chunks)
            else:
                yield from self.of_movi(marked(source, size - 4, opening.bars, opening.wide))
            size = self.next_movi() if opening.wide else None
        if self.chunks is not None:
            source.notes[90] = "Open"
        if opening.others:
            source.notes[91] = f"OtherVideo {opening.others}"
        if self.repeated:
            source.notes[93] = f"Repeated {self.repeated}"
