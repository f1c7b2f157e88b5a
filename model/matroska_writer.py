# SPDX-License-Identifier: MIT OR Apache-2.0
"""FFV1 in Matroska as `pack` writes it (RFC 9559; RFC 9043, 4.3.3), in plain Python, over the
elements of `ebml.py`.
"""
import struct

import ebml
from ebml import VOID
from ffv1 import Fault
from matroska import (
    CLUSTER, CODEC_ID, CODEC_PRIVATE, COLOUR, CUES, DEFAULT_DURATION, DISPLAY_HEIGHT,
    DISPLAY_UNIT, DISPLAY_WIDTH, FIELD_ORDER, FLAG_INTERLACED, FLAG_LACING, INFO, LANGUAGE,
    NO_COLOUR, OPEN, PIXEL_HEIGHT, PIXEL_WIDTH, SEEK_HEAD, SEGMENT, SIMPLE_BLOCK, TIMESTAMP,
    TRACKS, TRACK_ENTRY, TRACK_NUMBER, TRACK_TYPE, TRACK_UID, VIDEO, duration_of, rate_of)

# Own: all of it. Sizes are one byte or eight and numbers have a fixed length, so that where
# an element stands depends on nothing but the lengths of the record and the frames, and on what is
# said at all.

NAME = b"Ravenbillon mkv 1"     # the writer's name, for as long as what it writes is the same
TICK = 40000000                 # the nanoseconds that a timestamp counts where there is no rate
MOST_CUES = 8192
END = 2 ** 56 - 2 ** 20         # the last place where a Cluster may end

EBML_HEADER = ebml.short(ebml.EBML, b"".join([
    ebml.number(0x4286, 1, 1), ebml.number(ebml.READ_VERSION, 1, 1), ebml.number(0x42F2, 4, 1),
    ebml.number(0x42F3, 8, 1), ebml.short(ebml.DOC_TYPE, b"matroska"), ebml.number(0x4287, 4, 1),
    ebml.number(ebml.DOC_TYPE_READ_VERSION, 2, 1)]))
INFO_PLACE, TRACKS_PLACE = 74, 148      # places are counted from the first byte in the Segment
CLUSTERS_END = 41                       # the bytes of a Cluster beside its frame


class Shown:
    """How pictures are shown: their structure, 0 unknown, 1 top field first, 2 bottom field first,
    3 progressive; and the aspect of a sample, both numbers 0 where it is not known. And whether the
    codec ID is that of Video for Windows."""

    def __init__(self, structure=0, aspect=(0, 0), vfw=False):
        self.structure, self.aspect, self.vfw = structure, aspect, vfw


class Finish:
    """What is known when all is written: the size of the Segment, the place of Cues, and how many
    frames there are."""

    def __init__(self, size, cues, count):
        self.size, self.cues, self.count = size, cues, count


def timed(rate, scale):
    """The duration of a frame, where it is read as this very rate."""
    duration = duration_of(rate, scale)
    if rate_of(duration) != (rate, scale):
        raise Fault(86)
    return duration


def double(n):
    """7.3: a whole number from 1 below 2 ^ 53 as eight bytes of floating point."""
    e = n.bit_length() - 1
    return ((1023 + e) * 2 ** 52 + (n - 2 ** e) * 2 ** (52 - e)).to_bytes(8, "big")


def void(length):
    """An element of so many bytes that says nothing."""
    return ebml.short(VOID, bytes(length - 2))


def seek(ident, place):
    """5.1.1: where an element of the Segment stands."""
    content = ebml.short(0x53AB, ebml.put_id(ident)) + ebml.number(0x53AC, place, 8)
    return ebml.short(0x4DBB, content)


def opening(head, finish=None):
    """The first 200 bytes, up to Tracks: finished, or open. A timestamp counts frames."""
    seeks = seek(INFO, INFO_PLACE) + seek(TRACKS, TRACKS_PLACE) \
        + (seek(CUES, finish.cues) if finish else void(21))
    info = ebml.number(0x2AD7B1, timed(head.rate, head.scale) or TICK, 8) \
        + (ebml.short(0x4489, double(finish.count)) if finish else void(11)) \
        + ebml.short(0x4D80, NAME) + ebml.short(0x5741, NAME)
    return EBML_HEADER + ebml.put_id(SEGMENT) + ebml.long_size(finish.size if finish else OPEN) \
        + ebml.short(SEEK_HEAD, ebml.summed(seeks)) + ebml.short(INFO, ebml.summed(info))


def video(head, shown):
    """5.1.4: the size of the pictures, their fields, their aspect and their colours."""
    (num, den), fields = shown.aspect, {1: 9, 2: 14}.get(shown.structure)
    content = ebml.number(PIXEL_WIDTH, head.width, 4) + ebml.number(PIXEL_HEIGHT, head.height, 4) \
        + ebml.number(FLAG_INTERLACED, [0, 1, 1, 2][shown.structure], 1)
    if fields:
        content += ebml.number(FIELD_ORDER, fields, 1)
    if num and den:
        content += ebml.number(DISPLAY_WIDTH, head.width * num, 8) \
            + ebml.number(DISPLAY_HEIGHT, head.height * den, 8) + ebml.number(DISPLAY_UNIT, 3, 1)
    colours = b"".join(ebml.number(ident, number, 1) for ident, number in head.colour.items()
                       if number != NO_COLOUR[ident])
    content += ebml.short(COLOUR, colours) if colours else b""
    return ebml.short(VIDEO, content)


def private_of(head, shown):
    """The codec ID, and CodecPrivate (9559, 8; 9043, 4.3.3): the record; or, of Video for Windows,
    BITMAPINFOHEADER and the record, with a byte more if that is odd, which biSize does not count."""
    if not shown.vfw:
        return b"V_FFV1", head.record
    image = head.width * head.height * 3 % 2 ** 32
    front = struct.pack("<3I2H4s5I", 40 + len(head.record), head.width, head.height, 1, 24, b"FFV1",
                        image, 0, 0, 0, 0)
    return b"V_MS/VFW/FOURCC", front + head.record + bytes(len(head.record) % 2)


def tracks(head, shown):
    """5.1.4: the one track."""
    duration, (codec, private) = timed(head.rate, head.scale), private_of(head, shown)
    entry = ebml.number(TRACK_NUMBER, 1, 1) + ebml.number(TRACK_UID, 1, 1) \
        + ebml.number(TRACK_TYPE, 1, 1) + ebml.number(FLAG_LACING, 0, 1) \
        + ebml.short(LANGUAGE, b"und") + ebml.short(CODEC_ID, codec) \
        + (ebml.number(DEFAULT_DURATION, duration, 8) if duration else b"") \
        + video(head, shown) + ebml.long(CODEC_PRIVATE, private)
    return ebml.long(TRACKS, ebml.summed(ebml.long(TRACK_ENTRY, entry)))


def cluster(count, frame):
    """5.1.3: the Cluster of the frame that has so many before it; its timestamp is that number."""
    simple_block = ebml.long(SIMPLE_BLOCK, b"\x81\0\0\x80" + frame)
    return ebml.long(CLUSTER, ebml.summed(ebml.number(TIMESTAMP, count, 8) + simple_block))


def places(begin, lengths):
    """Where each Cluster begins, and where the last one ends, of frames of so many bytes."""
    found = [begin]
    for length in lengths:
        found.append(found[-1] + CLUSTERS_END + length)
        if found[-1] > END:
            raise Fault(55)
    return found


def stride_of(count):
    """Every which Cluster has a cue: the least power of two by which at most 8192 have one."""
    stride = 1
    while -(-count // stride) > MOST_CUES:
        stride *= 2
    return stride


def cues(begins):
    """5.1.5: where Clusters begin."""
    stride, content = stride_of(len(begins)), b""
    for i in range(0, len(begins), stride):
        position = ebml.number(0xF7, 1, 1) + ebml.number(0xF1, begins[i], 8)
        content += ebml.short(0xBB, ebml.number(0xB3, i, 8) + ebml.short(0xB7, position))
    return ebml.long(CUES, ebml.summed(content))


def begun(head, shown, frames, finish=None):
    """A file while it is written: nothing stands after its Clusters."""
    clusters = [cluster(i, frame) for i, frame in enumerate(frames)]
    return opening(head, finish) + tracks(head, shown) + b"".join(clusters)


def open_form(head, shown, frames, finish=None):
    """A whole file that could not be written over: with Cues, but open."""
    begin = TRACKS_PLACE + len(tracks(head, shown))
    return begun(head, shown, frames, finish) + cues(places(begin, map(len, frames))[:-1])


def finished(head, shown, frames):
    """A whole file of at least one frame: the open form, its opening written over."""
    begin = TRACKS_PLACE + len(tracks(head, shown))
    end = places(begin, map(len, frames))[-1]
    size = len(open_form(head, shown, frames)) - len(EBML_HEADER) - 12
    return open_form(head, shown, frames, Finish(size, end, len(frames)))
