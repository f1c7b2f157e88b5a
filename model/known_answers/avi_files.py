# SPDX-License-Identifier: MIT OR Apache-2.0
"""Files of AVI whose heads, frames and faults are known: worked out by hand from the formats.
`check.py` asks them of the model, and `make_vectors.py` writes them for the crates."""
import io
import struct

import avi_format
import ffv1
import files

FRAME = bytes.fromhex("FE7B000002")


def chunk(name, *parts):
    """Its header, its bytes, its padding."""
    data = b"".join(parts)
    return name + struct.pack("<I", len(data)) + data + bytes(len(data) % 2)


def chunks(kind, *parts):
    """A list of this kind."""
    return chunk(b"LIST", kind, *parts)


def header(kind, rate, scale):
    """The header of a stream."""
    return chunk(b"strh", kind, b"FFV1", bytes(12), bytes([scale, 0, 0, 0, rate]), bytes(31))


def format_of(width, end=40):
    """The 40 bytes of a format, before its record."""
    return bytes([end, 0, 0, 0, width, 0, 0, 0, 2, 0, 0, 0, 1, 0, 24, 0]) + b"FFV1" + bytes(20)


def stream(width, record):
    """A stream's list, as FFmpeg writes it."""
    return chunks(b"strl", header(b"vids", 25, 1), chunk(b"strf", format_of(width), record),
                  chunk(b"JUNK", bytes(4120)), chunk(b"vprp", bytes(68)))


def file_of(streams, movi):
    """A file in the structure that FFmpeg writes."""
    index = struct.pack("<4sIII", b"00dc", 16, 4, 5)
    hdrl = chunks(b"hdrl", chunk(b"avih", bytes(56)), streams,
                  chunk(b"JUNK", b"odmldmlh", bytes([248, 0, 0, 0]), bytes(248)))
    return chunk(b"RIFF", b"AVI ", hdrl, chunks(b"INFO", chunk(b"ISFT", b"Lavf59.27.100\0")),
                 chunk(b"JUNK", bytes(1016)), chunks(b"movi", movi), chunk(b"idx1", index))


# ------------------------------------------------------------------------------ a file of one frame

# 352 by 288, 25 frames a second, a record of the bytes 1 to 60, and one frame
EXAMPLE = chunk(
    b"RIFF", b"AVI ",
    chunks(b"hdrl",
           chunk(b"avih", struct.pack("<14I", 40000, 0, 0, 0, 1, 0, 1, 0, 352, 288, *[0] * 4)),
           chunks(b"strl",
                  chunk(b"strh", b"vidsFFV1", struct.pack("<10IHHHH", 0, 0, 0, 1, 25, 0, 1, 0, 0, 0,
                                                          0, 0, 352, 288)),
                  chunk(b"strf", struct.pack("<IIIHH", 40, 352, 288, 1, 24), b"FFV1", bytes(20),
                        bytes(range(1, 61))))),
    chunks(b"movi", chunk(b"00dc", FRAME)))
SAID = (352, 288, 25, 1, bytes(range(1, 61)))
MORE = chunk(b"RIFF", b"AVIX", chunks(b"movi", chunk(b"00dc", FRAME)))


def changed(*patches):
    """The example with other bytes from some places on; of a number, its four bytes."""
    data = EXAMPLE
    for at, patch in patches:
        patch = patch if isinstance(patch, bytes) else struct.pack("<I", patch)
        data = data[:at] + patch + data[at + len(patch):]
    return data


def long_format(size):
    """The example with lists up to 2147483647 bytes, and a format of so many."""
    return changed((4, 2147483647), (16, 2147480000), (92, 2147470000), (168, size))


# what is changed, whether the file is opened, how many frames it has, the fault after them
CHANGED = [
    ((0, b"RIFX"), False, 0, 50), ((8, b"AVIX"), False, 0, 50), ((108, b"auds"), False, 0, 51),
    ((188, b"FFVH"), False, 0, 51), ((128, 0), False, 0, 50), ((132, 0), False, 0, 50),
    ((284, b"LIST"), True, 0, 50), ((284, b"JUNK"), True, 0, 0), ((20, b"abcd"), False, 0, 51),
    ((280, b"abcd"), False, 0, 50),
    # RIFF and lists below 4; a chunk that passes its list by its padding alone; the format too
    # short, or too long for its list
    ((4, 3), False, 0, 50), ((16, 3), False, 0, 50), ((276, 17), True, 0, 52),
    ((168, 39), False, 0, 52), ((168, 102), False, 0, 52), ((288, 2 ** 32 - 1), True, 0, 52),
    ((288, 0), True, 0, 54),
]


# ------------------------------------------------------------------------------- streams and records

TWO = chunk(b"00dc", b"hello") + chunk(b"ix00", b"index") + chunk(b"00dc", b"frames")
PLAIN, OTHER = stream(2, b"abc\0"), stream(3, b"other")
PLAIN_SAID = (2, 2, 25, 1, b"abc\0")


def stream_of(scale, *formats):
    """A stream of such a scale with this format, or without one."""
    return chunks(b"strl", header(b"vids", 25, scale), *(chunk(b"strf", data) for data in formats))


def after_list(after):
    """A stream, after it another list, and after that these bytes."""
    dmlh = chunk(b"dmlh", bytes([1, 0, 0, 0]))
    return file_of(PLAIN + chunks(b"odml", dmlh) + after, b"")


def sound_first(total):
    """A stream of sound, and one of width 2 after it, of which the file has so many frames."""
    dmlh = chunk(b"dmlh", bytes([total, 0, 0, 0]))
    return file_of(chunks(b"strl", header(b"auds", 25, 1)) + PLAIN + chunks(b"odml", dmlh),
                   TWO + chunk(b"01dc", b"ours"))


def record_until(end):
    """A file whose format says that it ends at such a byte, and has ten after its first forty."""
    return file_of(stream_of(1, format_of(2, end) + b"0123456789"), b"")


def ended(length):
    return (2, 2, 25, 1, b"0123456789"[:length])


# ---------------------------------------------------------------------------------------------- all

def rows():
    """What is new about a file, whether all of its RIFFs are read, the file, what it says if
    anything, its frames, the fault after them or 0, and how many bytes are left where that is
    known."""
    one = [FRAME]
    yield "an example", 0, EXAMPLE, SAID, one, 0, 0
    for n in range(298):
        yield f"{n} bytes", 0, EXAMPLE[:n], SAID if n >= 284 else None, [], 52, 0
    for patch, is_opened, frames, fault in CHANGED:
        yield f"changed: {patch}", 0, changed(patch), SAID if is_opened else None, \
            [FRAME] * frames, fault, None
    yield "a format too long", 0, long_format(67108865), None, [], 53, None
    yield "a format that is not there", 0, long_format(67108864), None, [], 52, None
    yield "as FFmpeg writes", 0, file_of(PLAIN + OTHER, TWO), PLAIN_SAID, \
        [b"hello", b"frames"], 0, 24
    yield "no streams", 0, file_of(b"", b""), None, [], 51, None
    yield "a first stream without a format", 0, file_of(stream_of(0) + OTHER, b""), None, [], 51, None
    yield "a scale of 0", 0, file_of(stream_of(0, format_of(2)), b""), None, [], 50, None
    yield "a list after a stream", 0, after_list(b""), PLAIN_SAID, [], 0, None
    yield "a byte after it", 0, after_list(b"\0"), None, [], 52, None
    yield "a short format", 0, file_of(stream_of(1, format_of(2)[:39]), b""), None, [], 51, None
    for count in range(3):
        yield f"{count} more RIFFs", 1, EXAMPLE + count * MORE, SAID, one * (count + 1), 0, 0
    yield "the first movi alone", 0, EXAMPLE + 2 * MORE, SAID, one, 0, 76
    for n in range(1, 38):
        fault = 0 if n < 12 else 52
        yield f"{n} bytes of a RIFF", 1, EXAMPLE + MORE[:n], SAID, one, fault, 0
        yield f"{n} bytes of another", 1, EXAMPLE + MORE + MORE[:n], SAID, one * 2, fault, 0
    for after, count, fault in [
            (bytes(4), 1, 0), (MORE + bytes(4), 2, 0), (MORE + bytes(99), 2, 0),
            (b"RIFX" + MORE[4:], 1, 0), (MORE[:8] + b"AVI " + MORE[12:], 1, 88),
            (bytes.fromhex("1A45DFA3"), 1, 88), (bytes.fromhex("1A45DF"), 1, 0),
            (b"RIFF\3\0\0\0" + MORE[8:], 1, 50), (b"RIFF\x1f\0\0\0" + MORE[8:], 2, 52),
            (b"RIFF\x1d\0\0\0" + MORE[8:], 1, 52)]:
        yield f"after: {after}", 1, EXAMPLE + after, SAID, one * count, fault, None
    yield "sound first", 1, sound_first(1), PLAIN_SAID, [b"ours"], 0, None
    for name, is_ours in [(b"ffv1", 1), (b"FfV1", 1), (b"fFv1", 1), (b"FFv1", 1), (b"FFV1", 1),
                          (b"ffv\x11", 0), (b"\x06\x06\x161", 0), (b"FFVH", 0), (b"ffvh", 0)]:
        small = changed((188, name))
        said = SAID if is_ours else None
        yield f"named {name}", 1, small, said, one * is_ours, 0 if is_ours else 51, None
        if name != b"FFV1":
            yield f"named {name}, of the first movi", 0, small, None, [], 51, None
    yield "too few frames", 1, sound_first(2), PLAIN_SAID, [b"ours"], 52, None
    for end, length in [(40, 10), (41, 1), (49, 9), (50, 10), (51, 10), (0, 10)]:
        yield f"a record until {end}", 1, record_until(end), ended(length), [], 0, None


def answer(file, is_whole):
    """What a file says, if anything, its frames, the fault after them, and how many bytes are
    left."""
    data, said, frames, fault = io.BytesIO(file), None, [], 0
    try:
        head, rest = avi_format.open_avi(files.Source(data.read), bool(is_whole))
        said = (head.width, head.height, head.rate, head.scale, head.record)
        for frame in rest:
            frames.append(frame)
    except ffv1.Fault as refused:
        fault = refused.number
    return said, frames, fault, len(data.read())


def checks():
    """What the model answers, beside what is known."""
    yield "the length of the example", len(EXAMPLE), 298
    for name, is_whole, file, said, frames, fault, left in rows():
        found = answer(file, is_whole)
        wanted = said, frames, fault, found[3] if left is None else left
        yield f"AVI: {name}", found, wanted
