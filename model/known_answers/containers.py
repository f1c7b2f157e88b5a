# SPDX-License-Identifier: MIT OR Apache-2.0
"""Files and their chunks, and configuration records: read, or refused."""
import struct

import ffv1
from known_answers.case import FRAME, Case, Step, avi, checked, one
from known_answers.shown import SHOWN


def numbers(*values):
    return struct.pack(f"<{len(values)}I", *values)


def chunk(name, data):
    return name + numbers(len(data)) + data + bytes(len(data) % 2)


def chunk_list(own, *chunks):
    return chunk(b"LIST", own + b"".join(chunks))


def riff(*chunks):
    return chunk(b"RIFF", b"AVI " + b"".join(chunks))


def spelled(size, text):
    """A chunk whose size is spelled so."""
    return text[:4] + numbers(size) + text[8:]


def format_of(record, width=1, height=1):
    return numbers(40, width, height) + struct.pack("<2H", 1, 24) + b"FFV1" + bytes(20) + record


STRH = b"vidsFFV1" + bytes(12) + numbers(1, 25) + bytes(28)
STRF = format_of(ffv1.write_record(one()))


def header(strh=STRH, strf=STRF):
    """The list of a stream with this header and this format."""
    strl = chunk_list(b"strl", chunk(b"strh", strh), chunk(b"strf", strf))
    return chunk_list(b"hdrl", strl)


GOOD = chunk(b"00dc", FRAME)
MOVI = chunk_list(b"movi", GOOD)
LINES = "frame 0: 5 bytes, 1 slices, 11 decisions\nframes 1\n"


# ------------------------------------------------------------------------------ files that are read

JUNK, INDEX = chunk(b"JUNK", b"abc"), chunk(b"idx1", b"abcd")
SOUND = chunk_list(b"strl", chunk(b"strh", b"auds"))
TWICE = chunk_list(b"hdrl", chunk_list(
    b"strl", JUNK, chunk(b"strf", STRF), chunk(b"strh", STRH), chunk(b"strf", b"x"),
    chunk(b"strh", b"x")))
READ = [
    ("a plain file", riff(header(), MOVI)),
    ("an index after movi", riff(header(), MOVI, INDEX)),
    ("other chunks", riff(JUNK, chunk_list(b"INFO", JUNK), header(), JUNK, MOVI)),
    ("chunks in movi", riff(header(), chunk_list(b"movi", JUNK, GOOD, chunk(b"ix00", b"a")))),
    ("a codec in small letters", riff(header(STRH, STRF.replace(b"FFV1", b"ffv1", 1)), MOVI)),
    ("a codec in letters of both kinds", riff(header(STRH, STRF.replace(b"FFV1", b"fFv1", 1)), MOVI)),
    ("a second list hdrl", riff(header(), chunk_list(b"hdrl", JUNK), MOVI)),
    ("a second stream", riff(chunk_list(b"hdrl", JUNK, header()[12:], SOUND), MOVI)),
    ("a second header and format", riff(TWICE, MOVI)),
]


def read_files():
    """Files that `pack` does not write, and that are read."""
    for name, file in READ:
        yield checked(name, file, LINES)


# --------------------------------------------------------------------------- files that are refused

def long_frame(size):
    """A file whose one frame says that it has so many bytes, and ends after it."""
    movi = spelled(2147483000, chunk_list(b"movi", spelled(size, chunk(b"00dc", b""))))
    return spelled(2147483647, riff(header(), movi))


def long_format(size):
    """A file whose format says that it has so many bytes, and ends after it."""
    strf = spelled(size, chunk(b"strf", b""))
    strl = spelled(2147480000, chunk_list(b"strl", chunk(b"strh", STRH), strf))
    return spelled(2147483647, riff(spelled(2147483000, chunk_list(b"hdrl", strl))))


PLAIN = riff(header(), MOVI)
RATE_ALONE = STRH[:20] + numbers(0, 25) + STRH[28:]
SCALE_ALONE = STRH[:20] + numbers(1, 0) + STRH[28:]
REFUSED = [
    ("no file", b"", "52 Truncated"),
    ("11 bytes", PLAIN[:11], "52 Truncated"),
    ("RIFX", b"RIFX" + PLAIN[4:], "50 NotAvi"),
    ("a form that is not AVI", PLAIN[:8] + b"AVIX" + PLAIN[12:], "50 NotAvi"),
    ("no movi", riff(header()), "50 NotAvi"),
    ("nothing in RIFF", riff(), "50 NotAvi"),
    ("movi first", riff(MOVI, header()), "51 NoFfv1"),
    ("no stream", riff(chunk_list(b"hdrl"), MOVI), "51 NoFfv1"),
    ("sound", riff(header(b"auds" + STRH[4:]), MOVI), "51 NoFfv1"),
    ("two of sound", riff(chunk_list(b"hdrl", SOUND, SOUND), MOVI), "51 NoFfv1"),
    ("another codec", riff(header(STRH, STRF.replace(b"FFV1", b"FFVH", 1)), MOVI), "51 NoFfv1"),
    ("a short header", riff(header(STRH[:55]), MOVI), "51 NoFfv1"),
    ("a short format", riff(header(STRH, STRF[:39]), MOVI), "51 NoFfv1"),
    ("a rate alone", riff(header(RATE_ALONE), MOVI), "50 NotAvi"),
    ("a scale alone", riff(header(SCALE_ALONE), MOVI), "50 NotAvi"),
    ("a rate alone, and no video", riff(header(b"auds" + RATE_ALONE[4:]), MOVI), "51 NoFfv1"),
    ("a list without a name", riff(chunk(b"LIST", b""), header(), MOVI), "50 NotAvi"),
    ("a chunk that passes its list", riff(spelled(10 ** 6, header()), MOVI), "52 Truncated"),
    ("bytes after a chunk", riff(header(), b"1234567"), "52 Truncated"),
    ("a list in movi", riff(header(), chunk_list(b"movi", chunk_list(b"abcd", GOOD))), "50 NotAvi"),
    ("a frame that passes movi", riff(header(), chunk_list(b"movi", spelled(2 ** 32 - 1, GOOD))),
     "52 Truncated"),
    ("a frame too long", long_frame(1073741825), "53 ChunkTooLong"),
    ("a frame that is not there", long_frame(1073741824), "52 Truncated"),
    ("a format too long", long_format(67108865), "53 ChunkTooLong"),
    ("a format that is not there", long_format(67108864), "52 Truncated"),
]


def refused_files():
    """Files that are refused before a frame."""
    for name, file, fault in REFUSED:
        yield checked(name, file, "", fault)


def beginnings():
    """A file that is cut off: its head is there or not, and then its frames are not."""
    file = avi(one(), [FRAME])
    movi = file.index(b"movi") + 4
    for length in [*range(0, movi - 12, 17), *range(movi - 12, len(file))]:
        show = Step(["show", "in"], SHOWN) if length >= movi else \
            Step(["show", "in"], "", "52 Truncated")
        yield Case(f"{length} bytes of a file", {"in": file[:length]}, [
            show, Step(["check", "in"], "", "52 Truncated"),
            Step(["unpack", "in", "out"], "", "52 Truncated")], {"out": b""})


# ------------------------------------------------------------------------------------------ records

def of_record(record, width=1, height=1):
    """A file with this record, and these sizes in its format."""
    return riff(header(STRH, format_of(record, width, height)), MOVI)


# what is changed of a configuration, fault
CONFIGURATIONS = [
    ({"width": 64, "columns": 33}, "11 Grid"), ({"width": 31, "columns": 32}, "11 Grid"),
    ({"rct": True}, "13 Subsampling"), ({"chroma": True, "log2_h": 3}, "13 Subsampling"),
    ({"log2_v": 1}, "13 Subsampling"), ({"extra": True}, "25 ExtraPlane"),
    ({"coder": 2, "deltas": [0] * 127 + [122] + [0] * 127}, "1 StateTable"),
    ({"coder": 3}, "19 Coder"), ({"ec": 2}, "23 Ec"), ({"intra": 2}, "24 Intra"),
    ({"sets": [[[1, 1, 3, 7, 11, 105]] * 5]}, "6 Contexts"), ({"sets": []}, "14 Sets"),
    ({"sets": [ffv1.SMALL] * 9}, "14 Sets"), ({"sets": [[[128]] * 4 + [[127, 2]]]}, "5 Runs"),
    ({"width": 7, "columns": 2, "chroma": True, "log2_h": 1}, "12 ChromaEdge"),
]


def record_faults():
    """Records that are refused."""
    record = ffv1.write_record(one(ec=1))
    for bit in range(0, 8 * len(record), 11):
        data = bytearray(record)
        data[bit // 8] ^= 128 >> bit % 8
        yield checked(f"record with bit {bit} flipped", of_record(bytes(data)), "", "16 Parity")
    for length in range(5):
        yield checked(f"record of {length} bytes", of_record(bytes(length)), "", "15 Short")
    for width, height in [(0, 1), (1, 0), (8193, 1), (4294967295, 1), (1, 4294967295)]:
        yield checked(f"size {width} by {height}", of_record(record, width, height), "", "10 Size")
    for changes, fault in CONFIGURATIONS:
        config = one(**changes)
        yield checked(f"record of {list(changes)}",
                      of_record(ffv1.write_record(config), config.width), "", fault)


CASES = [read_files, refused_files, beginnings, record_faults]
