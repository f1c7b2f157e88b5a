# SPDX-License-Identifier: MIT OR Apache-2.0
"""Files of AVI that are damaged, and what is given of them: frames, and faults that are told, each with
the bytes before its chunk. Counted by hand from the formats, as in `offsets.py`: chunks of
frames have 14 bytes, and so have the chunks of 5 or 6 bytes.
"""
import avi_format
import damaged_avi as model
import files
from damaged_files import Told
from known_answers.containers import GOOD, JUNK, chunk, chunk_list, header, numbers, riff, spelled
from known_answers.riffs import FIRST, further, streams

FRAME = None
BAD, CUT, LONG, OTHER = "50 NotAvi", "52 Truncated", "53 ChunkTooLong", "88 Another"
M = 12 + len(header()) + 12         # the first chunk of movi
EMPTY = chunk(b"00dc", b"")
INDEX = chunk(b"idx1", b"".join(b"00dc" + numbers(16, 4 + 14 * k, 5) for k in range(3)))
STANDARD = chunk(b"ix00", numbers(0x01000002, 1) + b"00dc" + numbers(16, 0, 0) + numbers(8, 5))
WITH_INDEX = riff(header(), chunk_list(b"movi", GOOD, GOOD, GOOD), INDEX)
DMLH = streams(total=numbers(2))
D = 12 + len(DMLH) + 12


def movi(*chunks):
    return riff(header(), chunk_list(b"movi", *chunks))


def named(name):
    """A frame whose chunk is named so."""
    return name + GOOD[4:]


def resized(by, file=None):
    """A file whose movi says so many bytes more."""
    file = file or movi(GOOD, GOOD, GOOD)
    at = file.index(b"movi") - 4
    size = int.from_bytes(file[at:at + 4], "little") + by
    return file[:at] + numbers(size) + file[at + 4:]


def grown(by, file):
    """A file whose RIFF says so many bytes more."""
    return spelled(int.from_bytes(file[4:8], "little") + by, file)


SIZE_OF_3 = spelled(3, further(chunk_list(b"movi", GOOD)))
RIFE = b"RIFE" + further(chunk_list(b"movi", GOOD))[4:]
END = len(movi(GOOD))
ROWS = [
    ("another name of a frame", movi(GOOD, named(b"00dd"), GOOD), [FRAME, (M + 14, BAD), FRAME]),
    ("the name of another stream", movi(GOOD, named(b"01dc"), GOOD), [FRAME, (M + 14, BAD), FRAME]),
    ("a bitmap after it", movi(named(b"p0dc"), named(b"00db")), [(M, BAD), FRAME]),
    ("two names", movi(GOOD, named(b"00dd"), GOOD, named(b"p0dc"), GOOD),
     [FRAME, (M + 14, BAD), FRAME, (M + 42, BAD), FRAME]),
    ("another list", movi(GOOD, chunk_list(b"xyz ", GOOD)), [FRAME, (M + 14, BAD), FRAME]),
    ("a list without a name", movi(chunk(b"LIST", b"ab"), GOOD), [(M, BAD), FRAME]),
    ("a size too great", movi(GOOD, spelled(65541, GOOD), GOOD), [FRAME, (M + 14, CUT), FRAME]),
    ("a size of 2 GiB", movi(GOOD, spelled(2 ** 31, GOOD), GOOD), [FRAME, (M + 14, CUT), FRAME]),
    ("JUNK too great", movi(GOOD, spelled(65541, JUNK), GOOD), [FRAME, (M + 14, CUT), FRAME]),
    ("JUNK too small", movi(GOOD, spelled(1, JUNK), GOOD), [FRAME, (M + 24, BAD), FRAME]),
    ("bytes between chunks", movi(GOOD, bytes(6), GOOD, GOOD), [FRAME, (M + 14, BAD), FRAME, FRAME]),
    ("an odd number of bytes", movi(GOOD, bytes(5), GOOD), [FRAME, (M + 14, BAD), FRAME, (M + 33, CUT)]),
    ("the padding is missing", movi(GOOD[:13], GOOD, GOOD),
     [FRAME, (M + 14, BAD), FRAME, (M + 41, CUT)]),
    ("bytes of JUNK are missing", movi(JUNK[:10], GOOD, GOOD), [(M + 12, BAD), FRAME]),
    ("an empty frame after damage", movi(named(b"00dd"), EMPTY, GOOD), [(M, BAD), FRAME]),
    ("an empty frame after a frame", movi(named(b"00dd"), GOOD, JUNK), [(M, BAD), FRAME]),
    ("a frame in junk", movi(named(b"00dd"), chunk(b"JUNK", GOOD), GOOD), [(M, BAD), FRAME, FRAME]),
    ("movi ends in a header", resized(-22), [FRAME, (M + 14, CUT), FRAME, FRAME]),
    ("movi ends in a name", resized(-26), [FRAME, (M + 14, CUT), FRAME, FRAME]),
    ("movi ends in a frame", resized(-16), [FRAME, (M + 14, CUT), FRAME]),
    ("movi ends in the padding of a frame", resized(-15), [FRAME, (M + 14, CUT), FRAME]),
    ("movi ends after a frame", resized(-14), [FRAME, FRAME, (M + 28, BAD)]),
    ("movi ends after the first one", resized(-28), [FRAME, (M + 14, BAD), (M + 28, BAD)]),
    ("movi takes in its index", resized(56, WITH_INDEX), [FRAME, FRAME, FRAME, (M + 42, BAD)]),
    ("movi takes in half its index", resized(30, WITH_INDEX), [FRAME, FRAME, FRAME, (M + 42, BAD)]),
    ("RIFF ends in its index", grown(-20, WITH_INDEX), [FRAME, FRAME, FRAME, (M + 42, CUT)]),
    ("a frame before an index", riff(header(), chunk_list(b"movi", named(b"00dd")), INDEX), [(M, BAD)]),
    ("a frame before an index of OpenDML",
     riff(header(), chunk_list(b"movi", named(b"00dd"), STANDARD, GOOD), INDEX), [(M, BAD), FRAME]),
    ("an index of OpenDML that passes movi",
     movi(GOOD, spelled(65, STANDARD), GOOD), [FRAME, (M + 14, CUT)]),
    ("frames behind movi", riff(header(), chunk_list(b"movi", GOOD), GOOD, JUNK, named(b"00db")),
     [FRAME, (M + 14, BAD), (M + 40, BAD)]),
    ("JUNK behind movi that passes RIFF",
     riff(header(), chunk_list(b"movi", GOOD), spelled(99, JUNK), GOOD), [FRAME, (M + 14, CUT), FRAME]),
    ("a list behind movi without a name",
     riff(header(), chunk_list(b"movi", GOOD), chunk(b"LIST", b""), GOOD), [FRAME, (M + 14, BAD), FRAME]),
    ("seven bytes at the end of RIFF", riff(header(), chunk_list(b"movi", GOOD), bytes(7)),
     [FRAME, (M + 14, CUT)]),
    ("a further RIFF of three bytes", movi(GOOD) + SIZE_OF_3, [FRAME, (END, BAD), FRAME]),
    ("a chunk in a further RIFF", movi(GOOD) + further(chunk_list(b"movi", named(b"00dd"), GOOD)),
     [FRAME, (END + 24, BAD), FRAME]),
    ("and a further RIFF after it",
     movi(named(b"00dd"), GOOD) + further(chunk_list(b"movi", GOOD), INDEX) + further(chunk_list(
         b"movi", named(b"00dd"), GOOD)), [(M, BAD), FRAME, FRAME, (M + 146, BAD), FRAME]),
    ("another file", movi(GOOD) + FIRST, [FRAME, (END, OTHER)]),
    ("damage, and another file", movi(named(b"00dd"), GOOD) + FIRST, [(M, BAD), FRAME, (M + 28, OTHER)]),
    ("cut in a frame", movi(GOOD, GOOD)[:-3], [FRAME, (M + 14, CUT)]),
    ("cut in its padding", movi(GOOD, GOOD)[:-1], [FRAME, (M + 14, CUT)]),
    ("cut in a name", movi(GOOD, GOOD)[:-11], [FRAME, (M + 14, CUT)]),
    ("cut after a frame", movi(GOOD, GOOD)[:-14], [FRAME, (M + 14, CUT)]),
    ("damage, and cut in a frame", movi(named(b"00dd"), GOOD, GOOD)[:-3],
     [(M, BAD), FRAME, (M + 28, CUT)]),
    ("damage, and cut in the frame that is found", movi(named(b"00dd"), GOOD)[:-3],
     [(M, BAD), (M + 14, CUT)]),
    ("damage, and cut in a name", movi(named(b"00dd"), GOOD, GOOD)[:-11],
     [(M, BAD), FRAME, (M + 28, CUT)]),
    ("damage, and cut in its own header", movi(GOOD, named(b"00dd"))[:-7], [FRAME, (M + 14, CUT)]),
    ("damage, and cut behind it", movi(GOOD, named(b"00dd"))[:-6], [FRAME, (M + 14, BAD)]),
    ("fewer frames than dmlh says", riff(DMLH, chunk_list(b"movi", GOOD)), [FRAME, (D + 14, CUT)]),
    ("and a frame at fault", riff(DMLH, chunk_list(b"movi", GOOD, named(b"00dd"))),
     [FRAME, (D + 14, BAD)]),
    ("another name of a RIFF that dmlh wants", riff(DMLH, chunk_list(b"movi", GOOD)) + RIFE,
     [FRAME, (D + 14, CUT), FRAME]),
    ("another file where a frame is owed", riff(DMLH, chunk_list(b"movi", GOOD)) + FIRST,
     [FRAME, (D + 14, OTHER)]),
    ("an open movi with damage", spelled(0, riff(header(), spelled(0, chunk_list(
        b"movi", GOOD, named(b"00dd"), GOOD)))), [FRAME, (M + 14, BAD), FRAME]),
    ("an open movi cut in a frame", spelled(0, riff(header(), spelled(0, chunk_list(
        b"movi", GOOD, GOOD))))[:-3], [FRAME, (M + 14, CUT)]),
]


def given(file):
    """What is given of a file."""
    at = [0]

    def read(count):
        at[0] += count
        return file[at[0] - count:at[0]]
    for item in avi_format.open_avi(files.Source(read), True, model.items)[1]:
        yield (item.offset, str(item.fault)) if isinstance(item, Told) else FRAME


def checks():
    for name, file, items in ROWS:
        yield f"damaged AVI: {name}", list(given(file)), items
