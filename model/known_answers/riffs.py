# SPDX-License-Identifier: MIT OR Apache-2.0
"""Files of more than one RIFF and of more than one stream, and records that end where biSize says."""
import ffv1
from known_answers.case import FRAME, Case, Step, checked, one
from known_answers.containers import GOOD, INDEX, JUNK, MOVI, SOUND, STRF, STRH, chunk, chunk_list
from known_answers.containers import header, numbers, riff, spelled


def further(*chunks):
    """A RIFF after the first, of OpenDML."""
    return chunk(b"RIFF", b"AVIX" + b"".join(chunks))


def lines(count, end=""):
    """What `check` prints of so many frames."""
    return "".join(f"frame {k}: 5 bytes, 1 slices, 11 decisions\n" for k in range(count)) + end


def whole(count):
    return lines(count, f"frames {count}\n")


def streams(*before, total=None):
    """The list hdrl of these streams, the one of FFV1 after them, and, where the frames of the
    whole file are counted, that count in so many bytes."""
    counted = [] if total is None else [chunk_list(b"odml", chunk(b"dmlh", total))]
    return chunk_list(b"hdrl", *before, header()[12:], *counted)


FIRST, MORE = riff(header(), MOVI, INDEX), further(MOVI)
SECOND_DMLH = chunk_list(b"odml", chunk(b"dmlh", numbers(9)))
SHORT_DMLH = chunk_list(b"odml", JUNK, chunk(b"dmlh", b"abc"), chunk(b"dmlh", numbers(1)))
FIRST_COUNTS = chunk_list(b"hdrl", header()[12:], SHORT_DMLH, SECOND_DMLH)
FRAME_OF_1, BITMAP = chunk(b"01dc", FRAME), chunk(b"00db", FRAME)
REC, EMPTY_REC = chunk_list(b"rec ", GOOD), chunk_list(b"rec ")


# ---------------------------------------------------------------------------------------- all RIFFs

READ = [
    ("one more RIFF", FIRST + MORE, 2),
    ("two more", FIRST + MORE + MORE, 3),
    ("a RIFF with an index", FIRST + further(chunk(b"ix00", b"abcd"), MOVI, INDEX, JUNK), 2),
    ("a RIFF without movi", FIRST + further() + further(JUNK) + MORE, 2),
    ("a movi without frames", FIRST + further(chunk_list(b"movi", JUNK)), 1),
    ("two movi in a RIFF", riff(header(), MOVI, INDEX, MOVI) + further(MOVI, MOVI), 4),
    ("a list hdrl in a further RIFF", FIRST + further(chunk_list(b"hdrl", b"x"), MOVI), 2),
    ("as many frames as dmlh says", riff(streams(total=numbers(2)), MOVI) + MORE, 2),
    ("more frames than dmlh says", riff(streams(total=numbers(1)), MOVI) + MORE, 2),
    ("dmlh says 0", riff(streams(total=numbers(0)), MOVI) + MORE, 2),
    ("dmlh of 248 bytes", riff(streams(total=numbers(1) + bytes(244)), MOVI), 1),
    ("the first dmlh with a number counts", riff(FIRST_COUNTS, MOVI), 1),
]
EBML, EDGES = bytes.fromhex("1A45DFA3"), [len(FIRST), len(FIRST + MORE)]
NOTED = [
    ("a byte", FIRST + b"x", 1, EDGES[0]),
    ("three zero bytes", FIRST + bytes(3), 1, EDGES[0]),
    ("four zero bytes after all", FIRST + MORE + bytes(4), 2, EDGES[1]),
    ("a name alone", FIRST + b"RIFF", 1, EDGES[0]),
    ("another name", FIRST + b"RIFX" + MORE[4:], 1, EDGES[0]),
    ("eleven bytes of another form", FIRST + FIRST[:11], 1, EDGES[0]),
    ("many zero bytes", FIRST + bytes(100000), 1, EDGES[0]),
    ("three bytes of EBML", FIRST + EBML[:3], 1, EDGES[0]),
]
CUT = [
    ("another form", FIRST + FIRST, 1, "88 Another"),
    ("another form after all", FIRST + MORE + FIRST, 2, "88 Another"),
    ("twelve bytes of another form", FIRST + FIRST[:8] + b"WAVE", 1, "88 Another"),
    ("four bytes of EBML", FIRST + EBML, 1, "88 Another"),
    ("EBML", FIRST + EBML + bytes(9), 1, "88 Another"),
    ("another file where a frame is owed", riff(streams(total=numbers(2)), MOVI) + FIRST, 1,
     "88 Another"),
    ("a size of 3", FIRST + spelled(3, MORE), 1, "50 NotAvi"),
    ("a RIFF of odd size", FIRST + spelled(len(MORE) - 7, MORE) + bytes(2), 2, "52 Truncated"),
    ("a RIFF that is not whole", spelled(10 ** 6, FIRST), 1, "52 Truncated"),
    ("a further RIFF that is not whole", FIRST + spelled(10 ** 6, MORE), 2, "52 Truncated"),
    ("a chunk that passes its RIFF", riff(header(), MOVI, spelled(10 ** 6, JUNK)), 1,
     "52 Truncated"),
    ("a list without a name", FIRST + further(chunk(b"LIST", b"")), 1, "50 NotAvi"),
    ("a second movi that is not whole", riff(header(), MOVI, chunk_list(b"movi", b"x")), 1,
     "52 Truncated"),
    ("fewer frames than dmlh says", riff(streams(total=numbers(3)), MOVI) + MORE, 2,
     "52 Truncated"),
]


def all_riffs():
    """The frames of all RIFFs, and why a file has none after them."""
    for name, file, count in READ:
        yield checked(name, file, whole(count))
    for name, file, count, byte in NOTED:
        yield checked(name, file, whole(count), note=f"94 After byte {byte}")
    for name, file, count, fault in CUT:
        yield checked(name, file, lines(count), fault)


def cut_riffs():
    """A file of three RIFFs that is cut off: at the edge of a RIFF it reads as the frames before,
    but where dmlh says how many there are, and then up to eleven bytes are no RIFF."""
    for total in [None, numbers(3)]:
        first = riff(streams(total=total), MOVI)
        file = first + MORE + MORE
        edges = [len(first), len(first + MORE), len(file)]
        for length in range(len(first), len(file) + 1):
            frames, name = sum(edge <= length for edge in edges), f"{length} bytes of three RIFFs"
            if length in edges and (total is None or length == len(file)):
                yield checked(name, file[:length], whole(frames))
            elif total is None and any(edge < length < edge + 12 for edge in edges):
                yield checked(name, file[:length], whole(frames),
                              note=f"94 After byte {edges[frames - 1]}")
            else:
                yield checked(name, file[:length], lines(frames), "52 Truncated")


# ------------------------------------------------------------------------------- streams and records

RECORD = ffv1.write_record(one())
BROKEN = chunk_list(b"strl", chunk(b"strh", STRH), chunk(b"strf", b"x"))


def named(stream, count):
    """A movi of which this stream has the frame, and others of so many their chunks; with what else
    may stand there."""
    frame, palette = chunk(b"%02ddc" % stream, FRAME), chunk(b"%02dpc" % stream, b"ab")
    others = [chunk(b"%02d" % other + kind, b"a") for other in {0, stream + 1, count - 1}
              for kind in (b"wb", b"dc") if other != stream and other < count]
    return chunk_list(b"movi", *others, palette, JUNK, chunk(b"ix00", b"a"), frame, *others)


def ending(size, more):
    """A list hdrl whose format says this biSize and has more bytes after the record."""
    return header(STRH, numbers(size) + STRF[4:] + more)


OF_STREAMS = [
    ("sound first", riff(streams(SOUND), named(1, 2)), whole(1), ""),
    ("sound first, and frames of 00dc", riff(streams(SOUND), MOVI), "", "70 NoFrames"),
    ("another video first", riff(streams(BROKEN), named(1, 2)), whole(1), ""),
    ("stream 12", riff(streams(*[SOUND] * 12), named(12, 13)), whole(1), ""),
    ("stream 99", riff(streams(*[SOUND] * 99), named(99, 100)), whole(1), ""),
    ("stream 100", riff(streams(*[SOUND] * 100), MOVI), "", "51 NoFfv1"),
    ("sound behind, with a second stream", riff(streams(), chunk_list(b"hdrl", SOUND), named(0, 2)),
     whole(1), ""),
]
CLOSED = [
    ("both names of frames", riff(header(), chunk_list(b"movi", GOOD, BITMAP)), whole(2), ""),
    ("frames of a stream that is not there", riff(header(), chunk_list(b"movi", GOOD, FRAME_OF_1)),
     lines(1), "50 NotAvi"),
    ("sound of the stream", riff(header(), chunk_list(b"movi", GOOD, chunk(b"00wb", b"a"))),
     lines(1), "50 NotAvi"),
    ("other letters", riff(header(), chunk_list(b"movi", GOOD, chunk(b"00dd", FRAME))), lines(1),
     "50 NotAvi"),
    ("an index without a number", riff(header(), chunk_list(b"movi", GOOD, chunk(b"ixab", b"a"))),
     lines(1), "50 NotAvi"),
    ("an index of chunks in movi", riff(header(), chunk_list(b"movi", GOOD, INDEX)), lines(1),
     "50 NotAvi"),
    ("a name that may not stand there, of a size that passes movi", riff(header(), chunk_list(
        b"movi", GOOD, b"00xx" + numbers(2 ** 31))), lines(1), "50 NotAvi"),
    ("a frame of a size that passes movi", riff(header(), chunk_list(
        b"movi", GOOD, b"00dc" + numbers(2 ** 31))), lines(1), "52 Truncated"),
    ("sound of a size that passes movi", riff(streams(SOUND), chunk_list(
        b"movi", chunk(b"01dc", FRAME), b"00wb" + numbers(2 ** 31))), lines(1), "52 Truncated"),
    ("a list that passes movi", riff(header(), chunk_list(
        b"movi", GOOD, b"LIST" + numbers(2 ** 31))), lines(1), "52 Truncated"),
    ("a list without a name in movi", riff(header(), chunk_list(b"movi", GOOD, spelled(3, REC))),
     lines(1), "50 NotAvi"),
    ("another list in movi", riff(header(), chunk_list(b"movi", GOOD, chunk_list(b"xyz ", GOOD))),
     lines(1), "50 NotAvi"),
    ("lists rec", riff(header(), chunk_list(b"movi", REC, chunk_list(b"rec ", GOOD, GOOD))),
     whole(3), ""),
    ("a list rec and a frame", riff(header(), chunk_list(b"movi", REC, GOOD)), whole(2), ""),
    ("a list rec in a further RIFF", FIRST + further(chunk_list(b"movi", REC)), whole(2), ""),
    ("a list rec of no chunks", riff(header(), chunk_list(b"movi", EMPTY_REC, GOOD)), whole(1), ""),
    ("a list rec in a list rec", riff(header(), chunk_list(b"movi", chunk_list(b"rec ", REC))),
     whole(1), ""),
    ("a frame that passes its list rec", riff(header(), chunk_list(b"movi", spelled(6, REC), GOOD)),
     whole(2), ""),
    ("a list rec that has all of movi", riff(header(), chunk_list(b"movi", spelled(32, REC), GOOD)),
     whole(2), ""),
    ("a list rec that passes movi", riff(header(), chunk_list(b"movi", spelled(33, REC), GOOD)),
     "", "52 Truncated"),
    ("a chunk in a list rec that may not stand in movi", riff(header(), chunk_list(
        b"movi", chunk_list(b"rec ", GOOD, FRAME_OF_1))), lines(1), "50 NotAvi"),
    ("a list rec after movi", riff(header(), MOVI, EMPTY_REC), whole(1), ""),
    ("a frame after movi", riff(header(), MOVI, GOOD), lines(1), "50 NotAvi"),
    ("a bitmap after movi", riff(header(), MOVI, BITMAP), lines(1), "50 NotAvi"),
    ("a frame in a further RIFF", FIRST + further(GOOD, MOVI), lines(1), "50 NotAvi"),
    ("a frame of another stream after movi", riff(streams(SOUND), named(1, 2), GOOD), whole(1), ""),
]
MOST = 2 ** 32 - 1
OPEN_TWO = spelled(0, chunk_list(b"movi", GOOD, GOOD))
OPEN = spelled(0, riff(header(), OPEN_TWO))


def unsized(size, movi_size, *chunks):
    """A RIFF and a movi of two frames, whose sizes are spelled so, and chunks after them."""
    two = chunk_list(b"movi", GOOD, GOOD)
    file = riff(header(), two if movi_size is None else spelled(movi_size, two), *chunks)
    return file if size is None else spelled(size, file)


# sizes that are not known: how many frames are read, and the fault after them
OPEN_READ = [
    *[(f"a RIFF of size {size} with a movi of size {movi}", unsized(size, movi), 2)
      for size in (None, 0, MOST) for movi in (None, 0, MOST) if (size, movi) != (None, None)],
    ("an index after an open movi", unsized(0, 0, INDEX), 2),
    ("an index after a movi in an open RIFF", unsized(0, None, INDEX), 2),
    ("an index, and chunks after it", unsized(MOST, MOST, INDEX, JUNK), 2),
    ("an open movi of no frames", spelled(0, riff(header(), spelled(0, chunk_list(b"movi")))), 0),
    ("an open movi up to a further RIFF", OPEN + MORE, 3),
    ("an open RIFF up to a further RIFF", unsized(0, None, JUNK) + MORE, 3),
    ("an index, and then a further RIFF", unsized(0, 0, INDEX) + MORE + MORE, 4),
    ("a further RIFF that is open", FIRST + spelled(0, further(OPEN_TWO)), 3),
    ("two that are", FIRST + spelled(0, further(OPEN_TWO)) + spelled(MOST, further(MOVI)), 4),
    ("two that have other sizes", OPEN + spelled(3, further(MOVI)) + spelled(10 ** 6, MORE), 4),
    ("two movi in an open RIFF", spelled(0, riff(header(), MOVI, MOVI)), 2),
    ("an open movi after another in an open RIFF", unsized(0, None, OPEN_TWO), 4),
    ("a list rec in an open movi", spelled(0, riff(header(), spelled(0, chunk_list(
        b"movi", REC, GOOD)))), 2),
    ("a list rec in it, whatever its size", spelled(0, riff(header(), spelled(0, chunk_list(
        b"movi", spelled(MOST, REC), GOOD)))), 2),
    ("an open movi in a RIFF that would end in it", spelled(240, unsized(None, 0)), 2),
    ("as many frames as dmlh says in an open movi", spelled(0, riff(
        streams(total=numbers(2)), OPEN_TWO)), 2),
]
OPEN_CUT = [
    ("an open movi that is cut in a frame", OPEN[:-3], 1, "52 Truncated"),
    ("in a name", OPEN + b"00d", 2, "52 Truncated"),
    ("in a size", OPEN + GOOD[:5], 2, "52 Truncated"),
    ("an open movi with a chunk that may not stand there", OPEN + JUNK + FRAME_OF_1, 2, "50 NotAvi"),
    ("fewer frames than dmlh says in an open movi", spelled(0, riff(
        streams(total=numbers(3)), OPEN_TWO)), 2, "52 Truncated"),
    ("a further RIFF of another form behind an open movi", OPEN + FIRST, 2, "88 Another"),
    ("a further RIFF that is cut in its form behind one", OPEN + FIRST[:11], 2, "52 Truncated"),
    ("a frame after an open movi's index", unsized(0, 0, INDEX, GOOD), 2, "50 NotAvi"),
    ("an open RIFF without movi", spelled(0, riff(header(), JUNK)), 0, "52 Truncated"),
    ("a list of size 0 before movi", riff(header(), spelled(0, chunk_list(b"abcd")), MOVI), 0,
     "50 NotAvi"),
    ("a list of the greatest size before movi", spelled(MOST, riff(header(), spelled(
        MOST, chunk_list(b"abcd")), MOVI)), 0, "50 NotAvi"),
    ("a list of size 0 that has no room for its own name", riff(header(), b"LIST" + bytes(4)), 0,
     "52 Truncated"),
    ("a list of size 0 in an open RIFF", unsized(0, None, spelled(0, chunk_list(b"abcd"))), 2,
     "50 NotAvi"),
    ("a list of the greatest size in an open RIFF", unsized(0, None, spelled(MOST, chunk_list(
        b"abcd"))), 2, "50 NotAvi"),
    ("an open movi after the first in a RIFF that is not", riff(header(), MOVI, OPEN_TWO), 1,
     "50 NotAvi"),
    ("one of the greatest size", riff(header(), MOVI, spelled(MOST, OPEN_TWO)), 1, "52 Truncated"),
    ("a list of size 0 that is no movi", riff(header(), MOVI, spelled(0, chunk_list(b"abcd"))), 1,
     "50 NotAvi"),
    ("a list of the greatest size that is no movi", riff(header(), MOVI, spelled(MOST, chunk_list(
        b"abcd"))), 1, "52 Truncated"),
    ("a RIFF of size 3", spelled(3, FIRST), 0, "50 NotAvi"),
]


def open_riffs():
    """Files with a RIFF, or a movi, whose size is not known."""
    for name, file, count in OPEN_READ:
        output, fault = (whole(count), "") if count else ("", "70 NoFrames")
        yield checked(name, file, output, fault, note="90 Open" if count else "")
    for name, file, count, fault in OPEN_CUT:
        yield checked(name, file, lines(count), fault)


OF_RECORDS = [
    ("the record ends where biSize says", ending(40 + len(RECORD), b"\0"), whole(1), ""),
    ("some bytes before it", ending(40 + len(RECORD), b"abc"), whole(1), ""),
    ("biSize inside the record", ending(44, b""), "", "15 Short"),
    ("biSize of the chunk", ending(40 + len(RECORD), b""), whole(1), ""),
    ("biSize above the chunk", ending(41 + len(RECORD), b""), whole(1), ""),
    ("the greatest biSize", ending(2 ** 32 - 1, b""), whole(1), ""),
    ("biSize of 0", ending(0, b""), whole(1), ""),
    ("biSize of 40 and a byte more", ending(40, b"\1"), "", "16 Parity"),
]


def streams_and_records():
    """Which stream counts, and where its record ends."""
    for name, file, output, fault in OF_STREAMS + CLOSED:
        yield checked(name, file, output, fault)
    yield Case("the second of two", {"in": riff(streams(header()[12:]), named(0, 2))}, [
        Step(["check", "in"], whole(1), note="91 OtherVideo 1")])
    for name, hdrl, output, fault in OF_RECORDS:
        yield checked(name, riff(hdrl, MOVI), output, fault)


CASES = [all_riffs, cut_riffs, streams_and_records, open_riffs]
