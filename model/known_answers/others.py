# SPDX-License-Identifier: MIT OR Apache-2.0
"""What is noted of further tracks of FFV1 video, which are not read. Counted by hand from the
formats, as in `noted.py`."""
from known_answers.avi_files import chunk, chunks
from known_answers.case import FRAME, MONO, Case, Step, avi, one
from known_answers.matroska import C, H, UNKNOWN, element, opened, segment, spell
from known_answers.matroska_tracks import ALL, BAD, BITMAP, CODEC, NUMBER, SOUND, TYPE, by_fourcc, entry
from known_answers.matroska_tracks import video
from known_answers.riffs import lines

ONE, TWO = "91 OtherVideo 1", "91 OtherVideo 2"


def of_tracks(*parts, of=segment):
    """A file whose Tracks have these."""
    return H + of(element("1654AE6B", *parts, length=8), C)


def others():
    """What each file's Tracks leave to be noted."""
    codec = entry(NUMBER, TYPE, "86FF")
    for name, parts, note in [
        ("none", [ALL], ""), ("sound", [ALL, SOUND], ""), ("one", [ALL, ALL], ONE),
        ("two, and sound", [SOUND, ALL, SOUND, ALL, ALL], TWO),
        ("one of Video for Windows", [ALL, by_fourcc(BITMAP)], ONE),
        ("one without a record", [ALL, video()], ONE),
        ("one that is compressed", [ALL, video("6D8080")], ONE),
        ("another codec", [ALL, entry(NUMBER, TYPE, element("86", b"V_VP9"))], ""),
        ("one whose codec can't be read", [ALL, codec, ALL], ONE),
        ("one after an element that can't be read", [ALL, spell(BAD), ALL], ""),
    ]:
        yield Case(f"others: {name}", {"in": of_tracks(*parts)}, [
            Step(["check", "in"], lines(1, "frames 1\n"), note=note),
            Step(["check", "--all", "in"], lines(1, "frames 1 faults 0\n"), note=note),
            Step(["check", "--notes-as-faults", "in"], lines(1, "frames 1\n"), note=note,
                 status=1 if note else 0)])


def beside_others():
    """Beside other notes, and where the end is not read."""
    file = H + spell("18538067", UNKNOWN, element("1654AE6B", ALL, ALL, length=8), C)
    yield Case("others beside what is open", {"in": file, "other": opened(C)}, [
        Step(["check", "in"], lines(1, "frames 1\n"), errors="ffv1: note 90 Open\n", note=ONE),
        Step(["check", "--frames", "1", "in"], lines(1, "frames 1\n")),
        Step(["unpack", "in", "out"], "frames 1\n", errors="ffv1: note 90 Open\n", note=ONE),
    ], {"out": MONO})


# ------------------------------------------------------------------------------ streams of an AVI

AVI = avi(one(), [FRAME])
STREAM = AVI[88:96 + int.from_bytes(AVI[92:96], "little")]       # its list strl


def with_streams(*streams):
    """That file with these lists at the end of its hdrl."""
    more, end = b"".join(streams), 20 + int.from_bytes(AVI[16:20], "little")
    file = bytearray(AVI[:end] + more + AVI[end:])
    for at in [4, 16]:
        file[at:at + 4] = (int.from_bytes(file[at:at + 4], "little") + len(more)).to_bytes(4, "little")
    return bytes(file)


def streams_of_avi():
    """Further lists strl."""
    long = chunks(b"strl", chunk(b"strh", STREAM[20:76], bytes(8)), STREAM[76:])
    for name, streams, note in [
        ("none", [], ""), ("one", [STREAM], ONE), ("two", [STREAM, STREAM], TWO),
        ("one of small letters", [STREAM.replace(b"FFV1", b"ffv1")], ONE),
        ("one with a header of 64 bytes", [long], ONE),
        ("sound", [STREAM.replace(b"vids", b"auds")], ""),
        ("another codec", [STREAM.replace(b"FFV1", b"HFYU")], ""),
        ("a format before its header", [chunks(b"strl", STREAM[76:], STREAM[12:76])], ""),
        ("103 bytes", [chunk(b"LIST", STREAM[8:111])], ""),
        ("104 bytes", [chunk(b"LIST", STREAM[8:112])], ONE),
    ]:
        yield Case(f"streams: {name}", {"in": with_streams(*streams)}, [
            Step(["check", "in"], lines(1, "frames 1\n"), note=note),
            Step(["check", "--all", "in"], lines(1, "frames 1 faults 0\n"), note=note)])


def shown():
    """The line that says so: after the rate, and before that of a Segment."""
    lines = "size 1x1\ncoder 1\ncolour YCbCr\nchroma mono\nslices 1x1\ncontexts 666\nec 0\nintra 1\n" \
        "rate {}\n{}held states 21312 samples 3 output 1 columns 1 offsets 1025\n"
    cost = "cost frame 0: ones 11 zeros 0 renormalisations 1\n"
    tracks = of_tracks(ALL, SOUND, ALL)
    for name, file, rate, beside, note in [
        ("no stream", with_streams(), "25/1", "", ""),
        ("two streams", with_streams(STREAM, STREAM), "25/1", f"note {TWO}\n", TWO),
        ("a track", tracks, "0/0", f"note {ONE}\nsegment {len(tracks) - 52}\n", ONE),
    ]:
        yield Case(f"shown: {name}", {"in": file}, [
            Step(["show", "in"], lines.format(rate, beside)),
            Step(["show", "--cost", "in"], lines.format(rate, beside) + cost, note=note)])


CASES = [others, beside_others, streams_of_avi, shown]
