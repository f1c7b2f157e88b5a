# SPDX-License-Identifier: MIT OR Apache-2.0
"""Empty chunks of an AVI: each is a frame that repeats the one before it, has a number, and is noted.
Counted by hand from the format."""
import hashlib

import ffv1
from known_answers.case import ANY, FRAME, Case, Step, avi, checked, one, ppm, y4m
from known_answers.containers import GOOD, chunk, chunk_list, header, numbers, riff
from known_answers.riffs import BITMAP, FIRST, further, streams

EMPTY = chunk(b"00dc", b"")
WHITE = bytes.fromhex("FE18000002")     # a picture of 255, beside FRAME, one of 0
BLACK_MD5, WHITE_MD5 = (hashlib.md5(picture).hexdigest() for picture in (b"\0", b"\xff"))


def lines(frames):
    """What `check` prints of frames, each given by its decisions, and 0 if it is not coded."""
    told = [f"5 bytes, 1 slices, {coded} decisions" if coded else "again" for coded in frames]
    return "".join(f"frame {k}: {text}\n" for k, text in enumerate(told)) + f"frames {len(told)}\n"


def movi(*chunks):
    return riff(header(), chunk_list(b"movi", *chunks))


FILES = [
    ("between two", movi(GOOD, EMPTY, GOOD), [11, 0, 11]),
    ("before the first", movi(EMPTY, GOOD), [0, 11]),
    ("two at the end", movi(GOOD, EMPTY, EMPTY), [11, 0, 0]),
    ("alone", movi(EMPTY), [0]),
    ("of the other name", movi(GOOD, chunk(b"00db", b""), BITMAP), [11, 0, 11]),
    ("counted by dmlh", riff(streams(total=numbers(3)), chunk_list(b"movi", GOOD, EMPTY, GOOD)),
     [11, 0, 11]),
    ("in a further RIFF", FIRST + further(chunk_list(b"movi", EMPTY, GOOD)), [11, 0, 11]),
]


def files():
    """What `check` says of files with empty chunks."""
    for name, file, frames in FILES:
        yield checked(f"an empty chunk {name}", file, lines(frames),
                      note=f"93 Repeated {frames.count(0)}")
    short = riff(streams(total=numbers(4)), chunk_list(b"movi", GOOD, EMPTY, GOOD))
    yield checked("fewer frames than dmlh says, with an empty one", short,
                  lines([11, 0, 11]).removesuffix("frames 3\n"), "52 Truncated")
    sound = chunk(b"00wb", b"")
    yield checked("an empty chunk that may not stand there", movi(GOOD, sound),
                  lines([11]).removesuffix("frames 1\n"), "50 NotAvi")


def rows(*numbered):
    """The rows of a list, of pictures of one byte."""
    return "".join(f"0, {number:10}, {number:10},        1,        1, {md5}\n"
                   for number, md5 in numbered)


def commands():
    """The commands, of a file of a black picture, an empty chunk and a white one."""
    file, note = avi(one(), [FRAME, b"", WHITE], 0, 0), "93 Repeated 1"
    given = {"in": file, "list": rows((0, BLACK_MD5), (2, WHITE_MD5)).encode(),
             "short": rows((0, BLACK_MD5)).encode(),
             "long": rows((0, BLACK_MD5), (1, BLACK_MD5), (2, WHITE_MD5)).encode()}
    told = lines([11, 0, 13])
    head = ("#format: frame checksums\n#version: 2\n#hash: MD5\n#software: ffv1\n#tb 0: 1/25\n"
            "#media_type 0: video\n#codec_id 0: rawvideo\n#dimensions 0: 1x1\n#sar 0: 0/1\n"
            "#stream#, dts,        pts, duration,     size, hash\n")
    yield Case("an empty chunk by each command", given, [
        Step(["check", "in"], told, note=note),
        Step(["check", "--notes-as-faults", "in"], told, note=note, status=1),
        Step(["check", "--all", "in"], told.replace("frames 3", "frames 3 faults 0"), note=note),
        Step(["check", "--quiet", "in"], "in: sound, 3 frames\n", note=note),
        Step(["check", "--from", "1", "in"], told.split("\n", 1)[1].replace("frames 3", "frames 2"),
             note=note),
        Step(["check", "--from", "1", "--frames", "1", "in"], "frame 1: again\nframes 1\n"),
        Step(["check", "--against", "list", "in"], "frames 2\n", note=note),
        Step(["check", "--against", "short", "in"], "", "89 Differs"),
        Step(["check", "--against", "long", "in"], "", "89 Differs"),
        Step(["framemd5", "in"], head + rows((0, BLACK_MD5), (2, WHITE_MD5)), note=note),
        Step(["framemd5", "--from", "1", "in"], head + rows((2, WHITE_MD5)), note=note),
        Step(["framemd5", "--from", "1", "--frames", "1", "in"], ""),
        Step(["show", "--cost", "in"], ANY, note=note),
        Step(["info", "--count", "in"], ANY),
        Step(["unpack", "in", "a"], "frames 3\n", note=note),
        Step(["unpack", "--from", "1", "in", "b"], "frames 2\n", note=note),
        Step(["unpack", "--from", "1", "--frames", "1", "in", "c"], "frames 1\n"),
        Step(["unpack", "--all", "in", "d"], "frames 3\n", note=note),
    ], {"a": y4m(SAID, b"\0", b"\0", b"\xff"), "b": y4m(SAID, b"\0", b"\xff"), "c": y4m(SAID, b"\0"),
        "d": y4m(SAID, b"\0", b"\0", b"\xff")})


SAID = "W1 H1 F0:0 I? A0:0 Cmono"


def pictures():
    """Empty chunks before the first picture and behind the last, of both texts."""
    frames = [b"", FRAME, b"", b""]
    config = one(chroma=True, rct=True)
    image = ffv1.encode_frame(config, [[[1]], [[2]], [[3]]], [0, 0, 0])
    other = ffv1.encode_frame(config, [[[4]], [[2]], [[3]]], [0, 0, 0])
    first, second = ppm(1, 1, b"\1\2\3"), ppm(1, 1, b"\4\2\3")
    for name, file, count, left in [
            ("pictures", avi(one(), frames, 0, 0), 4, y4m(SAID, *[b"\0"] * 3)),
            ("images", avi(config, [b"", image, b"", other, b""]), 5,
             first + first + second + second),
            ("no picture", avi(one(), [b"", b""], 0, 0), 2, b"")]:
        empty = sum(not frame for frame in frames) if name == "pictures" else 3 if count == 5 else 2
        yield Case(f"empty chunks of {name}", {"in": file}, [
            Step(["unpack", "in", "out"], f"frames {count}\n", note=f"93 Repeated {empty}"),
            Step(["unpack", "--all", "in", "all"], f"frames {count}\n",
                 note=f"93 Repeated {empty}")],
            {"in": file, "out": left, "all": left})


def parts():
    """Empty chunks at the begin of a part show the last picture before it, of both texts."""
    frames = [b"", FRAME, b"", b"", WHITE, b""]
    config = one(chroma=True, rct=True)
    coded = [ffv1.encode_frame(config, [[[red]], [[2]], [[3]]], [0, 0, 0]) for red in (1, 4)]
    images = [b"", coded[0], b"", b"", coded[1], b""]
    first, second = ppm(1, 1, b"\1\2\3"), ppm(1, 1, b"\4\2\3")
    for name, file, text in [
            ("pictures", avi(one(), frames, 0, 0),
             lambda *whites: y4m(SAID, *[b"\xff" if white else b"\0" for white in whites])),
            ("images", avi(config, images),
             lambda *seconds: b"".join(second if later else first for later in seconds))]:
        yield Case(f"parts of {name} that begin with an empty chunk", {"in": file}, [
            Step(["unpack", "--from", "2", "in", "a"], "frames 4\n", note="93 Repeated 4"),
            Step(["unpack", "--from", "3", "--frames", "1", "in", "b"], "frames 1\n"),
            Step(["unpack", "--from", "3", "--frames", "2", "in", "c"], "frames 2\n"),
            Step(["unpack", "--from", "5", "in", "d"], "frames 1\n", note="93 Repeated 4"),
            Step(["unpack", "--frames", "1", "in", "e"], "frames 1\n"),
            Step(["unpack", "--from", "4", "--frames", "1", "in", "f"], "frames 1\n")],
            {"a": text(0, 0, 1, 1), "b": text(0), "c": text(0, 1), "d": text(1), "e": b"",
             "f": text(1)})


def refused_before():
    """A frame before a part is decoded only if the part shows it; then its fault is the part's."""
    given = {"in": avi(one(), [FRAME, bytes(3), b"", WHITE], 0, 0)}
    yield Case("a refused frame before an empty chunk", given, [
        Step(["unpack", "--from", "2", "in", "a"], "", "30 NotKey"),
        Step(["unpack", "--from", "2", "--frames", "1", "in", "b"], "", "30 NotKey"),
        Step(["unpack", "--from", "3", "in", "c"], "frames 1\n", note="93 Repeated 1"),
        Step(["check", "--from", "2", "in"], f"frame 2: again\n{lines([13] * 4).splitlines()[3]}\n"
             "frames 2\n", note="93 Repeated 1")],
        {"a": b"", "b": b"", "c": y4m(SAID, b"\xff")})


CASES = [files, commands, pictures, parts, refused_before]
