# SPDX-License-Identifier: MIT OR Apache-2.0
"""What `--from` and `--frames` leave out, of `check`, `unpack` and `framemd5`."""
import ffv1
from known_answers.case import ANY, FRAME, Case, Step, avi, one, y4m

HEADS = ("#format: frame checksums\n#version: 2\n#hash: MD5\n#software: ffv1\n#tb 0: 1/25\n"
         "#media_type 0: video\n#codec_id 0: rawvideo\n#dimensions 0: 1x1\n#sar 0: 0/1\n"
         "#stream#, dts,        pts, duration,     size, hash\n")
# The MD5 of a byte 0, the picture of FRAME.
MD5 = "93b885adfe0da089cdf634904fd59f71"

# Options, and the numbers of the frames that they give of a file of three.
RANGES = [
    ("--from 0", [0, 1, 2]), ("--from 1", [1, 2]), ("--from=2", [2]), ("--from +01", [1, 2]),
    ("--frames 1", [0]), ("--frames=2", [0, 1]), ("--frames 3", [0, 1, 2]),
    ("--frames 4294967295", [0, 1, 2]), ("--from 1 --frames 1", [1]),
    ("--frames 1 --from 2", [2]), ("--from 2 --frames 2", [2]), ("--from 0 --frames 2", [0, 1]),
    ("--from 3", []), ("--from 4294967295", []), ("--from 3 --frames 1", []),
    ("--from 4294967295 --frames 4294967295", []),
]


def line(number):
    """The line of a frame that is checked."""
    return f"frame {number}: 5 bytes, 1 slices, 11 decisions\n"


def lines(numbers):
    return "".join(line(number) for number in numbers)


def rows(numbers):
    return "".join(f"0, {n:10}, {n:10},        1,        1, {MD5}\n" for n in numbers)


def picture(tags, sample):
    return y4m(f"W1 H1 F25:1 {tags} Cmono", bytes([sample]))


def sound():
    """Frames of a file that is sound, and past its last one."""
    for options, numbers in RANGES:
        words, count = options.split(), len(numbers)
        none = "" if numbers else "70 NoFrames"
        printed = lines(numbers) + f"frames {count}\n" if numbers else ""
        judged = lines(numbers) + f"frames {count} faults 0\n" if numbers else ""
        told = f"a: sound, {count} frames\n" if numbers else "a: 70 NoFrames\n"
        yield Case(options, {"a": avi(one(), [FRAME] * 3)}, [
            Step(["check", *words, "a"], printed, none),
            Step(["check", "--place", "a", *words], printed, none),
            Step(["check", "--all", *words, "a"], judged, none),
            Step(["check", "--quiet", *words, "a"], told, none),
            Step(["framemd5", *words, "a"], HEADS + rows(numbers) if numbers else "", none)])


def refused_frames():
    """Frames that are refused count only in the range."""
    given = {"b": avi(one(), [bytes(3), FRAME, bytes(3), FRAME])}
    first, third = "frame 0: fault 30 NotKey\n", "frame 2: fault 30 NotKey\n"
    yield Case("refused frames outside of a range", given, [
        Step(["check", "--from", "1", "b"], line(1), "30 NotKey"),
        Step(["check", "--from", "1", "--frames", "1", "b"], line(1) + "frames 1\n"),
        Step(["check", "--from", "3", "b"], line(3) + "frames 1\n"),
        Step(["check", "--frames", "1", "b"], "", "30 NotKey"),
        Step(["check", "--quiet", "--from", "1", "b"], "b: 30 NotKey in frame 2, slice 0\n",
             "30 NotKey"),
        Step(["check", "--all", "--from", "1", "b"], line(1) + third + line(3)
             + "frames 3 faults 1\n", "30 NotKey"),
        Step(["check", "--all", "--frames", "2", "b"], first + line(1) + "frames 2 faults 1\n",
             "30 NotKey"),
        Step(["check", "--all", "--from", "3", "b"], line(3) + "frames 1 faults 0\n"),
        Step(["check", "--all", "--quiet", "--from", "1", "--frames", "2", "b"],
             "b: 1 of 2 frames refused, the first 30 NotKey in frame 2, slice 0\n", "30 NotKey"),
        Step(["framemd5", "--from", "1", "--frames", "1", "b"], HEADS + rows([1])),
        Step(["framemd5", "--from", "2", "b"], "", "30 NotKey"),
        Step(["unpack", "--from", "3", "b", "out"], "frames 1\n")],
        {"out": picture("I? A0:0", 0)})


def ends():
    """The end of a file is not read behind a range, and is before it."""
    cut = avi(one(), [FRAME] * 2)[:-1]
    given = {"c": cut, "d": avi(one(), [FRAME]) + b"more bytes"}
    yield Case("the end of a file and a range", given, [
        Step(["check", "--frames", "1", "c"], line(0) + "frames 1\n"),
        Step(["check", "--frames", "2", "c"], line(0), "52 Truncated"),
        Step(["check", "--from", "1", "c"], "", "52 Truncated"),
        Step(["check", "--place", "--from", "1", "c"], "fault frame 1 byte 264\n",
             "52 Truncated"),
        Step(["check", "--place", "--from", "2", "c"], "fault frame 1 byte 264\n",
             "52 Truncated"),
        Step(["check", "--all", "--place", "--from", "7", "c"], "fault frame 1 byte 264\n",
             "52 Truncated"),
        Step(["check", "--quiet", "--from", "2", "c"], "c: 52 Truncated at byte 264\n",
             "52 Truncated"),
        Step(["framemd5", "--from", "2", "c"], "", "52 Truncated"),
        Step(["check", "d"], line(0) + "frames 1\n", note="94 After byte 264"),
        Step(["check", "--frames", "1", "d"], line(0) + "frames 1\n"),
        Step(["check", "--from", "1", "d"], "", "70 NoFrames"),
        Step(["unpack", "--frames", "1", "d", "out"], "frames 1\n")],
        {"out": picture("I? A0:0", 0)})


def heads():
    """The header says what the first frame of the range says, and a change of that is by it."""
    frames = [ffv1.encode_frame(one(), [[[sample]]], info)
              for sample, info in [(9, [3, 5, 4]), (8, [2, 1, 1]), (7, [2, 1, 1]), (6, [3, 1, 1])]]
    given = {"in": avi(one(), frames), "old": b"old"}
    yield Case("heads of ranges", given, [
        Step(["unpack", "in", "out"], "", "71 FormatChanged"),
        Step(["unpack", "--frames", "1", "in", "a"], "frames 1\n"),
        Step(["unpack", "--from", "1", "--frames", "2", "in", "b"], "frames 2\n"),
        Step(["unpack", "in", "c", "--from=1"], "", "71 FormatChanged"),
        Step(["unpack", "--from", "3", "in", "-"], picture("Ip A1:1", 6).decode(),
             errors="frames 1\n"),
        Step(["unpack", "--from", "4", "in", "old"], "", "70 NoFrames"),
        Step(["framemd5", "--from", "3", "in"], ANY)],
        {"out": picture("Ip A5:4", 9), "a": picture("Ip A5:4", 9), "old": b"old",
         "b": picture("Ib A1:1", 8) + b"FRAME\n\7", "c": picture("Ib A1:1", 8) + b"FRAME\n\7"})


def refused_lines():
    """Lines that are refused: numbers, several files, a list of MD5s, a command without them."""
    given = {"a": avi(one(), [FRAME]), "list": f"0, 0, 0, 1, 1, {MD5}\n".encode(),
             "text": picture("I? A0:0", 0)}
    refused = ["check --from -1 a", "check --from=4294967296 a", "check --frames 0 a",
               "check --frames=4294967296 a", "check --from a", "check --from= a", "check --frames",
               "check --from 0 --from 0 a", "check --from 1 a a", "framemd5 --frames 1 a a",
               "check --frames 1 --against list a", "check --against list --from 1 a",
               "show --from 0 a", "trial --from 0 text", "pack --frames 1 text out"]
    for words in refused:
        yield Case(words, given, [Step(words.split(), status=2)], {"out": None})
    both = f"file a\n{line(0)}frames 1\nfile a\n{line(0)}frames 1\n"
    yield Case("a range of all frames", given, [
        Step(["check", "--from", "0", "a", "a"], both),
        Step(["check", "--from", "0", "--against", "list", "a"], "frames 1\n"),
        Step(["framemd5", "--from", "0", "text"], ANY),
        Step(["framemd5", "--frames", "1", "text"], "", "50 NotAvi"),
        Step(["check", "--from", "1", "no"], "", "56 Read")], given)


CASES = [sound, refused_frames, ends, heads, refused_lines]
