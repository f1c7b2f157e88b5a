# SPDX-License-Identifier: MIT OR Apache-2.0
"""What `check --against` says of a file and a list of MD5s: the lists are those that FFmpeg 5.1.9
writes of these pictures, and such as it would not write."""
from known_answers.case import ANY, FRAME, Case, Step, avi, one, y4m

# Two pictures of 4:2:0, and what FFmpeg's framemd5 writes of them.
TEXT = y4m("W2 H2 F25:1 It C420jpeg", bytes(range(1, 7)), bytes(range(0x11, 0x17)))
FIRST, SECOND = "6ac1e56bc78f031059be7be854522c4c", "06e22bc66691496dd92c04669b3703cc"
HEADS = ("#format: frame checksums\n#version: 2\n#hash: MD5\n#software: Lavf59.27.100\n#tb 0: 1/25\n"
         "#media_type 0: video\n#codec_id 0: rawvideo\n#dimensions 0: 2x2\n#sar 0: 1/1\n"
         "#stream#, dts,        pts, duration,     size, hash\n")


def row(md5, number=0, stream=0):
    """A row as FFmpeg writes it."""
    return f"{stream}, {number:10}, {number:10},        1,        6, {md5}\n"


ROWS = row(FIRST) + row(SECOND, 1)
LIST = HEADS + ROWS

# With sound before it: the rows of the first stream of video count.
SOUND = (HEADS.replace("#media_type 0: video", "#media_type 0: audio\n#media_type 1: video")
         + row(SECOND) + row(FIRST, 0, 1) + row(FIRST, 1) + row(SECOND, 1, 1) + row(FIRST, 2))

# Lists by which the file is sound.
GOOD = {
    "FFmpeg's": LIST, "with sound": SOUND, "without heads": ROWS, "without its last line feed": LIST[:-1],
    "with carriage returns": LIST.replace("\n", "\r\n"), "in capitals": HEADS + ROWS.upper(),
    "without blanks": ROWS.replace(" ", ""), "with another stream of video":
    HEADS + "#media_type 1: video\n" + row(FIRST) + row(FIRST, 0, 1) + row(SECOND, 1),
    "with times before 0": f"0, -9223372036854775808, -1, 1, 6, {FIRST}\n0,0,0,1,6,{SECOND}\n",
    "with side data": HEADS + row(FIRST)[:-1] + ", S=1,        4, 00\n" + row(SECOND, 1),
    "with a head that names none": "#media_type x: video\n" + LIST,
}

# Lists by which a frame differs, and its number.
DIFFERENT = {
    "another first one": (HEADS + row(SECOND) + row(SECOND, 1), 0),
    "another second one": (HEADS + row(FIRST) + row(FIRST, 1), 1),
    "none of the second one": (HEADS + row(FIRST), 1),
    "one too many": (LIST + row(FIRST, 2), 2),
    "its digit": (LIST.replace(SECOND, SECOND[:-1] + "d"), 1),
    "the lines exchanged": (HEADS + row(SECOND) + row(FIRST, 1), 0),
    "the sound": (SOUND.replace("#media_type 0: audio", "#media_type 0: video"), 0),
}

# What is no list, and the number of the line.
NONE = {
    "nothing": ("", 0), "heads alone": (HEADS, 10), "another hash": (LIST.replace("MD5", "SHA256"), 3),
    "no hash": (LIST.replace("#hash: MD5", "#hash"), 3), "no row": (LIST + "row\n", 13),
    "an empty line": (HEADS + "\n" + ROWS, 11), "five fields": (HEADS + row(FIRST).replace("6, ", "", 1), 11),
    "a digit too few": (HEADS + row(FIRST[1:]), 11), "a digit too many": (ROWS + row(FIRST + "0"), 3),
    "no hexadecimal": (HEADS + row(FIRST[:-1] + "g"), 11), "a sign": (row("+" + FIRST[1:]), 1),
    "no stream": (row(FIRST, 0, "x"), 1), "a stream below 0": (row(FIRST, 0, -1), 1),
    "no time": (row(FIRST).replace("         0", "         -", 1), 1),
    "rows of another stream": (HEADS.replace("0: video", "1: video") + ROWS, 12),
    "a line of 65537 bytes": (LIST + "#" + "x" * 65536 + "\n", 13),
}


def sound():
    """All pictures are those of the list."""
    for name, listed in GOOD.items():
        yield Case(f"check --against a list {name}", {"in": TEXT, "list": listed.encode()}, [
            Step(["pack", "in", "out"], ANY),
            Step(["check", "--against", "list", "out"], "frames 2\n"),
            Step(["check", "out", "--quiet", "--against=list"], "out: sound, 2 frames\n")])


def different():
    """The first frame that is not."""
    for name, (listed, frame) in DIFFERENT.items():
        yield Case(f"check --against a list with {name}", {"in": TEXT, "list": listed.encode()}, [
            Step(["pack", "in", "out.mkv"], ANY),
            Step(["check", "--against", "list", "out.mkv"], "", "89 Differs"),
            Step(["check", "--against", "list", "--quiet", "out.mkv"],
                 f"out.mkv: 89 Differs in frame {frame}\n", "89 Differs")])


def no_lists():
    """A list is refused before the file is opened."""
    for name, (listed, line) in NONE.items():
        yield Case(f"check --against {name}", {"list": listed.encode()}, [
            Step(["check", "--against", "list", "no"], "", "66 List"),
            Step(["check", "--quiet", "--against", "list", "no"], f"list: 66 List in line {line}\n",
                 "66 List")])


def faults():
    """What else is refused: the list, the file, a frame of it before the list's end."""
    pixel = row("93b885adfe0da089cdf634904fd59f71")
    given = {"list": pixel.encode(), "a": avi(one(), [FRAME]), "b": avi(one(), [bytes(3), FRAME]),
             "c": avi(one(), []), "d": avi(one(), [FRAME, bytes(3)]), "e": avi(one(), [FRAME])[:-1]}
    yield Case("check --against: faults", given, [
        Step(["check", "--against", "list", "a"], "frames 1\n"),
        Step(["check", "--against", "no", "a"], "", "56 Read"),
        Step(["check", "--quiet", "--against", "no", "a"], "no: 56 Read\n", "56 Read"),
        Step(["check", "--against", "list", "no"], "", "56 Read"),
        Step(["check", "--against", "list", "b"], "", "30 NotKey"),
        Step(["check", "--against", "list", "c"], "", "70 NoFrames"),
        Step(["check", "--quiet", "--against", "list", "d"], "d: 30 NotKey\n", "30 NotKey"),
        Step(["check", "--against", "list", "e"], "", "52 Truncated"),
        Step(["check", "--against", "-", "a"], "", "66 List"),
        Step(["check", "--quiet", "--against", "list", "-"], "standard input: 52 Truncated\n",
             "52 Truncated")], given)


CASES = [sound, different, no_lists, faults]
