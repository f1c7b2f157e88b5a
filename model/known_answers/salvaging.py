# SPDX-License-Identifier: MIT OR Apache-2.0
"""What `unpack --all` writes and tells of files that have a frame at fault, or are damaged: of each
frame its picture, or the last good one again."""
import ffv1
from known_answers.case import FRAME, Case, Step, avi, one, ppm, sealed, y4m
from known_answers.damaged import ROWS
from known_answers.matroska import C, block, cluster, summed, whole
from known_answers.unpacking import of_colours

WORDS = ["unpack", "--all", "in", "out"]
WHITE = bytes.fromhex("FE18000002")     # a picture of 255, beside FRAME, one of 0
BAD = b"\1"                             # a payload with too few bytes for its footer
FOOTER = "35 Footer"
SAID = "W1 H1 F0:0 I? A0:0 Cmono"


def salvaged(name, file, lines, left, fault="", note=""):
    """A file of which all is unpacked; what is printed and what OUT has is the same where OUT is
    standard output, but for the streams."""
    yield Case(f"salvaged: {name}", {"in": file}, [Step(WORDS, lines, fault, note=note)],
               {"in": file, "out": left})
    if left and fault:
        said = lines + (f"ffv1: note {note}\n" if note else "") + f"ffv1: {fault}\n"
        yield Case(f"salvaged to standard output: {name}", {"in": file},
                   [Step(["unpack", "--all", "in", "-"], None, status=1, errors=said)], {"in": file})


def pictures():
    """Texts of YUV4MPEG2: for a frame that is refused the last good picture is written again."""
    for name, frames, lines, left, fault in [
            ("none is refused", [FRAME, WHITE], "frames 2\n", [b"\0", b"\xff"], ""),
            ("the second of three", [FRAME, BAD, WHITE], f"frame 1: fault {FOOTER}\nframes 3\n",
             [b"\0", b"\0", b"\xff"], FOOTER),
            ("all", [BAD, BAD], f"frame 0: fault {FOOTER}\nframe 1: fault {FOOTER}\nframes 2\n", [],
             FOOTER),
            ("the first", [BAD, FRAME], f"frame 0: fault {FOOTER}\nframes 2\n", [b"\0"], FOOTER),
            ("the last", [FRAME, WHITE, BAD], f"frame 2: fault {FOOTER}\nframes 3\n",
             [b"\0", b"\xff", b"\xff"], FOOTER),
            ("two in turn", [WHITE, BAD, BAD, FRAME],
             f"frame 1: fault {FOOTER}\nframe 2: fault {FOOTER}\nframes 4\n",
             [b"\xff", b"\xff", b"\xff", b"\0"], FOOTER)]:
        yield from salvaged(name, avi(one(), frames, 0, 0), lines,
                            y4m(SAID, *left) if left else b"", fault)
    yield from salvaged("there is none", avi(one(), []), "", b"", "70 NoFrames")
    yield from salvaged("an empty chunk", avi(one(), [b"", FRAME, b"", BAD, b"", WHITE], 0, 0),
                        f"frame 3: fault {FOOTER}\nframes 6\n",
                        y4m(SAID, b"\0", b"\0", b"\0", b"\0", b"\xff"), FOOTER, "93 Repeated 3")
    yield from salvaged("chroma without a name", avi(one(chroma=True, log2_v=1), []), "", b"",
                        "72 NoY4mName")


def other_heads():
    """A frame of another structure or aspect is good: it is written, and told of YUV4MPEG2."""
    first = ffv1.encode_frame(one(), [[[9]]], [3, 5, 4])
    text = y4m("W1 H1 F25:1 Ip A5:4 Cmono", b"\t", b"\7", b"\7", b"\t")
    for name, info in [("structure", [0, 5, 4]), ("aspect", [3, 5, 3])]:
        file = avi(one(), [first, ffv1.encode_frame(one(), [[[7]]], info), BAD, first])
        yield from salvaged(f"another {name}", file,
                            f"frame 1: fault 71 FormatChanged\nframe 2: fault {FOOTER}\nframes 4\n",
                            text, "71 FormatChanged")
    config = one(chroma=True, rct=True)
    frames = [ffv1.encode_frame(config, [[[red]], [[2]], [[3]]], info)
              for red, info in [(1, [3, 5, 4]), (4, [0, 0, 0])]]
    yield from salvaged("images say neither", avi(config, frames), "frames 2\n",
                        ppm(1, 1, b"\1\2\3") + ppm(1, 1, b"\4\2\3"))


def images():
    """Images of PPM: nothing of a refused one is written."""
    config = ffv1.Config(1, 2, rct=True, chroma=True)
    frame = ffv1.encode_frame(config, [[[1], [2]], [[3], [4]], [[5], [6]]], [0, 0, 0])
    other = ffv1.encode_frame(config, [[[7], [8]], [[7], [8]], [[7], [8]]], [0, 0, 0])
    damaged = bytes([frame[0] ^ 255]) + frame[1:]
    first, second = ppm(1, 2, bytes([1, 3, 5, 2, 4, 6])), ppm(1, 2, bytes([7, 7, 7, 8, 8, 8]))
    fault = "37 SliceParity"
    yield from salvaged("the second of three images", avi(config, [frame, damaged, other]),
                        f"frame 1: fault {fault}\nframes 3\n", first + first + second, fault)
    yield from salvaged("the first image", avi(config, [damaged, other]),
                        f"frame 0: fault {fault}\nframes 2\n", second, fault)
    config.ec = 0
    parts = [sealed(config, of_colours(config, [(63, 256, 511), (511, 256, 256)]))]
    yield from salvaged("an image with a row before its fault", avi(config, parts),
                        "frame 0: fault 7 Colour\nframes 1\n", b"", "7 Colour")


def damaged():
    """Files of Matroska: the lines that are told stand among those of frames, and all frames that are
    found are good."""
    for name, file, items in ROWS:
        lines = "".join(f"byte {item[0]}: fault {item[1]}\n" for item in items if item)
        frames = items.count(None)
        fault = next(item[1] for item in items if item)
        yield from salvaged(name, file, lines + f"frames {frames}\n",
                            y4m(SAID, *[b"\0"] * frames) if frames else b"",
                            fault)


    file = whole(C, cluster(summed("E78100", block(frame=BAD), crc=1)), C)
    yield from salvaged("a frame that is refused, and a wrong CRC-32", file,
                        f"frame 1: fault {FOOTER}\nbyte 178: fault 85 Checksum\nframes 3\n",
                        y4m(SAID, b"\0", b"\0", b"\0"), FOOTER)


def lines():
    """Lines that are refused: all goes on to the end of a file."""
    for words in [["--from", "1"], ["--frames", "1"]]:
        yield Case(f"all, and {words[0]}", {}, [Step(["unpack", "--all", *words, "in", "out"], status=2)])
    file = avi(one(), [FRAME], 0, 0)
    yield Case("all, from the first frame", {"in": file},
               [Step(["unpack", "--all", "--from", "0", "in", "out"], "frames 1\n")],
               {"out": y4m(SAID, b"\0")})


CASES = [pictures, other_heads, images, damaged, lines]
