# SPDX-License-Identifier: MIT OR Apache-2.0
"""What `unpack` writes of files that `pack` does not write, up to the fault."""
import ffv1
from known_answers.case import FRAME, Case, Step, avi, checked, one, ppm, sealed, y4m


def unpacked(name, file, left, fault=""):
    """A file that is refused, and what OUT has then."""
    return Case(name, {"in": file}, [Step(["unpack", "in", "out"], "", fault)],
                {"in": file, "out": left})


def without_a_text():
    """Files whose pictures no text can have; nothing is written."""
    config = one(chroma=True, log2_v=1)
    file = avi(config, [bytes.fromhex("FEDE000002")])
    yield unpacked("chroma without a name", file, b"", "72 NoY4mName")
    yield checked("chroma without a name is checked", file,
                  "frame 0: 5 bytes, 1 slices, 13 decisions\nframes 1\n")
    config = one(chroma=True, extra=True, log2_h=1)
    yield unpacked("transparency beside fewer chroma samples", avi(config, []), b"", "72 NoY4mName")
    config = one(chroma=True, extra=True, rct=True)
    payload = ffv1.encode_frame(config, [[[255]], [[0]], [[0]], [[255]]], [0, 0, 0])
    file = avi(config, [payload])
    yield unpacked("images with transparency", file, b"", "73 NoPpm")
    yield checked("images with transparency are checked", file,
                  f"frame 0: {len(payload)} bytes, 1 slices, 63 decisions\nframes 1\n")
    payload = sealed(config, of_colours(config, [(63, 256, 511, 511)]))
    place = "fault frame 0 slice 0 plane 0 line 0 x 0 decisions 49\n"
    yield Case("transparency out of range", {"in": avi(config, [payload])},
               [Step(["check", "--place", "in"], place, "7 Colour")])


def without_frames():
    """Files of no frame, and files whose first frame is damaged."""
    yield unpacked("no frames", avi(one(), []), b"", "70 NoFrames")
    yield checked("no frames are checked", avi(one(), []), "", "70 NoFrames")
    yield unpacked("the first frame is damaged", avi(one(), [b"\1"]), b"", "35 Footer")
    config = one(chroma=True, rct=True)
    yield unpacked("no images", avi(config, []), b"", "70 NoFrames")
    yield unpacked("the first image is damaged", avi(config, [b"\1"]), b"", "35 Footer")


def later_pictures():
    """Files of which a later frame is refused: the pictures before it are written."""
    text = y4m("W1 H1 F0:0 I? A0:0 Cmono", b"\0", b"\xff")
    frames = [FRAME, bytes.fromhex("FE18000002")]
    yield unpacked("a frame that is damaged", avi(one(), [*frames, b"\1", FRAME], 0, 0), text,
                   "35 Footer")
    first = ffv1.encode_frame(one(), [[[9]]], [3, 5, 4])
    for name, info in [("structure", [0, 5, 4]), ("aspect", [3, 5, 3])]:
        file = avi(one(), [first, first, ffv1.encode_frame(one(), [[[9]]], info)])
        yield unpacked(f"another {name}", file, y4m("W1 H1 F25:1 Ip A5:4 Cmono", b"\t", b"\t"),
                       "71 FormatChanged")


def later_images():
    """Files of which a later image or line is refused: what stands before it is written."""
    config = ffv1.Config(1, 2, rct=True, chroma=True)
    frame = ffv1.encode_frame(config, [[[1], [2]], [[3], [4]], [[5], [6]]], [0, 0, 0])
    damaged = bytes([frame[0] ^ 255]) + frame[1:]
    yield unpacked("a second image that is damaged", avi(config, [frame, damaged]),
                   ppm(1, 2, bytes([1, 3, 5, 2, 4, 6])), "37 SliceParity")
    config.ec = 0
    slice = of_colours(config, [(63, 256, 511), (511, 256, 256)])
    file = avi(config, [sealed(config, slice)])
    yield unpacked("a second line without a colour", file, ppm(1, 2, b"\xff\0\0"), "7 Colour")


def of_colours(config, colours):
    """A slice of one column, of these Y, Cb and Cr, and transparency."""
    encoder = ffv1.Encoder()
    ffv1.put_head(encoder, config, 0, [0] * ffv1.index_count(config), 0, 0, 0)
    cells = [ffv1.Cell(1) for _ in colours[0]]
    for plane, cell in enumerate(cells):
        cell.lines = [[colour[plane]] for colour in colours]
    for y in range(len(colours)):
        for plane, cell in enumerate(cells):
            ffv1.put_line(encoder, config, ffv1.SMALL, plane, cell, y)
    return encoder.sentinel()


CASES = [without_a_text, without_frames, later_pictures, later_images]
