# SPDX-License-Identifier: MIT OR Apache-2.0
"""What `framemd5` writes of texts and of the files that they are packed into: the lines are those
that FFmpeg 5.1.9 prints of these pictures."""
from known_answers.case import ANY, Case, Step, ppm, y4m


def head(base, size, aspect):
    """The lines before those of the pictures."""
    return ("#format: frame checksums\n#version: 2\n#hash: MD5\n#software: ffv1\n"
            f"#tb 0: {base}\n#media_type 0: video\n#codec_id 0: rawvideo\n#dimensions 0: {size}\n"
            f"#sar 0: {aspect}\n#stream#, dts,        pts, duration,     size, hash\n")


def line(number, size, value):
    """The line of a picture."""
    return f"0, {number:10}, {number:10},        1, {size:8}, {value}\n"


# name, text, what is written of it and of its file
SUMS = [
    ("4:2:0", y4m("W2 H2 F50:2 It A2:2 C420jpeg", bytes(range(1, 7)), bytes(range(0x11, 0x17))),
     head("1/25", "2x2", "2/2") + line(0, 6, "6ac1e56bc78f031059be7be854522c4c")
     + line(1, 6, "06e22bc66691496dd92c04669b3703cc")),
    ("mono", y4m("W2 H2 F30000:1001 It A4:3 Cmono", bytes([7, 8, 9, 10]), bytes([8, 7, 6, 5])),
     head("1001/30000", "2x2", "4/3") + line(0, 4, "be16a383ef16a9b4c842fdc74263a859")
     + line(1, 4, "4233b58bf3d2d8397db7ba0fcc9aaf17")),
    ("transparency", y4m("W1 H1 F25:1 C444alpha", bytes([1, 2, 3, 4])),
     head("1/25", "1x1", "0/1") + line(0, 4, "08d6c05a21512a79a1dfeb9d2a8f262f")),
    ("10 bits", y4m("W2 H2 F25:1 A59:54 C420p10", bytes.fromhex("010203 01ff03 0000 0501 0602")),
     head("1/25", "2x2", "59/54") + line(0, 12, "f21c07710c00da85d0ff7a71c3feafa0")),
    ("PPM", ppm(2, 1, bytes(range(1, 7))) + ppm(2, 1, bytes(range(0x11, 0x17))),
     head("1/25", "2x1", "0/1") + line(0, 6, "6ac1e56bc78f031059be7be854522c4c")
     + line(1, 6, "06e22bc66691496dd92c04669b3703cc")),
    ("PPM of 10 bits", b"P6\n1 1\n1023\n" + bytes([1, 2, 0, 3, 3, 4]),
     head("1/25", "1x1", "0/1") + line(0, 6, "30068e75ffcca6b65d9843b97449ee52")),
]


def sums():
    """Of a text, and of both files of it."""
    for name, text, lines in SUMS:
        yield Case(f"framemd5: {name}", {"in": text}, [
            Step(["framemd5", "in"], lines), Step(["pack", "in", "out"], ANY),
            Step(["framemd5", "out"], lines),
            Step(["framemd5", "in", "out"], f"file in\n{lines}file out\n{lines}")], {"in": text})


def faults_of_texts():
    """After the lines of the pictures before."""
    picture = line(0, 1, "93b885adfe0da089cdf634904fd59f71")
    start = y4m("W1 H1 Cmono")
    first = head("1/25", "1x1", "0/1") + picture
    for name, text, lines, fault in [
            ("no text", b"Y", "", "60 Header"), ("no image", b"P", "", "60 Header"),
            ("no picture", start, "", "70 NoFrames"), ("a tag", b"YUV4MPEG2 W1\n", "", "61 Tag"),
            ("a picture cut", start + b"FRAME\n", "", "64 FrameTruncated"),
            ("the second one", start + b"FRAME\n\0FRAM", first, "64 FrameTruncated"),
            ("parameters", start + b"FRAME\n\0FRAME Ip\n\0", first, "63 FrameLine")]:
        yield Case(f"framemd5: {name}", {"in": text}, [Step(["framemd5", "in"], lines, fault)],
                   {"in": text})


CASES = [sums, faults_of_texts]
