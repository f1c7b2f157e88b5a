# SPDX-License-Identifier: MIT OR Apache-2.0
"""The MD5s of pictures: the lines that `framemd5` writes of them, and lists with which `check
--against` compares them."""
import hashlib
import math
import re

import files
from ffv1 import Fault


# ---------------------------------------------------------------------------------------- the lines

def raw_bytes(planes, rct, depth):
    """The bytes of a picture whose MD5 is printed: as FFmpeg has it as rawvideo, of RGB of 8 bits as
    rgb24 or rgba, a sample of each colour at a time, and of more bits as planes of green, blue and
    red. Samples of more than 8 bits have two bytes, the low one first."""
    if rct and depth == 8:
        rows = zip(*planes)
        return bytes(sample for row in rows for place in zip(*row) for sample in place)
    if rct:
        red, green, blue, *extra = planes
        planes = [green, blue, red, *extra]
    return b"".join(files.bytes_of(line, depth, "little") for plane in planes for line in plane)


def md5_header(head, aspect):
    """The lines before those of the frames. The rate is in lowest terms, as FFmpeg has it. Own: where
    none is known it is 25, as FFmpeg has it, and where no aspect is known it is 0/1."""
    common = math.gcd(head.rate, head.scale) or 1
    rate, scale = (head.rate // common, head.scale // common) if head.rate else (25, 1)
    num, den = aspect if aspect[0] else (0, 1)
    return (f"#format: frame checksums\n#version: 2\n#hash: MD5\n#software: ffv1\n"
            f"#tb 0: {scale}/{rate}\n#media_type 0: video\n#codec_id 0: rawvideo\n"
            f"#dimensions 0: {head.width}x{head.height}\n#sar 0: {num}/{den}\n"
            "#stream#, dts,        pts, duration,     size, hash\n")


def md5_line(number, data):
    """The line of a picture."""
    return (f"0, {number:10}, {number:10}, {1:8}, {len(data):8}, "
            f"{hashlib.md5(data).hexdigest()}\n")


# -------------------------------------------------------------------------------------------- lists

class Unlike(Fault):
    """A line of a list, or a frame, by which they are refused, and where that is said with one line
    of the file; the path is the list's, if the list is refused."""

    def __init__(self, number, where, path=None):
        super().__init__(number)
        self.where, self.path = where, path


SPACE = b" \t\n\f\r"
LONGEST = 65536                 # the most bytes of a line


def number_of(text):
    """A decimal number of 128 bits."""
    found = re.fullmatch(b"[0-9]+", text)
    return int(text) if found and int(text) < 2 ** 128 else None


def is_integer(text):
    return number_of(text[1:] if text[:1] == b"-" else text) is not None


def head_says(line):
    """The stream of video that a head names, or none; own: another hash than MD5 is refused."""
    name, _, value = line.partition(b":")
    if name == b"#hash" and value.strip(SPACE) != b"MD5":
        raise ValueError(line)
    if name[:12] == b"#media_type " and value.strip(SPACE) == b"video":
        return number_of(name[12:].strip(SPACE))
    return None


def row_says(line):
    """The stream and the MD5 of a row; fields after the MD5 are passed over."""
    fields = [field.strip(SPACE) for field in line.split(b",")]
    if len(fields) < 6 or number_of(fields[0]) is None or not all(map(is_integer, fields[1:5])) \
            or not re.fullmatch(b"[0-9A-Fa-f]{32}", fields[5]):
        raise ValueError(line)
    return number_of(fields[0]), fields[5].decode().lower()


def lines_of(file):
    """The lines of a list, of which one that is too long is the last."""
    line = file.readline(LONGEST + 2)
    while line:
        yield line.removesuffix(b"\n")
        line = file.readline(LONGEST + 2)


def md5s_of(file, path):
    """The MD5s of the first stream of video that a list names, or of stream 0; 66 with the line that
    is none, or the last one if there is no such MD5."""
    stream, md5s, number = None, [], 0
    for line in lines_of(file):
        number += 1
        try:
            if len(line) > LONGEST:
                raise ValueError(line)
            if line[:1] == b"#":
                named = head_says(line)
                stream = named if stream is None else stream
            else:
                of, md5 = row_says(line)
                md5s += [md5] * (of == (stream or 0))
        except ValueError:
            raise Unlike(66, {"line": number}, path)
    if not md5s:
        raise Unlike(66, {"line": number}, path)
    return md5s


def compare(md5s, pictures, out):
    """Compares the bytes of pictures with MD5s, in turn; 89 with the first frame that differs, or
    that one of the two lacks. A frame that has none is counted, and compared with nothing."""
    count, met = 0, 0
    for data in pictures:
        if data is not None:
            if met == len(md5s) or hashlib.md5(data).hexdigest() != md5s[met]:
                raise Unlike(89, {"frame": count})
            met += 1
        count += 1
    if count == 0:
        raise Fault(70)
    if met < len(md5s):
        raise Unlike(89, {"frame": count})
    out(f"frames {met}\n")
