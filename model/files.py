# SPDX-License-Identifier: MIT OR Apache-2.0
"""YUV4MPEG2 and binary PPM, read and written, in plain Python: the formats in small.

It is written from the formats: yuv4mpeg(5) of MJPEG Tools, and ppm(5) of Netpbm; what is this
project's own choice says so. A picture is a list of planes, a plane a list of lines, and a line a list
of samples.
"""
import re

from ffv1 import Fault

LIMIT = 64 << 20            # own: the most bytes of a format that are read, and, strict, of a frame
FRAME_LIMIT = 1 << 30       # own: the most bytes of a frame that are read
PIECE = 1 << 16
EBML_ID = bytes.fromhex("1A45DFA3")


# ------------------------------------------------------------------------------ bytes that are read

class Source:
    """Bytes that are read from the left. `read` answers at most so many of them, and none at the
    end; a read that failed is 56. How many were read is counted, and how many stand before the
    element or chunk that was begun last. Notes are what leaves a doubt that no reader can settle, by
    number. `begin` begins again, and answers whether it could."""

    def __init__(self, read, begin=None):
        self.read, self.position, self.begun, self.notes = read, 0, 0, {}
        self.begin = begin

    def again(self):
        """Whether the bytes come from the first one on again; nothing is changed where they do not."""
        if self.begin is None or not self.begin():
            return False
        self.position = self.begun = 0
        return True

    def mark(self):
        """An element or chunk begins here."""
        self.begun = self.position

    def some(self, count):
        """So many bytes, or fewer where the input ends before."""
        parts = []
        while count:
            try:
                part = self.read(min(count, PIECE))
            except OSError:
                raise Fault(56)
            if not part:
                break
            parts.append(part)
            count -= len(part)
            self.position += len(part)
        return b"".join(parts)

    def exactly(self, count, number):
        """So many bytes; this fault where the input ends before."""
        data = self.some(count)
        if len(data) < count:
            raise Fault(number)
        return data

    def skip(self, count, number):
        """So many bytes are passed."""
        while count:
            count -= len(self.exactly(min(count, PIECE), number))


def decimal(text, least, most):
    """The number that digits say, without sign and leading zeros, from the least to the most; none
    where it is not one."""
    if not re.fullmatch(b"0|[1-9][0-9]*", text) or not least <= int(text) <= most:
        return None
    return int(text)


# -------------------------------------------------------------------------------------------- heads

class VideoHead:
    """What a text of pictures says of them: a YUV4MPEG2 header, or a PPM, which is RCT."""

    def __init__(self, width, height, rate=0, scale=0, structure=0, aspect=(0, 0),
                 planes=(True, 0, 0, False), rct=False, depth=8, siting=None, range=None):
        self.width, self.height, self.rate, self.scale = width, height, rate, scale
        self.structure, self.aspect, self.rct, self.depth = structure, aspect, rct, depth
        self.chroma, self.log2_h, self.log2_v, self.extra = planes
        self.siting, self.range = siting, range

    def sizes(self):
        """The width and height of each plane: those of chroma are rounded up."""
        whole = (self.width, self.height)
        reduced = (-(-self.width // 2 ** self.log2_h), -(-self.height // 2 ** self.log2_v))
        return [whole] + [reduced] * 2 * self.chroma + [whole] * self.extra


def samples_in(data, depth, order):
    """The samples of bytes: of two bytes each above 8 bits, in this order."""
    size = 1 if depth == 8 else 2
    return [int.from_bytes(data[at:at + size], order) for at in range(0, len(data), size)]


def bytes_of(samples, depth, order):
    """The bytes of samples: two of each above 8 bits, in this order."""
    return b"".join(sample.to_bytes(1 if depth == 8 else 2, order) for sample in samples)


def get_plane(source, width, height, depth, order):
    """The lines of a plane. Own: 65 where a sample has more bits, after the bytes of the plane."""
    size = width if depth == 8 else 2 * width
    lines = [samples_in(source.exactly(size, 64), depth, order) for _ in range(height)]
    if any(sample >= 2 ** depth for line in lines for sample in line):
        raise Fault(65)
    return lines


# ---------------------------------------------------------------------------------------- YUV4MPEG2

# the names of chroma: whether there are chroma planes, log2 of their factors, transparency; depth
PLANES = {
    b"420jpeg": (True, 1, 1, False, 8), b"420mpeg2": (True, 1, 1, False, 8),
    b"420paldv": (True, 1, 1, False, 8), b"422": (True, 1, 0, False, 8),
    b"444": (True, 0, 0, False, 8), b"411": (True, 2, 0, False, 8), b"mono": (False, 0, 0, False, 8),
    b"444alpha": (True, 0, 0, True, 8),
    # as FFmpeg names them
    **{b"%sp%d" % (name, depth): (True, log2_h, log2_v, False, depth)
       for name, log2_h, log2_v in [(b"420", 1, 1), (b"422", 1, 0), (b"444", 0, 0)]
       for depth in [9, 10, 12, 14, 16]},
    **{b"mono%d" % depth: (False, 0, 0, False, depth) for depth in [9, 10, 12, 16]},
}
# where chroma lies, by the name of 4:2:0 of 8 bits; own: without a name, as in JPEG
SITINGS = {b"420jpeg": "centre", b"420mpeg2": "left", b"420paldv": "topleft", b"420": "centre"}
# the range of values, as FFmpeg names it
RANGES = {b"COLORRANGE=FULL": "full", b"COLORRANGE=LIMITED": "limited"}
STRUCTURES = {b"?": 0, b"t": 1, b"b": 2, b"p": 3}


def name_of(planes, depth):
    """The name of chroma that is written, or none."""
    return next((name for name, named in PLANES.items() if named == (*planes, depth)), None)


def header_line(source, first):
    """The line of a header, without its line feed, at most 1024 bytes, whose first byte is read."""
    line = first
    while line and len(line) <= 1024 and not line.endswith(b"\n"):
        line += source.exactly(1, 60)
    if not line.endswith(b"\n") or not re.match(b"YUV4MPEG2[ \n]", line):
        raise Fault(60)
    return line[:-1]


def ratio(text, most):
    """Two numbers with a colon between them, both zero or neither."""
    parts = text.split(b":")
    if len(parts) != 2:
        return None
    num, den = (decimal(part, 0, most) for part in parts)
    return None if num is None or den is None or (num == 0) != (den == 0) else (num, den)


def chroma_tag(text, most):
    """The planes of a name, and where chroma lies, which is said where depths above 8 are read; so is
    the name 420."""
    planes = PLANES.get(b"420jpeg" if text == b"420" and most > 8 else text, [17])
    if planes[-1] > most:
        raise Fault(62)
    return planes, SITINGS.get(text) if most > 8 else None


def tag_value(letter, text, most):
    """What a tag says; 61 where it is not one, 62 where it is left out here, as depths above the
    most are. Of X only a range, where depths above 8 are read."""
    if letter == b"X":
        return RANGES.get(text) if most > 8 else None
    if letter == b"I" and text == b"m":
        raise Fault(62)
    value = {
        b"W": lambda: decimal(text, 1, 8192), b"H": lambda: decimal(text, 1, 8192),
        b"F": lambda: ratio(text, 2 ** 32 - 1), b"A": lambda: ratio(text, 65535),
        b"I": lambda: STRUCTURES.get(text), b"C": lambda: chroma_tag(text, most),
    }.get(letter, lambda: None)()
    if value is None:
        raise Fault(61)
    return value


def open_y4m(source, first, most=16):
    """The header of a text whose first byte is read, if it has one, of so many bits at most."""
    tags = {}
    for tag in header_line(source, first).split(b" ")[1:]:
        letter, text = tag[:1], tag[1:]
        if letter != b"X" and letter in tags:
            raise Fault(61)
        value = tag_value(letter, text, most)
        if letter == b"X" and value and tags.get(b"X"):
            raise Fault(61)
        tags[letter] = value or tags.get(letter) if letter == b"X" else value
    if b"W" not in tags or b"H" not in tags:
        raise Fault(61)
    (*planes, depth), siting = tags.get(b"C", (PLANES[b"420jpeg"], None))
    return VideoHead(tags[b"W"], tags[b"H"], *tags.get(b"F", (0, 0)), tags.get(b"I", 0),
                     tags.get(b"A", (0, 0)), planes, depth=depth, siting=siting,
                     range=tags.get(b"X"))


def y4m_pictures(source, head):
    """The pictures after a header, in turn. An end where one would begin is the end."""
    while byte := source.some(1):
        for wanted in b"FRAME\n":
            byte = byte or source.exactly(1, 64)
            if byte != bytes([wanted]):
                raise Fault(63)
            byte = b""
        yield [get_plane(source, *size, head.depth, "little") for size in head.sizes()]


def y4m_header(head):
    """The header that is written: the tags W H F I A C, and X of the range."""
    letter = next(letter for letter, value in STRUCTURES.items() if value == head.structure)
    name = name_of((head.chroma, head.log2_h, head.log2_v, head.extra), head.depth)
    if name == b"420jpeg" and head.siting:
        name = next(name for name, siting in SITINGS.items() if siting == head.siting)
    tag = b"".join(b" X" + text for text, named in RANGES.items() if named == head.range)
    return b"YUV4MPEG2 W%d H%d F%d:%d I%s A%d:%d C%s%s\n" % (
        head.width, head.height, head.rate, head.scale, letter, *head.aspect, name, tag)


def y4m_picture(planes, depth):
    return b"FRAME\n" + b"".join(bytes_of(line, depth, "little") for plane in planes for line in plane)


# ---------------------------------------------------------------------------------------------- PPM

WHITE = b" \t\n\r"
MAXIMA = {b"%d" % (2 ** depth - 1): depth for depth in [8, 9, 10, 12, 14, 16]}


def ppm_blank(source):
    """The first byte after white space and comments, each from # to a line feed or a carriage
    return. Own: both have fewer than 65536 bytes, and none is in a number or right after it."""
    comment = False
    for _ in range(65536):
        byte = source.exactly(1, 60)
        if comment:
            comment = byte not in b"\n\r"
        elif byte == b"#":
            comment = True
        elif byte not in WHITE:
            return byte
    raise Fault(60)


def ppm_word(source, word, most):
    """A word that begins so, of so many bytes at most, and the byte of white space after it."""
    for _ in range(most + 1 - len(word)):
        byte = source.exactly(1, 60)
        if byte in WHITE:
            return word
        word += byte
    raise Fault(60)


def ppm_format(source, first):
    """The header of an image whose first byte is read: its width, height and depth. Own: no other
    maximum than one less than a power, and numbers in their shortest spelling."""
    magic = ppm_word(source, first, 2)
    width, height = (decimal(ppm_word(source, ppm_blank(source), 4), 1, 8192) for _ in range(2))
    depth = MAXIMA.get(ppm_word(source, ppm_blank(source), 5))
    if magic != b"P6" or None in (width, height, depth):
        raise Fault(60)
    return width, height, depth


def open_ppm(source, first):
    """The first image's header. Own: structure and aspect are not known."""
    width, height, depth = ppm_format(source, first)
    return VideoHead(width, height, rct=True, depth=depth)


def ppm_pictures(source, head):
    """The images one after the other, as planes of red, green and blue. Own: all have one size and
    one depth."""
    while True:
        lines = get_plane(source, 3 * head.width, head.height, head.depth, "big")
        yield [[line[k::3] for line in lines] for k in range(3)]
        first = source.some(1)
        if not first:
            return
        if ppm_format(source, first) != (head.width, head.height, head.depth):
            raise Fault(71)


def ppm_header(width, height, depth):
    """The header that is written."""
    return b"P6\n%d %d\n%d\n" % (width, height, 2 ** depth - 1)


def ppm_line(colours, depth):
    return bytes_of((sample for place in zip(*colours) for sample in place), depth, "big")
