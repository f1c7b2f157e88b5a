# SPDX-License-Identifier: MIT OR Apache-2.0
"""Elements of EBML (RFC 8794), read and written, in plain Python: an ID, a size, and that many
bytes of content, all numbers big end first.

Bytes in memory are read by the same rules as those of a file: as an input that has just them.
"""
import io

import files
from ffv1 import Fault
from files import LIMIT

CRC_32, VOID = 0xBF, 0xEC
EBML, DOC_TYPE, READ_VERSION, DOC_TYPE_READ_VERSION = 0x1A45DFA3, 0x4282, 0x42F7, 0x4285


# ------------------------------------------------------------------------------- CRC-32 (11.3.1)

def after_byte(crc):
    """A CRC-32 whose low byte took one more byte in, moved on by its 8 bits."""
    for _ in range(8):
        crc = crc >> 1 ^ (0xEDB88320 if crc & 1 else 0)
    return crc


AFTER = [after_byte(low) for low in range(256)]


def crc_more(crc, data):
    """The CRC-32 of some bytes, whose own is given, and these after them; that of none is 0."""
    crc ^= 0xFFFFFFFF
    for byte in data:
        crc = crc >> 8 ^ AFTER[(crc ^ byte) & 255]
    return crc ^ 0xFFFFFFFF


# ------------------------------------------------------------------------------ bytes that are read

class Input(files.Source):
    """Bytes that are read from the left. After the CRC-32 of an element they are summed, until
    `judge` compares the two."""

    def __init__(self, read, begin=None):
        super().__init__(read, begin)
        self.wanted, self.sum = None, 0

    def again(self):
        self.wanted = None
        return super().again()

    def some(self, count):
        data = super().some(count)
        if self.wanted is not None:
            self.sum = crc_more(self.sum, data)
        return data

    def await_sum(self):
        """The content of an element CRC-32 says what the bytes after it are summed to."""
        self.wanted, self.sum = int.from_bytes(self.exactly(4, 52), "little"), 0

    def judge(self):
        """The bytes that were summed are to have the CRC-32 that was said of them, if any was."""
        wanted, self.wanted = self.wanted, None
        if wanted is not None and wanted != self.sum:
            raise Fault(85)


def in_memory(data):
    """Bytes that may begin again."""
    file = io.BytesIO(data)
    return Input(file.read, lambda: file.seek(0) == 0)


# ------------------------------------------------------------------- headers of elements (4, 5, 6)

def length_of(first):
    """4: how many bytes an ID or a size has whose first byte is this; 9 for none."""
    return 9 - first.bit_length()


def vint(source, most, left, first=b""):
    """4: the bytes of an ID or a size, of at most so many, in a parent with so many bytes left; its
    first byte may be read."""
    if left < 1:
        raise Fault(52)
    first = first or source.exactly(1, 52)
    length = length_of(first[0])
    if length > most:
        raise Fault(81)
    if length > left:
        raise Fault(52)
    return first + source.exactly(length - 1, 52)


def data_of(vint_bytes):
    """4: the number of a size, without its highest 1 bit."""
    return int.from_bytes(vint_bytes, "big") - (1 << 7 * len(vint_bytes))


def get_size(source, left):
    """6: how many bytes of content there are, or none where that is unknown; and how many bytes the
    size itself has."""
    size = vint(source, 8, left)
    data = data_of(size)
    return None if data == (1 << 7 * len(size)) - 1 else data, len(size)


def get_header(source, left, first=b"", outside=()):
    """The ID of an element, its size, or none where that is unknown, and what its parent, with so
    many bytes left, has left after the header. Own: an element that passes its parent is refused
    here, and before that one of an ID that stands only outside of such a parent."""
    ident = vint(source, 4, left, first)
    if int.from_bytes(ident, "big") in outside:
        raise Fault(81)
    size, length = get_size(source, left - len(ident))
    left -= len(ident) + length
    if size is not None and size > left:
        raise Fault(52)
    return int.from_bytes(ident, "big"), size, left


def known_size(source):
    """A size after an ID of its own, which is to be known."""
    size, _ = get_size(source, 8)
    if size is None:
        raise Fault(81)
    return size


def known(header):
    """A header whose size is to be known."""
    if header[1] is None:
        raise Fault(81)
    return header


def pass_judged(source, size):
    """11.3.1: an element with so many bytes of content is passed. Where it begins with a CRC-32 of
    4 bytes, this is compared with what is after it."""
    if size == 0:
        return
    ident, first, left = known(get_header(source, size))
    if ident == CRC_32 and first == 4:
        source.await_sum()
        left -= 4
    source.skip(left, 52)
    source.judge()


# -------------------------------------------------------------------------- elements in memory (7)

def judge(content):
    """A content in memory has the CRC-32 that it says, if it does."""
    pass_judged(in_memory(content), len(content))


def elements(content):
    """The ID and the content of each element, in turn."""
    source, left = in_memory(content), len(content)
    while left:
        ident, size, left = known(get_header(source, left))
        yield ident, source.exactly(size, 52)
        left -= size


def find(content, wanted):
    """The content of the first element with this ID; what stands after it is not seen."""
    return next((data for ident, data in elements(content) if ident == wanted), None)


def find_number(content, wanted, default):
    """7.2: a number; of no bytes it is its default, as where it is not there."""
    data = find(content, wanted) or b""
    if len(data) > 8:
        raise Fault(81)
    return int.from_bytes(data, "big") if data else default


def find_text(content, wanted):
    """7.4: a text, which ends before its first byte 0."""
    return (find(content, wanted) or b"").split(b"\0")[0]


# --------------------------------------------------------------------------- the EBML header (11.2)

def header_content(source):
    """The content of the header of a file."""
    if source.exactly(4, 52) != EBML.to_bytes(4, "big"):
        raise Fault(80)
    return source.exactly(limited(get_size(source, 8)[0]), 52)


def judge_header(content):
    """What the header says. Own: one of Matroska that is read, each of its fields judged before the
    next is looked for."""
    judge(content)
    if find_text(content, DOC_TYPE) != b"matroska" or find_number(content, READ_VERSION, 1) > 1 \
            or find_number(content, DOC_TYPE_READ_VERSION, 1) > 4:
        raise Fault(80)


def open_ebml(source):
    """The header of a file."""
    judge_header(header_content(source))


def limited(size):
    """Own: the size of what is kept."""
    if size is None:
        raise Fault(81)
    if size > LIMIT:
        raise Fault(53)
    return size


# ------------------------------------------------------------------------ elements that are written

def put_id(ident):
    return ident.to_bytes((ident.bit_length() + 7) // 8, "big")


def short(ident, content):
    """An element whose size is one byte: at most 126 bytes of content."""
    return put_id(ident) + bytes([128 + len(content)]) + content


def long(ident, content):
    """An element whose size is eight bytes, whatever it is."""
    return put_id(ident) + long_size(len(content)) + content


def long_size(size):
    return b"\1" + size.to_bytes(7, "big")


def number(ident, value, length):
    """7.2: a number of so many bytes."""
    return short(ident, value.to_bytes(length, "big"))


def summed(content):
    """11.3.1: a content after its CRC-32."""
    return short(CRC_32, crc_more(0, content).to_bytes(4, "little")) + content
