# SPDX-License-Identifier: MIT OR Apache-2.0
"""The chunks of a list of an AVI, one after the other: a part of `files.py`."""
import struct

from ffv1 import Fault


def padded(size):
    return size + size % 2


def bars_none(name):
    """Of a list in which a chunk of any name may stand."""
    return False


def all_known():
    """Of a list in which all sizes are known."""
    return False


def marked(source, left, bars=bars_none, opens=False, unknown=all_known):
    """The chunks of RIFF or movi: where each begins is marked, and where the next one would."""
    inner = chunks(source, left, bars, opens, unknown)
    while True:
        source.mark()
        entry = next(inner, None)
        if entry is None:
            return
        yield entry


def chunks(source, left, bars=bars_none, opens=False, unknown=all_known):
    """The name and the size of each chunk of a list with so many bytes left, in turn; who asks for
    the next has passed this one, with its padding. Own: a barred name is refused before its size; a
    list has room for its own name; of one that is opened that name alone is its chunk, and the next
    one is the first in it. Where sizes may not be known, a list that is refused for one of those has
    room for its own name, and is judged by who asks, after that name."""
    while left:
        if left < 8:
            raise Fault(52)
        header = source.exactly(8, 52)
        name, size = header[:4], struct.unpack("<I", header[4:])[0]
        if bars(name):
            raise Fault(50)
        if unknown() and name == b"LIST" and not is_known(size) and (size == 0 or left < 8 + size):
            if left < 12:
                raise Fault(52)
            yield name, size
            return
        if left < 8 + padded(size):
            raise Fault(52)
        if name == b"LIST" and size < 4:
            raise Fault(50)
        if opens and name == b"LIST":
            size = 4
        left -= 8 + padded(size)
        yield name, size


def is_known(size):
    """Own: whether a size of RIFF or of a list movi says how many bytes it has; 0 and the greatest one
    stand where a program could not go back to write it."""
    return size not in (0, 2 ** 32 - 1)


class Open:
    """The chunks of a RIFF, or of a list movi, whose size is not known, in turn; who asks for the next
    has passed this one. Own: they end with the input, where a name would begin, or at a chunk of one of
    the names that end them: `end` is that name, or none. A name may have been read."""

    def __init__(self, source, ends, bars=bars_none, opens=False, name=b""):
        self.source, self.ends, self.bars, self.opens = source, ends, bars, opens
        self.name, self.end = name, None

    def __iter__(self):
        while True:
            if not self.name:
                self.source.mark()
            name, self.name = self.name or self.source.some(4), b""
            if not name:
                return
            if len(name) < 4:
                raise Fault(52)
            if name in self.ends:
                self.end = name
                return
            size = struct.unpack("<I", self.source.exactly(4, 52))[0]
            if self.bars(name):
                raise Fault(50)
            if name == b"LIST" and size < 4 and (is_known(size) or self.opens):
                raise Fault(50)
            if self.opens and name == b"LIST":
                size = 4
            yield name, size


def get_chunk(source, size):
    """The bytes of a chunk, with which its padding is read."""
    return source.exactly(padded(size), 52)[:size]
