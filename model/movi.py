# SPDX-License-Identifier: MIT OR Apache-2.0
"""Which chunks a list movi of an AVI has, by their names: a part of `files.py`."""


def is_frame(name, number, wide):
    """Whether a chunk is a frame of the stream of this number: NNdc; wide, also NNdb."""
    return name in [b"%02d" % number + kind for kind in ([b"dc", b"db"] if wide else [b"dc"])]


def stands(name, number, count, wide):
    """Own: whether a chunk may stand in movi, of a file of so many streams: no list; wide, frames,
    NNpc of the stream, chunks of another one of the streams, ixNN, JUNK and lists alone."""
    if not wide:
        return name != b"LIST"
    if is_frame(name, number, wide) or name in (b"%02dpc" % number, b"JUNK", b"LIST"):
        return True
    if name[:2].isdigit():
        return int(name[:2]) != number and int(name[:2]) < count
    return name[:2] == b"ix" and name[2:].isdigit()
