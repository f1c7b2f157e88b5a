# SPDX-License-Identifier: MIT OR Apache-2.0
"""Files of AVI and Matroska, opened by their first byte."""
import avi_format
import damaged_avi
import damaged_openings
import ebml
import ffv1
import files
import matroska

EBML = b"\x1a"                  # the first byte of a file of Matroska, of the ID of its EBML header


def after(data, read):
    """A reading that gives these bytes first."""
    def more(count):
        nonlocal data
        given, data = data[:count], data[count:]
        return given or read(count)
    return more


def begun_with(first, source):
    """The bytes of a source from its beginning, of which these were looked at. Where it begins again it
    gives all of them once more."""
    reading = after(first, source.read)

    def begin():
        nonlocal reading
        if not source.again():
            return False
        reading = source.read
        return True
    return files.Source(lambda count: reading(count), begin)


def input_of(source):
    """The bytes of a file from its beginning, of which the first was looked at, and whether it is
    Matroska. Own: what begins with the byte 1A is, and all else is an AVI. What is noted of it is noted
    of the source."""
    first = source.some(1)
    data = ebml.Input(None) if first == EBML else files.Source(None)
    data.read = after(first, source.read)

    def begin():
        data.read = source.read
        return source.again()
    data.begin = begin
    data.notes = source.notes
    return data, first == EBML


def opened(source):
    """The head of a file, its configuration, its frames, and the lines of further FFV1 video and of
    a Segment."""
    return opened_in(*input_of(source))


def opened_in(data, is_matroska, damaged=False):
    """The same of bytes; where they may be damaged, what is told stands among the frames, and in
    Matroska also before them."""
    if is_matroska and damaged:
        return damaged_openings.opened(data)
    if is_matroska:
        head, size, frames = matroska.open_again(data)
        segment = [f"segment {'open' if size is None else size}"]
    else:
        head, frames = avi_format.open_avi(data, True, damaged_avi.items if damaged else None)
        segment = []
    others = [f"note 91 OtherVideo {head.others}"] if head.others else []
    config = ffv1.read_record(head.record, head.width, head.height, wide=True)
    return head, config, frames, [*others, *segment]
