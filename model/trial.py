# SPDX-License-Identifier: MIT OR Apache-2.0
"""What `ffv1 trial` does with a text: a part of `commands.py`."""
import ffv1
import files
from ffv1 import Fault


def code_of(config, plane):
    """The samples of a mono picture as the content of one slice: its decisions and its bytes."""
    encoder, cell = ffv1.Encoder(), ffv1.Cell(config.width)
    cell.lines = plane
    for y in range(config.height):
        ffv1.put_line(encoder, config, ffv1.SMALL, 0, cell, y)
    return encoder.history.count, encoder.sentinel()


def is_coded(config, plane, code):
    """Whether bytes are decoded to a plane."""
    decoder, cell = ffv1.Decoder(code), ffv1.Cell(config.width)
    for _ in range(config.height):
        ffv1.get_line(decoder, config, ffv1.SMALL, 0, cell)
    return cell.lines == plane


def trial(source, out):
    """The first picture of a text, which is to be mono, coded and decoded."""
    head = files.open_y4m(source, source.some(1), 8)
    if head.chroma:
        raise Fault(62)
    planes = next(files.y4m_pictures(source, head), None)
    if planes is None:
        raise Fault(70)
    config = ffv1.Config(head.width, head.height)
    decisions, code = code_of(config, planes[0])
    assert is_coded(config, planes[0], code)
    out(f"samples {head.width * head.height}\ndecisions {decisions}\ncode {code.hex().upper()}\n"
        "same yes\n")
