# SPDX-License-Identifier: MIT OR Apache-2.0
"""The vectors of files that `ffv1_vectors` asks the crates: AVI and Matroska that are read, and
Matroska that is written."""
import io
import zlib

import ebml
import ffv1
import matroska
import matroska_writer
from known_answers import avi_files
from known_answers import matroska_others
from known_answers import matroska_written as known_written
from known_answers.matroska import files as known_files
from known_answers.matroska_tracks import file_of, files as known_tracks
from random_matroska import RATES, made, written


def hexadecimal(data):
    return data.hex() or "-"


def files_of_avi():
    """bytes whole fault left opened (width height rate scale record) frames, all of them known;
    whether all RIFFs are read, and each frame's length and CRC-32."""
    lines = []
    for _, is_whole, file, *_ in avi_files.rows():
        said, frames, fault, left = avi_files.answer(file, is_whole)
        head = [*said[:4], hexadecimal(said[4])] if said else []
        lines.append([hexadecimal(file), is_whole, fault, left, int(said is not None), *head,
                      *(f"{len(frame)}:{zlib.crc32(frame)}" for frame in frames)])
    return lines


def matroska_answer(file):
    """The fault after the frames, how many bytes are left, what the head says, if anything, and
    the length and the CRC-32 of each frame."""
    source, said, frames, fault = ebml.Input(io.BytesIO(file).read), [], [], 0
    try:
        head, size, rest = matroska.open_matroska(source)
        said = ["-" if size is None else size, head.width, head.height, head.rate, head.scale,
                hexadecimal(head.record)]
        for frame in rest:
            frames.append(f"{len(frame)}:{ebml.crc_more(0, frame)}")
    except ffv1.Fault as refused:
        fault = refused.number
    left = len(source.read(-1))
    return [fault, left, int(len(said) > 0), *said, *frames]


def files_of_matroska(random, count):
    """bytes place bits fault left opened (segment width height rate scale record) frames. `=` is
    the file of the line before; the byte at the place is then changed by exclusive or."""
    known = [file for _, file, *_ in [*matroska_others.files(), *known_files()]] \
        + [file_of(row[1]) for row in known_tracks()]
    lines = [[hexadecimal(file), 0, 0, *matroska_answer(file)] for file in known]
    for number in range(count):
        file = bytearray(made(random, str(number)).file())
        lines.append([file.hex(), 0, 0, *matroska_answer(bytes(file))])
        place, bits = random.randrange(len(file)), 1 << random.randrange(8)
        file[place] ^= bits
        lines.append(["=", place, bits, *matroska_answer(bytes(file))])
    return lines


def made_bytes(state, count):
    """So many bytes, each the highest byte of the next number; and the last number."""
    made_of = bytearray()
    for _ in range(count):
        state = (1664525 * state + 1013904223) % 2 ** 32
        made_of.append(state >> 24)
    return bytes(made_of), state


def length_and_sum(data):
    return [len(data), zlib.crc32(data)]


def written_line(head, structure, aspect, seed, runs):
    """One line of `written`. A structure above 3 is as 0."""
    line = [head.width, head.height, head.rate, head.scale, hexadecimal(head.record), structure,
            *aspect]
    shown = matroska_writer.Shown(structure if structure < 4 else 0, aspect)
    frames, state = [], seed
    for count, length in runs:
        for _ in range(count):
            frame, state = made_bytes(state, length)
            frames.append(frame)
    try:
        forms = [form(head, shown, frames)
                 for form in [matroska_writer.begun, matroska_writer.finished, matroska_writer.open_form]]
        said = [0, seed, *(field for data in forms for field in length_and_sum(data))]
    except ffv1.Fault as refused:
        said = [refused.number, seed]
    return [*line, *said, ";", *(f"{count}*{length}" for count, length in runs)]


def some_runs(random):
    """A few frames: how many of which length, one after the other."""
    lengths = [0, 1, 2, random.randrange(1, 200), random.randrange(1, 5000)]
    return [(random.randrange(1, 4), random.choice(lengths)) for _ in range(random.randrange(1, 6))]


def files_written(random, count):
    """width height rate scale record structure num den fault seed begun finished open ; frames,
    each form its length and its CRC-32, and none after a fault. Of each run of frames, how many and
    how long."""
    record = random.randbytes(26)
    lines = [written_line(matroska.Head(1, 2, 3, *rate, record), 0, (0, 0), 5, [(2, 9)])
             for rate in [*((rate, scale) for rate, scale, _ in known_written.TIMED),
                          *known_written.UNTIMED]]
    for number in [*range(8191, 8201), 16383, 16384, 16385, 20000]:
        head = matroska.Head(1, 1, 1, *random.choice(RATES), record)
        lines.append(written_line(head, 3, (0, 0), number, [(number, random.randrange(1, 4))]))
    for length in [65535, 65536, 1000000]:
        head = matroska.Head(1, 720, 576, 25, 1, record)
        lines.append(written_line(head, 1, (59, 54), length, [(1, length), (1, 1)]))
    for size in [2 ** 31, 2 ** 32 - 1]:
        head = matroska.Head(1, size, size, *random.choice(RATES), random.randbytes(1000))
        lines.append(written_line(head, 2, (65535, 65535), size, [(3, 2)]))
    while len(lines) < count:
        head, shown, _ = written(random)
        structure = random.choice([shown.structure] * 4 + [4, 255])
        aspect = random.choice([shown.aspect] * 4 + [(0, 7), (7, 0)])
        lines.append(written_line(head, structure, aspect, random.randrange(2 ** 32),
                                  some_runs(random)))
    return lines
