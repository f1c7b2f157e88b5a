# SPDX-License-Identifier: MIT OR Apache-2.0
"""Checks the model of Matroska: what is known of files, of Tracks and of what is written; files
that are cut at each byte; and random files, written, made of elements of all kinds, and damaged.
Each check is a name, what was found and what was wanted; `check.py` prints what differs.
"""
import io
import math
import random
import struct
import zlib

import ebml
import ffv1
import matroska
import matroska_writer
from known_answers import matroska as known
from known_answers import matroska_late, matroska_others, matroska_tracks, matroska_written
from known_answers.case import fault_of
from known_answers.matroska import C, FRAME, H, RECORD, T, element, spell
from random_matroska import Small, made, written

SEED = 9559
SUMMED = {"1F43B675", *(ident for _, ident in known.SEVEN)}
FAULTS = {51, 52, 53, 54, 80, 81, 82, 83, 84, 85, 88}


# ------------------------------------------------------------------------------ files that are read

class Failing:
    """Bytes, after which a read fails."""

    def __init__(self, data):
        self.file = io.BytesIO(data)

    def read(self, count):
        data = self.file.read(count)
        if not data:
            raise OSError
        return data


class Answer:
    """What a file is read as, whose bytes come once or may begin again: what its Tracks say, where it
    could be opened; the size of its Segment; the frames; the fault after them, or 0 for the end; where
    the reader stands then; and what is noted, by number."""

    def __init__(self, read, tell, begin=None):
        self.head, self.size, self.frames, self.fault = None, None, [], 0
        source = ebml.Input(read, begin)
        self.notes = source.notes
        try:
            self.head, self.size, frames = matroska.open_again(source)
            for frame in frames:
                self.frames.append(frame)
        except ffv1.Fault as fault:
            self.fault = fault.number
        self.at = tell()

    def said(self):
        """What Tracks say, as numbers and bytes."""
        return self.head and said(self.head)

    def all(self):
        return self.said(), self.size, self.frames, self.fault, self.at


def said(head):
    return head.number, head.width, head.height, head.rate, head.scale, head.record


def read(data):
    file = io.BytesIO(data)
    return Answer(file.read, file.tell)


def read_again(data):
    """The answer where the bytes may begin again."""
    file = io.BytesIO(data)
    return Answer(file.read, file.tell, lambda: file.seek(0) == 0)


def read_failing(data):
    """The answer where a read after these bytes fails."""
    failing = Failing(data)
    return Answer(failing.read, failing.file.tell)


def same_whatever(data, answer):
    """Whether a file has the same answer whatever stands where it was not read."""
    rest = len(data) - answer.at
    others = [b"", b"\xa3" * (rest + 9)] if rest else []
    return all(read(data[:answer.at] + other).all() == answer.all() for other in others)


# ------------------------------------------------------------------------------------ known answers

def known_files():
    """The rows of files and of Tracks."""
    for name, file, frames, fault, left in [*known.files(), *matroska_others.files()]:
        answer = read(file)
        yield name, (answer.frames, answer.fault, len(file) - answer.at), \
            ([FRAME] * frames, fault, left)
        yield f"{name}, whatever is after", same_whatever(file, answer), True
        again, owed = read_again(file), matroska_late.AGAIN.get(name, (frames, fault))
        yield f"{name}, which may begin again", \
            (len(again.frames), again.fault, again.all() == answer.all() or fault == 82), (*owed, True)
    for name, file, frames, fault, left in matroska_late.ROWS:
        answer = read_again(file)
        found = answer.frames, answer.fault, len(file) - answer.at
        yield f"Tracks behind Clusters: {name}", found, ([FRAME] * frames, fault, left)
        yield f"Tracks behind Clusters: {name}, of bytes that come once", read(file).fault, 82
    for name, content, wanted in matroska_tracks.files():
        file = matroska_tracks.file_of(content)
        answer, is_fault = read(file), isinstance(wanted, int)
        yield name, (answer.said() or answer.fault, len(file) - answer.at), \
            (wanted, 5 if is_fault else 0)
    foreign = read(matroska_others.FOREIGN)
    yield "a file of another program", (foreign.said(), foreign.size), \
        (matroska_others.FOREIGN_SAID, None)
    yield "the length of an EBML header", len(H), 40
    yield "the length of Tracks", len(T), 79
    yield "the length of a Cluster", len(C), 26


def known_numbers():
    """CRC-32, track numbers and rates."""
    yield "CRC-32", ebml.crc_more(0, b"123456789"), 0xCBF43926
    data = random.Random(SEED).randbytes(1000)
    for length in [0, 1, 4, 100, 1000]:
        crc = ebml.crc_more(ebml.crc_more(0, data[:length // 3]), data[length // 3:length])
        yield f"CRC-32 of {length} bytes", crc, zlib.crc32(data[:length])
    for number, spelled in [(127, "FF"), (127, "407F"), (200, "40C8"), (0, "80"), (16383, "7FFF"),
                            (2 ** 56 - 1, "01FFFFFFFFFFFFFF")]:
        tracks = T[:23] + spell("D7", element("", number.to_bytes(7, "big")), T[24:])
        entry = matroska_tracks.entry(
            element("D7", number.to_bytes(7, "big")), matroska_tracks.TYPE, matroska_tracks.CODEC)
        tracks = element("1654AE6B", entry)
        file = H + known.segment(tracks, known.cluster(known.block(spelled + "000080")))
        yield f"track {number} as {spelled}", read(file).frames, [FRAME]
    for rate, scale, duration in matroska_written.TIMED:
        yield f"{rate}:{scale}", matroska_writer.timed(rate, scale), duration
    for rate, scale in matroska_written.UNTIMED:
        yield f"{rate}:{scale}", fault_of(lambda: matroska_writer.timed(rate, scale)), 86


def many_rates():
    """Rates that are read back: whole ones, n / 1001 and halves; and those of whole nanoseconds."""
    def bad(rates):
        return [rate for rate in rates if fault_of(lambda: matroska_writer.timed(*rate))]
    yield "whole rates", bad((n, 1) for n in range(1, 31796)), []
    yield "the next one", bad([(31796, 1)]), [(31796, 1)]
    yield "1000 n / 1001", bad((1000 * n, 1001) for n in range(1, 1001) if 1001 % n or n == 1), []
    yield "halves", bad((n, 2) for n in range(1, 300, 2)), []
    yield "whole nanoseconds", bad((n, d) for n in range(1, 101) for d in range(1, 101)
                                   if 1000000000 % n == 0 and math.gcd(n, d) == 1), []


# ---------------------------------------------------------------------------------- what is written

def known_bytes():
    """Files byte by byte, in their three forms."""
    w = matroska_written
    head, shown = matroska.Head(1, 1, 1, 0, 0, RECORD), matroska_writer.Shown()
    yield "a finished file", matroska_writer.finished(head, shown, [FRAME]), w.EXAMPLE
    yield "an open file", matroska_writer.open_form(head, shown, [FRAME]), w.OPEN_EXAMPLE
    yield "a begun file", matroska_writer.begun(head, shown, [FRAME]), w.OPEN_EXAMPLE[:w.BEGUN]
    yield "the length of a file", len(w.EXAMPLE), 399
    head, shown = matroska.Head(1, 352, 288, 30000, 1001, RECORD), matroska_writer.Shown(1, (10, 11))
    yield "a file of two frames", matroska_writer.finished(head, shown, [FRAME, w.SECOND]), w.FILE
    for width, height, structure, aspect, spelled in w.VIDEOS:
        head, shown = matroska.Head(1, width, height, 0, 0, b""), matroska_writer.Shown(structure, aspect)
        yield f"Video of {spelled}", matroska_writer.video(head, shown), spell(spelled)
    for n, spelled in w.DOUBLES:
        yield f"{n} as a double", matroska_writer.double(n), spell(spelled)
        yield f"{n} as Python's", matroska_writer.double(n), struct.pack(">d", n)
    for count, stride, cues in w.STRIDES:
        found = matroska_writer.cues(range(1000, 1000 + 50 * count, 50))
        yield f"the stride of {count}", (matroska_writer.stride_of(count), len(found)), \
            (stride, 18 + 27 * cues)
        yield f"the last cue of {count}", found[-27:], cue(
            (cues - 1) * stride, 1000 + 50 * (cues - 1) * stride)
    most = 2 ** 56 - 2 ** 20 - 41
    yield "the last place", matroska_writer.places(most - 5, [5]), [most - 5, most + 41]
    yield "a place too far", fault_of(lambda: matroska_writer.places(most - 5, [6])), 55
    yield "a later place too far", fault_of(lambda: matroska_writer.places(most - 99, [5, 60])), 55
    for form in [matroska_writer.begun, matroska_writer.open_form, matroska_writer.finished]:
        head = matroska.Head(1, 1, 1, 50, 2, RECORD)
        yield "a rate that is not written", fault_of(lambda: form(head, shown, [FRAME])), 86


def cue(count, place):
    """A cue of this Cluster at this place."""
    return spell("BB99 B388", count.to_bytes(8, "big"),
                 "B78D F78101 F188", place.to_bytes(8, "big"))


# ---------------------------------------------------------------------------------------- cut files

def small_files(numbers):
    """Small files: of the writer, in its three forms, and of elements of all kinds."""
    for name, form, is_open in [("a begun file", matroska_writer.begun, True),
                                ("an open file", matroska_writer.open_form, True),
                                ("a finished file", matroska_writer.finished, False)]:
        head, shown, frames = written(numbers)
        file = form(head, shown, frames[:3])
        begins = [place for _, _, place in parts(file, 52)] + [len(file)]
        pieces = [file[begin:end] for begin, end in zip(begins, begins[1:])]
        yield Small(name, said(head), [
            (piece, [piece[41:]] if piece.startswith(b"\x1f\x43") else []) for piece in pieces],
            is_open)
    for number, is_open in enumerate([False, True, False, True, False, True, False]):
        small = made(numbers, f"small file {number}")
        small.is_open = is_open
        yield small


def cut(small):
    """A small file, cut at each byte: a sized one is truncated; an open one is, too, but where one
    of its Segment's elements ends, which is an end."""
    frames, whole = small.frames, small.file()
    ends = small.ends()
    for length in range(len(whole)):
        answer, failing = read(whole[:length]), read_failing(whole[:length])
        name = f"{length} bytes of {small.name}"
        if length in ends and small.is_open:
            wanted = (frames[:ends[length]], 0) if length >= small.tracks_end() else ([], 82)
            yield name, (answer.frames, answer.fault), wanted
        else:
            yield name, answer.fault, 52
            least = max((count for end, count in ends.items() if end <= length), default=0)
            most = min(count for end, count in ends.items() if end > length)
            yield f"the frames of {name}", answer.frames in (
                frames[:count] for count in range(least, most + 1)), True
        yield f"{name}, and no more are read", (failing.fault, failing.frames), (56, answer.frames)
        yield f"where {name} end", (answer.at, failing.at), (length, length)


# ------------------------------------------------------------------------------------ random files

def is_told(file, frames, begin, end, numbers):
    """Whether damage within 32 neighbouring bits of a Cluster after its CRC-32 is found, and all
    frames before are there."""
    bits = 8 * (end - begin)
    width = min(numbers.randrange(1, 33), bits)
    at = numbers.randrange(bits - width + 1)
    burst = numbers.randrange(2 ** width) | 1 | 1 << width - 1
    damaged = int.from_bytes(file[begin:end], "big") ^ burst << bits - width - at
    answer = read(file[:begin] + damaged.to_bytes(end - begin, "big") + file[end:])
    return answer.fault != 0 and answer.frames[:len(frames)] == frames


def parts(data, at=0):
    """The IDs, the contents and the places of elements one after the other; a Cluster of unknown
    size has no content, so that its elements stand after it, and a Segment has all."""
    while at < len(data):
        begin, length = at, 9 - data[at].bit_length()
        ident, at = data[at:at + length].hex().upper(), at + length
        length = 9 - data[at].bit_length()
        size = int.from_bytes(data[at:at + length], "big") - (1 << 7 * length)
        if size == (1 << 7 * length) - 1:
            size = 0 if ident == "1F43B675" else len(data)
        yield ident, data[at + length:at + length + size], begin
        at += length + size


def inside(data, *idents):
    """The content in an element in an element, by their IDs: the first of each."""
    for ident in idents:
        data = next(content for found, content, _ in parts(data) if found == ident)
    return data


def block_in(data, number):
    """The frame of a block, if it is of this track."""
    length = 9 - data[0].bit_length()
    is_ours = int.from_bytes(data[:length], "big") - (1 << 7 * length) == number
    return [data[length + 3:]] if is_ours else []


def blocks_in(ident, data, number):
    """The frames in an element of a Segment or a Cluster."""
    if ident == "A3":
        return block_in(data, number)
    return [frame for part, inner, _ in parts(data) if part == "A1"
            for frame in block_in(inner, number)] if ident == "A0" else []


def listed(file, number):
    """The frames of this track in a whole file, and the elements whose CRC-32 is wrong: by lists of
    elements in elements, apart from the reader's walk."""
    frames, wrong = [], []
    content = inside(file, "18538067")
    for ident, data, _ in parts(content):
        if ident in SUMMED and data[:2] == b"\xbf\x84" \
                and zlib.crc32(data[6:]) != int.from_bytes(data[2:6], "little"):
            wrong.append(ident)
        inner = parts(data) if ident == "1F43B675" else [(ident, data, 0)]
        frames += [frame for part, held, _ in inner for frame in blocks_in(part, held, number)]
    return frames, wrong


def places_of(file):
    """What differs of the places that a finished file names, from where its elements stand."""
    (_, _, _), (_, content, _) = parts(file)
    at = {}
    for ident, data, place in parts(content):
        at.setdefault(ident, []).append((place, data))
    for ident, data, _ in parts(inside(content, "114D9B74")):
        if ident == "4DBB":
            (place, _), = at[inside(data, "53AB").hex().upper()]
            yield int.from_bytes(inside(data, "53AC"), "big"), place
    for ident, data, _ in parts(inside(content, "1C53BB6B")):
        if ident == "BB":
            count = int.from_bytes(inside(data, "B3"), "big")
            place, cluster = at["1F43B675"][count]
            yield int.from_bytes(inside(data, "B7", "F1"), "big"), place
            yield inside(cluster, "E7"), count.to_bytes(8, "big")
    yield struct.unpack(">d", inside(content, "1549A966", "4489")), (len(at["1F43B675"]),)


def written_files(numbers):
    """Random files that are written are read back in all three forms, have the places that they
    name, and tell damage."""
    for number in range(100):
        head, shown, frames = written(numbers)
        begun, opened, finished = (form(head, shown, frames) for form in [
            matroska_writer.begun, matroska_writer.open_form, matroska_writer.finished])
        for name, file, size, note in [
                ("begun", begun, None, {90: "Open"}), ("open", opened, None, {}),
                ("finished", finished, len(finished) - 52, {94: f"After byte {len(finished)}"})]:
            more = b"x" * (size is not None)
            answer = read(file + more)
            yield f"{name} file {number}", answer.all(), \
                (said(head), size, frames, 0, len(file + more))
            yield f"what is noted of {name} file {number}", answer.notes, note
        yield f"the forms of file {number}", (opened[:len(begun)], opened[200:]), \
            (begun, finished[200:])
        yield f"places of file {number}", [pair for pair in places_of(finished)
                                           if pair[0] != pair[1]], []
        begin = len(begun) - len(frames[-1]) - 23
        yield f"damage of file {number}", all(
            is_told(file, frames[:-1], begin, len(begun), numbers)
            for file in [begun, opened, finished] for _ in range(5)), True


def mutated(numbers, data):
    """A file with some bits flipped, bytes put in, left out or put elsewhere, or cut."""
    data = bytearray(data)
    for _ in range(numbers.choice([1, 1, 1, 2, 3])):
        at = numbers.randrange(len(data))
        end = min(len(data), at + numbers.choice([1, 1, 2, 4, 8, 20]))
        kind = numbers.randrange(6)
        if kind < 2:
            data[at] ^= 1 << numbers.randrange(8)
        elif kind == 2:
            data[at] = numbers.choice([0, 1, 8, 0x40, 0x7F, 0x80, 0xA0, 0xA3, 0xEC, 0xFF])
        elif kind == 3:
            data[at:at] = numbers.randbytes(end - at)
        elif kind == 4:
            other = numbers.randrange(len(data))
            data[other:other] = data[at:end]
        elif len(data) > end - at:
            del data[at:end]
    if numbers.random() < 0.1:
        del data[numbers.randrange(len(data)):]
    return bytes(data)


def mutated_files(numbers, name, file):
    """A file that is mutated has faults of the table alone, and they stay the same whatever stands
    in what is left."""
    for _ in range(10):
        data = mutated(numbers, file)
        answer = read(data)
        yield f"{name}, mutated: {data.hex()}", answer.fault in FAULTS | {0} \
            and same_whatever(data, answer), True
        if answer.fault == 0:
            yield f"{name}, mutated, in lists: {data.hex()}", (answer.frames, []), \
                listed(data[:answer.at], answer.head.number)


def random_files():
    numbers = random.Random(SEED)
    yield from written_files(numbers)
    for small in small_files(numbers):
        yield from cut(small)
    for number in range(100):
        small = made(numbers, f"made file {number}")
        file, rest = small.file(), b"" if small.is_open else numbers.randbytes(5)
        yield small.name, read(file + rest).all(), \
            (small.said, small.size(), small.frames, 0, len(file + rest[:4]))
        yield from mutated_files(numbers, small.name, file + rest)
        head, shown, frames = written(numbers)
        form = numbers.choice([matroska_writer.begun, matroska_writer.open_form, matroska_writer.finished])
        yield from mutated_files(numbers, f"written file {number}", form(head, shown, frames))


def checks():
    """All of them."""
    for group in [known_files, known_numbers, many_rates, known_bytes, random_files]:
        yield from group()
