#!/usr/bin/env python3
# SPDX-License-Identifier: MIT OR Apache-2.0
"""The program `ffv1` in plain Python: its command line, and its commands over codec and files.

    python3 model/commands.py pack in.y4m out.avi

The words, the printed lines, the faults on standard error, the exit status and what is left in OUT
are those of the program; the text of clap, for help and for a line that is refused, is not.
"""
import itertools
import os
import stat
import sys

sys.dont_write_bytecode = True

import damaged_files
import ffv1
import files
import md5_lists
from command_line import COMMANDS, Help, Kept, Refused, number, words
from ffv1 import Fault
from infos import info, objectively
from md5_lists import md5_header, md5_line, raw_bytes
from opening import after, input_of, opened, opened_in
from packing import is_matroska, pack, pack_matroska, said_in
from quiet import quietly
from stream_lines import shown
from trial import trial
from unpacking import planes_of, salvage, unpack_ppm, unpack_y4m


# --------------------------------------------------------------------------- unpack, check and show

ALL = {"from": 0, "frames": None}       # the range of all frames


def is_all(choice):
    return not choice["from"] and choice["frames"] is None


def counted(frames, passed):
    """Frames with their numbers; each is counted as passed before the next one is read. What is told
    of a damaged file is none."""
    for payload in frames:
        yield len(passed), payload
        if not isinstance(payload, damaged_files.Told):
            passed.append(payload)


def ranged(frames, choice, passed=None):
    """The frames that a line gives, with their numbers; those before them are read and not decoded,
    and those behind them are not read."""
    first, count = choice["from"], choice["frames"]
    last = None if count is None else first + count
    return itertools.islice(counted(frames, [] if passed is None else passed), first, last)


def shown_in(frames, choice):
    """The payloads of frames that a line gives, as they are shown: in place of a first one of no bytes
    the last one before it that has bytes."""
    passed = []
    for number, payload in ranged(frames, choice, passed):
        if number == choice["from"] and not payload:
            payload = next(filter(None, reversed(passed)), payload)
        yield payload


def unpack(source, out, choice=ALL):
    head, config, every, _ = opened(source)
    frames = shown_in(every, choice)
    if config.rct:
        count = unpack_ppm(config, frames, out)
    else:
        count = unpack_y4m(head, config, frames, out)
    if count == 0:
        raise Fault(70)
    return f"frames {count}\n"


def place_line(number, decoded):
    f = decoded.fault
    return (f"fault frame {number} slice {f.slice} plane {f.plane} line {f.line} x {f.x} "
            f"decisions {decoded.ones + decoded.zeros}\n")


def refuse(number, decoded, out, place):
    """The end of a check at a frame that is refused, whether or not its place can be written."""
    try:
        out(place_line(number, decoded) if place else "")
    except Fault:
        pass
    raise decoded.fault


OF_FILE = {50, 51, 52, 53, 54, 56, 80, 81, 82, 83, 84, 85, 88}  # a file's own faults, in reading


def check(source, out, place, every, choice=ALL):
    """The lines of a check; own: where places are asked for, a fault of the file itself has a line
    more, with the frame that would come next, and the bytes before the element or chunk at fault,
    whether or not it can be written. Only all frames of a damaged file are read on, and what is damaged
    before them in Matroska is told, also where a fault ends it there."""
    judged, begun = [], lambda: 0
    try:
        data, is_matroska = input_of(source)
        begun = lambda: data.begun
        damaged = every and is_all(choice)
        config, frames = opened_in(data, is_matroska, damaged)[1:3]
        first = check_frames(config, ranged(frames, choice, judged), out, place, every)
        if first:
            first.notes = source.notes
    except Fault as fault:
        told_before(fault, out)
        if place and fault.number in OF_FILE:
            try:
                out(f"fault frame {len(judged)} byte {begun()}\n")
            except Fault:
                pass
        raise
    if first:
        raise first


def told_line(told):
    return f"byte {told.offset}: fault {told.fault}\n"


def told_before(fault, out):
    """What was told of a file that is refused before its first frame."""
    for told in getattr(fault, "before", []):
        out(told_line(told))


def check_frames(config, frames, out, place, every):
    """A line for each frame; own: where places are asked for, one more where decoding is refused.
    Where every frame is asked for, it goes on then and behind what is told of a file of Matroska, and
    the first fault of either kind ends it. A frame of no bytes is the one before again."""
    count, faults = 0, []
    for number, payload in frames:
        if isinstance(payload, damaged_files.Told):
            out(told_line(payload))
            faults.append(payload.fault)
            continue
        count += 1
        if not payload:
            out(f"frame {number}: again\n")
            continue
        decoded = ffv1.decode_frame(config, payload)
        if not decoded.fault:
            out(f"frame {number}: {len(payload)} bytes, {config.slices()} slices, "
                f"{decoded.ones + decoded.zeros} decisions\n")
        elif every:
            out(f"frame {number}: fault {decoded.fault}\n")
            out(place_line(number, decoded) if place else "")
            faults.append(decoded.fault)
        else:
            refuse(number, decoded, out, place)
    if count == 0 and not faults:
        raise Fault(70)
    out(f"frames {count} faults {len(faults)}\n" if every else f"frames {count}\n")
    return faults[0] if faults else None


def show(source, out, cost):
    """What a file says, and what its frames cost."""
    head, config, frames, beside = opened(source)
    for line in shown(head, config, beside):
        out(line + "\n")
    for number, payload in enumerate(frames if cost else []):
        if not payload:
            out(f"cost frame {number}: again\n")
            continue
        decoded = ffv1.decode_frame(config, payload)
        if decoded.fault:
            raise decoded.fault
        out(f"cost frame {number}: ones {decoded.ones} zeros {decoded.zeros} "
            f"renormalisations {decoded.renormalisations}\n")


# ----------------------------------------------------------------------------------------- framemd5

def told_pictures(source, choice):
    """The head of a file or of a text, and its pictures, each with its aspect. Own: only pictures of
    a file are left out."""
    first = source.some(1)
    read = files.Source(after(first, source.read))
    read.notes = source.notes
    if first in (b"P", b"Y") and first and is_all(choice):
        open_text, pictures = (files.open_ppm, files.ppm_pictures) if first == b"P" else \
            (files.open_y4m, files.y4m_pictures)
        head = open_text(read, read.some(1))
        return head, head.rct, head.depth, ((p, head.aspect) for p in pictures(read, head))
    head, config, frames, _ = opened(read)
    frames = (payload for _, payload in ranged(frames, choice))
    return head, config.rct, config.depth, decoded_pictures(config, frames)


def decoded_pictures(config, frames):
    """The pictures of frames, each with its aspect, up to the first that is at fault; none of a frame
    of no bytes."""
    for payload in frames:
        if not payload:
            yield None
            continue
        decoded = ffv1.decode_frame(config, payload)
        if decoded.fault:
            raise decoded.fault
        yield planes_of(config, decoded.lines), decoded.info[1:]


def framemd5(source, out, choice=ALL):
    """A line for each picture, with its MD5, as FFmpeg's framemd5 writes them. A frame of no bytes has
    a number, and no line."""
    head, rct, depth, pictures = told_pictures(source, choice)
    number, is_headed = choice["from"], False
    for picture in pictures:
        if picture is not None:
            planes, aspect = picture
            if not is_headed:
                out(md5_header(head, aspect))
            is_headed = True
            out(md5_line(number, raw_bytes(planes, rct, depth)))
        number += 1
    if number == choice["from"]:
        raise Fault(70)


# -------------------------------------------------------------------------------------- the program

def begun_again(descriptor):
    """Whether a file was sent to its first byte. Own: only a regular one is."""
    if not stat.S_ISREG(os.fstat(descriptor).st_mode):
        return False
    os.lseek(descriptor, 0, os.SEEK_SET)
    return True


def opened_file(path, flags, number):
    """A file's descriptor; the fault where it cannot be opened."""
    try:
        return os.open(path, flags, 0o666)
    except OSError:
        raise Fault(number)


def data_of(written):
    """The bytes of a text, or of bytes."""
    return written.encode() if isinstance(written, str) else written


def writer(descriptor, anew=False):
    """Writes all bytes to a file; a write that failed is 57. With `anew` what the file holds goes
    when the first byte is written."""
    is_old = anew and stat.S_ISREG(os.fstat(descriptor).st_mode)

    def write(data):
        nonlocal is_old
        data = data_of(data)
        try:
            if is_old and data:
                os.ftruncate(descriptor, 0)
                is_old = False
            while data:
                data = data[os.write(descriptor, data):]
        except OSError:
            raise Fault(57)
    return write


def is_one_file(source, path):
    """Whether a file or block device that is read is the one of a path."""
    kind = os.fstat(source)
    if not (stat.S_ISREG(kind.st_mode) or stat.S_ISBLK(kind.st_mode)):
        return False
    try:
        return os.path.samestat(kind, os.stat("/dev/stdout" if path == "-" else path))
    except OSError:
        return False


def opened_output(path, no_clobber):
    """The descriptor of a file that is written."""
    if no_clobber and os.path.lexists(path):
        raise Kept("OUT exists")
    return opened_file(path, os.O_WRONLY | os.O_CREAT, 57)


def overwriter(descriptor):
    """Writes over the beginning of a regular file; nothing of what is none."""
    def over(data):
        if stat.S_ISREG(os.fstat(descriptor).st_mode):
            try:
                while data:
                    data = data[os.pwrite(descriptor, data, 0):]
            except OSError:
                raise Fault(57)
    return over


# own: said where an AVI does not hold what a text says of colours, and where a text has a rate
LOST = "AVI holds no range of colours and no siting of chroma, but .mkv does"
KEPT = "--rate and --scale are for PPM: the rate of the text stands"


def said_beside(order, head, is_avi):
    """What is said of a text that was packed, beside the count."""
    given, made = ("standard input" if order.files[0] == "-" else order.files[0],
                   "standard output" if order.files[1] == "-" else order.files[1])
    lines = []
    if not head.rct and (order.choice["rate"] or order.choice["scale"]):
        lines.append(f"ffv1: {given}: {KEPT}\n")
    if is_avi and (head.range or head.siting in ("left", "topleft")):
        lines.append(f"ffv1: {made}: {LOST}\n")
    return "".join(lines)


def made(order, source, out, over):
    """The count of what `pack` or `unpack` makes, and what is said beside it."""
    if order.command == "unpack":
        return unpack(source, out, order.choice), ""
    if is_matroska(order.choice["container"], order.files[1]):
        count, head = pack_matroska(source, out, over, order.choice)
        return count, said_beside(order, head, False)
    count, head = pack(source, out, order.choice)
    return count, said_beside(order, head, True)


def make(order, source, descriptors, output):
    """Does what `pack` or `unpack` asks for: OUT is opened where it is not the file of IN. It
    answers what is printed on standard error, the count where OUT is standard output."""
    path, out, over = order.files[1], output, lambda data: None
    if is_one_file(descriptors[0], path):
        raise Kept("IN and OUT are one file")
    if path != "-":
        descriptors.append(opened_output(path, order.choice["no-clobber"]))
        out, over = writer(descriptors[1], anew=True), overwriter(descriptors[1])
    if order.command == "unpack" and order.choice["all"]:
        return unpack_all(source, out, output if path != "-" else None)
    count, told = made(order, source, out, over)
    if path == "-":
        return told + count
    output(count)
    return told


def unpack_all(source, out, output):
    """Unpacks all of a file that may be damaged. Its lines are printed as they come, and then how many
    frames there were; the first fault ends it. It answers what is printed on standard error, the lines
    where OUT is standard output."""
    told = []
    data, is_matroska = input_of(source)
    try:
        head, config, frames, _ = opened_in(data, is_matroska, True)
        count, first = salvage(head, config, frames, out, output or told.append)
        (output or told.append)(f"frames {count}\n")
        if first:
            first.notes = source.notes
            raise first
    except Fault as fault:
        told_before(fault, output or told.append)
        fault.told = "".join(told)
        raise
    return "".join(told)


def list_of(path, standard_input):
    """The MD5s of a list, if there is one."""
    if path is None:
        return None
    try:
        with open(os.dup(standard_input) if path == "-" else path, "rb") as file:
            return md5_lists.md5s_of(file, path)
    except OSError:
        raise md5_lists.Unlike(56, {}, path)


def compare(md5s, source, out):
    """Compares all pictures of a file with MD5s; a frame of no bytes has none."""
    _, config, frames, _ = opened(source)
    pictures = decoded_pictures(config, frames)
    md5_lists.compare(md5s, (p and raw_bytes(p[0], config.rct, config.depth) for p in pictures), out)


@objectively
@quietly
def perform(order, path, output, standard_input):
    """Does what a line asks for with this IN, opened before OUT. It answers what standard error has, and
    what is noted of the file, by number, but for its facts."""
    told, md5s = "", list_of(order.choice.get("against"), standard_input)
    descriptors = [os.dup(standard_input) if path == "-" else opened_file(path, os.O_RDONLY, 56)]
    try:
        source = files.Source(lambda count: os.read(descriptors[0], count),
                              lambda: path != "-" and begun_again(descriptors[0]))
        if order.command in ("pack", "unpack"):
            told = make(order, source, descriptors, output)
        elif md5s:
            compare(md5s, source, output)
        elif order.command == "check":
            check(source, output, order.choice["place"], order.choice["all"], order.choice)
        elif order.command == "show":
            show(source, output, order.choice["cost"])
        elif order.command == "info":
            info(source, output, order.choice)
        elif order.command == "framemd5":
            framemd5(source, output, order.choice)
        else:
            trial(source, output)
    finally:
        for descriptor in descriptors:
            os.close(descriptor)
    return told, {} if order.command == "info" else source.notes


def noted(notes, path=""):
    """The lines of what is noted of a file."""
    return "".join(f"ffv1: {path}note {number} {text}\n" for number, text in sorted(notes.items()))


def is_refused(order, notes):
    """Whether a line asks for a status of 1 if anything is noted, and something is."""
    return bool(order.choice.get("notes-as-faults") and notes)


def perform_each(order, output, standard_input):
    """Does what a command line asks for with each of several files, up to a line that cannot be
    printed. It answers the exit status, and what is printed on standard error."""
    told, path, status = [], "", 0
    try:
        for path in order.files:
            is_line = order.choice.get("quiet") or order.choice.get("json")
            output("" if is_line else f"file {path}\n")
            try:
                notes = perform(order, path, output, standard_input)[1]
                told.append(noted(notes, f"{path}: "))
                status = max(status, is_refused(order, notes))
            except Fault as fault:
                if fault.number == 57:
                    raise
                told.append(f"{noted(fault.notes, f'{path}: ')}ffv1: {path}: {fault}\n")
                status = 1
    except Fault as fault:
        told.append(f"ffv1: {path}: {fault}\n")
        status = 1
    return int(status), "".join(told)


def run(line, output, standard_input=0):
    """The exit status of a command line, and what is on standard error; none for clap's text."""
    try:
        order = words(line)
        if COMMANDS[order.command].most > 2 and len(order.files) > 1:
            return perform_each(order, output, standard_input)
        told, notes = perform(order, order.files[0], output, standard_input)
        return int(is_refused(order, notes)), told + noted(notes)
    except Refused:
        return 2, None
    except Kept as kept:
        return 2, f"ffv1: {kept}\n"
    except Help:
        return 0, None
    except Fault as fault:
        return 1, getattr(fault, "told", "") + noted(fault.notes) + f"ffv1: {fault}\n"


def refused_words(line):
    """The words of a command line that are not UTF-8, as the system gives them."""
    return [word for word in line if any(0xDC80 <= ord(letter) < 0xDD00 for letter in word)]


def run_rest(line, refused, output):
    """Looks at the files of a line but for those whose names are not UTF-8."""
    if line[0] not in refused and not any(word.startswith("-") for word in refused):
        rest = [word for word in line if word not in refused]
        try:
            if COMMANDS[words(rest).command].files == 1 and rest[0] != "trial":
                return run(rest, output)[1]
        except (Refused, Help):
            pass
    return ""


def main(line):
    """Runs a command line as the program does."""
    refused = refused_words(line)
    for word in refused:
        name = os.fsencode(word).decode("utf-8", "replace")
        os.write(2, f"ffv1: {name}: an argument is not UTF-8\n".encode())
    if refused:
        status, errors = 2, run_rest(line, refused, writer(1))
    else:
        status, errors = run(line, writer(1))
    os.write(2, (errors if errors is not None else "Usage: ffv1 <COMMAND>\n").encode())
    return status


if __name__ == "__main__":
    sys.exit(main(sys.argv[1:]))
