#!/usr/bin/env python3
# SPDX-License-Identifier: MIT OR Apache-2.0
"""Checks the model on what is known from elsewhere: the answers of `known_answers`, by the model's
own commands, and a file of AVI byte by byte. It prints what differs, and how many passed and
failed.

    python3 model/check.py
"""
import itertools
import os
import sys
import tempfile

sys.dont_write_bytecode = True

import avi_format
import check_matroska
import commands
import ffv1
import files
from known_answers import avi_files, cases, damaged_avi, depths, edges, frames, golomb, grids, slices
from known_answers.case import fault_of


def contents(folder):
    """The files of a folder, by name."""
    found = {}
    for name in os.listdir(folder):
        with open(os.path.join(folder, name), "rb") as file:
            found[name] = file.read()
    return found


def fill(folder, given):
    for name, data in given.items():
        with open(os.path.join(folder, name), "wb") as file:
            file.write(data)


def by_model(words):
    """The status, the standard output and the line on standard error of a command line, in this
    folder, whose standard input is empty; that line is none where it is clap's text."""
    printed = []
    with open(os.devnull, "rb") as nothing:
        status, errors = commands.run(words, printed.append, nothing.fileno())
    return status, b"".join(commands.data_of(part) for part in printed), errors


def is_answered(step, answer):
    """Whether an answer is the known one."""
    status, output, errors = answer
    return status == step.status \
        and (step.output is None or output == step.output.encode()) \
        and (step.errors is None or errors == step.errors)


def differences(case, run):
    """What differs from a known answer, where command lines are run so, in the current folder."""
    fill(".", case.given)
    for step in case.steps:
        answer = run(step.words)
        if not is_answered(step, answer):
            yield f"{step.words}: found {answer}, wanted {step.status, step.output, step.errors}"
    found = contents(".")
    for name, data in case.left.items():
        if found.get(name) != data:
            yield f"{name}: found {found.get(name)}, wanted {data}"


def in_folder(action):
    """What an action answers in an empty folder."""
    before = os.getcwd()
    with tempfile.TemporaryDirectory() as folder:
        os.chdir(folder)
        try:
            return action()
        finally:
            os.chdir(before)


def passes(case, run):
    """Whether a known answer is given; what differs is printed."""
    found = in_folder(lambda: list(differences(case, run)))
    for line in found:
        print(f"{case.name}: {line[:1000]}")
    return not found


# ----------------------------------------------------------------------------- a file, byte by byte

RECORD = bytes(range(60))
FRAME = bytes.fromhex("FE7B000002")
EXAMPLE = bytes.fromhex(
    "52494646 22010000 41564920"                                            # RIFF, 290
    "4C495354 FC000000 6864726C"                                            # hdrl, 252
    "61766968 38000000 409C0000 00000000 00000000 00000000 01000000 00000000 01000000 00000000"
    "02000000 03000000 00000000 00000000 00000000 00000000"                 # 40000 microseconds
    "4C495354 B0000000 7374726C"                                            # strl, 176
    "73747268 38000000 76696473 46465631 00000000 00000000 00000000 01000000 19000000 00000000"
    "01000000 00000000 00000000 00000000 0000 0000 0200 0300"
    "73747266 64000000 28000000 02000000 03000000 0100 1800 46465631 00000000 00000000 00000000"
    "00000000 00000000") + RECORD + bytes.fromhex(
        "4C495354 12000000 6D6F7669 30306463 05000000 FE7B000002 00")       # movi, 18


def read(data, wide):
    """The head and the frames of a file, or the fault and whether a head came before it."""
    at, head = [0], None

    def some(count):
        at[0] += count
        return data[at[0] - count:at[0]]

    try:
        head, frames = avi_format.open_avi(files.Source(some), wide)
        frames = list(frames)
    except ffv1.Fault as fault:
        return fault.number, head is not None
    return (head.width, head.height, head.rate, head.scale, head.record), frames


class Long:
    """A frame that has too many bytes for a file."""

    def __len__(self):
        return 2 ** 31


def example_checks():
    """A file of one frame: its bytes, and each of its beginnings."""
    head = avi_format.AviHead(2, 3, 25, 1, RECORD)
    yield "the bytes of a file", avi_format.write_avi(head, [FRAME]), EXAMPLE
    yield "the length of a file", len(EXAMPLE), 298
    for wide in [False, True]:
        yield "a file is read", read(EXAMPLE, wide), ((2, 3, 25, 1, RECORD), [FRAME])
        for length in range(298):
            yield f"{length} bytes of a file", read(EXAMPLE[:length], wide), (52, length >= 284)
    yield "what is left of a file", read(EXAMPLE + b"xy", False), ((2, 3, 25, 1, RECORD), [FRAME])
    yield "bytes behind a file", read(EXAMPLE + b"xyzw", True), ((2, 3, 25, 1, RECORD), [FRAME])
    yield "another file", read(EXAMPLE + EXAMPLE, True), (88, True)
    yield "the greatest file", avi_format.riff_size(0, [2 ** 31 - 2 - 224]), 2 ** 31 - 2
    yield "a file too large", fault_of(lambda: avi_format.write_avi(head, [Long()])), 55
    yield "the most microseconds", avi_format.write_avi(
        avi_format.AviHead(1, 1, 1, 2 ** 32 - 1, b""), [])[32:36], b"\xff" * 4
    yield "no rate", avi_format.write_avi(avi_format.AviHead(1, 1, 0, 0, b""), [])[32:36], bytes(4)


def results():
    """Whether each check passed."""
    for case in cases():
        yield passes(case, by_model)
    for name, found, wanted in itertools.chain(example_checks(), frames.checks(), slices.checks(),
                                               depths.checks(), damaged_avi.checks(), avi_files.checks(), grids.checks(), edges.checks(),
                                               golomb.checks(),
                                               check_matroska.checks()):
        if found != wanted:
            print(f"{name}: found {found}, wanted {wanted}")
        yield found == wanted


if __name__ == "__main__":
    passed = list(results())
    print(f"{sum(passed)} passed, {len(passed) - sum(passed)} failed")
    sys.exit(0 if all(passed) else 1)
