# SPDX-License-Identifier: MIT OR Apache-2.0
"""What a refusal says after its first line: a part of the tests that compare standard error."""
import importlib.machinery
import importlib.util
import os
import re
import sys

sys.dont_write_bytecode = True

TOP = os.path.realpath(os.path.join(os.path.dirname(os.path.abspath(__file__)), ".."))
# The first line of a refusal, its path and perhaps the system's reason, and what to do.
REFUSAL = re.compile(r"(ffv1: (?:.*: )?(\d+ \w+)\n)(  (.+)\n)(  (.+)\n)")
# What follows the line of a word that is not UTF-8.
NO_TEXT = "  Give the file another name, or give its bytes: ffv1 COMMAND - < FILE\n"


def faults():
    """The script that makes the manual's tables of faults."""
    path = os.path.join(TOP, "man", "faults")
    loader = importlib.machinery.SourceFileLoader("faults", path)
    module = importlib.util.module_from_spec(importlib.util.spec_from_loader("faults", loader))
    loader.exec_module(module)
    return module


def parts():
    """What to do, by number and name of a fault: one text, or more."""
    script = faults()
    return {f"{number} {name}": [script.said(part) for part in what if part.strip()]
            for _, section in script.sections() for number, name, _, what in section}


ADVICE = parts()
# The numbers and names of all faults, in order.
NAMES = sorted([*ADVICE, "42 Sink"], key=lambda name: int(name.split()[0]))


def told(fault, path, part=0):
    """All three lines of a refusal; the path may end in the system's reason."""
    return f"ffv1: {fault}\n  {path}\n  {ADVICE[fault][part]}\n"


def first_lines(errors):
    """Standard error without the two lines after that of each fault, if they are right."""
    def first(found):
        line, fault, _, path, _, advice = found.groups()
        system = re.search(r": .* \(os error \d+\)$", path) is not None
        is_right = advice in ADVICE.get(fault, []) and (not system or fault[:2] in ("56", "57"))
        return line if is_right else found[0]
    return REFUSAL.sub(first, errors.replace(NO_TEXT, ""))
