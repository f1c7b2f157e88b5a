# SPDX-License-Identifier: MIT OR Apache-2.0
"""The command line of the program `ffv1`: a part of `commands.py`."""
import math
import re

import files
from packing import is_matroska
from range_coder import FAULTS


# --------------------------------------------------------------------------------- the command line

class Refused(Exception):
    """A command line that is refused: status 2."""


class Kept(Exception):
    """Files that are refused: status 2, and why, on standard error."""


class Help(Exception):
    """A command line that asks for help or the version: status 0."""


def number(least, most):
    """The reading of a value: a number from the least to the most, as Rust reads one: a sign and
    leading zeros may stand before it."""
    def read(text):
        if not re.fullmatch("[+-]?[0-9]+", text, re.ASCII) or not least <= int(text) <= most:
            raise Refused(text)
        return int(text)
    return read


def one_of(*names):
    """The reading of a value: one of these words."""
    def read(text):
        if text not in names:
            raise Refused(text)
        return text
    return read


class Level:
    """What a command takes: the least and the greatest number of files, its options by their
    readings, with their defaults, and its flags."""

    def __init__(self, files, options=None, flags=(), most=None):
        self.files, self.options, self.flags = files, options or {}, flags
        self.most = files if most is None else most


# Which frames of a file are decoded.
RANGE = {"from": (number(0, 2 ** 32 - 1), 0), "frames": (number(1, 2 ** 32 - 1), None)}

COMMANDS = {
    "pack": Level(2, {
        "coder": (number(1, 2), 1), "contexts": (one_of("small", "large"), "small"),
        "columns": (number(1, 32), None), "rows": (number(1, 32), None), "ec": (number(0, 1), 1),
        "rate": (number(1, 2 ** 32 - 1), None), "scale": (number(1, 2 ** 32 - 1), None),
        "container": (one_of("auto", "avi", "mkv"), "auto"),
        "codec-id": (one_of("native", "vfw"), None),
        "range": (one_of("auto", "limited", "full"), "auto"),
        "siting": (one_of("auto", "left", "centre", "topleft"), "auto"),
        "primaries": (number(0, 255), 2), "transfer": (number(0, 255), 2),
        "matrix": (number(0, 255), 2),
    }, flags=["verify", "no-clobber", "progress"]),
    "unpack": Level(2, RANGE, ["all", "no-clobber", "progress", "notes-as-faults"]),
    "check": Level(1, {"against": (str, None), **RANGE}, [
        "all", "place", "quiet", "json", "progress", "notes-as-faults"], math.inf),
    "show": Level(1, flags=["cost"], most=math.inf),
    "info": Level(1, flags=["count", "json"], most=math.inf),
    "framemd5": Level(1, RANGE, ["notes-as-faults"], most=math.inf),
    "trial": Level(1),
}
# What says nothing of colours.
COLOURS = {"range": "auto", "siting": "auto", "primaries": 2, "transfer": 2, "matrix": 2}
STANDARD_OUTPUT = ["/dev/stdout", "/dev/fd/1", "/proc/self/fd/1"]
# What the names of files end in that pack does not write.
OTHERS = (".mov", ".mp4", ".mxf", ".y4m", ".ppm")


class Order:
    """What a command line asks for: the command, its files, and its options and flags by name."""

    def __init__(self, command, files, choice):
        self.command, self.files, self.choice = command, files, choice


def is_plain(word):
    """Whether a word is a file or a value, and no option."""
    return word == "-" or not word.startswith("-")


def is_help(word):
    return word == "--help" or word.startswith("-h")


def take_option(level, found, word):
    """A word that begins with a hyphen; the option's name where the next word is its value."""
    if is_help(word):
        raise Help(word)
    name, equals, value = word[2:].partition("=")
    if not word.startswith("--") or name in found:
        raise Refused(word)
    if name in level.flags and not equals:
        found[name] = True
    elif name in level.options and equals:
        found[name] = level.options[name][0](value)
    elif name in level.options:
        return name
    else:
        raise Refused(word)
    return None


def taken(level, words):
    """The files, and the options and flags, that the words after a command name."""
    paths, found, waiting, ended = [], {}, None, False
    for word in words:
        if waiting:
            if not is_plain(word):
                raise Refused(word)
            found[waiting], waiting = level.options[waiting][0](word), None
        elif ended or is_plain(word):
            paths.append(word)
            if len(paths) > level.most:
                raise Refused(word)
        elif word == "--":
            ended = True
        else:
            waiting = take_option(level, found, word)
    if waiting or len(paths) < level.files:
        raise Refused("more is wanted")
    return paths, found


def is_list_refused(found, paths):
    """Whether a list of MD5s does not go with the other words: it is of one file, whose first fault
    ends it and whose place is not told; and standard input is read once."""
    if "against" not in found:
        return False
    return bool({"all", "place"} & set(found)) or len(paths) != 1 or found["against"] == paths[0] == "-"


def is_range_refused(found, paths):
    """Whether frames are left out, of other than one file or beside a list of the MD5s of all."""
    return bool(found.get("from") or found.get("frames")) and ("against" in found or len(paths) != 1)


def is_topic(word):
    """Whether help knows a word: the faults, or the number of one; 2 is no fault of the model's."""
    is_number = re.fullmatch("[+]?[0-9]+", word, re.ASCII)
    return word == "faults" or bool(is_number) and int(word) in {2, *FAULTS}


def words(line):
    """The order that the words of a command line, without the program's name, ask for."""
    name, *rest = line or [""]
    if name == "help" and (not rest or rest in [[known] for known in [*COMMANDS, "help"]]):
        raise Help(name)
    if name == "help" and len(rest) == 1 and is_topic(rest[0]):
        raise Help(name)
    if is_help(name) or name == "--version" or name.startswith("-V"):
        raise Help(name)
    if name not in COMMANDS:
        raise Refused(name)
    level = COMMANDS[name]
    paths, found = taken(level, rest)
    if level.files == 2 and (paths[0] == paths[1] != "-" or paths[1] in STANDARD_OUTPUT):
        raise Refused(paths[1])
    if level.most > 2 and paths.count("-") > 1:
        raise Refused("-")
    if name == "check" and is_list_refused(found, paths):
        raise Refused(found["against"])
    if level.most > 2 and is_range_refused(found, paths):
        raise Refused("--from or --frames")
    if name == "unpack" and found.get("all") and (found.get("from") or found.get("frames")):
        raise Refused("--all")
    choice = {name: default for name, (_, default) in level.options.items()}
    order = Order(name, paths, {**choice, **dict.fromkeys(level.flags, False), **found})
    if order.choice.get("container") == "auto" and paths[1].lower().endswith(OTHERS):
        raise Refused(paths[1])
    says = any(order.choice.get(name) != default for name, default in COLOURS.items())
    if name == "pack" and (order.choice["codec-id"] or says) \
            and not is_matroska(order.choice["container"], paths[1]):
        raise Refused(paths[1])
    return order
