# SPDX-License-Identifier: MIT OR Apache-2.0
"""What people meet first: lines with a mistake, and the line that says the next step. A part of
`tests/commands`; docs/FAULTS.md has the table."""
import struct

import told
from known_answers.case import MONO, avi, one
from known_answers.matroska_written import EXAMPLE

QUICKTIME = struct.pack(">I4s4sI4s", 20, b"ftyp", b"qt  ", 512, b"qt  ") + bytes(40)
PNG = b"\x89PNG\r\n\x1a\n" + bytes(40)
FILE = avi(one(), [b"\xfe\x7b\x00\x00\x02"])
BROKEN = FILE[:12] + b"LIST\x02\0\0\0hd" + FILE[22:]

# What is done, the words, the files, the fault, its path, and which of its lines says what to do.
FAULTS = [
    ("QuickTime is packed", ["pack", "in.mov", "out.mkv"], {"in.mov": QUICKTIME},
     "60 Header", "in.mov", 0),
    ("Matroska is packed", ["pack", "in.mkv", "out.mkv"], {"in.mkv": EXAMPLE},
     "60 Header", "in.mkv", 0),
    ("an AVI is packed", ["pack", "in.avi", "out.mkv"], {"in.avi": FILE}, "60 Header", "in.avi", 0),
    ("a pipe gives nothing", ["pack", "-", "out.mkv"], {}, "60 Header", "standard input", 1),
    ("an image that is no PPM is packed", ["pack", "in.png", "out.mkv"], {"in.png": PNG},
     "60 Header", "in.png", 2),
    ("a file is not there", ["check", "no.mkv"], {}, "56 Read",
     "no.mkv: No such file or directory (os error 2)", 0),
    ("a folder is checked", ["check", "."], {}, "56 Read", ".: Is a directory (os error 21)", 2),
    ("OUT's folder is not there", ["pack", "in", "no/out.mkv"], {"in": MONO}, "57 Write",
     "no/out.mkv: No such file or directory (os error 2)", 2),
    ("QuickTime is checked", ["check", "in.mov"], {"in.mov": QUICKTIME}, "50 NotAvi", "in.mov", 0),
    ("a broken AVI is checked", ["check", "in"], {"in": BROKEN}, "50 NotAvi", "in", 1),
    ("an AVI stands after the end of an AVI", ["check", "in"], {"in": FILE + FILE}, "88 Another",
     "in", 0),
    ("a video is checked", ["check", "in.y4m"], {"in.y4m": MONO}, "50 NotAvi", "in.y4m", 2),
    ("another codec is checked", ["check", "in"], {"in": FILE.replace(b"FFV1", b"H264")},
     "51 NoFfv1", "in", 0),
    ("a list of MD5s is none", ["check", "--against", "list", "in"], {"in": FILE, "list": b"x\n"},
     "66 List", "list: line 1", 0),
    ("a file is not that of a list", ["check", "--against", "list", "in"],
     {"in": FILE, "list": b"0, 0, 0, 1, 1, 00000000000000000000000000000000\n"}, "89 Differs",
     "in: frame 0", 0),
    ("a file is not whole", ["check", "in.mkv"], {"in.mkv": EXAMPLE[:100]}, "52 Truncated",
     "in.mkv", 0),
]

# What is done, the words, and what the text that refuses the line says.
LINES = [
    ("no command", ["in.mov"], "unrecognized subcommand 'in.mov'", "try '--help'"),
    ("no OUT", ["unpack", "in.mkv"], "required arguments were not provided", "<OUT>"),
    ("OUT is QuickTime", ["pack", "in", "out.mov"], "OUT is named as what pack does not write",
     "end it in .mkv or .avi"),
    ("a codec ID for AVI", ["pack", "--codec-id", "vfw", "in", "out.avi"], "AVI has no --codec-id",
     "end OUT in .mkv"),
    ("colours for AVI", ["pack", "--range", "full", "in", "out.avi"],
     "AVI has no place for colours", "end OUT in .mkv"),
    ("a list and all frames", ["check", "--all", "--against", "list", "in"],
     "--against tells the first frame that differs", "without --all and --place"),
    ("a fault's number is asked for", ["help", "37"], "37 SliceParity",
     told.ADVICE["37 SliceParity"][0]),
    ("a number that is no fault's", ["help", "43"], "no fault is 43", "ffv1 help faults"),
]


def results(run):
    """Each mistake, what is found and what is wanted; `run` answers words with some files by the
    status and the whole of standard error."""
    for name, words, given, fault, path, part in FAULTS:
        yield name, run(words, given), (1, told.told(fault, path, part))
    several = ["check", "no.mkv", "in.mov"]
    both = told.told("56 Read", "no.mkv: No such file or directory (os error 2)", 0) \
        + told.told("50 NotAvi", "in.mov", 0)
    both = both.replace("ffv1: 56", "ffv1: no.mkv: 56").replace("ffv1: 50", "ffv1: in.mov: 50")
    yield "two files", run(several, {"in.mov": QUICKTIME}), (1, both)
    for name, words, why, step in LINES:
        status, errors = run(words, {})
        wanted = 0 if words == ["help", "37"] else 2
        yield name, (status, why in errors and step in errors), (wanted, True)
    names = "".join(f"{name}\n" for name in told.NAMES)
    yield "the names of all faults", run(["help", "faults"], {}), (0, names)
