# SPDX-License-Identifier: MIT OR Apache-2.0
"""Command lines, taken and refused, and paths."""
from known_answers.case import ANY, FRAME, MONO, RED, Case, Step, avi, helped, kept, one, y4m
from known_answers.matroska import C, WRONG, whole
from known_answers.texts import KEPT

WITHOUT, WITH = "frames 1 bytes 5\n", "frames 1 bytes 10\n"     # without parity, and with it
PACKS = [
    ("pack in out", WITH), ("pack --ec 0 in out", WITHOUT), ("pack in --ec 0 out", WITHOUT),
    ("pack in out --ec 0", WITHOUT), ("pack in out --ec=0", WITHOUT), ("pack --ec=1 in out", WITH),
    ("pack in --ec=00 -- out", WITHOUT), ("pack --ec +0 in out", WITHOUT),
    ("pack -- in out", WITH), ("pack -- --ec out", WITH), ("pack --ec 0 -- --ec out", WITHOUT),
    ("pack ./- out", WITH), ("pack trial out", WITH), ("pack in -- out", WITH),
    ("pack --columns 1 --rows 1 --coder 1 --contexts small in out --ec 0", WITHOUT),
    ("pack --rate 4294967295 --scale 4294967295 --ec 0 in out", WITHOUT),
    ("pack --progress in out", WITH), ("pack in out --progress --ec 0", WITHOUT),
    ("pack -- in --progress", WITH), ("pack --no-clobber in out", WITH),
    ("pack --progress in out --no-clobber --ec 0", WITHOUT),
    ("pack --verify in out", WITH), ("pack in --verify out --ec 0", WITHOUT),
    ("pack in out --progress --verify", WITH),
    ("pack --range auto --siting auto --primaries 2 --transfer 02 --matrix +2 in out", WITH),
]
CHECKS = [
    "check out", "check --place out", "check out --place", "check -- out", "check --progress out",
    "check out --place --progress",
]
HELPS = [
    "-h", "--help", "help", "-hx", "help pack", "help unpack", "help check", "help show",
    "help framemd5", "help trial", "framemd5 -h", "pack --help", "pack -h", "unpack in --help", "check --help out in", "show -h",
    "trial --help", "pack --ec 0 in out -h", "pack in in --help", "--help pack in out",
    "--version", "-V", "-Vx", "--version pack in out",
]


def taken_lines():
    """Command lines that are taken, however they are written."""
    given = {"in": MONO, "--ec": MONO, "-": MONO, "trial": MONO}
    for line, output in PACKS:
        yield Case(line, given, [Step(line.split(), output, errors=KEPT if "--rate" in line else "")])
    lines = "frame 0: 5 bytes, 1 slices, 11 decisions\nframes 1\n"
    for line in CHECKS:
        yield Case(line, {"out": avi(one(), [FRAME])}, [Step(line.split(), lines)])
    for line in HELPS:
        yield Case(line, given, [helped(line.split())], {"in": MONO, "out": None})


def several_files():
    """Each file after a line of its path, whatever became of those before it."""
    given = {"a": avi(one(), [FRAME]), "b": avi(one(), [bytes(3), FRAME]), "c": b"no file"}
    line, refused = "frame {}: 5 bytes, 1 slices, 11 decisions\n", "frame 0: fault 30 NotKey\n"
    good, faults = line.format(0) + "frames 1\n", "ffv1: b: 30 NotKey\nffv1: no: 56 Read\n"
    all_of_b = refused + line.format(1) + "frames 2 faults 1\n"
    yield Case("several files", given, [
        Step(["check", "a", "./a"], f"file a\n{good}file ./a\n{good}"),
        Step(["check", "b", "no", "a"], f"file b\nfile no\nfile a\n{good}", status=1,
             errors=faults),
        Step(["check", "a", "b"], f"file a\n{good}file b\n", status=1,
             errors="ffv1: b: 30 NotKey\n"),
        Step(["check", "b", "--all", "c", "b"], f"file b\n{all_of_b}file c\nfile b\n{all_of_b}",
             status=1, errors="ffv1: b: 30 NotKey\nffv1: c: 52 Truncated\nffv1: b: 30 NotKey\n"),
        Step(["check", "a", "-"], f"file a\n{good}file -\n", status=1,
             errors="ffv1: -: 52 Truncated\n"),
        Step(["show", "c", "no"], "file c\nfile no\n", status=1,
             errors="ffv1: c: 52 Truncated\nffv1: no: 56 Read\n"),
        Step(["show", "a", "b"], ANY),
        Step(["framemd5", "c", "b", "no"], "file c\nfile b\nfile no\n", status=1,
             errors="ffv1: c: 52 Truncated\nffv1: b: 30 NotKey\nffv1: no: 56 Read\n")], given)


def quiet_lines():
    """One line of each file, whatever became of those before it."""
    given = {"a": avi(one(), [FRAME]), "b": avi(one(), [bytes(3), FRAME]), "c": b"no file",
             "d": avi(one(), [FRAME] * 11 + [b"\1", FRAME, bytes(3)]), "e": avi(one(), []),
             "f": avi(one(), [FRAME, bytes(3), FRAME])[:-1]}
    of_b, second = "b: 30 NotKey in frame 0, slice 0\n", "35 Footer in frame 11, slice 0\n"
    yield Case("check --quiet", given, [
        Step(["check", "--quiet", "a"], "a: sound, 1 frames\n"),
        Step(["check", "a", "--quiet", "--place", "--progress"], "a: sound, 1 frames\n"),
        Step(["check", "--all", "--quiet", "a"], "a: sound, 1 frames\n"),
        Step(["check", "--quiet", "d"], f"d: {second}", "35 Footer"),
        Step(["check", "--quiet", "--all", "d"],
             f"d: 2 of 14 frames refused, the first {second}", "35 Footer"),
        Step(["check", "--quiet", "c"], "c: 52 Truncated at byte 0\n", "52 Truncated"),
        Step(["check", "--quiet", "-"], "standard input: 52 Truncated at byte 0\n", "52 Truncated"),
        Step(["check", "--quiet", "no"], "no: 56 Read\n", "56 Read"),
        Step(["check", "--quiet", "--all", "e"], "e: 70 NoFrames\n", "70 NoFrames"),
        Step(["check", "--quiet", "f"], "f: 30 NotKey in frame 1, slice 0\n", "30 NotKey"),
        Step(["check", "--quiet", "--all", "f"],
             "f: 2 faults in 2 frames, the first 30 NotKey in frame 1, slice 0\n", "30 NotKey"),
        Step(["check", "--quiet", "b", "no", "a"], f"{of_b}no: 56 Read\na: sound, 1 frames\n",
             status=1, errors="ffv1: b: 30 NotKey\nffv1: no: 56 Read\n"),
        Step(["check", "--quiet", "a", "-", "./a"],
             "a: sound, 1 frames\nstandard input: 52 Truncated at byte 0\n./a: sound, 1 frames\n",
             status=1, errors="ffv1: -: 52 Truncated\n")], given)


def a_folder():
    """Two hundred files, AVI and Matroska in turn, of which three are damaged."""
    files = [whole(C) if number % 2 else avi(one(), [FRAME]) for number in range(200)]
    files[17], files[101] = files[17][:-1], whole(WRONG)
    files[180] = avi(one(), [bytes(3)])
    given = {f"{number:03}": file for number, file in enumerate(files)}
    told = {name: "frame 0: 5 bytes, 1 slices, 11 decisions\nframes 1\n" for name in given}
    told.update({"017": "fault frame 0 byte 146\n", "101": "fault frame 0 byte 152\n",
                 "180": "fault frame 0 slice 0 plane 0 line 0 x 0 decisions 1\n"})
    short = dict.fromkeys(given, "sound, 1 frames")
    short.update({"017": "52 Truncated at byte 146", "101": "85 Checksum at byte 152",
                  "180": "30 NotKey in frame 0, slice 0"})
    errors = "ffv1: 017: 52 Truncated\nffv1: 101: 85 Checksum\nffv1: 180: 30 NotKey\n"
    yield Case("a folder of 200 files", given, [
        Step(["check", "--place", *given], "".join(f"file {name}\n{told[name]}" for name in given),
             status=1, errors=errors),
        Step(["check", "--quiet", *given], "".join(f"{name}: {short[name]}\n" for name in given),
             status=1, errors=errors)], given)


REFUSED = [
    "", "code", "pac in out", "-x", "pack --version", "help code", "help pack in", "-- pack in out",
    "--ec 0 pack in out", "pack", "pack in", "pack in out more", "unpack in", "unpack in out x",
    "check", "check --cost in out", "framemd5", "framemd5 --cost in", "framemd5 --progress in",
    "framemd5 --all in out", "show", "show --all in out", "trial", "trial in out",
    "pack --deep in out", "pack -e 0 in out", "pack in out -1", "unpack --ec 0 in out",
    "check --cost in", "show --place in", "show --progress in", "trial --progress in",
    "--progress check in", "check --progress --progress in", "unpack --progress=1 in out",
    "trial --place in", "pack --place in out",
    "pack --coder 0 in out", "pack --coder 3 in out", "pack --coder x in out",
    "pack --contexts medium in out", "pack --contexts Small in out", "pack --contexts= in out",
    "pack --columns 0 in out", "pack --columns 33 in out", "pack --columns=-1 in out",
    "pack --columns -1 in out", "pack --columns= in out", "pack --columns 1.5 in out",
    "pack --rows 0 in out", "pack --rows 33 in out", "pack --rows 0x2 in out",
    "pack --ec 2 in out", "pack --ec no in out", "pack --rate 0 in out",
    "pack --range full in out", "pack --siting left in out", "pack --primaries 1 in out",
    "pack --transfer 1 in out", "pack --matrix 0 in out.avi", "pack --range pc in out.mkv",
    "pack --siting top in out.mkv", "pack --primaries 256 in out.mkv", "pack --matrix -1 in out.mkv",
    "pack --container avi --range limited in out.mkv",
    "pack --rate 4294967296 in out", "pack --scale 0 in out", "pack --scale 4294967296 in out",
    "pack --scale 99999999999999999999 in out", "pack in out --ec", "pack in out --columns",
    "pack --ec -- 0 in out", "pack --ec 1 --ec 1 in out", "pack --ec=0 in out --ec=1",
    "pack --columns 2 --columns=2 in out", "check --place --place in", "show --cost in --cost",
    "pack --no-clobber --no-clobber in out", "unpack --no-clobber=1 in out",
    "check --no-clobber in", "show --no-clobber in", "trial --no-clobber in",
    "pack --verify --verify in out", "pack --verify=1 in out", "unpack --verify in out",
    "check --verify in", "trial --verify in",
    "info", "info --cost in", "info --count=1 in", "info --all in", "info --json --json in",
    "info - in -", "check --json=1 in", "check --json --json in", "show --json in", "framemd5 --json in",
    "check --quiet=1 in", "check --quiet --quiet in", "show --quiet in", "unpack --quiet in out",
    "framemd5 --quiet in", "check --place=true in", "show --cost=1 in", "pack --columns 99 --help",
    "pack --columns --help", "pack --help=1 in out", "pack in out x --help", "-x --help", "--help=",
]
# one file twice, standard output as OUT, and standard input twice
CONFLICTS = [
    "pack in in", "unpack in in", "pack in /dev/stdout", "pack in /dev/fd/1",
    "pack in /proc/self/fd/1", "unpack in /dev/stdout", "unpack in /dev/fd/1",
    "unpack in -- /proc/self/fd/1", "pack no no", "pack - /dev/stdout",
    "check - -", "show - in -", "check in - -- -", "show --cost - -", "framemd5 - in -",
]


def refused_lines():
    """Command lines that are refused; no file is touched."""
    given = {"in": MONO, "out": b"kept"}
    for line in REFUSED + CONFLICTS:
        yield Case(line or "no words", given, [Step(line.split(), status=2)], given)


# -------------------------------------------------------------------------------------------- paths

UNOPENED = [
    ("pack no out", "56 Read"), ("unpack no out", "56 Read"), ("check no", "56 Read"),
    ("show no", "56 Read"), ("trial no", "56 Read"), ("pack no no/out", "56 Read"),
    ("pack in no/out", "57 Write"), ("pack in .", "57 Write"), ("unpack in /", "57 Write"),
    ("check .", "56 Read"), ("show .", "56 Read"), ("pack in /dev/full", "57 Write"),
    ("check /dev/null", "52 Truncated"), ("framemd5 no", "56 Read"), ("framemd5 .", "56 Read"),
    ("framemd5 /dev/null", "52 Truncated"),
]


def unopened_files():
    """Files that cannot be opened, read or written; all others stay."""
    given = {"in": MONO, "out": b"kept"}
    for line, fault in UNOPENED:
        yield Case(line, given, [Step(line.split(), "", fault)], given)
    for words, fault in [(["check", ""], "56 Read"), (["pack", "", "out"], "56 Read"),
                         (["pack", "in", ""], "57 Write")]:
        yield Case(f"an empty word in {words}", given, [Step(words, "", fault)], given)


def kept_files():
    """A file that is there is kept where nothing is written; a new one is empty then."""
    given = {"in": MONO, "out": b"kept"}
    for line, fault in [("pack . out", "56 Read"), ("unpack . out", "56 Read"),
                        ("unpack in out", "50 NotAvi"), ("pack out in", "60 Header"),
                        ("unpack - out", "52 Truncated"), ("pack - out", "60 Header")]:
        yield Case(line, given, [Step(line.split(), "", fault)], given)
    for line, fault in [("pack . new", "56 Read"), ("unpack in new", "50 NotAvi")]:
        yield Case(line, given, [Step(line.split(), "", fault)], {**given, "new": b""})
    file = avi(one(), [b"\1", FRAME])
    yield Case("a payload is refused", {"in": file, "out": b"kept"},
               [Step(["unpack", "in", "out"], "", "35 Footer")], {"in": file, "out": b"kept"})
    for line in ["pack in ./in", "pack ./in in", "unpack in ./in", "pack --no-clobber in ./in"]:
        yield Case(line, given, [kept(line.split(), "IN and OUT are one file")], given)
    for line in ["pack --no-clobber in out", "unpack --no-clobber in out",
                 "pack --no-clobber in /dev/null", "pack --no-clobber in ."]:
        yield Case(line, given, [kept(line.split(), "OUT exists")], given)
    yield Case("no folder for OUT", given,
               [Step(["pack", "--no-clobber", "in", "no/out"], "", "57 Write")], given)


def rewritten_files():
    """A file that is there is written from its begin."""
    text = b"a longer text, which is gone" * 20
    yield Case("a shorter text than before", {"in": avi(one(), [FRAME]), "out": text},
               [Step(["unpack", "in", "out"], "frames 1\n")],
               {"out": y4m("W1 H1 F25:1 I? A0:0 Cmono", b"\0")})


def standard_streams():
    """A hyphen is standard output as OUT, and then the count is on standard error."""
    text = y4m("W1 H1 F25:1 I? A0:0 Cmono", b"\0")
    yield Case("unpack to standard output", {"in": avi(one(), [FRAME])},
               [Step(["unpack", "in", "-"], text.decode(), errors="frames 1\n")])
    yield Case("a fault where OUT is standard output", {"in": MONO},
               [Step(["unpack", "--no-clobber", "in", "-"], "", "50 NotAvi")])
    yield Case("both", {}, [Step(["pack", "-", "-"], "", "60 Header")])
    yield Case("a file by that name", {"in": MONO},
               [Step(["pack", "--ec", "0", "in", "./-"], WITHOUT)], {"-": avi(one(), [FRAME], 0, 0)})


def faults_in_turn():
    """A write and another fault: the one that comes first is told."""
    file = avi(one(), [FRAME, b"\1"])
    yield Case("a write before a fault", {"in": file},
               [Step(["unpack", "in", "/dev/full"], "", "57 Write")], {"in": file})
    config = one(chroma=True, rct=True)
    file = avi(config, [bytes.fromhex("FE78DF83D92C000006"), b"\1"])
    yield Case("an image's write before a fault", {"in": file},
               [Step(["unpack", "in", "/dev/full"], "", "57 Write")], {"in": file})
    for name, file, fault in [("a fault", avi(one(), [b"\1", FRAME]), "35 Footer"),
                              ("no frame", avi(one(), []), "70 NoFrames")]:
        yield Case(f"{name} before a write", {"in": file},
                   [Step(["unpack", "in", "/dev/full"], "", fault)], {"in": file})
    yield Case("a text's fault before a write", {"in": b""},
               [Step(["pack", "in", "/dev/full"], "", "60 Header")])


def trials():
    """A trial of the first picture."""
    text = y4m("W2 H2 Cmono", bytes([10, 20, 30, 40]))
    yield Case("trial", {"in": text}, [Step(["trial", "in"], "samples 4\ndecisions 38\n"
                                            "code 71C6E52D49\nsame yes\n")])
    for name, text, fault in [("an image", RED, "60 Header"),
                              ("chroma", y4m("W1 H1 C444", bytes(3)), "62 Unsupported"),
                              ("transparency", y4m("W1 H1 C444alpha", bytes(4)), "62 Unsupported")]:
        yield Case(f"trial of {name}", {"in": text}, [Step(["trial", "in"], "", fault)])


CASES = [
    taken_lines, several_files, quiet_lines, a_folder, refused_lines, unopened_files, kept_files,
    rewritten_files, standard_streams, faults_in_turn, trials,
]
