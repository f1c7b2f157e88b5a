# SPDX-License-Identifier: MIT OR Apache-2.0
"""What is noted of files that are read to their end: bytes behind them, and an open Segment that has
no Cues behind its last Cluster. Counted by hand from the formats, as in `offsets.py`."""
import hashlib

from known_answers.case import ANY, FRAME, MONO, Case, Step, avi, one
from known_answers.matroska import C, H, block, cluster, element, opened, summed, whole
from known_answers.riffs import lines

CUES, LOOSE = element("1C53BB6B", "EC80"), element("1F43B675", b"")[:4] + b"\xff"
OPEN, AFTER = "90 Open", "94 After byte 157"
BAD, BEHIND = "byte 164: fault 81 BadElement\n", "byte 157: fault 81 BadElement\n"
SUM, FOUND = "byte 157: fault 85 Checksum\n", "frame 1: 5 bytes, 1 slices, 11 decisions\n"
AVI, GARBAGE = avi(one(), [FRAME]), whole(C) + b"garbage"

ENDS = [
    ("no Cues", opened(C), OPEN),
    ("Cues behind the Cluster", opened(C, CUES), ""),
    ("Cues before the Cluster", opened(CUES, C), OPEN),
    ("Cues between two Clusters", opened(C, CUES, cluster("E78100")), OPEN),
    ("Cues, and Tags behind them", opened(C, CUES, element("1254C367", "EC80")), ""),
    ("Cues behind a Cluster of unknown size", opened(LOOSE, "E78100", block(), CUES), ""),
    ("Cues before a Cluster of unknown size", opened(CUES, LOOSE, "E78100", block()), OPEN),
    ("Cues with a wrong CRC-32", opened(C, element("1C53BB6B", "BF84 01020304")), None),
    ("Cues of a Segment that has a size", whole(C, CUES), ""),
    ("one byte", whole(C) + b"\0", AFTER),
    ("three bytes of EBML", whole(C) + H[:3], AFTER),
    ("zeros", whole(C) + bytes(70000), AFTER),
    ("a Cluster", whole(C) + C, AFTER),
]


def ends():
    """What each file's end leaves to be noted."""
    for name, file, note in ENDS:
        if note is None:
            yield Case(f"noted: {name}", {"in": file}, [Step(["check", "in"], lines(1), "85 Checksum")])
            continue
        yield Case(f"noted: {name}", {"in": file}, [
            Step(["check", "in"], lines(1, "frames 1\n"), note=note),
            Step(["check", "--all", "in"], lines(1, "frames 1 faults 0\n"), note=note),
            Step(["check", "--notes-as-faults", "in"], lines(1, "frames 1\n"), note=note,
                 status=1 if note else 0)])


def commands():
    """The commands that read a file to its end, and those that do not."""
    given = {"in": GARBAGE, "list": f"0, 0, 0, 1, 1, {hashlib.md5(bytes(1)).hexdigest()}\n".encode()}
    yield Case("what is noted by each command", given, [
        Step(["check", "--quiet", "in"], "in: sound, 1 frames\n", note=AFTER),
        Step(["check", "--against", "list", "in"], "frames 1\n", note=AFTER),
        Step(["check", "--frames", "1", "in"], lines(1, "frames 1\n")),
        Step(["check", "--frames", "1", "--notes-as-faults", "in"], lines(1, "frames 1\n")),
        Step(["check", "--from", "1", "in"], "", "70 NoFrames"),
        Step(["check", "--frames", "2", "in"], lines(1, "frames 1\n"), note=AFTER),
        Step(["unpack", "in", "a"], "frames 1\n", note=AFTER),
        Step(["unpack", "--notes-as-faults", "in", "b"], "frames 1\n", note=AFTER, status=1),
        Step(["unpack", "--all", "in", "c"], "frames 1\n", note=AFTER),
        Step(["unpack", "in", "-"], MONO.decode("latin-1"), errors="frames 1\n", note=AFTER),
        Step(["framemd5", "in"], ANY, note=AFTER),
        Step(["framemd5", "--notes-as-faults", "in"], ANY, note=AFTER, status=1),
        Step(["show", "in"], ANY), Step(["show", "--cost", "in"], ANY, note=AFTER),
        Step(["info", "--count", "in"], ANY), Step(["show", "--notes-as-faults", "in"], status=2),
    ], {"a": MONO, "b": MONO, "c": MONO})


def several():
    """Several files: each note has its path, and those of a file come before its fault."""
    laced = opened(cluster("E78100", block(), block("81 0000 82")))
    given = {"a": whole(C), "b": GARBAGE, "c": opened(C), "d": whole(C) * 2, "e": laced}
    told = "byte 157: fault 84 Laced\nframes 1 faults 1\n"
    another = "byte 157: fault 88 Another\n"
    note = "ffv1: b: note 94 After byte 157\nffv1: c: note 90 Open\n"
    files = [f"file {name}\n{lines(1)}" for name in "abcd"]
    yield Case("notes of several files", given, [
        Step(["check", "a", "b", "c"], "frames 1\n".join(files[:3]) + "frames 1\n", errors=note),
        Step(["check", "--notes-as-faults", "a", "a"], "frames 1\n".join([files[0]] * 2) + "frames 1\n"),
        Step(["check", "--notes-as-faults", "a", "b"], "frames 1\n".join(files[:2]) + "frames 1\n",
             status=1, errors="ffv1: b: note 94 After byte 157\n"),
        Step(["check", "d", "b"], f"{files[3]}{files[1]}frames 1\n", status=1,
             errors="ffv1: d: 88 Another\nffv1: b: note 94 After byte 157\n"),
        Step(["check", "--all", "e"], lines(1) + told, "84 Laced", note=OPEN),
        Step(["check", "--all", "e", "b"], f"file e\n{lines(1)}{told}{files[1]}frames 1 faults 0\n",
             status=1, errors="ffv1: e: note 90 Open\nffv1: e: 84 Laced\n"
             "ffv1: b: note 94 After byte 157\n"),
        Step(["unpack", "--all", "e", "out"], "byte 157: fault 84 Laced\nframes 1\n", "84 Laced",
             note=OPEN),
        Step(["check", "--all", "d"], f"{lines(1)}{another}frames 1 faults 1\n", "88 Another"),
        Step(["unpack", "--all", "d", "all.y4m"], f"{another}frames 1\n", "88 Another"),
        Step(["unpack", "d", "d.y4m"], "", "88 Another"),
        Step(["check", "--quiet", "d"], "d: 88 Another at byte 157\n", "88 Another"),
        Step(["info", "d"], ANY), Step(["info", "--count", "d"], ANY, "88 Another"),
    ], {"out": MONO, "d.y4m": MONO, "all.y4m": MONO})


def of_avi():
    """Bytes behind an AVI, and what is no AVI at all."""
    given = {"in": AVI + bytes(9), "two": AVI + AVI, "mixed": AVI + whole(C)}
    yield Case("notes of AVI", given, [
        Step(["check", "in"], lines(1, "frames 1\n"), note="94 After byte 264"),
        Step(["check", "--notes-as-faults", "in"], lines(1, "frames 1\n"), status=1,
             note="94 After byte 264"),
        Step(["check", "--all", "in"], lines(1, "frames 1 faults 0\n"), note="94 After byte 264"),
        Step(["unpack", "--all", "in", "out"], "frames 1\n", note="94 After byte 264"),
        Step(["check", "two"], lines(1), "88 Another"),
        Step(["check", "--place", "mixed"], lines(1) + "fault frame 1 byte 264\n", "88 Another"),
    ], {"out": MONO.replace(b"F0:0", b"F25:1")})


def ends_of_damaged():
    """What the end leaves to be noted of files that are damaged: Cues behind a Cluster that is sought,
    before and behind a fault, and where the file is cut."""
    zeros, cues = bytes(9), element("1C53BB6B", summed("EC80", crc=1))
    for name, file, text, note in [
        ("Cues before a Cluster that is sought", opened(C, CUES, zeros, C), BAD + FOUND, OPEN),
        ("Cues behind a Cluster that is sought", opened(C, zeros, C, CUES), BEHIND + FOUND, ""),
        ("no Cluster behind a fault", opened(C, CUES, zeros), BAD, ""),
        ("no Cluster behind a fault, nor Cues", opened(C, zeros), BEHIND, OPEN),
        ("Cues with a wrong CRC-32", opened(C, cues), SUM, ""),
        ("cut in Cues", opened(C, CUES)[:-1], "byte 157: fault 52 Truncated\n", OPEN),
        ("bytes behind a wrong CRC-32", whole(C, cues) + b"garbage", SUM, "94 After byte 170"),
        ("another file behind one", whole(C, cues) + H, f"{SUM}byte 170: fault 88 Another\n", ""),
        ("a fault, and another file behind it", whole(C, zeros) + H,
         f"{BEHIND}byte 166: fault 88 Another\n", ""),
    ]:
        frames, faults = 1 + text.count("frame 1"), text.count("fault")
        yield Case(f"noted of a damaged file: {name}", {"in": file}, [
            Step(["check", "--all", "in"], f"{lines(1)}{text}frames {frames} faults {faults}\n",
                 text.split(": fault ")[1].split("\n")[0], note=note)])


CASES = [ends, commands, several, of_avi, ends_of_damaged]
