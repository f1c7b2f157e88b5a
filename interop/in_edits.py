# SPDX-License-Identifier: MIT OR Apache-2.0
"""Matroska files that were edited in place, as archives do it every day: mkvpropedit sets a title, a
name, a language, flags, colours and a size to show, and adds chapters, tags, attachments and
statistics, in files of FFmpeg's, of mkvmerge's and of ours. Where an element grows it is moved to the end,
Tracks behind the Clusters too. Each frame is read as before; through a pipe a file whose Tracks
were moved is `NoTracks`."""
import shutil

from exchange import KINDS, PROGRAM, encoded, ffv1, load, raw, run, save, text

CHAPTERS = b"CHAPTER01=00:00:00.000\nCHAPTER01NAME=Reel 1\nCHAPTER02=00:00:00.040\nCHAPTER02NAME=Reel 2\n"
TAGS = b"""<?xml version="1.0"?>
<Tags><Tag><Simple><Name>TITLE</Name><String>A film</String></Simple></Tag></Tags>
"""
TRACK = ["--edit", "track:1"]
# what is edited, by which options
EDITS = [
    ("a title", ["--edit", "info", "--set", "title=A film of an archive"]),
    ("a name", [*TRACK, "--set", "name=Scan"]),
    ("a language", [*TRACK, "--set", "language=ger"]),
    ("flags", [*TRACK, "--set", "flag-default=0", "--set", "flag-forced=1"]),
    ("a size to show", [*TRACK, "--set", "display-width=128", "--set", "display-height=96"]),
    ("colours", [*TRACK, "--set", "colour-primaries=1", "--set", "colour-range=1"]),
    ("chapters", ["--chapters", "edits.chapters"]),
    ("tags", ["--tags", "all:edits.tags"]),
    ("an attachment", ["--add-attachment", "edits.tags"]),
    ("statistics", ["--add-track-statistics-tags"]),
    ("a long name", [*TRACK, "--set", f"name={'x' * 20000}"]),
    ("a title of no length", ["--edit", "info", "--delete", "title"]),
]


def listed(file):
    """The MD5 of each frame, the status and what is told of a file."""
    status, out, errors = ffv1("framemd5", file)
    return status, [line for line in out.splitlines() if not line.startswith(b"#")], errors


def element(data, at):
    """The ID of an element, and where its content begins and ends; a size of no length has none."""
    long = 9 - data[at].bit_length()
    wide = 9 - data[at + long].bit_length()
    size = int.from_bytes(data[at + long:at + long + wide], "big") - (1 << 7 * wide)
    begin = at + long + wide
    return data[at:at + long], begin, begin + size


def is_behind(data):
    """Whether the first Tracks of a Segment stand behind a Cluster."""
    at, end = element(data, element(data, 0)[2])[1], len(data)
    while at < end:
        name, _, at = element(data, at)
        if name in (b"\x16\x54\xAE\x6B", b"\x1F\x43\xB6\x75"):
            return name == b"\x1F\x43\xB6\x75"
    return False


def edit_file(results, what, file):
    """Each edit of a copy, and then all in one file, one after the other."""
    wanted, moved = listed(file), 0
    results.same(f"{what}: read", (wanted[0], len(wanted[1]) > 0), (0, True))
    shutil.copy(file, "all_edits.mkv")
    for name, options in EDITS:
        for edited in ["one_edit.mkv", "all_edits.mkv"]:
            if edited == "one_edit.mkv":
                shutil.copy(file, edited)
            results.same(f"{what}, {name}: mkvpropedit", run("mkvpropedit", "-q", edited, *options)[0], 0)
            results.same(f"{what}, {name}: {edited}", listed(edited), wanted)
            results.same(f"{what}, {name}: check", ffv1("check", edited)[::2], (0, wanted[2]))
            results.same(f"{what}, {name}: info", ffv1("info", edited)[::2], (0, ""))
            if is_behind(load(edited)):
                moved += 1
                piped = run(*PROGRAM, "check", "-", given=load(edited))
                results.same(f"{what}, {name}: through a pipe", piped[0], 1)
                results.same(f"{what}, {name}: NoTracks", "82 NoTracks" in piped[2], True)
    results.same(f"{what}: Tracks were moved", moved > 0, True)


def read_edits(results):
    """A file of each program."""
    if shutil.which("mkvpropedit") is None or shutil.which("mkvmerge") is None:
        print("interop: edits of mkvpropedit are left out, as it is not installed")
        return
    save("edits.chapters", CHAPTERS)
    save("edits.tags", TAGS)
    edit_file(results, "FFmpeg's", encoded("ffmpeg_edits.mkv", "yuv422p", 96, 96))
    run("mkvmerge", "-q", "-o", "merged_edits.mkv", "ffmpeg_edits.mkv")
    edit_file(results, "mkvmerge's", "merged_edits.mkv")
    kind = KINDS[2]
    save("edits.y4m", text(kind, 96, 96, raw(kind, 96, 96)))
    results.same("packed", ffv1("pack", "edits.y4m", "our_edits.mkv")[0], 0)
    edit_file(results, "ours", "our_edits.mkv")


PARTS = [read_edits]
