# SPDX-License-Identifier: MIT OR Apache-2.0
"""The examples of the manual, run as they stand there by bash, on tapes of FFmpeg's: no sample is
lost, and the file that is put together has the tape's sound and timecode."""
import os
import stat
import sys

sys.dont_write_bytecode = True

from exchange import PROGRAM, TOP, ffmpeg, ffv1, load, run, save

sys.path.append(os.path.join(TOP, "tests"))
from examples import blocks_of_manual

MANUAL = os.path.join(TOP, "man", "ffv1.1")
# How FFmpeg writes the sound of a tape, and as which container.
TAPES = {"PCM of 24 bits": ["-c:a", "pcm_s24le", "-f", "mov"], "FLAC": ["-c:a", "flac", "-f", "matroska"]}
TIMECODE = "10:00:00:00"


def examples():
    """Those of the manual."""
    with open(MANUAL, encoding="utf-8") as file:
        return blocks_of_manual(file.read())


def tape(sound):
    """A tape of 10 bits in 4:2:2, with a timecode and this sound."""
    ffmpeg("-f", "lavfi", "-i", "testsrc2=size=64x48:rate=25", "-f", "lavfi",
           "-i", "sine=duration=0.12:sample_rate=48000", "-frames:v", "3", "-pix_fmt", "yuv422p10le",
           "-c:v", "v210", "-aspect", "4:3", "-timecode", TIMECODE, *sound, "tape.mov")


def by_name():
    """Puts the program on the path of the examples, as `ffv1`."""
    os.makedirs("bin", exist_ok=True)
    words = " ".join(f"'{word}'" for word in PROGRAM)
    save("bin/ffv1", f"#!/bin/sh\nexec {words} \"$@\"\n".encode())
    os.chmod("bin/ffv1", stat.S_IRWXU)


def probed(file, *entries):
    return run("ffprobe", "-v", "error", *entries, "-of", "csv=p=0", file)[1].decode().strip()


def sound_of(file):
    """The codec of the sound, and the MD5 of its samples."""
    codec = probed(file, "-select_streams", "a", "-show_entries", "stream=codec_name")
    return codec, ffmpeg("-i", file, "-map", "0:a", "-f", "md5", "-")


def run_all(results, what):
    """Each example in turn, in one shell; each ends with status 0."""
    for number, block in enumerate(examples()):
        script = f"set -e\nPATH=\"$PWD/bin:$PATH\"\nset -o pipefail\n{block}"
        status, out, errors = run("bash", "-c", script)
        said = "frames 3\n" if "unpack" in block else ""
        results.same(f"example {number} of {what}", (status, errors), (0, said))
        if "diff" in block:
            results.same(f"pictures of {what}", out, b"")
        if "stream=pix_fmt" in block:
            results.same(f"format of {what}", out.decode().strip(), "yuv422p10le")


def examples_run(results):
    """The examples, in a folder of their own, and what the file that they end with holds."""
    before = os.getcwd()
    os.mkdir("examples")
    os.chdir("examples")
    by_name()
    for what, sound in TAPES.items():
        tape(sound)
        run_all(results, what)
        results.same(f"pictures of {what}, with sound", ffv1("framemd5", "full.mkv")[:2],
                     ffv1("framemd5", "tape.mkv")[:2])
        results.same(f"sound of {what}", sound_of("full.mkv"), sound_of("tape.mov"))
        results.same(f"timecode of {what}", probed("full.mkv", "-show_entries", "format_tags=timecode"),
                     TIMECODE)
        for file in ["tape.mkv", "full.mkv", "tape.framemd5", "back.mov"]:
            results.same(f"{file} of {what}", len(load(file)) > 0, True)
            os.remove(file)
    os.chdir(before)


PARTS = [examples_run]
