# SPDX-License-Identifier: MIT OR Apache-2.0
"""The examples of the README and of the manual: each is run by the shell, as it stands there, in a
folder of its own, and what it prints is compared."""
import os
import re
import shutil
import subprocess
import tempfile

# What the examples work on, made by FFmpeg: 3 frames of 48 by 32, of 10 bits, with sound.
MAKING = """\
ffmpeg -v error -f lavfi -i testsrc=size=48x32:rate=25 -f lavfi -i sine=duration=0.12 -frames:v 3 \\
    -pix_fmt yuv422p10le -c:v v210 -c:a pcm_s24le -timecode 10:00:00:00 tape.mov
"""


def blocks_of_readme(text):
    """The lines of each block of code."""
    return [block.strip("\n") for block in re.findall(r"^```\n(.*?)^```", text, re.M | re.S)]


def blocks_of_manual(text):
    """The lines of each literal block of the section of examples."""
    section = text.split(".Sh EXAMPLES")[1].split(".Sh")[0]
    blocks = re.findall(r"^\.Bd -literal.*?\n(.*?)^\.Ed", section, re.M | re.S)
    return [block.strip("\n").replace("\\e", "\\") for block in blocks]


# What the blocks print, as regular expressions of standard output and standard error together, with
# status 0 if no other one is given below: how many bytes a frame takes is FFmpeg's picture's, and
# pack's own count is checked elsewhere.
PACKED = r"frames 3 bytes \d+\n"
CHECKED = r"(frame \d: \d+ bytes, \d+ slices, \d+ decisions\n){3}frames 3\n"
BROKEN = r"ffv1: broken\.mkv: 52 Truncated\n  broken\.mkv\n  The file is not whole.*\n"
# Several processes, whose lines come in any order; xargs ends with 123 if one of them has status 1.
MANY = (r"(\./\w+\.mkv: sound, 3 frames\n|\./broken\.mkv: 52 Truncated at byte \d\n"
        r"|ffv1: 52 Truncated\n|  \./broken\.mkv\n|  The file is not whole.*\n)+")
PARTS = r"(tape\.mkv: sound, 1 frames\n){3}"
README = [
    PACKED + CHECKED + r"frames 3\n",
    MANY,
]
MANUAL = [PACKED + CHECKED, r"yuv422p10le\n", "", r"frames 3\n", r"frames 3\n", CHECKED, BROKEN,
          MANY, PARTS]
STATUSES = {BROKEN: 1, MANY: 123}


def run(folder, script):
    """The status of a script, and what it prints on both outputs."""
    done = subprocess.run(["bash", "-c", "set -eo pipefail\n" + script], cwd=folder,
                          stdin=subprocess.DEVNULL, stdout=subprocess.PIPE,
                          stderr=subprocess.STDOUT, timeout=120, check=False,
                          env={**os.environ, "PATH": folder + ":" + os.environ["PATH"]})
    return done.returncode, done.stdout.decode()


def examples_of(name, blocks, wanted, program):
    """Whether each block prints what it should, one after the other in one folder."""
    with tempfile.TemporaryDirectory() as folder:
        os.symlink(program, os.path.join(folder, "ffv1"))
        with open(os.path.join(folder, "broken.mkv"), "wb") as file:
            file.write(b"\x1a")
        status, printed = run(folder, MAKING)
        yield told(f"{name}: making", status == 0, printed)
        yield told(f"{name}: number of examples", len(blocks) == len(wanted), blocks)
        for block, pattern in zip(blocks, wanted):
            status, printed = run(folder, block)
            right = status == STATUSES.get(pattern, 0)
            yield told(f"{name}: {block}", right and re.fullmatch(pattern, printed), printed)


def told(name, passed, printed):
    """Whether it passed; where it did not, what was printed is shown."""
    if not passed:
        print(f"{name}: found {printed!r}")
    return bool(passed)


def results(top, program):
    """Whether each example passed."""
    if not shutil.which("ffmpeg"):
        print("the examples are left out: ffmpeg is not installed")
        return
    with open(os.path.join(top, "README.md"), encoding="utf-8") as file:
        readme = file.read().split("## A first use")[1].split("## Commands")[0]
    with open(os.path.join(top, "man", "ffv1.1"), encoding="utf-8") as file:
        manual = file.read()
    yield from examples_of("README", blocks_of_readme(readme), README, program)
    yield from examples_of("manual", blocks_of_manual(manual), MANUAL, program)
