# SPDX-License-Identifier: MIT OR Apache-2.0
"""What files are exchanged by: the programs, pictures of each kind, and files of FFmpeg's."""
import os
import shlex
import subprocess
import sys

sys.dont_write_bytecode = True

TOP = os.path.realpath(os.path.join(os.path.dirname(os.path.abspath(__file__)), ".."))
sys.path.append(os.path.join(TOP, "tests"))

import told

BUILT = os.path.join(TOP, "crates", "ffv1", "out", "ffv1")
PROGRAM = [os.path.abspath(word) if os.path.exists(word) else word
           for word in shlex.split(os.environ.get("FFV1", BUILT))]
FRAMES = 2


def run(*words, given=None):
    """Status, standard output and standard error."""
    done = subprocess.run(words, input=given, stdout=subprocess.PIPE, stderr=subprocess.PIPE,
                          stdin=None if given is not None else subprocess.DEVNULL)
    return done.returncode, done.stdout, done.stderr.decode("utf-8", "replace")


def ffv1(*words):
    """As `run`, with the first line alone of each refusal."""
    status, out, errors = run(*PROGRAM, *words)
    return status, out, told.first_lines(errors)


def ffmpeg(*words, given=None):
    """What FFmpeg writes to standard output; its messages of warnings are to be none."""
    status, out, errors = run("ffmpeg", "-v", "error", "-y", *words, given=given)
    if status:
        raise RuntimeError(f"ffmpeg {' '.join(words)}: {errors}")
    return out


class Results:
    """How many pairs were compared, and how many differ, which are printed."""

    def __init__(self):
        self.compared, self.different = 0, 0

    def same(self, what, found, wanted):
        self.compared += 1
        if found != wanted:
            self.different += 1
            print(f"{what}: found {f'{found}'[:200]}, wanted {f'{wanted}'[:200]}")


# ----------------------------------------------------------------------------------------- pictures

class Kind:
    """Pictures of a kind: FFmpeg's name, that of YUV4MPEG2 (none for PPM), and the factors of
    chroma as powers of two (none without chroma)."""

    def __init__(self, name, tag, log2=None, extra=False):
        self.name, self.tag, self.log2, self.extra = name, tag, log2, extra

    def factors(self):
        log2_h, log2_v = self.log2 or (0, 0)
        return 2 ** log2_h, 2 ** log2_v

    def length(self, width, height):
        """How many bytes a picture has."""
        if self.name == "rgb24":
            return 3 * width * height
        horizontal, vertical = self.factors()
        chroma = -(-width // horizontal) * -(-height // vertical) if self.log2 else 0
        return width * height * (2 if self.extra else 1) + 2 * chroma


KINDS = [
    Kind("gray", "mono"), Kind("yuv420p", "420jpeg", (1, 1)), Kind("yuv422p", "422", (1, 0)),
    Kind("yuv444p", "444", (0, 0)), Kind("yuv411p", "411", (2, 0)),
    Kind("yuva444p", "444alpha", (0, 0), True), Kind("rgb24", None),
]


def raw(kind, width, height, source="testsrc2"):
    """The samples of some frames of a test source."""
    return ffmpeg("-f", "lavfi", "-i", f"{source}=size=192x144:rate=25", "-frames:v", f"{FRAMES}",
                  "-vf", f"scale={width}:{height}", "-pix_fmt", kind.name, "-f", "rawvideo", "-")


def text(kind, width, height, samples, head="F25:1 Ip A1:1"):
    """YUV4MPEG2 or PPM of these samples."""
    length = kind.length(width, height)
    pictures = [samples[at:at + length] for at in range(0, len(samples), length)]
    if kind.tag is None:
        return b"".join(b"P6\n%d %d\n255\n" % (width, height) + picture for picture in pictures)
    return (f"YUV4MPEG2 W{width} H{height} {head} C{kind.tag}\n".encode()
            + b"".join(b"FRAME\n" + picture for picture in pictures))


def samples_of(kind, width, height, data):
    """The samples of such a text."""
    length = kind.length(width, height)
    begin = b"P6\n%d %d\n255\n" % (width, height) if kind.tag is None else b"FRAME\n"
    rest = data if kind.tag is None else data[data.index(b"\n") + 1:]
    found = b""
    while rest.startswith(begin):
        found += rest[len(begin):len(begin) + length]
        rest = rest[len(begin) + length:]
    return found if not rest else None


def size_for(count, factor):
    """An odd size of which the inner edges of so many parts are multiples of a factor."""
    return count * factor * max(1, -(-32 // (count * factor))) + 1


def save(name, data):
    with open(name, "wb") as out:
        out.write(data)


def load(name):
    with open(name, "rb") as file:
        return file.read()


def remuxed(file, name):
    """The same stream in Matroska, by FFmpeg; MediaConch keeps what it saw of a name."""
    ffmpeg("-i", file, "-c", "copy", name)
    return name


ASPECT, RATE = "ignoring invalid SAR: 0/", "scale/rate is 0/0 which is invalid."


def decoded(file, pixels, *options):
    """FFmpeg's samples, and the kinds of its warnings, of which two are known by name."""
    _, out, errors = run("ffmpeg", "-v", "warning", "-err_detect", "crccheck+explode", "-i", file,
                         *options, "-f", "rawvideo", "-pix_fmt", pixels, "-")
    lines = [line for line in errors.splitlines() if line.strip() and "Last message" not in line]
    return out, sorted({next((known for known in [ASPECT, RATE] if known in line), line)
                        for line in lines})


def conch(file):
    return run("mediaconch", file)[1].decode().split(" ")[0]


def flipped(data, bit):
    data = bytearray(data)
    data[bit // 8] ^= 1 << bit % 8
    return bytes(data)


# ---------------------------------------------------------------------------------- files of theirs

def words_of(pixels, size, options, filters, inputs, rate):
    """The words by which FFmpeg codes its test source."""
    seconds = 2 * FRAMES / 25 if rate != "25" else FRAMES / 25          # as long as any sound
    source = f"testsrc2=size=192x144:rate={rate}:duration={seconds}"
    width, height = size
    return ["-f", "lavfi", "-i", source, *inputs, "-frames:v", f"{FRAMES}",
            "-vf", f"scale={width}:{height},{filters}", "-pix_fmt", pixels, "-c:v", "ffv1",
            "-level", "3", "-coder", "range_def", "-g", "1", *options]


def encoded(name, pixels, width, height, *options, filters="null", inputs=(), rate="25"):
    """A file that FFmpeg codes of its test source."""
    ffmpeg(*words_of(pixels, (width, height), options, filters, inputs, rate), name)
    return name


OPEN = "ffv1: note 90 Open\n"           # of a Segment without a size, and without Cues behind its frames


def whole(results, what, kind, size, file, note=""):
    """A file is read whole: as many frames as FFmpeg counts, and all its samples; and of its end this
    is noted."""
    wanted, _ = decoded(file, kind.name, "-fps_mode", "passthrough")
    count = len(wanted) // kind.length(*size)
    status, out, errors = ffv1("check", file)
    results.same(f"{what}: check", (status, out.decode().splitlines()[-1:], errors),
                 (0, [f"frames {count}"], note))
    status, _, errors = ffv1("unpack", file, "whole.out")
    results.same(f"{what}: status", (status, errors), (0, note))
    results.same(f"{what}: samples", samples_of(kind, *size, load("whole.out")) == wanted, True)
