# SPDX-License-Identifier: MIT OR Apache-2.0
"""Files of 9 to 16 bits a sample, which are exchanged with FFmpeg both ways, in AVI and in Matroska.

The pictures are made here, since FFmpeg's test sources have 8 bits: slow changes with noise in the
low bits, noise, and the least and the greatest samples. FFmpeg has no text of its own for images
above 8 bits, so PPM is made here of its planes, which are green, blue and red."""
import itertools
import random

from exchange import FRAMES, Kind, decoded, ffmpeg, ffv1, load, samples_of, save, text

SIZE = (97, 97)         # inner edges of slices suit the chroma


class DeepKind(Kind):
    """Pictures of so many bits a sample, each of two bytes, the low one first."""

    def __init__(self, name, tag, depth, log2=None, extra=False):
        super().__init__(name, tag, log2, extra)
        self.depth, self.rgb = depth, name.startswith("gb")

    def length(self, width, height):
        return 2 * super().length(width, height)


def kinds():
    """Each format that FFmpeg 5.1 has in FFV1."""
    for depth in [9, 10, 12, 16]:
        yield DeepKind(f"gray{depth}le", f"mono{depth}", depth)
    chroma = [("420", (1, 1)), ("422", (1, 0)), ("444", (0, 0))]
    for depth, (name, log2) in itertools.product([9, 10, 12, 14, 16], chroma):
        yield DeepKind(f"yuv{name}p{depth}le", f"{name}p{depth}", depth, log2)
    for depth in [10, 12]:
        yield DeepKind(f"yuv440p{depth}le", None, depth, (0, 1))
    for depth, (name, log2) in itertools.product([9, 10, 16], chroma):
        yield DeepKind(f"yuva{name}p{depth}le", None, depth, log2, True)
    for depth in [9, 10, 12, 14, 16]:
        yield DeepKind(f"gbrp{depth}le", f"{2 ** depth - 1}", depth, (0, 0))
    for depth in [10, 12, 16]:
        yield DeepKind(f"gbrap{depth}le", None, depth, (0, 0), True)


def made(kind):
    """The samples of some frames: noise, and slow changes with noise in the low bits, and of these
    some are the least or the greatest."""
    dice, most = random.Random(kind.name), 2 ** kind.depth
    samples = []
    for frame in range(FRAMES):
        for at in range(kind.length(*SIZE) // 2):
            slow = (at * most // 2000 + dice.randrange(8)) % most
            samples.append(dice.randrange(most) if frame else
                           dice.choice([slow] * 30 + [0, most - 1]))
    return b"".join(sample.to_bytes(2, "little") for sample in samples)


def planes_in(data, count):
    """The planes of a picture of bytes, all of one size."""
    size = len(data) // count
    return [data[at:at + size] for at in range(0, len(data), size)]


def turned(data):
    """Samples of two bytes, each turned round."""
    return bytes(byte for at in range(0, len(data), 2) for byte in (data[at + 1], data[at]))


def images(kind, samples):
    """PPM of planes of green, blue and red."""
    length, parts = kind.length(*SIZE), []
    for at in range(0, len(samples), length):
        green, blue, red = (turned(plane) for plane in planes_in(samples[at:at + length], 3))
        places = zip(*(zip(plane[::2], plane[1::2]) for plane in (red, green, blue)))
        parts.append(b"P6\n%d %d\n%s\n" % (*SIZE, kind.tag.encode())
                     + bytes(byte for place in places for sample in place for byte in sample))
    return b"".join(parts)


def deep_text(kind, samples):
    """YUV4MPEG2 or PPM of these samples."""
    return images(kind, samples) if kind.rgb else text(kind, *SIZE, samples)


def theirs(kind, samples, name, *options):
    """A file that FFmpeg codes of these samples."""
    ffmpeg("-f", "rawvideo", "-pix_fmt", kind.name, "-s", "%dx%d" % SIZE, "-i", "-", "-c:v", "ffv1",
           "-level", "3", "-g", "1", *options, name, given=samples)
    return name


def read_one(results, kind, samples, number):
    """One file of FFmpeg's: `check` and `show` take it, and its samples are unpacked."""
    coder, context = ["range_def", "range_tab"][number % 2], number // 2 % 2
    slices, container = [4, 6, 9, 12, 16, 24][number % 6], ["avi", "mkv"][number // 4 % 2]
    what = f"{kind.name} {coder} context {context} slices {slices} {container}"
    file = theirs(kind, samples, f"theirs.{container}", "-coder", coder, "-context", f"{context}",
                  "-slices", f"{slices}", "-slicecrc", f"{number // 2 % 2}")
    status, out, errors = ffv1("check", file)
    results.same(f"{what}: check", (status, out.decode().splitlines()[-1:], errors),
                 (0, [f"frames {FRAMES}"], ""))
    lines = ffv1("show", file)[1].decode().splitlines()
    results.same(f"{what}: show", f"depth {kind.depth}" in lines, True)
    save("theirs.out", b"")
    status, _, errors = ffv1("unpack", file, "theirs.out")
    if kind.tag is None:
        fault = "73 NoPpm" if kind.rgb else "72 NoY4mName"
        results.same(f"{what}: unpack", (status, errors), (1, f"ffv1: {fault}\n"))
    else:
        results.same(f"{what}: unpack", (status, errors), (0, ""))
        data = load("theirs.out")
        found = data == images(kind, samples) if kind.rgb else samples_of(kind, *SIZE, data) == samples
        results.same(f"{what}: samples", found, True)


def write_one(results, kind, samples, coder, grid, container):
    """One file of ours, of which FFmpeg has all samples."""
    what = f"{kind.name} coder {coder} slices {grid[0]}x{grid[1]} {container}"
    save("ours.in", deep_text(kind, samples))
    status, _, errors = ffv1("pack", "ours.in", f"ours.{container}", "--coder", f"{coder}",
                             "--columns", f"{grid[0]}", "--rows", f"{grid[1]}")
    results.same(f"{what}: pack", (status, errors), (0, ""))
    found, _ = decoded(f"ours.{container}", kind.name)
    results.same(f"{what}: FFmpeg's samples", found == samples, True)
    status, _, errors = ffv1("unpack", f"ours.{container}", "ours.out")
    results.same(f"{what}: unpack", (status, errors), (0, ""))
    found = load("ours.out")
    found = found == images(kind, samples) if kind.rgb else samples_of(kind, *SIZE, found) == samples
    results.same(f"{what}: our samples", found, True)


def read_depths(results):
    """FFmpeg's files: both coders, contexts, containers, some numbers of slices."""
    for place, kind in enumerate(kinds()):
        samples = made(kind)
        for number in range(place % 2, 8, 2) if kind.tag is None else range(8):
            read_one(results, kind, samples, number)


def write_depths(results):
    """Our files: both coders and containers."""
    for kind in kinds():
        if kind.tag is None:
            continue
        samples = made(kind)
        for coder, container in [(1, "avi"), (2, "mkv"), (1, "mkv"), (2, "avi")]:
            for grid in [(1, 1), (4, 3)]:
                write_one(results, kind, samples, coder, grid, container)


# planes of RGB, and the same sample after sample, which FFmpeg codes alike
INTERLEAVED = [(DeepKind("gbrp16le", "65535", 16, (0, 0)), "rgb48le"),
               (DeepKind("gbrap16le", None, 16, (0, 0), True), "rgba64le")]


def read_interleaved(results):
    """FFmpeg's files of RGB of 16 bits whose pictures came sample after sample."""
    for kind, pixels in INTERLEAVED:
        samples = made(kind)
        for coder in ["range_def", "range_tab"]:
            file = theirs(kind, samples, "theirs.mkv", "-pix_fmt", pixels, "-coder", coder)
            results.same(f"{pixels} {coder}: check", ffv1("check", file)[::2], (0, ""))
            results.same(f"{pixels} {coder}: FFmpeg's samples", decoded(file, kind.name)[0] == samples, True)
            save("theirs.out", b"")
            status, _, errors = ffv1("unpack", file, "theirs.out")
            if kind.tag is None:
                results.same(f"{pixels} {coder}: unpack", (status, errors), (1, "ffv1: 73 NoPpm\n"))
            else:
                results.same(f"{pixels} {coder}: unpack", (status, errors), (0, ""))
                results.same(f"{pixels} {coder}: samples", load("theirs.out") == images(kind, samples), True)


def exchange_images(results):
    """PPM of 16 bits as FFmpeg writes it is packed, and FFmpeg reads ours as the same samples."""
    kind = INTERLEAVED[0][0]
    samples = made(kind)
    ffmpeg("-f", "rawvideo", "-pix_fmt", kind.name, "-s", "%dx%d" % SIZE, "-i", "-", "-pix_fmt", "rgb48be",
           "-c:v", "ppm", "-f", "image2pipe", "theirs.ppm", given=samples)
    results.same("PPM of 16 bits: pack", ffv1("pack", "theirs.ppm", "ours.mkv")[::2], (0, ""))
    results.same("PPM of 16 bits: FFmpeg's samples", decoded("ours.mkv", kind.name)[0] == samples, True)
    results.same("PPM of 16 bits: unpack", ffv1("unpack", "ours.mkv", "ours.ppm")[::2], (0, ""))
    results.same("PPM of 16 bits: the same text", load("ours.ppm") == load("theirs.ppm"), True)


PARTS = [read_depths, write_depths, read_interleaved, exchange_images]
