# SPDX-License-Identifier: MIT OR Apache-2.0
"""Files of 8 bits whose samples are Golomb-Rice coded, as FFmpeg writes them if no coder is asked for:
of each format, of one slice to thirty, of few contexts and many, with parity and without, in sizes
whose slices differ. Every picture has the MD5 that FFmpeg tells, and damage is found."""
import random

from exchange import FRAMES, encoded, ffv1, flipped, load, save
from in_sums import EIGHT, ours, theirs

SLICES = [1, 4, 6, 9, 12, 15, 16, 20, 24, 30]
SIZES = [(97, 97), (64, 48), (120, 67), (131, 40)]


def read_one(results, place, number):
    """One file of FFmpeg's: `check` and `show` take it, and its pictures are FFmpeg's."""
    name, pixels = EIGHT[place]
    slices, context, ec = SLICES[number % 10], number // 10 % 2, (number + place) % 2
    width, height = SIZES[(number + place) % 4]
    container = ["mkv", "avi"][(number + place) // 2 % 2]
    what = f"{name} {width}x{height} rice context {context} slices {slices} slicecrc {ec} {container}"
    try:
        file = encoded(f"rice.{container}", name, width, height, "-coder", "rice", "-slices",
                       f"{slices}", "-context", f"{context}", "-slicecrc", f"{ec}")
    except RuntimeError as refused:
        if "Unsupported number" not in str(refused):
            raise
        return                      # FFmpeg has no grid of so many slices for this size
    status, out, errors = ffv1("check", file)
    if errors == "ffv1: 12 ChromaEdge\n":
        return                      # FFmpeg leaves samples of chroma out of all slices
    results.same(f"{what}: check", (status, out.decode().splitlines()[-1:], errors),
                 (0, [f"frames {FRAMES}"], ""))
    results.same(f"{what}: show", "coder 0" in ffv1("show", file)[1].decode().splitlines(), True)
    results.same(f"{what}: framemd5", ours(file), (theirs(file, pixels), 0, ""))


def read_rice(results):
    """Files of each format, of each number of slices and of both contexts."""
    for place in range(len(EIGHT)):
        for number in range(20):
            read_one(results, place, number)


def damage_rice(results):
    """One bit of a frame with parity is changed, which is found wherever it is."""
    file = encoded("rice.mkv", "yuv420p", 97, 97, "-coder", "rice", "-slices", "4", "-slicecrc", "1")
    data, chance = load(file), random.Random(9043)
    begin = data.index(b"\xa3")
    for number in range(50):
        save("rice_damaged.mkv", flipped(data, chance.randrange(8 * (begin + 200), 8 * (begin + 1500))))
        results.same(f"damage of rice {number}", ffv1("check", "rice_damaged.mkv")[0], 1)


PARTS = [read_rice, damage_rice]
