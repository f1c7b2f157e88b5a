# SPDX-License-Identifier: MIT OR Apache-2.0
"""Files of published sizes whose slices share samples of chroma, since an edge between two of them
lies inside one: FFmpeg's are read, and ours are decoded by FFmpeg, to the same samples."""
import sys

sys.dont_write_bytecode = True

from exchange import FRAMES, KINDS, decoded, encoded, ffmpeg, ffv1, save, text, whole
from in_depths import DeepKind

GRIDS = {4: (2, 2), 9: (3, 3), 12: (4, 3), 16: (4, 4), 24: (6, 4), 30: (6, 5)}
USUAL = {(640, 480): [9, 24, 30], (1280, 720): [9, 24, 30], (352, 288): [9, 24, 30]}
SCANS = {(2048, 1556): [9, 24, 30]}
LINES = {(720, 486): [4, 16, 24, 30], (720, 576): [30], (768, 576): [30],
         (2048, 1556): [9, 12, 16, 24, 30]}

# Which numbers of slices share samples of a size, by the factors of chroma.
SHARED = {(1, 0): USUAL | SCANS, (1, 1): USUAL | LINES, (2, 0): USUAL | SCANS}
DEEP = [DeepKind("yuv422p10le", "422p10", 10, (1, 0)), DeepKind("yuv420p10le", "420p10", 10, (1, 1))]
# With no number of slices FFmpeg takes four.
BY_DEFAULT = [(720, 486, (1, 1)), (702, 576, (1, 1)), (1998, 1080, (1, 0))]


def picture(kind, width, height):
    """The samples of some frames of a test source."""
    return ffmpeg("-f", "lavfi", "-i", "testsrc2=size=192x144:rate=25", "-frames:v", f"{FRAMES}",
                  "-vf", f"scale={width}:{height}", "-pix_fmt", kind.name, "-f", "rawvideo", "-")


def by_factors(log2):
    """The kinds of pictures whose chroma has these factors."""
    return [kind for kind in [*KINDS, *DEEP] if kind.log2 == log2]


def exchange(results, kind, size, slices):
    """A file of FFmpeg's in so many slices, and one of ours in the same grid."""
    what = f"{kind.name} {size[0]}x{size[1]} in {slices}"
    whole(results, what, kind, size,
          encoded("shared.mkv", kind.name, *size, "-slices", f"{slices}", "-slicecrc", "1"))
    columns, rows = GRIDS[slices]
    samples = picture(kind, *size)
    save("shared.in", text(kind, *size, samples))
    status, _, errors = ffv1("pack", "shared.in", "ours.mkv", "--columns", f"{columns}",
                             "--rows", f"{rows}")
    results.same(f"{what}: pack", (status, errors), (0, ""))
    results.same(f"{what}: FFmpeg's samples", decoded("ours.mkv", kind.name), (samples, []))


def shared(results):
    """Each size, number of slices, and kind."""
    for log2, sizes in SHARED.items():
        for kind in by_factors(log2):
            for size, numbers in sizes.items():
                for slices in numbers:
                    exchange(results, kind, size, slices)


def by_default(results):
    """FFmpeg's files of sizes that share samples when no number of slices is asked for."""
    for width, height, log2 in BY_DEFAULT:
        for kind in by_factors(log2):
            file = encoded("shared.mkv", kind.name, width, height)
            whole(results, f"{kind.name} {width}x{height}", kind, (width, height), file)


PARTS = [shared, by_default]
