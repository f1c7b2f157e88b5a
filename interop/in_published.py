# SPDX-License-Identifier: MIT OR Apache-2.0
"""Files of the sizes in which film and tape are published, of 8, 10 and 16 bits, for which nothing is
asked but the codec ID: MediaConch passes each, and what mkvmerge makes of that with the codec ID of
Video for Windows and of a sound. MediaConch keeps its verdict by a file's name, so each is new."""
import itertools
import os
import shutil
import sys

sys.dont_write_bytecode = True

from exchange import conch, ffmpeg, ffv1, run, save
from in_depths import planes_in

SIZES = [(640, 480), (720, 486), (720, 576), (1280, 720), (1440, 1080), (1920, 1080), (2048, 1556),
         (4096, 3112)]
# FFmpeg's names of pictures of each depth.
DEPTHS = {
    8: ["gray", "yuv420p", "yuv422p", "yuv444p", "yuv411p", "gbrp"],
    10: ["gray10le", "yuv420p10le", "yuv422p10le", "yuv444p10le", "gbrp10le"],
    16: ["gray16le", "yuv420p16le", "yuv422p16le", "yuv444p16le", "gbrp16le"],
}


def source(width, height, pixels, *form):
    """One picture of a test source, in a form."""
    return ffmpeg("-f", "lavfi", "-i", "testsrc2=size=192x144:rate=25", "-frames:v", "1",
                  "-vf", f"scale={width}:{height}", "-pix_fmt", pixels, "-strict", "-1", *form, "-")


def image(width, height, pixels, depth):
    """PPM of a picture of green, blue and red: of two bytes a sample the high one comes first."""
    green, blue, red = planes_in(source(width, height, pixels, "-f", "rawvideo"), 3)
    size = 1 if depth == 8 else 2
    samples = bytearray(3 * len(green))
    for place, plane in enumerate((red, green, blue)):
        for byte in range(size):
            samples[place * size + byte::3 * size] = plane[size - 1 - byte::size]
    return b"P6\n%d %d\n%d\n" % (width, height, 2 ** depth - 1) + bytes(samples)


def picture(width, height, pixels, depth):
    """A text of one picture."""
    if pixels.startswith("gbr"):
        return image(width, height, pixels, depth)
    return source(width, height, pixels, "-f", "yuv4mpegpipe")


def merged(file):
    """What mkvmerge makes of a file and of a sound. MediaConch 23.03 fails what it makes of any file
    with LanguageIETF."""
    made = f"merged_{file}"
    status, _, errors = run("mkvmerge", "-q", "--disable-language-ietf", "-o", made, file, "-D",
                            "published.mov")
    assert status == 0, errors
    return made


def published(results):
    """A file of each size, depth and kind, by either codec ID."""
    ffmpeg("-f", "lavfi", "-i", "sine=duration=1", "-f", "lavfi", "-i", "testsrc2=duration=1:size=64x48",
           "-c:a", "pcm_s16le", "-c:v", "ffv1", "published.mov")
    for (width, height), depth in itertools.product(SIZES, DEPTHS):
        for pixels in DEPTHS[depth]:
            save("published.in", picture(width, height, pixels, depth))
            for name in ("native", "vfw"):
                file = f"published_{width}_{pixels}_{name}.mkv"
                what = f"published {width}x{height} {pixels} {name}"
                packed = ffv1("pack", "--codec-id", name, "published.in", file)
                results.same(f"{what}: pack", packed[::2], (0, ""))
                results.same(f"{what}: MediaConch", conch(file), "pass!")
                if name == "vfw" and shutil.which("mkvmerge"):
                    made = merged(file)
                    results.same(f"{what}: MediaConch after mkvmerge", conch(made), "pass!")
                    os.remove(made)
                os.remove(file)


PARTS = [published]
