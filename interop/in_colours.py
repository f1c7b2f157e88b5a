# SPDX-License-Identifier: MIT OR Apache-2.0
"""The range of colours and the siting of chroma that a text says: FFmpeg reads them in a file of ours
as in its own of the same text, and `unpack` says of either what the text said."""
import sys

sys.dont_write_bytecode = True

from exchange import conch, ffmpeg, ffv1, load, run, save

# The names of chroma, and how many bytes a block of four by four pixels has.
SITED = ["420jpeg", "420mpeg2", "420paldv", "420"]
NAMES = {
    **dict.fromkeys(SITED, 24), "422": 32, "444": 48, "411": 24, "mono": 16,
    **{f"{name}p{depth}": 2 * count for depth in [9, 10, 12, 16]
       for name, count in [("420", 24), ("422", 32), ("444", 48)]},
}
BLOCKS = 16 * 12                                # of 64 by 48 pixels
RANGES = ["", " XCOLORRANGE=LIMITED", " XCOLORRANGE=FULL"]


def said(file):
    """What FFmpeg reads of a file."""
    return run("ffprobe", "-v", "error", "-show_entries", "stream=color_range,chroma_location",
               "-of", "csv=p=0", file)[1].decode().strip()


def unpacked(file):
    """The tags C and X of the text of a file."""
    status, _, errors = ffv1("unpack", file, "back.y4m")
    head = load("back.y4m").split(b"\n")[0].decode() if status == 0 else errors
    return " ".join(tag for tag in head.split(" ") if tag[0] in "CX")


def colours(results):
    """Each name of chroma with each range."""
    for name, length in NAMES.items():
        for values in RANGES:
            what = f"colours {name}{values}"
            head = f"YUV4MPEG2 W64 H48 F25:1 Ip A1:1 C{name}{values}\nFRAME\n"
            save("colours.y4m", head.encode() + bytes(length * BLOCKS))
            file = f"colours_{name}_{values[-4:].strip()}.mkv"
            results.same(f"{what}: pack", ffv1("pack", "colours.y4m", file)[::2], (0, ""))
            ffmpeg("-y", "-i", "colours.y4m", "-c:v", "ffv1", "-level", "3", "-coder", "1",
                   "-slices", "4", "theirs.mkv")
            written = f"C{'420jpeg' if name == '420' else name}{values}"
            results.same(f"{what}: FFmpeg", said(file), said("theirs.mkv"))
            results.same(f"{what}: unpack", unpacked(file), written)
            results.same(f"{what}: unpack of FFmpeg's", unpacked("theirs.mkv"), written)
            results.same(f"{what}: MediaConch", conch(file), "pass!")


PARTS = [colours]
