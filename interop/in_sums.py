# SPDX-License-Identifier: MIT OR Apache-2.0
"""The MD5 of each picture, as FFmpeg's framemd5 tells them: of FFmpeg's files, of ours, and of the
texts that these were packed from. The line `#software` alone is left out."""
import in_depths
from exchange import KINDS, encoded, ffmpeg, ffv1, raw, save, text

# FFmpeg's formats of 8 bits in FFV1, and the one in which the samples are summed
EIGHT = [(name, name) for name in [
    "gray", "yuv410p", "yuv411p", "yuv420p", "yuv422p", "yuv440p", "yuv444p", "yuva420p",
    "yuva422p", "yuva444p"]] + [("bgr0", "rgb24"), ("bgra", "rgba")]
ASPECTS = ["null", "setsar=59/54"]
RATES = ["25", "30000/1001"]


def lines_of(out):
    """The lines of a text, but for the one that names what wrote it."""
    return [line for line in out.decode().splitlines() if not line.startswith("#software")]


def theirs(file, pixels):
    """FFmpeg's lines of a file."""
    return lines_of(ffmpeg("-i", file, "-map", "0:v:0", "-pix_fmt", pixels, "-f", "framemd5", "-"))


def ours(file):
    """Our lines of a file or a text, with the status and the fault."""
    status, out, errors = ffv1("framemd5", file)
    return lines_of(out), status, errors


def of_eight(results):
    """Files of 8 bits, of both containers, aspects and rates."""
    for place, (name, pixels) in enumerate(EIGHT):
        for number, container in enumerate(["avi", "mkv"]):
            for aspect, rate in zip(ASPECTS, RATES if (place + number) % 2 else RATES[::-1]):
                file = encoded(f"summed.{container}", name, 64, 48, "-slices", "4",
                               filters=f"{aspect}", rate=rate)
                results.same(f"{name} {container} {aspect} {rate}: framemd5", ours(file),
                             (theirs(file, pixels), 0, ""))


def of_depths(results):
    """Files of 9 to 16 bits."""
    for place, kind in enumerate(in_depths.kinds()):
        container = ["avi", "mkv"][place % 2]
        file = in_depths.theirs(kind, in_depths.made(kind), f"summed.{container}", "-slices", "4")
        results.same(f"{kind.name} {container}: framemd5", ours(file), (theirs(file, kind.name), 0, ""))


def of_texts(results):
    """A text and the files that it was packed into have the same lines, which are FFmpeg's."""
    for kind in KINDS:
        head = "F25:1 Ip A59:54" if kind.tag else None
        save("summed.in", text(kind, 64, 48, raw(kind, 64, 48), head))
        lines = ours("summed.in")
        results.same(f"{kind.name}: framemd5 of a text", lines[1:], (0, ""))
        for container in ["avi", "mkv"]:
            file = f"summed.{container}"
            results.same(f"{kind.name} {container}: pack", ffv1("pack", "summed.in", file)[::2], (0, ""))
            results.same(f"{kind.name} {container}: framemd5 of ours", ours(file), lines)
            if kind.tag:
                results.same(f"{kind.name} {container}: FFmpeg's lines", theirs(file, kind.name), lines[0])


def of_lists(results):
    """Files against FFmpeg's list of them and of sound before them."""
    for name, pixels in [("yuv422p", "yuv422p"), ("bgr0", "rgb24")]:
        file = encoded("listed.mkv", name, 64, 48, "-slices", "4", filters="null", rate="25")
        listed = ffmpeg("-f", "lavfi", "-i", "sine=d=1", "-i", file, "-map", "0:a", "-map", "1:v:0",
                        "-pix_fmt", pixels, "-f", "framemd5", "-")
        frames = sum(line.startswith(b"1,") for line in listed.splitlines())
        save("listed.framemd5", listed)
        results.same(f"{name}: check --against FFmpeg's list",
                     ffv1("check", "--against", "listed.framemd5", file),
                     (0, f"frames {frames}\n".encode(), ""))


PARTS = [of_eight, of_depths, of_texts, of_lists]
