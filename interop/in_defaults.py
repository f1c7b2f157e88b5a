# SPDX-License-Identifier: MIT OR Apache-2.0
"""Files that `pack` writes when nothing is asked for: of each published size and kind, MediaConch
passes them, and FFmpeg decodes them to the same samples. And slices that lost bytes at their end, or
have bytes too many there: both programs find them."""
import sys

sys.dont_write_bytecode = True

from exchange import ASPECT, KINDS, conch, decoded, ffmpeg, ffv1, load, run, save, text

SIZES = [(640, 480), (720, 486), (720, 576), (854, 480), (1280, 720), (1366, 768), (1440, 1080),
         (1920, 1080), (2048, 1556)]


def picture(kind, width, height):
    """The samples of one picture of a test source."""
    return ffmpeg("-f", "lavfi", "-i", "testsrc2=size=192x144:rate=25", "-frames:v", "1",
                  "-vf", f"scale={width}:{height}", "-pix_fmt", kind.name, "-f", "rawvideo", "-")


def defaults(results):
    """A file of each size and kind, with the grid that is chosen for it."""
    for width, height in SIZES:
        for kind in KINDS:
            what = f"default {kind.name} {width}x{height}"
            samples = picture(kind, width, height)
            save("default.in", text(kind, width, height, samples))
            file = f"default_{kind.name}_{width}x{height}.mkv"
            results.same(f"{what}: pack", ffv1("pack", "default.in", file)[::2], (0, ""))
            results.same(f"{what}: FFmpeg's samples", decoded(file, kind.name),
                         (samples, [] if kind.tag else [ASPECT]))
            results.same(f"{what}: MediaConch", conch(file), "pass!")


def with_bytes(data, cut, more):
    """An AVI of one frame of one slice without parity, of whose coded bytes so many are cut off, and
    which these are put after."""
    at = data.index(b"00dc", data.index(b"movi"))
    length = int.from_bytes(data[at + 4:at + 8], "little")
    coded = data[at + 8:at + 8 + length - 3]
    payload = coded[:len(coded) - cut] + more
    payload += len(payload).to_bytes(3, "big")
    chunk = b"00dc" + len(payload).to_bytes(4, "little") + payload + bytes(len(payload) % 2)
    # The sizes of the lists stay, which FFmpeg does not look at, and there is no index.
    return data[:at] + chunk


def endings(results):
    """FFmpeg says of such slices that their end does not match, and conceals them."""
    samples = picture(KINDS[0], 64, 48)
    save("ending.in", text(KINDS[0], 64, 48, samples))
    status, _, errors = ffv1("pack", "--ec", "0", "ending.in", "ending.avi")
    assert status == 0, errors
    data = load("ending.avi")
    for cut, more in [(0, b""), (1, b""), (2, b""), (4, b""), (0, b"\0"), (0, b"\xff" * 4)]:
        save("ended.avi", with_bytes(data, cut, more))
        said = run("ffmpeg", "-v", "error", "-i", "ended.avi", "-f", "null", "-")[2]
        wanted = cut > 0 or more != b""
        results.same(f"ending {cut} {more.hex()}: FFmpeg", "mismatching" in said, wanted)


PARTS = [defaults, endings]
