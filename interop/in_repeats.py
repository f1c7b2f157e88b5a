# SPDX-License-Identifier: MIT OR Apache-2.0
"""AVI of FFmpeg's that has chunks without bytes, as it writes them where a frame's time leaves a gap:
with sound as MP3, cut from a file without a new coding, and with frames left out. `unpack` writes as many
pictures as FFmpeg shows at a constant rate, in place of each such chunk the one before, where FFmpeg takes
the next one for some; and `framemd5` lists the pictures that FFmpeg decodes."""
from exchange import KINDS, decoded, encoded, ffmpeg, ffv1, load, samples_of

SOUND = ("-f", "lavfi", "-i", "sine=duration=1", "-c:a", "libmp3lame")
LEFT_OUT = "select='not(between(n\\,3\\,5))+eq(n\\,20)'"


def written(name, filters="null", sound=SOUND):
    """A second of FFmpeg's test source, in AVI."""
    ffmpeg("-f", "lavfi", "-i", "testsrc2=size=96x64:rate=25:duration=1", *sound, "-vf", filters,
           "-fps_mode", "passthrough", "-pix_fmt", "yuv420p", "-c:v", "ffv1", "-level", "3", "-coder",
           "range_def", "-g", "1", "-slicecrc", "1", name)
    return name


def cut(name):
    """A part of such a file, copied from the middle on."""
    ffmpeg("-ss", "0.5", "-i", written("whole_repeats.avi"), "-c", "copy", name)
    return name


def empty_chunks(data):
    """How many chunks of the first stream's frames have no bytes."""
    at, end, count = data.index(b"movi") + 4, data.index(b"idx1"), 0
    while at + 8 <= end:
        length = int.from_bytes(data[at + 4:at + 8], "little")
        count += data[at:at + 4] == b"00dc" and length == 0
        at += 8 + length + length % 2
    return count


def read_file(results, what, file, some):
    """One file: its pictures, how often one is shown again, and its list of MD5s."""
    empty = empty_chunks(load(file))
    results.same(f"{what}: has such chunks", empty > 0, some)
    note = f"ffv1: note 93 Repeated {empty}\n" if empty else ""
    status, out, errors = ffv1("check", file)
    results.same(f"{what}: check", (status, out.count(b": again\n"), errors), (0, empty, note))
    results.same(f"{what}: unpack", ffv1("unpack", file, "repeats.y4m")[::2], (0, note))
    shown = samples_of(KINDS[1], 96, 64, load("repeats.y4m"))
    theirs = decoded(file, "yuv420p", "-fps_mode", "cfr")[0]
    results.same(f"{what}: samples", len(shown) if empty else shown, len(theirs) if empty else theirs)
    listed = [line.split(b",")[-1].strip() for line in ffv1("framemd5", file)[1].splitlines()
              if not line.startswith(b"#")]
    told = [line.split(b",")[-1].strip() for line in ffmpeg(
        "-i", file, "-map", "0:v", "-fps_mode", "passthrough", "-f", "framemd5", "-").splitlines()
        if not line.startswith(b"#")]
    results.same(f"{what}: framemd5", listed, told)


def read_repeats(results):
    """Files with such chunks, and one without."""
    read_file(results, "MP3", written("mp3.avi"), True)
    read_file(results, "a part with MP3", cut("part.avi"), False)
    read_file(results, "frames left out", written("gaps.avi", LEFT_OUT, ()), True)
    read_file(results, "all frames", encoded("all.avi", "yuv420p", 96, 64), False)


PARTS = [read_repeats]
