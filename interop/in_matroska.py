# SPDX-License-Identifier: MIT OR Apache-2.0
"""Files of Matroska: those of `pack` are read by FFmpeg, mkvmerge and MediaConch, sample for sample.
Of files by FFmpeg and mkvmerge, and the model's of FFmpeg's frames, `check` counts the frames, and
`unpack` gives FFmpeg's samples; what is not read has its fault, and damage is found."""
import itertools
import os
import random
import shutil
import sys

from exchange import ASPECT, FRAMES, KINDS, TOP, conch, decoded, encoded, ffmpeg, ffv1, flipped, load
from exchange import OPEN, raw, run, save, text, whole, words_of

sys.path.append(os.path.join(TOP, "model"))

import ebml
import matroska
import matroska_writer

MONO, C420, C422, C444, _, ALPHA, RGB = KINDS


def pixels_of(kind):
    """FFmpeg's name of the pictures that it codes for a kind."""
    return "bgr0" if kind.tag is None else kind.name


# ------------------------------------------------------------------------------------ files of ours

numbers = itertools.count()
VFW = ["--codec-id", "vfw"]
MADE = [["--columns", "2", "--rows", "2"], ["--ec", "0"], ["--coder", "2", "--columns", "4"], VFW]


def packed(data, options, piped):
    """Matroska that is packed of a text: a finished file, or an open one by way of a pipe."""
    save("ours.in", data)
    file = f"ours_{next(numbers)}.mkv"      # MediaConch keeps what it saw of a name
    if piped:
        status, out, errors = ffv1("pack", "--container", "mkv", "ours.in", "-", *options)
        save(file, out)
    else:
        status, _, errors = ffv1("pack", "ours.in", file, *options)
    assert status == 0, errors
    return file


def write_one(results, kind, options, piped):
    """One file of ours, read whole by the others and by ourselves."""
    what = f"{'open' if piped else 'finished'} Matroska of ours, {kind.name} {' '.join(options)}"
    samples = raw(kind, 96, 64)
    file = packed(text(kind, 96, 64, samples), options, piped)
    warnings = [] if kind.tag else [ASPECT]
    results.same(f"{what}: FFmpeg", decoded(file, kind.name), (samples, warnings))
    whole(results, what, kind, (96, 64), file)
    if not piped:                           # of a Segment without a size MediaConch says fail
        results.same(f"{what}: MediaConch", conch(file), "pass!")
    if shutil.which("mkvmerge"):
        again = f"merged_{file}"
        results.same(f"{what}: mkvmerge", merged(again, file), 0)
        results.same(f"{what}: mkvmerge's samples", decoded(again, kind.name)[0], samples)
        if options == VFW:                  # MediaConch 23.03 does not know LanguageIETF
            plain = f"plain_{file}"
            results.same(f"{what}: mkvmerge's plain", merged(plain, "--disable-language-ietf", file), 0)
            results.same(f"{what}: MediaConch after mkvmerge", conch(plain), "pass!")
    if not piped:
        last = ffmpeg("-ss", f"{(FRAMES - 1) / 25}", "-i", file, "-frames:v", "1", "-f", "rawvideo",
                      "-pix_fmt", kind.name, "-")
        results.same(f"{what}: the last frame", last, samples[-kind.length(96, 64):])


def write_plain(results):
    """Each kind of pictures, finished and open."""
    for kind in KINDS:
        for options in MADE:
            for piped in [False, True]:
                write_one(results, kind, options, piped)


ENTRIES = "stream=r_frame_rate,sample_aspect_ratio,field_order,nb_read_packets:format=duration"


def write_codec_id(results):
    """The codec's ID, and what CodecPrivate has beside the record: that of FFmpeg's own file."""
    samples = raw(C422, 96, 64)
    for options, wanted in [([], "V_FFV1"), (VFW, "V_MS/VFW/FOURCC")]:
        file = packed(text(C422, 96, 64, samples), options, False)
        said = run("mkvmerge", "-J", file)[1].decode() if shutil.which("mkvmerge") else wanted
        results.same(f"ours: {wanted}", f'"codec_id": "{wanted}"' in said or said == wanted, True)
    theirs = load(encoded("theirs_vfw.mkv", C422.name, 96, 64))
    for name, data in [("FFmpeg's", theirs), ("ours", load(file))]:
        at = data.index(b"FFV1", data.index(b"V_MS/VFW/FOURCC") + 15) - 16
        fields = [int.from_bytes(data[at + first:at + last], "little")
                  for first, last in [(4, 8), (8, 12), (12, 14), (14, 16), (20, 24), (24, 40)]]
        results.same(f"{name} header of Video for Windows", fields, [96, 64, 1, 24, 96 * 64 * 3, 0])


def write_said(results):
    """Rate, aspect, structure, and length in time of ours, as FFmpeg tells them."""
    samples = raw(C422, 64, 64)
    for rate, wanted in [("25:1", "25/1"), ("30000:1001", "30000/1001"), ("24000:1001", "24000/1001"),
                         ("50:1", "50/1"), ("15:2", "15/2")]:
        for letter, field in [("p", "progressive"), ("t", "tb"), ("b", "bt")]:
            file = packed(text(C422, 64, 64, samples, f"F{rate} I{letter} A16:15"), [], False)
            out = run("ffprobe", "-v", "error", "-count_packets", "-show_entries", ENTRIES, "-of",
                      "default=nk=0:nw=1", file)[1].decode().split()
            found = dict(line.split("=", 1) for line in out)
            results.same(f"ours at {rate}, {letter}",
                         (found["r_frame_rate"], found["sample_aspect_ratio"], found["field_order"],
                          found["nb_read_packets"]), (wanted, "16:15", field, f"{FRAMES}"))
            frames, scale = map(int, wanted.split("/"))
            seconds = FRAMES * scale / frames
            results.same(f"ours at {rate}: length in time",
                         abs(float(found["duration"]) - seconds) < 0.001, True)


# ----------------------------------------------------------------------------------- FFmpeg's files

def read_plain(results):
    """Each kind of pictures, both coders, two slicings."""
    for kind in KINDS:
        for coder in ["range_def", "range_tab"]:
            for context, slices, ec in [(0, 4, 1), (1, 24, 0)]:
                what = f"Matroska, {kind.name} {coder} context {context} slices {slices}"
                file = encoded("plain.mkv", pixels_of(kind), 97, 97, "-coder", coder, "-context",
                               f"{context}", "-slices", f"{slices}", "-slicecrc", f"{ec}")
                whole(results, what, kind, (97, 97), file)


TEXT = b"1\n00:00:00,010 --> 00:00:00,030\na\n\n2\n00:00:00,040 --> 00:00:00,060\nb\n"
CHAPTERS = b";FFMETADATA1\n[CHAPTER]\nTIMEBASE=1/1000\nSTART=0\nEND=50\ntitle=x\n"
SOUND = ("-f", "lavfi", "-i", "sine=duration=0.08")
# what is new about a file, options, and what is given to `encoded` beside them
AROUND = [
    ("live", ["-live", "1"], {}),
    ("without CRC-32", ["-write_crc32", "0"], {}),
    ("live, without CRC-32", ["-live", "1", "-write_crc32", "0"], {}),
    ("sound before the pictures", ["-map", "1:a", "-map", "0:v", "-c:a", "pcm_s16le"],
     {"inputs": SOUND}),
    ("sound after the pictures", ["-map", "0:v", "-map", "1:a", "-c:a", "flac"],
     {"inputs": SOUND}),
    ("two of sound", ["-map", "1:a", "-map", "0:v", "-map", "1:a", "-c:a", "pcm_s24le"],
     {"inputs": SOUND}),
    ("short Clusters", ["-cluster_time_limit", "10"], {}),
    ("Cues in front", ["-reserve_index_space", "1000"], {}),
    ("tags", ["-metadata", "title=x", "-metadata:s:v", "comment=y"], {}),
    ("chapters", ["-map", "0:v", "-map_metadata", "1"], {"inputs": ["-i", "chapters"]}),
    ("an attachment", ["-attach", "text.srt", "-metadata:s:t", "mimetype=text/plain"], {}),
    ("text beside the pictures", ["-map", "1:s", "-map", "0:v"], {"inputs": ["-i", "text.srt"]}),
]


def read_around(results):
    """What stands around the pictures."""
    save("text.srt", TEXT)
    save("chapters", CHAPTERS)
    for what, options, more in AROUND:
        file = encoded("around.mkv", "yuv422p", 96, 96, *options, **more)
        whole(results, f"Matroska, {what}", C422, (96, 96), file, OPEN if "live" in what else "")
    for what, options in [("a pipe", []), ("a pipe without CRC-32", ["-write_crc32", "0"])]:
        words = words_of("yuv422p", (96, 96), options, "null", (), "25")
        save("piped.mkv", ffmpeg(*words, "-f", "matroska", "-"))
        whole(results, f"Matroska, {what}", C422, (96, 96), "piped.mkv", OPEN)


SLICES = ["-coder", "1", "-context", "1", "-slices"]
PCM = ["-map", "0:v", "-map", "1:a", "-c:a", "pcm_s24le"]
# what archives make of tapes and films: kind, size, aspect, rate, options
ARCHIVED = [
    *((kind, (720, 576), aspect, "25", [*SLICES, "24"]) for kind in [C420, C422]
      for aspect in ["16/15", "0"]),
    (C422, (720, 486), "9/10", "30000/1001", [*SLICES, "24", *PCM]),
    (C422, (720, 576), "16/15", "25", ["-coder", "1", "-slices", "24", *PCM[:-1], "flac"]),
    (C422, (720, 576), "16/15", "25", ["-coder", "range_def", "-slices", "24"]),
    (RGB, (2048, 1556), "0", "24", [*SLICES, "16"]),
    (MONO, (2048, 1556), "0", "24", [*SLICES, "16"]),
    (ALPHA, (1920, 1080), "1", "25", ["-coder", "1", "-slices", "16"]),
    (C444, (1920, 1080), "1", "24000/1001", [*SLICES, "16"]),
]


def read_archived(results):
    """The kinds of 8 bits that archives make."""
    for kind, size, aspect, rate, options in ARCHIVED:
        inputs = SOUND if "-c:a" in options else ()
        file = encoded("archived.mkv", pixels_of(kind), *size, *options, "-slicecrc", "1",
                       filters=f"setsar={aspect}", inputs=inputs, rate=rate)
        whole(results, f"archived, {kind.name} {size} {aspect} {rate}", kind, size, file)


RATES = [("24", "24:1"), ("25", "25:1"), ("30000/1001", "30000:1001"), ("24000/1001", "24000:1001"),
         ("60", "60:1"), ("15/2", "15:2"), ("50", "50:1")]


def read_said(results):
    """Rate, structure and aspect of FFmpeg's files."""
    for rate, wanted in RATES:
        file = encoded("said.mkv", "yuv420p", 64, 64, rate=rate)
        out = ffv1("show", file)[1].decode().splitlines()
        results.same(f"Matroska at {rate}", [line for line in out if line.startswith("rate")],
                     [f"rate {wanted.replace(':', '/')}"])
    for field, letter in [("tff", "t"), ("bff", "b"), ("prog", "p")]:
        file = encoded("said.mkv", "yuv420p", 64, 64, filters=f"setfield={field},setsar=4/3")
        status, _, errors = ffv1("unpack", file, "said.out")
        head = load("said.out").split(b"\n")[0].decode()
        results.same(f"Matroska, {field}", (status, errors, head),
                     (0, "", f"YUV4MPEG2 W64 H64 F25:1 I{letter} A4:3 C420jpeg "
                             "XCOLORRANGE=LIMITED"))


# --------------------------------------------------------------------------------- the model's files

def frames_of(file):
    """The head and the frames of a file, by the model."""
    head, _, frames = matroska.open_matroska(ebml.in_memory(load(file)))
    return head, list(frames)


def read_forms(results):
    """FFmpeg's frames in the forms of the model, whose CodecID is V_FFV1."""
    for kind in [C420, RGB]:
        head, frames = frames_of(encoded("source.mkv", pixels_of(kind), 96, 96, "-slices", "4"))
        head.number = 1
        for name, form in [("finished", matroska_writer.finished), ("open", matroska_writer.open_form),
                           ("begun", matroska_writer.begun)]:
            save("form.mkv", form(head, matroska_writer.Shown(), frames))
            whole(results, f"{name}, {kind.name}", kind, (96, 96), "form.mkv",
                  OPEN if name == "begun" else "")


# --------------------------------------------------------------------------------- mkvmerge's files

OF_MKVMERGE = [
    ("a file", []), ("without SimpleBlock", ["--engage", "no_simpleblocks"]),
    ("without Cues", ["--no-cues"]), ("a Cluster a frame", ["--cluster-length", "1"]),
    ("a title", ["--title", "x", "--no-global-tags"]),
    ("no compression", ["--compression", "0:none"]),
]


def merged(name, *words):
    """A file of mkvmerge; its status, of which 1 is a warning."""
    return run("mkvmerge", "-q", "-o", name, *words)[0]


def read_merged(results):
    """What mkvmerge makes of FFmpeg's files, and of the model's: it keeps the CodecID of these."""
    if shutil.which("mkvmerge") is None:
        print("interop: mkvmerge's files are left out, as it is not installed")
        return
    sounding = ["-map", "1:a", "-map", "0:v", "-c:a", "pcm_s16le"]
    encoded("a.mkv", "yuv422p", 96, 96)
    encoded("a.avi", "yuv422p", 96, 96)
    encoded("b.mkv", "yuv422p", 96, 96, *sounding, inputs=SOUND)
    head, frames = frames_of("a.mkv")
    save("c.mkv", matroska_writer.finished(head, matroska_writer.Shown(3, (1, 1)), frames))
    for name in ["a.mkv", "a.avi", "b.mkv", "c.mkv"]:
        for what, options in OF_MKVMERGE:
            what = f"mkvmerge, {what} of {name}"
            results.same(what, merged("merged.mkv", *options, name), 0)
            whole(results, what, C422, (96, 96), "merged.mkv")
    results.same("V_FFV1 stays", b"V_FFV1" in load("merged.mkv"), True)
    merged("packed.mkv", "--compression", "0:zlib", "a.mkv")
    refused(results, "mkvmerge, compressed", "packed.mkv", "83 Encoded")
    if shutil.which("mkvpropedit"):
        run("mkvpropedit", "merged.mkv", "--edit", "track:1", "--set", f"name={'x' * 20000}")
        whole(results, "Tracks after the Clusters", C422, (96, 96), "merged.mkv")
        merged("mended.mkv", "merged.mkv")
        whole(results, "Tracks put before the Clusters", C422, (96, 96), "mended.mkv")


# --------------------------------------------------------------------------- what is outside, damage

def refused(results, what, file, fault):
    """A file is refused by all commands, and nothing is written of it."""
    for words in [["check", file], ["show", file], ["unpack", file, "refused.out"]]:
        results.same(f"{what}: {words[0]}", ffv1(*words), (1, b"", f"ffv1: {fault}\n"))
    results.same(f"{what}: written", load("refused.out"), b"")


# what is new about a file, options, pixels, fault
OUTSIDE = [
    ("version 0", ["-level", "0"], "yuv420p", "15 Short"),
    ("version 2", ["-level", "2", "-strict", "-2"], "yuv420p", "17 Version"),
    ("version 4", ["-level", "4", "-strict", "-2"], "yuv420p", "17 Version"),
    ("another codec", ["-c:v", "mpeg4"], "yuv420p", "51 NoFfv1"),
]


def read_outside(results):
    """What FFmpeg writes outside the profile has its fault."""
    for what, options, pixels, fault in OUTSIDE:
        encoded("outside.mkv", pixels, 64, 64, *options)
        refused(results, f"Matroska, {what}", "outside.mkv", fault)
    encoded("outside.mkv", "yuv420p", 64, 64, "-g", "2")
    results.same("Matroska, frames that are not key frames", ffv1("check", "outside.mkv")[::2],
                 (1, "ffv1: 30 NotKey\n"))
    ffmpeg(*SOUND, "-c:a", "pcm_s16le", "sound.mkv")
    refused(results, "sound alone", "sound.mkv", "51 NoFfv1")
    for pixels, fault in [("yuv440p", "72 NoY4mName"), ("bgra", "73 NoPpm")]:
        file = encoded("unnamed.mkv", pixels, 96, 96, "-slices", "4")
        results.same(f"Matroska, {pixels}: check", ffv1("check", file)[0], 0)
        results.same(f"Matroska, {pixels}: unpack", ffv1("unpack", file, "unnamed.out")[::2],
                     (1, f"ffv1: {fault}\n"))


def spans_of(data, file):
    """Where the record and the frames of a file stand."""
    head, frames = frames_of(file)
    begins = [(data.index(part), len(part)) for part in [head.record, *frames]]
    return [(begin, begin + length) for begin, length in begins]


def read_damaged(results):
    """A bit that is flipped in a frame, or in the record, is found: by the frame's own parity, or by
    the CRC-32 of its Cluster alone; and a file that is cut."""
    chance = random.Random(9559)
    for ec in [0, 1]:
        file = encoded("whole.mkv", "yuv420p", 96, 96, "-slices", "4", "-slicecrc", f"{ec}",
                       "-cluster_time_limit", "10")
        data = load(file)
        spans = spans_of(data, file)
        for number in range(50):
            begin, end = spans[number % len(spans)]
            save("damaged.mkv", flipped(data, chance.randrange(8 * begin, 8 * end)))
            results.same(f"Matroska, damage {number} with slicecrc {ec}",
                         ffv1("check", "damaged.mkv")[0], 1)
        for number in range(20):
            save("cut.mkv", data[:len(data) * number // 20])
            results.same(f"Matroska, cut at {number} of 20", ffv1("check", "cut.mkv")[::2],
                         (1, "ffv1: 52 Truncated\n"))


PARTS = [write_plain, write_codec_id, write_said, read_plain, read_around, read_archived, read_said, read_forms,
         read_merged, read_outside, read_damaged]
