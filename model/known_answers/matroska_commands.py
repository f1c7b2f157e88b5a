# SPDX-License-Identifier: MIT OR Apache-2.0
"""Command lines on files of Matroska: those whose frames and faults are known, the smallest file in
its three forms, each of their beginnings, and files that are Matroska by their first byte alone.
"""
import ffv1
from known_answers import matroska, matroska_late, matroska_tracks
from known_answers.case import ANY, FRAME, MONO, RED, Case, Step, avi, checked, one, ppm, y4m
from known_answers.matroska import C, H, LOOSE, RECORD, B, cluster, element, open_segment, segment
from known_answers.matroska import spell, summed, whole
from known_answers.matroska_tracks import BITMAP, by_fourcc
from known_answers.matroska_written import BEGUN, EXAMPLE, OPEN_EXAMPLE
from known_answers.shown import FIRST, SHOWN, SHOWN_IMAGE

LINE = "frame 0: 5 bytes, 1 slices, 11 decisions\n"
SHOWN_MONO = SHOWN.replace("25/1", "0/0")
SEGMENT = bytes.fromhex("18538067")
# what is noted of those that are read to their end
OPEN = "90 Open"
NOTED = {
    "header: an element that suits": "94 After byte 162", "Segment: open in one byte": OPEN,
    "Segment: open in four bytes": OPEN, "Cluster of unknown size: open, and cut between blocks": OPEN,
    **{f"Segment: a size of {k} bytes": f"94 After byte {149 + k}" for k in range(1, 9)},
}


def lines(count):
    """What `check` prints of so many frames, each of which is FRAME."""
    return "".join(LINE.replace("0", f"{number}", 1) for number in range(count))


def text(count):
    """What `unpack` writes of them: nothing where there is none."""
    return y4m("W1 H1 F0:0 I? A0:0 Cmono", *[b"\0"] * count) if count else b""


def read(name, file, count, fault="", note=""):
    """A file of so many frames, and then a fault, or no more, and what is noted of it."""
    fault = fault or ("" if count else "70 NoFrames")
    ended = "" if fault else f"frames {count}\n"
    return Case(name, {"in": file}, [
        Step(["check", "in"], lines(count) + ended, fault, note=note),
        Step(["unpack", "in", "out"], ended, fault, note=note)], {"in": file, "out": text(count)})


def of_segment(text, file):
    """What `show` prints of Matroska: a line more, of how many bytes its Segment says that it has."""
    at = file.find(SEGMENT) + 4
    length = 9 - file[at].bit_length()
    size = int.from_bytes(file[at:at + length], "big") - 2 ** (7 * length)
    said = "open" if size == 2 ** (7 * length) - 1 else size
    return text.replace("held", f"segment {said}\nheld", 1)


def shown(name, file, text, fault=""):
    """A file that is shown."""
    return Case(name, {"in": file}, [Step(["show", "in"], of_segment(text, file), fault)],
                {"in": file})


# ------------------------------------------------------------------------------------- known files

def known_files():
    """The files whose frames are known."""
    for name, file, count, number, _ in matroska.files():
        count, number = matroska_late.AGAIN.get(name, (count, number))
        fault = f"{number} {ffv1.FAULTS[number]}" if number else ""
        if file.startswith(b"\x1a"):
            yield read(f"Matroska: {name}", file, count, fault, NOTED.get(name, ""))


def late_files():
    """Those whose Tracks stand behind Clusters."""
    for name, file, count, number, _ in matroska_late.ROWS:
        fault = f"{number} {ffv1.FAULTS[number]}" if number else ""
        yield read(f"Tracks behind Clusters: {name}", file, count, fault,
                   matroska_late.NOTED.get(name, ""))
        yield Case(f"Tracks behind Clusters: {name}, by info", {"in": file},
                   [Step(["info", "--count", "in"], ANY, fault)], {"in": file})


def said_of(answer):
    """What `show` prints of the answer of known Tracks, and the fault."""
    if isinstance(answer, int):
        return "", f"{answer} {ffv1.FAULTS[answer]}"
    _, width, height, rate, scale, record = answer
    if record != RECORD:
        return "", "16 Parity" if record else "15 Short"
    if not 1 <= width <= 8192 or not 1 <= height <= 8192:
        return "", "10 Size"
    text = SHOWN.replace("1x1", f"{width}x{height}", 1).replace("25/1", f"{rate}/{scale}")
    return text.replace("samples 3 output 1", f"samples {3 * width} output {width}"), ""


BESIDE = {"two of FFV1": "note 91 OtherVideo 1\n"}


def known_tracks():
    """The files whose Tracks are known; one has further video, which is said."""
    for name, content, answer in matroska_tracks.files():
        text, fault = said_of(answer)
        text = text.replace("held", BESIDE.get(name, "") + "held", 1)
        yield shown(f"Tracks: {name}", matroska_tracks.file_of(content), text, fault)


# ---------------------------------------------------------------------------------- the three forms

BEGUN_EXAMPLE = OPEN_EXAMPLE[:BEGUN]
FORMS = [("finished", EXAMPLE, ""), ("open", OPEN_EXAMPLE, ""),
         ("begun", BEGUN_EXAMPLE, "90 Open")]
TRACKS_END, CLUSTER_BEGINS = 308, 320       # where Tracks end, and the Cluster's content begins


def forms():
    """The smallest file in its three forms, by each command."""
    for name, file, note in FORMS:
        yield Case(f"the smallest file, {name}", {"in": file}, [
            Step(["check", "in"], LINE + "frames 1\n", note=note),
            Step(["check", "--place", "in"], LINE + "frames 1\n", note=note),
            Step(["show", "in"], of_segment(SHOWN_MONO, file)),
            Step(["show", "--cost", "in"], of_segment(SHOWN_MONO + FIRST, file), note=note),
            Step(["unpack", "in", "out"], "frames 1\n", note=note),
            Step(["unpack", "in", "-"], MONO.decode("latin-1"), errors="frames 1\n", note=note),
        ], {"in": file, "out": MONO})
        yield Case(f"no text, {name}", {"in": file}, [
            Step(["pack", "in", "out"], "", "60 Header"), Step(["trial", "in"], "", "60 Header")],
            {"in": file, "out": b""})


def cut(name, file, length, ends):
    """A beginning of a file; `ends` are the lengths at which it ends without 52, each with the
    fault, or none."""
    fault = ends.get(length, "52 Truncated")
    count = 1 if length >= BEGUN else 0
    is_open = length >= CLUSTER_BEGINS or length == TRACKS_END and length in ends
    ended = "" if fault else "frames 1\n"
    note = "90 Open" if length == BEGUN and not fault else ""
    return Case(f"{length} bytes of {name}", {"in": file[:length]}, [
        Step(["show", "in"], of_segment(SHOWN_MONO, file) if is_open else "",
             "" if is_open else fault),
        Step(["check", "in"], lines(count) + ended, fault, note=note),
        Step(["unpack", "in", "out"], ended, fault, note=note)], {"out": text(count)})


def beginnings():
    """The finished form is whole or 52; of the open one each of its elements may be the last."""
    ends = {52: "82 NoTracks", 126: "82 NoTracks", 200: "82 NoTracks", TRACKS_END: "70 NoFrames",
            BEGUN: "", len(OPEN_EXAMPLE): ""}
    for length in range(len(EXAMPLE)):
        yield cut("the finished form", EXAMPLE, length, {})
        yield cut("the open form", OPEN_EXAMPLE, length, ends)


# ----------------------------------------------------------------------------------- the first byte

GOOD_AVI = avi(one(), [FRAME])
FIRST_BYTES = [
    ("1A alone", b"\x1a", "52 Truncated"),
    ("1A and bytes 0", b"\x1a" + bytes(11), "80 NotMatroska"),
    ("three bytes", H[:3], "52 Truncated"), ("the ID alone", H[:4], "52 Truncated"),
    ("1A, and then AVI", b"\x1a" + GOOD_AVI, "80 NotMatroska"),
    ("an AVI whose first byte is 1A", b"\x1a" + GOOD_AVI[1:], "80 NotMatroska"),
    ("a last byte of the ID that is another", b"\x1aE\xdf\xa2" + EXAMPLE[4:], "80 NotMatroska"),
    ("two bytes 1A", b"\x1a" + EXAMPLE, "80 NotMatroska"),
    ("no first byte", EXAMPLE[1:], "50 NotAvi"),
    ("another first byte", b"\x1b" + EXAMPLE[1:], "50 NotAvi"),
    ("a byte before", b"\0" + EXAMPLE, "50 NotAvi"),
    ("eleven bytes, of which the first is another", b"\x1b" + EXAMPLE[1:11], "52 Truncated"),
    ("a Segment alone", EXAMPLE[40:], "50 NotAvi"),
]


def first_bytes():
    """What is Matroska, and what is an AVI."""
    for name, file, fault in FIRST_BYTES:
        yield Case(f"first byte: {name}", {"in": file}, [
            Step(["show", "in"], "", fault), Step(["check", "in"], "", fault),
            Step(["unpack", "in", "out"], "", fault)], {"in": file, "out": b""})


# ----------------------------------------------------------------------------------------- pictures

def tracks(config, *more):
    """Tracks of pictures of this configuration, less than 256 wide and high."""
    video = element("E0", "B081", bytes([config.width]), "BA81", bytes([config.height]))
    entry = element("AE", "D78101 838101 8686", b"V_FFV1", video, *more,
                    element("63A2", ffv1.write_record(config), length=8), length=8)
    return element("1654AE6B", entry, length=8)


def block(payload):
    return element("A3", "81 0000 80", payload, length=8)


def mkv(config, payloads, *more):
    """A file of a Cluster for each frame, with these elements in the track's entry."""
    clusters = [cluster(summed("E78100", block(payload))) for payload in payloads]
    return H + segment(tracks(config, *more), *clusters)


def unpacked(name, file, left, output="", fault=""):
    """A file that is unpacked, and what OUT has then."""
    return Case(name, {"in": file}, [Step(["unpack", "in", "out"], output, fault)],
                {"in": file, "out": left})


def images():
    """Files of images."""
    config = one(chroma=True, rct=True)
    red = ffv1.encode_frame(config, [[[255]], [[0]], [[0]]], [0, 0, 0])
    file = mkv(config, [red, red], "23E38384 02625A00")         # 40000000 nanoseconds
    yield unpacked("Matroska of images", file, RED + RED, "frames 2\n")
    yield shown("Matroska of images is shown", file, SHOWN_IMAGE)
    file = mkv(config, [red, b"\1", red])
    yield unpacked("Matroska of images, the second one damaged", file, RED, fault="35 Footer")
    config = one(chroma=True, rct=True, extra=True)
    yield unpacked("Matroska of images with transparency", mkv(config, []), b"", fault="73 NoPpm")
    config = ffv1.Config(1, 2, rct=True, chroma=True, rows=2)
    frame = ffv1.encode_frame(config, [[[1], [2]], [[3], [4]], [[5], [6]]], [0, 0, 0])
    yield unpacked("Matroska of two slices", mkv(config, [frame]),
                   ppm(1, 2, bytes([1, 3, 5, 2, 4, 6])), "frames 1\n")


def pictures():
    """What frames say beside their samples, and the rate."""
    first = ffv1.encode_frame(one(), [[[9]]], [3, 5, 4])
    for duration, rate in [("02625A00", "25:1"), ("027BC86A", "24:1"), ("027BC86B", "24:1"),
                           ("01FD228B", "30000:1001"), ("07F28155", "15:2"), ("00", "0:0")]:
        size = len(duration) // 2
        file = mkv(one(), [first], "23E383", bytes([128 + size]), duration)
        yield unpacked(f"{duration} nanoseconds", file,
                       y4m(f"W1 H1 F{rate} Ip A5:4 Cmono", b"\t"), "frames 1\n")
    for name, info in [("structure", [0, 5, 4]), ("aspect", [3, 5, 3])]:
        file = mkv(one(), [first, ffv1.encode_frame(one(), [[[9]]], info), FRAME])
        yield unpacked(f"Matroska with another {name}", file,
                       y4m("W1 H1 F0:0 Ip A5:4 Cmono", b"\t"), fault="71 FormatChanged")
    config = one(chroma=True, log2_v=1)
    yield unpacked("Matroska of chroma without a name", mkv(config, []), b"", fault="72 NoY4mName")


def damaged():
    """Frames that are refused, and where."""
    place = "fault frame {} slice 0 plane 0 line 0 x 0 decisions {}\n"
    for name, payloads, count, decisions, fault in [
            ("first", [b"\1", FRAME], 0, 0, "35 Footer"),
            ("second", [FRAME, bytes(3)], 1, 1, "30 NotKey")]:
        file = mkv(one(), payloads)
        yield Case(f"Matroska, its {name} frame damaged", {"in": file}, [
            Step(["check", "in"], lines(count), fault),
            Step(["check", "--place", "in"], lines(count) + place.format(count, decisions),
                 fault),
            Step(["unpack", "in", "out"], "", fault),
            Step(["show", "--cost", "in"], of_segment(SHOWN_MONO + FIRST * count, file), fault)],
            {"out": text(count)})
    judged = cluster(summed("E78100", B))
    other = judged[:-5] + b"\xff" + judged[-4:]
    yield read("Matroska, a bit of a frame with a CRC-32", whole(judged, other, C), 1,
               "85 Checksum")
    longer = FRAME[:-1] + b"\3"
    yield checked("Matroska, a footer that is another", mkv(one(), [FRAME, longer]), lines(1),
                  "35 Footer")


def others():
    """CodecID as AVI has it, sound beside the pictures, and an open file."""
    sound = element("AE", "D78102 838102 8686", b"A_FLAC")
    by_bitmap = element("1654AE6B", sound, by_fourcc(BITMAP + RECORD), length=8)
    laced = element("A3", "82 0000 06 02", bytes(9))
    yield read("Matroska with FourCC and sound", H + segment(
        element("1549A966", summed("EC80")), by_bitmap, cluster(laced, B, laced, B),
        element("1254C367")), 2)
    yield read("Matroska that is open, with Clusters of unknown size", H + open_segment(
        by_bitmap, LOOSE, "E780", laced, B, LOOSE, "E780", element("A0", laced, "A1", B[1:])), 2, note="90 Open")
    encoded = element("6D80", element("6240", spell("5034 80")))
    yield read("Matroska that is compressed", mkv(one(), [FRAME], encoded), 0, "83 Encoded")
    yield read("Matroska without FFV1", H + segment(element("1654AE6B", sound), C), 0, "51 NoFfv1")
    yield checked("Matroska of version 1", mkv(one(), [FRAME]).replace(b"V_FFV1", b"V_FFV0"), "",
                  "51 NoFfv1")


CASES = [known_files, late_files, known_tracks, forms, beginnings, first_bytes, images, pictures, damaged,
         others]
