# SPDX-License-Identifier: MIT OR Apache-2.0
"""Files of Matroska that are damaged, and what `check --all` gives of them: frames, and faults that
are told, each with the bytes before its element. Counted by hand from the formats, as in `offsets.py`:
the first Cluster begins at 131, the second at 157, its Timestamp at 169 and its block at 172.
"""
from known_answers.case import Case, Step
from known_answers.matroska import C, H, T, block, cluster, element, open_segment, segment, size
from known_answers.matroska import spell, summed, whole
from known_answers.riffs import lines

FRAME = None
BAD, CUT, SUM = "81 BadElement", "52 Truncated", "85 Checksum"
LACED, EMPTY, STRANGE = block("81 0000 82"), block(frame=b""), block("83 0000 80")
LONG = block("0100000000010000 0000 80")
TAIL = C[12:]                   # what a Cluster has


def resized(count):
    """A Cluster that says so many bytes."""
    return spell("1F43B675") + size(count) + TAIL


def short(count, last=C):
    """Three Clusters in a Segment that says so many bytes of them."""
    return H + spell("18538067") + size(len(T) + count) + T + C + C + last


ROWS = [
    ("a wrong CRC-32 of a Cluster", whole(C, cluster(summed("E78100", block(), crc=1)), C),
     [FRAME, FRAME, (178, SUM), FRAME]),
    ("of a Cluster of two frames", whole(C, cluster(summed("E78100", block(), block(), crc=1)), C),
     [FRAME, FRAME, FRAME, (189, SUM), FRAME]),
    ("of Cues", whole(C, element("1C53BB6B", summed("EC80", crc=1)), C), [FRAME, (157, SUM), FRAME]),
    ("another ID of a Cluster", whole(C, "1F43B674", C[4:], C), [FRAME, (157, BAD), FRAME]),
    ("a Cluster that takes in half the next one", whole(C, resized(31), C),
     [FRAME, FRAME, (183, BAD), FRAME]),
    ("a Cluster in a Cluster", whole(cluster("E78100", block(), C), C),
     [FRAME, (157, BAD), FRAME, FRAME]),
    ("a Cluster of too few bytes", whole(C, resized(6), C), [FRAME, (172, CUT), FRAME]),
    ("and the end of the file in the size of the next one", whole(C, resized(6), C)[:189],
     [FRAME, (172, CUT)]),
    ("a block of too many bytes", whole(C, cluster("E78100 A3A9", block()[2:]), C),
     [FRAME, (172, CUT), FRAME]),
    ("a Block in a Cluster", whole(C, cluster("E78100 A1", block()[1:], block())),
     [FRAME, (172, BAD), FRAME]),
    ("a Position of nine bytes", whole(C, cluster("E78100 A7", block()[1:], block())),
     [FRAME, (172, BAD), FRAME]),
    ("a block of no track", whole(C, cluster("E78100", STRANGE, block())), [FRAME, (172, BAD), FRAME]),
    ("a block of no track, with a number of eight bytes",
     whole(C, cluster("E78100", LONG, block())), [FRAME, (172, BAD), FRAME]),
    ("another element of the Segment", whole(C, "4FFF86", b"vendor", C), [FRAME, (157, BAD), FRAME]),
    ("another element of a Cluster", whole(cluster("E78100 4FFF86", b"vendor", block()), C),
     [(146, BAD), FRAME, FRAME]),
    ("a group without a Block", whole(cluster("E78100 A0839B8101"), C), [(146, BAD), FRAME]),
    ("a laced Block of a group, and a block",
     whole(cluster("E78100", element("A0", "9B8101 A1", LACED[1:]), block()), C),
     [(146, "84 Laced"), FRAME, FRAME]),
    ("zeros between Clusters", whole(C, bytes(9), C), [FRAME, (157, BAD), FRAME]),
    ("IDs of Clusters that do not fit", whole(C, "1F43B67500 1F43B67581", C),
     [FRAME, (157, BAD), (167, CUT)]),
    ("a Segment that ends in a Cluster", short(46), [FRAME, (157, CUT), FRAME, FRAME]),
    ("a Segment that ends in the ID of one", short(28), [FRAME, (157, CUT), FRAME, FRAME]),
    ("and lacing after that", short(46, cluster("E78100", LACED, block())),
     [FRAME, (157, CUT), FRAME, (198, "84 Laced"), FRAME]),
    ("lacing", whole(cluster("E78100", block(), LACED, block())), [FRAME, (157, "84 Laced"), FRAME]),
    ("no frame in a block", whole(cluster("E78100", block(), EMPTY, block())),
     [FRAME, (157, "54 EmptyFrame"), FRAME]),
    ("cut in a frame", whole(C, C)[:180], [FRAME, (172, CUT)]),
    ("cut between Clusters", whole(C, C)[:157], [FRAME, (157, CUT)]),
    ("another file after a Segment that ends in a Cluster", short(46) + H,
     [FRAME, (157, CUT), FRAME, FRAME, (209, BAD)]),
]


def told(items):
    """What is printed of items, and how many frames there are."""
    text, frames = [], 0
    for item in items:
        if item is FRAME:
            text.append(f"frame {frames}: 5 bytes, 1 slices, 11 decisions\n")
            frames += 1
        else:
            text.append(f"byte {item[0]}: fault {item[1]}\n")
    return "".join(text), frames


def damaged():
    """Each file, by `check --all`, which goes on, and by `check`, which does not; nor does it of some
    frames."""
    for name, file, items in ROWS:
        text, frames = told(items)
        faults = [item for item in items if item is not FRAME]
        byte, fault = faults[0]
        ends = f"frames {frames} faults {len(faults)}\n"
        before = items.index(faults[0]) - (fault == SUM and byte > 170)
        yield Case(f"damaged: {name}", {"in": file}, [
            Step(["check", "in"], lines(before), fault),
            Step(["check", "--all", "in"], text + ends, fault),
            Step(["check", "--all", "--from", "0", "in"], text + ends, fault),
            Step(["check", "--all", "--frames", "99", "in"], lines(before), fault),
            Step(["check", "--all", "--place", "in"], text + ends, fault),
            Step(["check", "--all", "--quiet", "in"],
                 f"in: {len(faults)} faults in {frames} frames, the first {fault} at byte {byte}\n",
                 fault)], {"in": file})


# ------------------------------------------------------------------------- before the first frame

INFO = element("1549A966", summed("2AD7B1 83 0F4240", crc=1))      # 18 bytes
NONE = element("4DBB", "00")                                       # an element that no Segment has
TRACKS = element("1654AE6B", summed(T[12:], crc=1), length=8)      # 85 bytes
HEADER = element("1A45DFA3", summed(H[5:], crc=1))                 # 46 bytes
SOUND = element("AE", "D78101 838102")                             # a track that is no video

OPENED = [
    ("Info", H + segment(INFO, T, C), [(52, SUM), FRAME]),
    ("Tracks", H + segment(TRACKS, C), [(52, SUM), FRAME]),
    ("the header of EBML", HEADER + segment(T, C), [(0, SUM), FRAME]),
    ("an element that no Segment has", H + segment(NONE, T, C), [(52, BAD), FRAME]),
    ("all of these", HEADER + segment(INFO, NONE, TRACKS, C),
     [(0, SUM), (58, SUM), (76, BAD), (80, SUM), FRAME]),
    ("and a Cluster", H + segment(INFO, T, cluster(summed("E78100", block(), crc=1)), C),
     [(52, SUM), FRAME, (170, SUM), FRAME]),
    ("sixteen", H + segment(*[NONE] * 16, T, C), [*[(52 + 4 * k, BAD) for k in range(16)], FRAME]),
    ("Info, and Tracks behind the Cluster", H + segment(INFO, C, T), [(52, SUM), FRAME]),
    ("another ID of a Cluster before Tracks", H + segment(C, "1F43B674 81 78", T), [FRAME, (78, BAD)]),
    ("Tracks between Clusters", H + segment(C, TRACKS, C), [FRAME, (78, SUM), FRAME]),
    ("sixteen, and Tracks behind the Cluster", H + segment(*[NONE] * 16, C, NONE, T),
     [*[(52 + 4 * k, BAD) for k in range(16)], FRAME, (142, BAD)]),
]
BEGUN = [(52, SUM)]
REFUSED = [                     # what plain reading meets first; what is told, and what ends that, where
    ("seventeen", H + segment(*[NONE] * 17, T, C), BAD, [(52 + 4 * k, BAD) for k in range(16)],
     (116, BAD)),
    ("no Tracks", H + segment(INFO, C, NONE), SUM, [], (70, "82 NoTracks")),
    ("Tracks behind the Cluster without a video",
     H + segment(C, element("1654AE6B", summed(SOUND, crc=1)), C), SUM, [], (78, "51 NoFfv1")),
    ("another DocType", HEADER.replace(b"matroska", b"matroskb") + segment(T, C), SUM, [(0, SUM)],
     (0, "80 NotMatroska")),
    ("an element of unknown size", H + segment(INFO, "1254C367FF", T, C), SUM, BEGUN, (70, BAD)),
    ("a cut element that no Segment has", H + open_segment(INFO, "4DBB8500"), SUM,
     [*BEGUN, (70, BAD)], (70, CUT)),
    ("a record with a fault", H + segment(INFO, T[:-1] + bytes([T[-1] ^ 1]), C), SUM, BEGUN,
     (None, "16 Parity")),
]


def before_the_first_frame():
    """Each file of which the faults there are told, by `check --all`, and each that is refused there all
    the same: then what is told has its lines, and what ends it is the fault; one of the record has no
    line of a byte."""
    for name, file, items in OPENED:
        text, frames = told(items)
        faults = [item for item in items if item is not FRAME]
        byte, fault = faults[0]
        ends = f"frames {frames} faults {len(faults)}\n"
        yield Case(f"damaged before the first frame: {name}", {"in": file}, [
            Step(["check", "in"], "", fault), Step(["unpack", "in", "out"], "", fault),
            Step(["check", "--all", "in"], text + ends, fault),
            Step(["check", "--all", "--place", "in"], text + ends, fault),
            Step(["check", "--all", "--quiet", "in"],
                 f"in: {len(faults)} faults in {frames} frames, the first {fault} at byte {byte}\n",
                 fault)], {"in": file})
    for name, file, plain, before, (byte, fault) in REFUSED:
        text = told(before)[0]
        place = "" if byte is None else f"fault frame 0 byte {byte}\n"
        yield Case(f"refused before the first frame: {name}", {"in": file}, [
            Step(["check", "in"], "", plain), Step(["check", "--all", "in"], text, fault),
            Step(["check", "--all", "--place", "in"], text + place, fault),
            Step(["unpack", "--all", "in", "out"], text, fault)], {"in": file})


CASES = [damaged, before_the_first_frame]
