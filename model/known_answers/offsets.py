# SPDX-License-Identifier: MIT OR Apache-2.0
"""Where in a file its own fault is: how many bytes come before the element or chunk at fault, and
which frame would come next. Counted by hand from the formats.

An AVI of pack's begins with RIFF in 12 bytes, hdrl in 226 and the header of movi in 12; each chunk
of a frame of five bytes takes 14. The files of Matroska begin with EBML's header in 40 bytes, the
Segment's in 12, and Tracks in 79; a Cluster's header takes 12, its timestamp 3, a SimpleBlock 11.
"""
from known_answers.case import FRAME, Case, Step, avi, one
from known_answers.containers import GOOD, INDEX, JUNK, MOVI, SOUND, chunk, chunk_list, header
from known_answers.containers import numbers, riff, spelled
from known_answers.matroska import (
    C, H, T, block, cluster, element, opened, segment, spell, summed, whole)
from known_answers.riffs import further, lines, streams

TWO = avi(one(), [FRAME, FRAME])
OF_AVI = [
    ("no bytes", b"", 0, 0, "52 Truncated"),
    ("eleven bytes", TWO[:11], 0, 0, "52 Truncated"),
    ("another name", b"RIFX" + TWO[4:], 0, 0, "50 NotAvi"),
    ("cut in hdrl", TWO[:100], 0, 12, "52 Truncated"),
    ("cut in the header of movi", TWO[:240], 0, 238, "52 Truncated"),
    ("no FFV1 before movi", riff(chunk_list(b"hdrl", SOUND), MOVI), 0, 48, "51 NoFfv1"),
    ("no movi", riff(header(), JUNK), 0, 12 + len(header()) + 12, "50 NotAvi"),
]
AMONG_CHUNKS = [
    ("cut in the name of the first frame", TWO[:251], 0, 250, "52 Truncated"),
    ("cut in its padding", TWO[:263], 0, 250, "52 Truncated"),
    ("cut after it", TWO[:264], 1, 264, "52 Truncated"),
    ("cut in the second", TWO[:277], 1, 264, "52 Truncated"),
    ("cut in the index", riff(header(), MOVI, INDEX)[:-2], 1, 12 + len(header()) + len(MOVI),
     "52 Truncated"),
    ("a list in movi", riff(header(), chunk_list(b"movi", GOOD, chunk_list(b"abcd"))), 1,
     12 + len(header()) + 12 + 14, "50 NotAvi"),
    ("a list rec that is cut in its second frame", riff(header(), chunk_list(b"movi", chunk_list(
        b"rec ", GOOD, GOOD)))[:-1], 1, 12 + len(header()) + 12 + 12 + 14, "52 Truncated"),
    ("a list rec that is cut in its name", riff(header(), chunk_list(b"movi", GOOD, chunk_list(
        b"rec ")))[:-1], 1, 12 + len(header()) + 12 + 14, "52 Truncated"),
    ("another file", TWO + b"RIFF" + bytes(8), 2, len(TWO), "88 Another"),
    ("Matroska after all RIFFs", TWO + further(JUNK) + H, 2, len(TWO + further(JUNK)), "88 Another"),
    ("bytes where a frame is owed", riff(streams(total=numbers(2)), MOVI) + b"x", 1,
     len(riff(streams(total=numbers(2)), MOVI)), "52 Truncated"),
    ("a further RIFF of three bytes", TWO + spelled(3, further(JUNK)), 2, len(TWO), "50 NotAvi"),
    ("a chunk of a further RIFF", TWO + further(JUNK, spelled(99, JUNK)), 2, len(TWO) + 24,
     "52 Truncated"),
    ("fewer frames than dmlh says", riff(streams(total=numbers(2)), MOVI), 1,
     len(riff(streams(total=numbers(2)), MOVI)), "52 Truncated"),
]
LACED, EMPTY = block("81 0000 82"), block(frame=b"")
OF_MATROSKA = [
    ("1A alone", H[:1], 0, 0, "52 Truncated"),
    ("cut in EBML", H[:39], 0, 0, "52 Truncated"),
    ("no Segment", H + bytes(12), 0, 40, "80 NotMatroska"),
    ("cut in the Segment's ID", whole(C)[:43], 0, 40, "52 Truncated"),
    ("cut in Tracks", whole(C)[:130], 0, 52, "52 Truncated"),
    ("no Tracks", H + segment(element("EC", "0000")), 0, 56, "82 NoTracks"),
    ("two Clusters and no Tracks", H + segment(C, C), 0, 52, "82 NoTracks"),
    ("cut in Tracks behind a Cluster", (H + segment(C, T))[:-1], 0, 78, "52 Truncated"),
    ("cut in a Cluster's header", whole(C)[:140], 0, 131, "52 Truncated"),
    ("a second Void of unknown size", H + spell("EC82 0102 ECFF", segment(T, C)), 0, 44,
     "81 BadElement"),
    ("another element after two Voids", H + spell("EC80 EC80 BF84 01020304", segment(T, C)), 0, 44,
     "80 NotMatroska"),
    ("cut in a Void", H + spell("EC81 00 EC83 0000"), 0, 43, "52 Truncated"),
    ("cut in Tracks after a Void", H + spell("EC80", segment(T, C)[:90]), 0, 54, "52 Truncated"),
]
AMONG_FRAMES = [
    ("cut in its timestamp", whole(C)[:145], 0, 143, "52 Truncated"),
    ("cut in its block", whole(C)[:150], 0, 146, "52 Truncated"),
    ("cut in the second one", whole(C, C)[:180], 1, 172, "52 Truncated"),
    ("cut after an open one's", opened(C, C)[:160], 1, 157, "52 Truncated"),
    ("lacing", whole(C, cluster("E78100", LACED)), 1, 172, "84 Laced"),
    ("an empty block", whole(cluster("E78100", block(), EMPTY)), 1, 157, "54 EmptyFrame"),
    ("a group of no bytes", whole(C, cluster("E78100", "A0 80", block())), 1, 172, "81 BadElement"),
    ("a Block with another ID", whole(C, cluster("E78100", element("A0", "A7", block()[1:])), C), 1,
     172, "81 BadElement"),
    ("a Block with lacing, in a group", whole(C, cluster("E78100", element("A0", "9B8101", "A1",
                                                                        LACED[1:]))), 1, 172,
     "84 Laced"),
    ("a second Block with lacing", whole(C, cluster("E78100", element("A0", "A1", block()[1:], "A1",
                                                                     LACED[1:]))), 2, 185, "84 Laced"),
    ("a wrong CRC-32, by its last element",
     whole(C, cluster(summed("E78100", block(), "EC 81 00", crc=1))), 2, 189, "85 Checksum"),
    ("an element that passes its Cluster", whole(C, cluster("E78100", "A3 8C 810000"), C), 1, 172,
     "52 Truncated"),
    ("another file", whole(C, C) + H, 2, 183, "88 Another"),
    ("an AVI", whole(C, C) + TWO, 2, 183, "88 Another"),
    ("an ID of no bytes", whole(C, "00"), 1, 157, "81 BadElement"),
    ("an ID of no bytes, after a Void", H + spell("EC83 000000", segment(T, C, "00")), 1, 162,
     "81 BadElement"),
]


def offsets():
    """Each file, of which so many frames are decoded, by `check` and `check --all`, and by `check
    --quiet`. Among the frames `check --all` goes on: of a Matroska file as `damaged.py` says, of an
    AVI to tell the fault, after which no frame is found."""
    for name, file, frames, byte, fault in AMONG_FRAMES:
        where = f"fault frame {frames} byte {byte}\n"
        yield Case(f"byte of the file: {name}", {"in": file}, [
            Step(["check", "in"], lines(frames), fault),
            Step(["check", "--place", "in"], lines(frames) + where, fault),
            Step(["check", "--quiet", "in"], f"in: {fault} at byte {byte}\n", fault)],
            {"in": file})
    for name, file, frames, byte, fault in AMONG_CHUNKS:
        where = f"fault frame {frames} byte {byte}\n"
        told = f"byte {byte}: fault {fault}\nframes {frames} faults 1\n"
        yield Case(f"byte of the file: {name}", {"in": file}, [
            Step(["check", "in"], lines(frames), fault),
            Step(["check", "--place", "in"], lines(frames) + where, fault),
            Step(["check", "--all", "in"], lines(frames) + told, fault),
            Step(["check", "--all", "--place", "in"], lines(frames) + told, fault),
            Step(["check", "--quiet", "in"], f"in: {fault} at byte {byte}\n", fault),
            Step(["check", "--all", "--quiet", "in"],
                 f"in: 1 faults in {frames} frames, the first {fault} at byte {byte}\n", fault)],
            {"in": file})
    for name, file, frames, byte, fault in OF_AVI + OF_MATROSKA:
        where = f"fault frame {frames} byte {byte}\n"
        yield Case(f"byte of the file: {name}", {"in": file}, [
            Step(["check", "in"], lines(frames), fault),
            Step(["check", "--place", "in"], lines(frames) + where, fault),
            Step(["check", "--all", "in"], lines(frames), fault),
            Step(["check", "--all", "--place", "in"], lines(frames) + where, fault),
            Step(["check", "--quiet", "in"], f"in: {fault} at byte {byte}\n", fault),
            Step(["check", "--all", "--quiet", "in"], f"in: {fault} at byte {byte}\n", fault)],
            {"in": file})


CASES = [offsets]
