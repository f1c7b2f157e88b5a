# SPDX-License-Identifier: MIT OR Apache-2.0
"""More files of Matroska whose frames and faults are known, worked out by hand from the formats:
blocks and Tracks with sizes of their own, files that are written, one as other programs write them,
and what stands before the Segment. A row is as in `matroska.py`."""
from known_answers.matroska import (
    C, T, B, H, UNKNOWN, element, open_segment, opened, segment, size, spell, whole)
from known_answers.matroska_written import BEGUN, EXAMPLE, over

LOOSE = "1F43B675 FF"                   # the header of a Cluster of unknown size
OPEN = over(EXAMPLE, [(45, b"\xff" * 7)])

# An open Segment; SeekHead, Void and Info; sound beside the video, which says its codec as AVI does,
# 352 by 288 samples, 24 frames a second; blocks of sound with lacing; a BlockGroup and a SimpleBlock
# in a Cluster with its CRC-32; and, after Cues, a Cluster of unknown size with a SimpleBlock.
FOREIGN = bytes.fromhex(
    "1A45DFA301000000000000144282896D6174726F736B610042878102428581021853806701FFFFFFFFFFFFFF"
    "114D9B7488BF843F2DAA5EEC80EC830000001549A9668DBF8460861E942AD7B1830F42401654AE6B01000000"
    "00000087BF84C8840584AE8ED781028381028686415F4F505553AE406ED78101838101868F565F4D532F5646"
    "572F464F5552434323E38384027BC86AE088B0820160BA82012063A2C2280000000100000001000000010018"
    "0046465631000000000000000000000000000000000000000056003029E14F7638B82B67DB664A1B2F41A0E7"
    "CEA300BA39C1BFEC8500000000001F43B6750100000000000034BF84370811C9E78100A38E820000060105AA"
    "AAAAAAAABBBBBBA08EA18981000080FE7B0000029B8105A38981000080FE7B0000021C53BB6B88BF84ACE650"
    "ABBB801F43B67501FFFFFFFFFFFFFFE78102A38E820000060105AAAAAAAAAABBBBBBA38981000080FE7B0000"
    "02EC8400000000")
FOREIGN_SAID = (1, 352, 288, 24, 1, FOREIGN[201:227])

ROWS = [
    ("an open file", opened(C), 1, 0, 0),
    ("an element that passes the Segment, without Clusters", whole("EC81"), 0, 52, 0),
    ("Void in place of Tracks", H + segment("EC80"), 0, 82, 0),
    ("an open Segment that ends in an element", H + open_segment("EC81"), 0, 52, 0),
    ("two blocks in an open Cluster", opened(LOOSE, B, B), 2, 0, 0),
    ("a block after the Cluster that ends an open one", whole(LOOSE, B, C, B), 2, 81, 9),
    ("a group and a block in an open Cluster", whole(LOOSE, "A08BA1", B[1:], B), 2, 0, 0),
    ("Void of unknown size and a byte", whole("ECFF00"), 0, 81, 1),
    ("an ID of five bytes, without Clusters", whole("088100"), 0, 81, 2),
    ("lacing", whole("1F43B675 8B", "A38981000002FE7B000002"), 0, 84, 5),
    ("no frame in a block", opened(LOOSE, "A3848100008000"), 0, 54, 1),
    ("a block that is too long", opened(LOOSE, "A308400000058100008000"), 0, 53, 1),
    ("another CRC-32 of a Cluster", whole("1F43B675 91 BF8401000000", B, "EC"), 0, 85, 1),
    ("another CRC-32 of Tracks", H + segment("1654AE6B 86 BF8401000000", C), 0, 85, 26),
    ("Tracks without a track", H + segment("1654AE6B 82 EC80", C), 0, 51, 26),
    ("Tracks that are too long, in four bytes", H + open_segment("1654AE6B 14000001 00"), 0, 53, 1),
    ("Tracks of unknown size in one byte", H + segment("1654AE6B FF EC80"), 0, 81, 2),
    ("an encoded track", H + segment("1654AE6B 90 AE8E8381018686", b"V_FFV1", "6D8080", C), 0, 83,
     26),
    ("three other bytes", b"RIF", 0, 52, 0),
    ("another DocType and a byte", spell("1A45DFA3 87 428284", b"webm", "18"), 0, 80, 1),
    ("another element after the header", element("1A45DFA3", "428288", b"matroska")
     + spell("BF80000001"), 0, 80, 1),
    ("a file that is written", EXAMPLE, 1, 0, 0),
    ("its open form", OPEN, 1, 0, 0),
    ("its open form before Cues are there", OPEN[:BEGUN], 1, 0, 0),
    ("the file before Cues are there", EXAMPLE[:BEGUN], 1, 52, 0),
    ("a file of another program", FOREIGN, 3, 0, 0),
]

# What stands between the EBML header and the Segment: Voids alone.

WHOLE = segment(T, C)
LEFT = len(WHOLE)
VOIDS = [
    ("a Void of no bytes", H + spell("EC80", WHOLE), 1, 0, 0),
    ("five Voids", H + spell("EC80 EC81FF EC4001AA EC82EC80 EC85", WHOLE[:5], WHOLE), 1, 0, 0),
    *((f"a Void whose size has {k} bytes", H + spell("EC", size(3, k), "185380", WHOLE), 1, 0, 0)
      for k in range(1, 9)),
    ("a Void before an open Segment", H + spell("EC80", open_segment(T, C)), 1, 0, 0),
    ("a Void of unknown size", H + spell("ECFF", WHOLE), 0, 81, LEFT),
    ("a Void of unknown size in eight bytes", H + spell("EC", UNKNOWN, WHOLE), 0, 81, LEFT),
    ("a Void, and one of unknown size", H + spell("EC80 ECFF", WHOLE), 0, 81, LEFT),
    ("a Void whose size begins with 0", H + spell("EC00", WHOLE), 0, 81, LEFT),
    ("the ID of Void alone", H + spell("EC"), 0, 52, 0),
    ("a Void with half a size", H + spell("EC0100"), 0, 52, 0),
    ("a cut Void", H + spell("EC85 01020304"), 0, 52, 0),
    ("a Void that takes in the file", H + spell("EC", size(LEFT + 1), WHOLE), 0, 52, 0),
    ("a Void of all that is left", H + spell("EC", size(LEFT), WHOLE), 0, 52, 0),
    ("a Void that takes in the Segment's ID", H + spell("EC84", WHOLE), 0, 80, LEFT - 8),
    ("a Void and no more", H + spell("EC80"), 0, 52, 0),
    ("a Void and three bytes of the Segment's ID", H + spell("EC80 185380"), 0, 52, 0),
    ("a Void and an ID of a bit more", H + spell("EC80 18538066", WHOLE[4:]), 0, 80, LEFT - 4),
    ("CRC-32 before the Segment", H + spell("BF84 01020304", WHOLE), 0, 80, LEFT + 2),
    ("CRC-32 after a Void", H + spell("EC80 BF84 01020304", WHOLE), 0, 80, LEFT + 2),
    ("the ID of Void in two bytes", H + spell("40EC80", WHOLE), 0, 80, LEFT - 1),
    ("Tags before the Segment", H + element("1254C367") + WHOLE, 0, 80, LEFT + 1),
    ("a second header after a Void", H + spell("EC80", H, WHOLE), 0, 80, LEFT + 36),
    ("a Void before the header", spell("EC80", H, WHOLE), 0, 80, LEFT + 38),
]


def files():
    """All rows."""
    yield from ROWS
    yield from VOIDS
