# SPDX-License-Identifier: MIT OR Apache-2.0
"""Files of Matroska whose first Tracks stand behind their first Cluster, worked out by hand from the
formats. A row is what is new about a file, the file, how many frames it has (each is FRAME), the fault
after them or 0 for the end, and how many bytes are left unread then, where the input can begin again;
where it can't, each of them is 82."""
from known_answers.matroska import (
    B, BESIDE, C, H, LOOSE, T, UNKNOWN, WRONG, block, cluster, element, open_segment, segment, summed)

# Of rows of `known_answers.matroska` that are 82 in one reading: how many frames they have, and the
# fault after them, where the input can begin again.
AGAIN = {
    "Tracks after a Cluster": (1, 0), "Segment: a Cluster of unknown size before Tracks": (1, 0),
    "Segment: a Cluster of no bytes before Tracks": (0, 0),
}

# What is noted of rows.
NOTED = {"in an open Segment": "90 Open", "in a Cluster of unknown size": "90 Open"}

SOUND = element("1654AE6B", element("AE", "D78101 838102"))     # Tracks without a video

ROWS = [
    ("between two Clusters", H + segment(C, T, C), 2, 0, 0),
    ("behind all Clusters", H + segment(C, C, T), 2, 0, 0),
    ("behind Cues", H + segment(C, element("1C53BB6B"), T), 1, 0, 0),
    ("twice", H + segment(C, T, SOUND, C), 2, 0, 0),
    ("twice, and the first have no video", H + segment(C, SOUND, T), 0, 51, 79),
    ("behind a Void before the Segment", H + element("EC", "000000") + segment(C, T), 1, 0, 0),
    ("in an open Segment", H + open_segment(C, T, C), 2, 0, 0),
    ("in a Cluster of unknown size", H + open_segment(LOOSE, B, B, T, C), 3, 0, 0),
    ("behind a group in one", H + segment(LOOSE, element("A0", "A1", B[1:]), "E78100", T), 1, 0, 0),
    ("behind a group and Void in one", H + segment(LOOSE, "A080", "EC80", T), 0, 81, 81),
    ("behind Info in one", H + segment(LOOSE, B, element("1549A966"), T, C), 2, 0, 0),
    ("behind Info and a block", H + segment(LOOSE, element("1549A966"), B, T), 0, 81, 88),
    ("a block of unknown size", H + segment(LOOSE, "A3FF", T), 0, 81, 79),
    ("none", H + segment(C, C), 0, 82, 0),
    ("none, in an open Segment", H + open_segment(C, C), 0, 82, 0),
    ("of unknown size", H + segment(C, "1654AE6B", UNKNOWN, T[12:]), 0, 81, 67),
    ("a wrong CRC-32 of them", H + segment(C, element("1654AE6B", summed(T[12:], crc=1)), C), 0, 85, 26),
    ("a wrong CRC-32 of a Cluster before them", H + segment(C, WRONG, T, C), 1, 85, 105),
    ("a wrong CRC-32 of Tags before them", H + segment(C, element("1254C367", summed(crc=1)), T), 0, 85,
     79),
    ("an unknown element before them", H + segment(C, "088100", T), 0, 81, 81),
    ("an ID of no Cluster in one of known size", H + segment(cluster("088100"), T, C), 0, 81, 107),
    ("an element that passes the Segment", H + segment(C, "ECFE", T), 0, 52, 79),
    ("the Segment ends in a Cluster", H + segment(C, T, "1F43B675 84 E781"), 1, 52, 2),
    ("a block of no track", H + segment(cluster(block("82 0000 80")), T, C), 0, 81, 113),
    ("a block of another track", H + segment(cluster(block("82 0000 80")), BESIDE, C), 1, 0, 0),
    ("cut in a Cluster", (H + segment(C, C, T))[:-80], 0, 52, 0),
    ("cut in them", (H + segment(C, T))[:-1], 0, 52, 0),
    ("cut behind them", (H + segment(C, T, C))[:-1], 1, 52, 0),
]
