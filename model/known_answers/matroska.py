# SPDX-License-Identifier: MIT OR Apache-2.0
"""Files of Matroska whose frames and faults are known: worked out by hand from the formats. Their
elements are spelled here, their CRC-32 is zlib's.

A row is what is new about a file, the file, how many frames it has (each is FRAME), the fault
after them or 0 for the end, and how many bytes are left unread then.
"""
import zlib

FRAME = bytes.fromhex("FE7B000002")
RECORD = bytes.fromhex("56003029E14F7638B82B67DB664A1B2F41A0E7CEA300BA39C1BF")


# ----------------------------------------------------------------------------------------- elements

def spell(*parts):
    """Bytes, of which texts are hexadecimal."""
    return b"".join(part if isinstance(part, bytes) else bytes.fromhex(part) for part in parts)


def size(count, length=8):
    """A size of so many bytes."""
    return (count + (1 << 7 * length)).to_bytes(length, "big")


def element(ident, *parts, length=1):
    """An element whose size has so many bytes."""
    content = spell(*parts)
    return spell(ident) + size(len(content), length) + content


def summed(*parts, crc=None):
    """A content after its CRC-32, or another one."""
    content = spell(*parts)
    value = zlib.crc32(content) if crc is None else crc
    return spell("BF84") + value.to_bytes(4, "little") + content


def segment(*parts):
    """A Segment of just these."""
    return element("18538067", *parts, length=8)


def open_segment(*parts):
    return spell("18538067 01FFFFFFFFFFFFFF", *parts)


H = spell("1A45DFA3 A3 428681 01 42F781 01 42F281 04 42F381 08 428288", b"matroska",
          "428781 04 428581 02")
T = spell("1654AE6B 0100000000000043 AE 010000000000003A D78101 838101 8686", b"V_FFV1",
          "E086 B08101 BA8101 63A2 010000000000001A", RECORD)
C = spell("1F43B675 010000000000000E E78100 A389 81000080", FRAME)
BESIDE = element("1654AE6B", T[12:], element("AE", "D78102 838102"), length=8)     # and sound


def whole(*parts):
    """A file of a header, and a Segment of Tracks and these."""
    return H + segment(T, *parts)


def beside(*parts, of=segment):
    """The same of a file whose track 2 is sound."""
    return H + of(BESIDE, *parts)


def opened(*parts):
    """The same, open."""
    return H + open_segment(T, *parts)


def cluster(*parts):
    return element("1F43B675", *parts, length=8)


def block(begin="81 0000 80", frame=FRAME):
    """A SimpleBlock of 11 bytes, where it begins with four and has this frame."""
    return element("A3", begin, frame)


LOOSE = "1F43B675 01FFFFFFFFFFFFFF"         # the header of a Cluster of unknown size
UNKNOWN = "01FFFFFFFFFFFFFF"
WRONG = cluster(summed("E78100", block(), crc=1))
B = block()
SEVEN = [("SeekHead", "114D9B74"), ("Info", "1549A966"), ("Tracks", "1654AE6B"),
         ("Cues", "1C53BB6B"), ("Attachments", "1941A469"), ("Chapters", "1043A770"),
         ("Tags", "1254C367")]
MANY, MOST = 64 << 20, 1 << 30


# ----------------------------------------------------------------------------------------- examples

EXAMPLES = [
    ("a whole file", whole(C), 1, 0, 0),
    ("an open one without its last byte", opened(C)[:-1], 0, 52, 0),
    ("another DocType", spell("1A45DFA3 87 4282 84", b"webm") + segment(T, C), 0, 80, 117),
    ("Void before the Segment", H + spell("EC 83 000000") + segment(T, C), 1, 0, 0),
    ("Tracks after a Cluster", H + segment(C, T), 0, 82, 93),
    ("an ID of a bit more", whole("1F43B674", C[4:]), 0, 81, 14),
    ("an ID of five bytes", whole(C, "08 81 00"), 1, 81, 2),
    ("an element that passes the Segment", whole(C, "EC 81"), 1, 52, 0),
    ("two open files", opened(C) + opened(C), 1, 81, 152),
    ("no Cluster", whole(), 0, 0, 0),
    ("a wrong CRC-32 of a Cluster", whole(C, WRONG, C), 1, 85, 26),
    ("Cues in a Cluster of unknown size", whole(LOOSE, B, element("1C53BB6B"), B), 1, 81, 9),
    *((f"flags {flags}", whole(cluster("A389 810000", flags, FRAME)), 0, 84, 5)
      for flags in ["02", "04", "06", "82"]),
]


# ------------------------------------------------------------------------------ headers of elements

HEADERS = [
    ("an ID that begins with 0", whole(C, "00 81 00"), 1, 81, 2),
    ("an ID of eight bytes", whole(C, "01", bytes(9)), 1, 81, 9),
    ("an ID of two bytes, of which one is there", whole(C, "42") + b"abc", 1, 52, 3),
    ("an ID of four bytes, of which three are there", whole(C, "1C53BB") + b"abc", 1, 52, 5),
    ("an ID alone", whole(C, "EC") + b"abc", 1, 52, 3),
    ("an ID of four bytes alone", whole(C, "1C53BB6B") + b"abc", 1, 52, 3),
    ("a size that begins with 0", whole(C, "EC 00 81"), 1, 81, 1),
    ("a size of eight bytes, of which seven are there", whole(C, "EC", UNKNOWN[:14]), 1, 52, 6),
    ("a size of two bytes, of which one is there", whole(C, "EC 40") + b"ab", 1, 52, 2),
    ("an element that passes by a byte", whole(C, "EC 83 0000") + b"abc", 1, 52, 5),
    ("an element that suits", whole(C, "EC 83 000000") + b"abc", 1, 0, 0),
    ("Void of no bytes", whole(C, "EC 80", C), 2, 0, 0),
    ("Void of unknown size", whole(C, "EC FF", C), 1, 81, 26),
    ("Void of unknown size, in two bytes", whole(C, "EC 7FFF", C), 1, 81, 26),
    ("Void of 127 bytes", whole(C, "EC 407F", bytes(127), C), 2, 0, 0),
    ("an ID of three bytes", whole(C, "23E383 81 00", C), 1, 81, 27),
    ("a cut ID", opened(C, "1C53BB"), 1, 52, 0),
    ("a cut size", opened(C, "EC 40"), 1, 52, 0),
    ("an ID without its size", opened(C, "EC"), 1, 52, 0),
    ("a cut content", opened(C, "EC 83 00"), 1, 52, 0),
    ("the largest size that suits", opened("EC 01FFFFFFFFFFFFA7"), 0, 52, 0),
    ("a size that is too large by one", opened("EC 01FFFFFFFFFFFFA8") + b"abc", 0, 52, 3),
    *((f"sizes of {k} bytes", whole(element("EC", bytes(9), length=k),
                                    element("1F43B675", element("A3", "81000080", FRAME, length=k),
                                            length=k)), 1, 0, 0) for k in range(1, 9)),
]


# ------------------------------------------------- elements that stand only outside of Clusters

def grown(*parts, more):
    """A Cluster of these elements that says so many bytes more than it has."""
    return spell("1F43B675", size(len(spell(*parts)) + more), *parts)


OUTSIDE = SEVEN + [("Cluster", "1F43B675"), ("EBML", "1A45DFA3"), ("Segment", "18538067")]
SIZES = [("of a size that passes", "FE"), ("of a size that suits", "80"),
         ("of a size of no bytes", "00"), ("of an unknown size", "FF")]

GROWN = [
    *((f"{name} in a Cluster, {what}", whole(grown(B, more=5), ident, size), 1, 81, 1)
      for name, ident in OUTSIDE for what, size in SIZES),
    ("another ID of four bytes, of a size that passes", whole(grown(B, more=5), "1F43B674 FE"),
     1, 52, 0),
    ("a Cluster that takes in the next one", whole(grown(B, more=len(C)), C), 1, 81, 22),
    ("a Cluster that takes in a part of the next one", whole(grown(B, more=18), C), 1, 81, 22),
    ("a Cluster that takes in the next one's ID", whole(grown(B, more=4), C), 1, 81, 22),
    ("a Cluster that takes in three bytes of that", whole(grown(B, more=3), C), 1, 52, 25),
    ("an empty Cluster that takes in the next one", whole(grown(more=18), C), 0, 81, 22),
    ("a Cluster in a BlockGroup",
     whole(cluster(element("A0", element("A1", "81000000", FRAME), C))), 1, 0, 0),
]


# ------------------------------------------------------------------------------ the EBML header

def headed(*parts):
    """A file with this content of its EBML header."""
    return element("1A45DFA3", *parts) + segment(T, C)


DOC = element("4282", b"matroska")
AFTER = len(segment(T, C))
READ_2, READ_9 = "42F781 02", "42F789" + "00" * 8 + "01"
EBML = [
    ("nothing", b"", 0, 52, 0),
    ("three bytes", b"abc", 0, 52, 0),
    ("four other bytes", b"RIFF", 0, 80, 0),
    ("five other bytes", b"RIFFx", 0, 80, 1),
    ("the ID alone", H[:4], 0, 52, 0),
    ("a size that begins with 0", H[:4] + spell("00", DOC), 0, 81, 11),
    ("an unknown size", H[:4] + spell("FF", DOC), 0, 81, 11),
    ("an unknown size in eight bytes", H[:4] + spell(UNKNOWN, DOC), 0, 81, 11),
    ("a header that is too long", H[:4] + spell(size(MANY + 1), DOC), 0, 53, 11),
    ("a header that is not there", H[:4] + spell(size(MANY, 4), DOC), 0, 52, 0),
    ("no content", headed(), 0, 80, AFTER),
    ("DocType alone", headed(DOC), 1, 0, 0),
    ("a size of eight bytes", element("1A45DFA3", DOC, length=8) + segment(T, C), 1, 0, 0),
    ("DocType with bytes 0", headed(element("4282", b"matroska\0\0x")), 1, 0, 0),
    ("a longer DocType", headed(element("4282", b"matroska3")), 0, 80, AFTER),
    ("a shorter DocType", headed(element("4282", b"matrosk")), 0, 80, AFTER),
    ("a DocType of no bytes", headed(element("4282")), 0, 80, AFTER),
    ("no DocType", headed("42F781 01"), 0, 80, AFTER),
    ("a second DocType", headed(DOC, element("4282", b"webm")), 1, 0, 0),
    ("webm first", headed(element("4282", b"webm"), DOC), 0, 80, AFTER),
    ("EBMLReadVersion 2", headed(DOC, READ_2), 0, 80, AFTER),
    ("EBMLReadVersion 0", headed(DOC, "42F781 00"), 1, 0, 0),
    ("EBMLReadVersion of no bytes", headed(DOC, "42F780"), 1, 0, 0),
    ("EBMLReadVersion of eight bytes", headed(DOC, "42F788 0000000000000001"), 1, 0, 0),
    ("EBMLReadVersion of nine bytes", headed(DOC, READ_9), 0, 81, AFTER),
    ("DocTypeReadVersion 4", headed(DOC, "428581 04"), 1, 0, 0),
    ("DocTypeReadVersion 5", headed(DOC, "428581 05"), 0, 80, AFTER),
    ("DocTypeReadVersion 256", headed(DOC, "428582 0100"), 0, 80, AFTER),
    ("DocTypeReadVersion of nine bytes", headed(DOC, "428589", bytes(9)), 0, 81, AFTER),
    ("EBMLVersion and others are passed", headed(DOC, "42868109 42F28109 42F38109"), 1, 0, 0),
    ("an element that passes the header", headed(DOC, "EC 81"), 0, 52, AFTER),
    ("the same after all three", headed(DOC, "42F78101 42858102 EC 81"), 1, 0, 0),
    ("the same after another DocType", headed(element("4282", b"webm"), "EC 81"), 0, 80, AFTER),
    ("the same after EBMLReadVersion 2", headed(DOC, READ_2, "EC 81"), 0, 80, AFTER),
    ("the same before DocType", headed("EC 8F", DOC), 0, 52, AFTER),
    ("an ID of five bytes in it", headed(DOC, "0842858104"), 0, 81, AFTER),
    ("a size that begins with 0 in it", headed("EC00", DOC), 0, 81, AFTER),
    ("an unknown size in it", headed("ECFF", DOC), 0, 81, AFTER),
    ("an ID alone in it", headed(DOC, "42F7"), 0, 52, AFTER),
    ("half an ID in it", headed(DOC, "42"), 0, 52, AFTER),
    ("its CRC-32", headed(summed(DOC)), 1, 0, 0),
    ("a wrong CRC-32", headed(summed(DOC, crc=1)), 0, 85, AFTER),
    ("a wrong CRC-32 of another DocType", headed(summed("4282 81 00", crc=1)), 0, 85, AFTER),
    ("a CRC-32 of three bytes", headed("BF83 000000", DOC), 1, 0, 0),
    ("a CRC-32 that is not first", headed(DOC, "BF84 00000000"), 1, 0, 0),
]


# --------------------------------------------------------------------------- the Segment's elements

SEGMENTS = [
    ("a header alone", H, 0, 52, 0),
    ("a header and three bytes", H + spell("185380"), 0, 52, 0),
    ("another element", H + spell("18538068", segment(T, C)[4:]), 0, 80, 113),
    ("a Segment without a size", H + spell("18538067"), 0, 52, 0),
    ("a size that begins with 0", H + spell("18538067 00", T), 0, 81, 79),
    ("a cut size", H + spell("18538067 0100"), 0, 52, 0),
    ("open in one byte", H + spell("18538067 FF", T, C), 1, 0, 0),
    ("open in four bytes", H + spell("18538067 1FFFFFFF", T, C), 1, 0, 0),
    *((f"a size of {k} bytes", H + element("18538067", T, C, length=k) + b"abcde", 1, 0, 1)
      for k in range(1, 9)),
    ("a Segment of no bytes", H + segment() + C, 0, 82, 26),
    ("an open one of no bytes", H + open_segment(), 0, 82, 0),
    ("no Tracks", H + segment("EC80 BF80") + b"abc", 0, 82, 3),
    ("no Tracks, open", H + open_segment("EC80"), 0, 82, 0),
    ("a Cluster of unknown size before Tracks", H + segment(LOOSE, B, T), 0, 82, 90),
    ("a Cluster of no bytes before Tracks", H + segment(cluster(), T), 0, 82, 79),
    ("an open file without Cluster", opened(), 0, 0, 0),
    ("two whole files", whole(C) + whole(C), 1, 88, 153),
    ("a byte after an open one", opened(C) + b"\xec", 1, 52, 0),
    ("a Segment that says more than there is", spell(whole(C)[:44], size(106), T, C), 1, 52, 0),
    ("a Segment that says less", spell(whole(C)[:44], size(104), T, C), 0, 52, 14),
    ("a Segment that ends after Tracks", spell(whole(C)[:44], size(79), T, C), 0, 0, 22),
    ("a second Tracks", whole(element("1654AE6B", "EC80"), C), 1, 0, 0),
    ("a second Tracks after a Cluster", whole(C, T, C), 2, 0, 0),
    ("a second Tracks with another track", whole(T.replace(b"\xd7\x81\x01", b"\xd7\x81\x02"), C), 1,
     0, 0),
    ("EBML in a Segment", whole(element("1A45DFA3", DOC), C), 0, 81, 37),
    ("a Segment in a Segment", whole(segment(C)), 0, 81, 26),
    ("another element of unknown size", whole("23E383 FF"), 0, 81, 0),
    ("Timestamp in a Segment", whole(C, "E78100", C), 1, 81, 27),
    ("SimpleBlock in a Segment", whole(B), 0, 81, 9),
    ("BlockGroup in a Segment", whole("A080", C), 0, 81, 26),
    ("CRC-32 in a Segment", whole("BF84 01020304", C), 1, 0, 0),
    ("CRC-32 of unknown size in a Segment", whole("BFFF", C), 0, 81, 26),
    ("a wrong CRC-32 in Void", whole(element("EC", summed(crc=1)), C), 1, 0, 0),
    ("Tracks of unknown size", H + segment("1654AE6B", UNKNOWN, T[12:], C), 0, 81, 93),
    ("Tracks that are too long", H + open_segment("1654AE6B", size(MANY + 1), T[12:]), 0, 53, 67),
    ("Tracks that are not there", H + open_segment("1654AE6B", size(MANY), T[12:]), 0, 52, 0),
    ("Tracks too long for their Segment", H + segment("1654AE6B", size(MANY + 1)) + b"ab", 0, 52,
     2),
    ("a Cluster that passes, before Tracks", H + segment("1F43B675 82 00") + b"ab", 0, 52, 3),
    ("a later Tracks may be longer", opened("1654AE6B", size(MANY + 1), "EC80"), 0, 52, 0),
]


def of_seven():
    """Each element of a Segment that is passed, before and after Tracks and Clusters."""
    for name, ident in SEVEN:
        for what, content, fault in [
                ("of no bytes", b"", 0), ("of no elements", summed(b"\0\0\0"), 0),
                ("a CRC-32", summed("EC 83 000000"), 0), ("a CRC-32 of nothing", summed(), 0),
                ("a wrong CRC-32", summed("EC80", crc=1), 85),
                ("a wrong CRC-32 of nothing", summed(crc=1), 85),
                ("a CRC-32 of three bytes", spell("BF83 010203 EC80"), 0),
                ("a CRC-32 of five bytes", spell("BF85 0102030405"), 0),
                ("a CRC-32 that is not first", spell("EC80 BF84 01020304"), 0),
                ("a first element and no others", spell("EC81 00 080808"), 0)]:
            passed = element(ident, content)
            frames, left = (0, 52) if fault else (2, 0)
            yield f"{name}, {what}", whole(passed, C, C), frames, fault, left
            if name != "Tracks":
                file = H + segment(passed, T, C, C)
                yield f"{name} before Tracks, {what}", file, frames, fault, left and 131
        for what, content, fault, left in [
                ("an ID of five bytes first", "08808080", 81, 3),
                ("an unknown size first", "ECFF8080", 81, 2),
                ("a size that begins with 0 first", "EC008080", 81, 2),
                ("an element that passes it", "EC838080", 52, 2),
                ("an ID of four bytes in three", "1C53BB", 52, 2),
                ("a size of two bytes in one", "EC40", 52, 0), ("an ID alone", "EC", 52, 0)]:
            yield f"{name}, {what}", whole(C, element(ident, content), C), 1, fault, left + 26
        yield f"{name} of unknown size", whole(C, ident, UNKNOWN, C), 1, 81, 26
        yield f"{name}, cut in its CRC-32", opened(C, ident, "86 BF84 01"), 1, 52, 0
        yield f"{name}, cut after it", opened(C, ident, "87 BF84 01020304"), 1, 52, 0
        yield f"{name} too short for a CRC-32", whole(C, ident, "84 BF84 0102"), 1, 52, 2


# ----------------------------------------------------------------------------------------- Clusters

def loose(*parts):
    """A Cluster of unknown size, and after it these."""
    return whole(LOOSE, *parts)


CLUSTERS = [
    ("a Cluster of no bytes", whole(cluster(), C), 1, 0, 0),
    ("a Cluster without blocks", whole(cluster("E78100"), C), 1, 0, 0),
    ("three blocks", whole(cluster("E78100", B, B, B)), 3, 0, 0),
    ("a block before Timestamp", whole(cluster(B, "E78100", B)), 2, 0, 0),
    ("an element that is not known", whole(cluster(B, "4DBB80", B)), 1, 81, 11),
    ("a header of EBML in a Cluster", whole(cluster(B, "1A45DFA380", B)), 1, 81, 12),
    ("a Cluster in a Cluster", whole(cluster(B, "1F43B67580", B)), 1, 81, 12),
    ("Block in a Cluster", whole(cluster(B, "A1", B[1:], B)), 1, 81, 20),
    ("numbers of eight bytes", whole(cluster("E788" + "00" * 8, "A788" + "00" * 8, B)), 1, 0, 0),
    ("a Position of nine", whole(cluster(B, "A789" + "00" * 9, B)), 1, 81, 20),
    ("a PrevSize of nine", whole(cluster(B, "AB89" + "00" * 9, B)), 1, 81, 20),
    ("SilentTracks and EncryptedBlock", whole(cluster("58548161", "AF8A" + "00" * 10, B)), 1, 0, 0),
    ("an unknown size in a Cluster", whole(cluster(B, "ECFF", B)), 1, 81, 11),
    ("a block of unknown size", whole(cluster("A3FF", B)), 0, 81, 11),
    ("an ID of five bytes in a Cluster", whole(cluster(B, "08")) + b"ab", 1, 81, 2),
    ("an ID of two bytes in one", whole(cluster(B, "42")) + b"ab", 1, 52, 2),
    ("an element that passes its Cluster", whole(cluster(B, "EC81"), C), 1, 52, 26),
    ("a block that passes its Cluster", whole(cluster("A38A", B[2:]), C), 0, 52, 35),
    ("a Cluster that passes the Segment", H + segment(T, "1F43B675 81") + b"ab", 0, 52, 2),
    ("a group of no bytes", whole(cluster("A080", B)), 0, 81, 11),
    ("a group of a block", whole(cluster("A08B A189", B[2:], B)), 2, 0, 0),
    ("a group of two blocks", whole(cluster(element("A0", "A1", B[1:], "A1", B[1:]))), 2, 0, 0),
    ("other elements in a group", whole(cluster(element("A0", "FB8101", "A1", B[1:], "9B8101"))), 1,
     0, 0),
    ("SimpleBlock in a group", whole(cluster(element("A0", B), B)), 0, 81, 11),
    ("a group in a group", whole(cluster(element("A0", element("A0", "A1", B[1:])), B)), 0, 81, 11),
    ("a Block with another ID", whole(cluster(B, element("A0", "A7", B[1:], "9B8101"), B)), 1, 81, 11),
    ("a Block with the ID of Void", whole(cluster(B, element("A0", "9B8101", "EC", B[1:]))), 1, 81, 0),
    ("a group of unknown size", whole(cluster("A0FF A1", B[1:])), 0, 81, 11),
    ("an unknown size in a group", whole(cluster(element("A0", "A1", B[1:], "ECFF"), B)), 1, 81,
     11),
    ("an ID of five bytes in a group", whole(cluster(element("A0", "080000"), B)), 0, 81, 13),
    ("an element that passes its group", whole(cluster("A082 EC81", B)), 0, 52, 11),
    ("a block that passes its group", whole(cluster("A082 A189", B[2:])), 0, 52, 9),
    ("a group that passes its Cluster", whole(cluster("A08C A189", B[2:]), C), 0, 52, 37),
    ("a size of two bytes in a group of one", whole(cluster("A082 EC40", B)), 0, 52, 11),
    ("a size that begins with 0 in a group", whole(cluster("A082 EC00", B)), 0, 81, 11),
    ("a cut group", opened("1F43B675 8D A08B A189", B[2:-1]), 0, 52, 0),
]
LOOSE_CLUSTERS = [
    ("two blocks", loose("E78100", B, B), 2, 0, 0),
    ("unknown in one byte", whole("1F43B675 FF", B), 1, 0, 0),
    ("of no elements", loose(), 0, 0, 0),
    ("each element of its own", loose("E780 A780 AB80 585480 AF80", B, "E780"), 1, 0, 0),
    ("a second one", loose(B, LOOSE, B, LOOSE, "E780", B), 3, 0, 0),
    ("one that is known after it", loose(B, C, "EC80"), 2, 0, 0),
    ("one that is known, and Timestamp", loose(B, C, "E780", B), 2, 81, 11),
    ("one that is known, and a block", loose(B, C, B), 2, 81, 9),
    ("one that is known of no bytes, and a block", loose(B, cluster(), B), 1, 81, 9),
    ("one that is unknown after a known one", whole(C, LOOSE, "E780", B), 2, 0, 0),
    ("Void and CRC-32 end it not", loose("EC80", B, "BF8401020304", B, "EC80 E780", B), 3, 0, 0),
    *((f"{name} ends it", loose(B, element(ident), "E78100"), 1, 81, 1) for name, ident in SEVEN),
    ("an element of unknown size", loose(B, "E7FF", B), 1, 81, 11),
    ("a block of unknown size", loose(B, "A3FF", B), 1, 81, 11),
    ("a group of unknown size", loose(B, "A0FF A1", B[1:]), 1, 81, 11),
    ("another element", loose(B, "A180", B), 1, 81, 11),
    ("BlockDuration", loose(B, "9B8101", B), 1, 81, 12),
    ("a group", loose(element("A0", "9B8101", "A1", B[1:]), B), 2, 0, 0),
    ("a group of no bytes", loose("A080", B), 0, 81, 11),
    ("a Block with another ID", loose(B, element("A0", "A7", B[1:]), B), 1, 81, 11),
    ("a block that passes the Segment", loose(B, "A38A", B[2:]), 1, 52, 9),
    ("open, and cut between blocks", opened(LOOSE, B, B), 2, 0, 0),
    ("open, and cut in a block", opened(LOOSE, B, B[:-1]), 1, 52, 0),
    ("open, and cut in a group", opened(LOOSE, B, "A08B"), 1, 52, 0),
    ("open, and cut after a group's block", opened(LOOSE, "A08E A1", B[1:], "9B81"), 1, 52, 0),
]


# ------------------------------------------------------------------------------------------- blocks

def one(*parts):
    """A file of a block with this content, and after it one Cluster more."""
    return whole(cluster(element("A3", *parts)), C)


def long_block(count):
    """An open file of a block of so many bytes, of which ten are there."""
    return opened(LOOSE, "A3", size(count), "81 0000 80", bytes(6))


BLOCKS = [
    ("a block of no bytes", one(), 0, 52, 26),
    ("a track number that begins with 0", one("00 0000 80", FRAME), 0, 81, 34),
    ("a track number that passes its block", one("40"), 0, 52, 26),
    ("a track number of eight bytes in seven", one("01", bytes(6)), 0, 52, 32),
    ("a track number of two bytes", one("4001 0000 80", FRAME), 2, 0, 0),
    ("a track number of eight bytes", one("0100000000000001 0000 80", FRAME), 2, 0, 0),
    ("another track", beside(cluster(element("A3", "82 0000 80", FRAME)), C), 1, 0, 0),
    ("another track with lacing", beside(cluster(element("A3", "82 0000 06", FRAME)), C), 1, 0, 0),
    ("another track and no more", beside(cluster(element("A3", "82")), C), 1, 0, 0),
    ("another track, and two bytes", beside(cluster(element("A3", "82 0000")), C), 1, 0, 0),
    ("a number that no track has", one("82 0000 80", FRAME), 0, 81, 34),
    ("a number that no track has, and no more", one("82"), 0, 81, 26),
    ("the same beside sound", beside(cluster(element("A3", "83 0000 80", FRAME)), C), 0, 81, 34),
    ("track 127, which is none", one("407F 0000 80", FRAME), 0, 81, 34),
    ("track 128, which is none", one("4080 0000 80", FRAME), 0, 81, 34),
    ("no time", one("81"), 0, 52, 26),
    ("no flags", one("81 0000"), 0, 52, 28),
    ("flags and no frame", one("81 0000 80"), 0, 54, 26),
    ("lacing and no frame", one("81 0000 82"), 0, 84, 26),
    ("any time", one("81 FFFF 80", FRAME), 2, 0, 0),
    ("flags 0", one("81 0000 00", FRAME), 2, 0, 0),
    ("all flags but lacing", one("81 0000 F9", FRAME), 2, 0, 0),
    *((f"lacing {flags}", one("81 0000", flags, FRAME), 0, 84, 31)
      for flags in ["02", "04", "06", "FB", "FD", "FF"]),
    ("a frame that is too long", long_block(MOST + 5), 0, 53, 6),
    ("the longest frame, cut", long_block(MOST + 4), 0, 52, 0),
    ("another track that is too long", beside(
        LOOSE, "A3", size(MOST + 5), "82 0000 80", of=open_segment), 0, 52, 0),
    ("a long frame with lacing", opened(LOOSE, "A3", size(MOST + 5), "81 0000 82 00"), 0, 84, 1),
    ("a block of a group without a frame", whole(cluster("A086 A184 81000080"), C), 0, 54, 26),
    ("a block of a group with lacing", whole(cluster("A087 A185 81000084 00"), C), 0, 84, 27),
    ("a cut frame", opened(cluster(B))[:-1], 0, 52, 0),
    ("a cut block of another track", beside(
        cluster("A389 82000080", FRAME), of=open_segment)[:-1], 0, 52, 0),
]


# ------------------------------------------------------------------------------- CRC-32 of Clusters

def judged(*parts, crc=None):
    """A file of a Cluster with its CRC-32, or another one, and after it one more."""
    return whole(cluster(summed(*parts, crc=crc)), C)


G = element("A0", "A1", B[1:])
SUMS = [
    ("of a block", judged("E78100", B), 2, 0, 0),
    ("of three blocks", judged("E78100", B, B, B), 4, 0, 0),
    ("of a group", judged("E78100", G), 2, 0, 0),
    ("of elements after a group", judged(G, "EC80"), 2, 0, 0),
    ("of elements in a group after its block", judged(element("A0", "A1", B[1:], "9B8101")), 2, 0,
     0),
    ("of nothing", judged(), 1, 0, 0),
    ("of another track", beside(cluster(summed(block("82 0000 80"))), C), 1, 0, 0),
    ("of a number that no track has", judged(block("82 0000 80")), 0, 81, 34),
    ("of a group of no bytes", judged("A080"), 0, 81, 26),
    ("wrong, of a block", judged("E78100", B, crc=1), 0, 85, 26),
    ("wrong, of three blocks", judged(B, B, B, crc=1), 2, 85, 26),
    ("wrong, of a block and Void", judged(B, "EC80", crc=1), 1, 85, 26),
    ("wrong, of a group", judged(B, G, crc=1), 1, 85, 26),
    ("wrong, of a group and Void", judged(G, "EC80", crc=1), 1, 85, 26),
    ("wrong, of a group with more after its block", judged(
        element("A0", "A1", B[1:], "9B8101"), crc=1), 1, 85, 26),
    ("wrong, of two blocks of a group", judged(
        element("A0", "A1", B[1:], "A1", B[1:]), crc=1), 1, 85, 26),
    ("wrong, of a block and a group of no bytes", judged(B, "A080", crc=1), 1, 81, 26),
    ("wrong, of nothing", judged(crc=1), 0, 85, 26),
    ("wrong, of another track", beside(
        cluster(summed(B, block("82 0000 80"), crc=1)), C), 1, 85, 26),
    ("wrong, and lacing before", judged(block("81 0000 82"), crc=1), 0, 84, 31),
    ("wrong, and a block that passes before", judged(B, "EC81", crc=1), 1, 52, 26),
    ("wrong, and cut in the last frame", opened(cluster(summed(B, crc=1)))[:-1], 0, 52, 0),
    ("wrong, and cut before Void", opened(cluster(summed(B, "EC80", crc=1)))[:-2], 1, 52, 0),
    ("not first", whole(cluster("E78100", summed(B, crc=1))), 1, 0, 0),
    ("of three bytes", whole(cluster("BF83010203", B)), 1, 0, 0),
    ("of five bytes", whole(cluster("BF850102030405", B)), 1, 0, 0),
    ("with a size of two bytes", whole(cluster("BF400401020304", B), C), 0, 85, 26),
    ("of unknown size", whole(cluster("BFFF01020304", B)), 0, 81, 15),
    ("that passes its Cluster", whole(cluster("BF84 010203"), C), 0, 52, 29),
    ("a second one is summed", judged("BF8401020304", B), 2, 0, 0),
    ("in a group is passed", whole(cluster(element("A0", "BF8401020304", "A1", B[1:]))), 1, 0, 0),
    ("in a Cluster of unknown size is passed", loose("BF8401020304", B), 1, 0, 0),
    ("of a later Cluster", whole(C, cluster(summed(B)), C, cluster(summed(B, B, crc=1))), 4, 85, 0),
    ("of a Cluster after a wrong one", whole(WRONG, C, C), 0, 85, 52),
]


# ---------------------------------------------------------------------------------------------- all

# what the rows are about, and they
ROWS = [("", EXAMPLES), ("header: ", HEADERS), ("outside: ", GROWN), ("EBML: ", EBML),
        ("Segment: ", SEGMENTS), ("Segment: ", list(of_seven())), ("Cluster: ", CLUSTERS),
        ("Cluster of unknown size: ", LOOSE_CLUSTERS), ("block: ", BLOCKS), ("CRC-32 ", SUMS)]


def files():
    """All rows."""
    for subject, rows in ROWS:
        for name, file, frames, fault, left in rows:
            yield subject + name, file, frames, fault, left
