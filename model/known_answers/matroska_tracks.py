# SPDX-License-Identifier: MIT OR Apache-2.0
"""What Tracks of Matroska say, worked out by hand from the formats: which entry counts, its fields,
and frame rates."""
from known_answers.matroska import H, RECORD, element, segment, spell, summed

NUMBER, TYPE, SIZE = "D78101", "838101", "E086B08101BA8101"
CODEC, FOURCC = element("86", b"V_FFV1"), element("86", b"V_MS/VFW/FOURCC")
PRIVATE = element("63A2", RECORD)
BITMAP = spell("28000000 01000000 01000000 0100 1800", b"FFV1", bytes(20))
NINE = "89 000000000000000001"
PLAIN = (1, 1, 1, 0, 0, RECORD)


def entry(*parts):
    return element("AE", *parts, length=2)


def video(*parts):
    """An entry of FFV1 video that has these beside its number, type and codec."""
    return entry(NUMBER, TYPE, CODEC, *parts)


def by_fourcc(private, *parts):
    """An entry that says its codec as AVI does."""
    return entry(NUMBER, TYPE, FOURCC, SIZE, element("63A2", private), *parts)


def sized(*parts):
    """An entry that has these in its element Video."""
    return video(PRIVATE, element("E0", *parts))


def rated(duration):
    """An entry whose frames have so many nanoseconds, in this hexadecimal number."""
    return video(SIZE, PRIVATE, element("23E383", duration))


ALL = video(SIZE, PRIVATE)
SOUND = entry("D78102 838102", element("86", b"A_PCM/INT/LIT"))
BAD = "EC8F"                    # an element that passes its parent

# what is new about it, the content of Tracks, what it says or the fault
ENTRIES = [
    ("a plain one", ALL, PLAIN),
    ("nothing", b"", 51),
    ("no entry", spell("EC80"), 51),
    ("sound alone", SOUND, 51),
    ("sound first", SOUND + ALL, PLAIN),
    ("two of FFV1", ALL + video(PRIVATE, SIZE.replace("B08101", "B08105")), PLAIN),
    ("another codec first", entry(TYPE, element("86", b"V_VP9")) + ALL, PLAIN),
    ("other elements first", spell("EC83 000000 D78105") + ALL, PLAIN),
    ("fields in another order", entry(PRIVATE, SIZE, CODEC, TYPE, NUMBER), PLAIN),
    ("elements that are not known", video("B98101", SIZE, "4DBB80", PRIVATE, "AE80"), PLAIN),
    ("an entry in an entry", entry(ALL, "838102"), 51),
    ("an element that passes, first", spell(BAD) + ALL, 52),
    ("an element that passes, after the one that counts", ALL + spell(BAD), PLAIN),
    ("an element that passes, after sound", SOUND + spell(BAD), 52),
    ("an ID of five bytes first", spell("0880") + ALL, 81),
    ("an unknown size first", spell("ECFF") + ALL, 81),
    ("an entry of unknown size", spell("AEFF") + ALL[3:], 81),
    ("an entry that passes Tracks", ALL[:-1], 52),
    ("a CRC-32", summed(SOUND, ALL), PLAIN),
    ("a wrong CRC-32", summed(SOUND, ALL, crc=1), 85),
    ("a wrong CRC-32 of no FFV1", summed(SOUND, crc=1), 85),
    ("a wrong CRC-32 of an element that passes", summed(BAD, ALL, crc=1), 85),
    ("a CRC-32 of an element that passes", summed(BAD, ALL), 52),
    ("a CRC-32 of three bytes", spell("BF83010203") + ALL, PLAIN),
    ("a CRC-32 that is not first", spell("EC80BF8401020304") + ALL, PLAIN),
    ("a CRC-32 that passes", spell("BF84010203"), 52),
    ("a CRC-32 in an entry", entry("BF8401020304", NUMBER, TYPE, CODEC, SIZE, PRIVATE), PLAIN),
]
TYPES = [
    ("no type", entry(NUMBER, CODEC, SIZE, PRIVATE), 51),
    ("a type of no bytes", entry("8380", CODEC, SIZE, PRIVATE), 51),
    ("type 2", entry(NUMBER, "838102", CODEC, SIZE, PRIVATE), 51),
    ("type 257", entry(NUMBER, "83820101", CODEC, SIZE, PRIVATE), 51),
    ("a type of eight bytes", entry(NUMBER, "83880000000000000001", CODEC, SIZE, PRIVATE), PLAIN),
    ("a type of nine bytes", entry(NUMBER, "83", NINE, CODEC, SIZE, PRIVATE), 81),
    ("the first type counts", entry(NUMBER, TYPE, "838102", CODEC, SIZE, PRIVATE), PLAIN),
    ("the first type is another", entry(NUMBER, "838102", TYPE, CODEC, SIZE, PRIVATE), 51),
    ("an ID with the same number", entry(NUMBER, "40038101", CODEC, SIZE, PRIVATE), 51),
    ("no codec", entry(NUMBER, TYPE, SIZE, PRIVATE), 51),
    ("a codec of no bytes", entry(TYPE, "8680", CODEC), 51),
    ("a codec with a byte 0", entry(NUMBER, TYPE, element("86", b"V_FFV1\0"), SIZE, PRIVATE),
     PLAIN),
    ("a codec with more after a 0", entry(NUMBER, TYPE, element("86", b"V_FFV1\0\0ab"), SIZE,
                                           PRIVATE), PLAIN),
    ("a codec after a byte 0", entry(TYPE, element("86", b"\0V_FFV1"), PRIVATE), 51),
    ("a longer codec", entry(TYPE, element("86", b"V_FFV1/3"), PRIVATE), 51),
    ("a shorter codec", entry(TYPE, element("86", b"V_FFV"), PRIVATE), 51),
    ("a codec in small letters", entry(TYPE, element("86", b"v_ffv1"), PRIVATE), 51),
    ("the first codec counts", entry(TYPE, element("86", b"V_VP9"), CODEC, PRIVATE), 51),
    ("no record", video(SIZE), (1, 1, 1, 0, 0, b"")),
    ("a record of no bytes", video(SIZE, "63A280", PRIVATE), (1, 1, 1, 0, 0, b"")),
    ("the first record counts", video(SIZE, PRIVATE, "63A28101"), PLAIN),
    ("FourCC", by_fourcc(BITMAP + RECORD), PLAIN),
    ("FourCC with a byte 0", entry(NUMBER, TYPE, element("86", b"V_MS/VFW/FOURCC\0"), SIZE,
                                   element("63A2", BITMAP, RECORD)), PLAIN),
    ("FourCC without a record", by_fourcc(BITMAP), (1, 1, 1, 0, 0, b"")),
    ("FourCC whose size says where the record ends", by_fourcc(b"A" + BITMAP[1:] + RECORD),
     (1, 1, 1, 0, 0, RECORD[:25])),
    ("FourCC whose size is that of all", by_fourcc(b"B" + BITMAP[1:] + RECORD), PLAIN),
    ("FourCC whose size passes it", by_fourcc(b"C" + BITMAP[1:] + RECORD), PLAIN),
    ("FourCC of 39 bytes", by_fourcc(BITMAP[:39]), 51),
    ("FourCC of no bytes", by_fourcc(b""), 51),
    ("FourCC alone", entry(NUMBER, TYPE, FOURCC, SIZE), 51),
    ("another FourCC", by_fourcc(BITMAP.replace(b"FFV1", b"FFVH") + RECORD), 51),
    ("FourCC in small letters", by_fourcc(BITMAP.replace(b"FFV1", b"ffv1") + RECORD), PLAIN),
    ("FourCC in letters of both kinds", by_fourcc(BITMAP.replace(b"FFV1", b"FfV1") + RECORD), PLAIN),
    ("a FourCC with a byte 11 for 1", by_fourcc(BITMAP.replace(b"FFV1", b"ffv\x11") + RECORD), 51),
    ("a FourCC with bytes below letters", by_fourcc(BITMAP.replace(b"FFV1", b"\6\6\x161") + RECORD), 51),
    ("FourCC a byte later", by_fourcc(b"\0" + BITMAP + RECORD), 51),
    ("FourCC and any biSize", by_fourcc(b"\xff\0\0\0" + BITMAP[4:] + RECORD), PLAIN),
    ("another FourCC first", by_fourcc(BITMAP.replace(b"FFV1", b"FFVH")) + ALL, PLAIN),
    ("V_FFV1 of a bitmap", video(SIZE, element("63A2", BITMAP)), (1, 1, 1, 0, 0, BITMAP)),
]
FIELDS = [
    ("ContentEncodings", video(SIZE, PRIVATE, "6D8080"), 83),
    ("ContentEncodings of FourCC", by_fourcc(BITMAP, "6D8080"), 83),
    ("ContentEncodings with content", video(element("6D80", "624080"), SIZE, PRIVATE), 83),
    ("ContentEncodings of sound", entry("838102 6D8080") + ALL, PLAIN),
    ("ContentEncodings of another codec", entry(TYPE, "6D8080", element("86", b"V_VP9")) + ALL,
     PLAIN),
    ("ContentEncodings in Video", video(PRIVATE, element("E0", "6D8080 B08101 BA8101")), PLAIN),
    ("ContentEncodings after Tracks' entry", ALL + spell("6D8080"), PLAIN),
    ("no number", entry(TYPE, CODEC, SIZE, PRIVATE), (0, *PLAIN[1:])),
    ("a number of no bytes", entry("D780", TYPE, CODEC, SIZE, PRIVATE), (0, *PLAIN[1:])),
    ("number 257", entry("D7820101", TYPE, CODEC, SIZE, PRIVATE), (257, *PLAIN[1:])),
    ("the greatest number", entry("D788FFFFFFFFFFFFFFFF", TYPE, CODEC, SIZE, PRIVATE),
     (2 ** 64 - 1, *PLAIN[1:])),
    ("a number of nine bytes", entry("D7", NINE, TYPE, CODEC, SIZE, PRIVATE), 81),
    ("the first number counts", entry(NUMBER, "D78102", TYPE, CODEC, SIZE, PRIVATE), PLAIN),
    ("no Video", video(PRIVATE), (1, 0, 0, 0, 0, RECORD)),
    ("Video of no bytes", sized(), (1, 0, 0, 0, 0, RECORD)),
    ("no height", sized("B08103"), (1, 3, 0, 0, 0, RECORD)),
    ("no width", sized("BA8103"), (1, 0, 3, 0, 0, RECORD)),
    ("sizes of two bytes", sized("B0820102 BA820304"), (1, 258, 772, 0, 0, RECORD)),
    ("sizes of no bytes", sized("B080 BA80"), (1, 0, 0, 0, 0, RECORD)),
    ("great sizes", sized("B084FFFFFFFF BA850100000000"),
     (1, 2 ** 32 - 1, 2 ** 32 - 1, 0, 0, RECORD)),
    ("the greatest sizes", sized("B088FFFFFFFFFFFFFFFF BA880000000000000007"),
     (1, 2 ** 32 - 1, 7, 0, 0, RECORD)),
    ("a width of nine bytes", sized("B0", NINE, "BA8101"), 81),
    ("a height of nine bytes", sized("B08101 BA", NINE), 81),
    ("the first width counts", sized("B08101 B08102 BA8101"), PLAIN),
    ("the first Video counts", video(PRIVATE, "E080", SIZE), (1, 0, 0, 0, 0, RECORD)),
    ("sizes beside Video", video(PRIVATE, "B08101 BA8101"), (1, 0, 0, 0, 0, RECORD)),
    ("all else in Video", sized("9A8101 9D8109 B08101 54B08105 BA8101 54BA8105 54B28103"), PLAIN),
    ("a duration of nine bytes", video(SIZE, PRIVATE, "23E383", NINE), 81),
    ("a duration of no bytes", video(SIZE, PRIVATE, "23E38380"), PLAIN),
]
# where a bad element is seen
BADS = [
    ("before the type", entry(BAD, "838102") + ALL, 52),
    ("after the type of sound", entry("838102", BAD) + ALL, PLAIN),
    ("before the codec of sound", entry("838102", BAD, CODEC) + ALL, PLAIN),
    ("before a codec", entry(TYPE, BAD), 52),
    ("before another codec", entry(TYPE, "EC00", element("86", b"V_VP9")) + ALL, 81),
    ("after another codec", entry(TYPE, element("86", b"V_VP9"), BAD) + ALL, PLAIN),
    ("after another codec, before its type", entry(element("86", b"V_VP9"), BAD), 52),
    ("before the record", entry(TYPE, CODEC, BAD), 52),
    ("before another FourCC", entry(TYPE, FOURCC, "ECFF", element("63A2", b"x")) + ALL, 81),
    ("after another FourCC", by_fourcc(BITMAP.replace(b"V", b"W"), BAD) + ALL, PLAIN),
    ("after too short a FourCC", by_fourcc(b"x", BAD) + ALL, PLAIN),
    ("after all", video(SIZE, PRIVATE, "23E38101", BAD), 52),
    ("after ContentEncodings", video(PRIVATE, "6D8080", BAD), 83),
    ("before ContentEncodings", video(PRIVATE, "ECFF 6D8080"), 81),
    ("before ContentEncodings, after the record", video(PRIVATE, BAD), 52),
    ("a long number, and ContentEncodings", entry("D7", NINE, TYPE, CODEC, "6D8080"), 83),
    ("a long number of sound", entry("838102 D7", NINE) + ALL, PLAIN),
    ("a long type of what has ContentEncodings", entry("6D8080 83", NINE, CODEC), 81),
    ("a long type after the first", entry(NUMBER, TYPE, "83", NINE, CODEC, SIZE, PRIVATE), PLAIN),
    ("in Video, first", sized("EC8F", "B08101 BA8101"), 52),
    ("in Video, between", sized("B08101", "ECFF", "BA8101"), 81),
    ("in Video, after both", sized("B08101 BA8101", BAD), PLAIN),
    ("in Video, after both the other way", sized("BA8101 B08101", "08"), PLAIN),
    ("in Video, after the width alone", sized("B08101", "08"), 81),
    ("in a second Video", video(PRIVATE, SIZE, element("E0", BAD)), PLAIN),
    ("in the Video of sound", entry("838102", element("E0", BAD)) + ALL, PLAIN),
    ("in an element that is not looked at", video(PRIVATE, SIZE, element("AE", BAD)), PLAIN),
]

# nanoseconds, rate, scale
RATES = [
    (0, 0, 0), (1, 1000000000, 1), (2, 500000000, 1), (3, 333333333, 1), (1024, 976563, 1),
    (16666666, 60, 1), (16666667, 60, 1), (16683333, 60000, 1001), (16683334, 60000, 1001),
    (20000000, 50, 1), (33333333, 30, 1), (33333334, 30, 1), (33366666, 30000, 1001),
    (33366667, 30000, 1001), (40000000, 25, 1), (41666666, 24, 1), (41666667, 24, 1),
    (41708333, 24000, 1001), (41708334, 24000, 1001), (66666667, 15, 1), (83333333, 12, 1),
    (80000000, 25, 2), (133333333, 15, 2), (240000000, 25, 6), (400000000, 5, 2),
    (999999999, 1000000000, 999999999), (1000000000, 1, 1), (1001000000, 1000, 1001),
    (2000000000, 1, 2), (3000000000, 1, 3), (4294967295, 200000000, 858993459),
    (4294967296, 1953125, 8388608), (4294967297, 0, 0), (2 ** 64 - 1, 0, 0),
    (4294967295000000000, 1, 4294967295), (4294967296000000000, 0, 0),
    (39999999, 1000000000, 39999999), (40000001, 1000000000, 40000001),
    (40000025, 40000000, 1600001), (41666668, 250000000, 10416667),
    (41666690, 100000000, 4166669),
]


def files():
    """What is new about a file of one Cluster without blocks, the file, and what its Tracks say or
    their fault."""
    for subject, rows in [("", ENTRIES), ("", TYPES), ("", FIELDS), ("a bad element ", BADS)]:
        for name, content, answer in rows:
            yield subject + name, content, answer
    for duration, rate, scale in RATES:
        number = duration.to_bytes((duration.bit_length() + 7) // 8, "big")
        for length in {len(number), 8}:
            yield f"{duration} nanoseconds", rated(number.rjust(length, b"\0")), \
                (1, 1, 1, rate, scale, RECORD)


def file_of(content):
    """A file with this content of Tracks, and a Cluster of no bytes after it."""
    return H + segment(element("1654AE6B", content, length=8), "1F43B67580")
