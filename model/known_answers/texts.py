# SPDX-License-Identifier: MIT OR Apache-2.0
"""Texts that are packed: frames whose bytes are known, texts that come back in their canonical
form, and texts that are refused."""
from known_answers.case import ANY, MONO, RED, Case, Step, avi, mono, one, ppm, y4m

# name, text, options of pack, configuration, payload, decisions
FRAMES = [
    ("sample 0", MONO, "--ec 0", one(), "FE7B000002", 11),
    ("sample 0 with parity", MONO, "", one(ec=1), "FE7B00000200948C133C", 11),
    ("sample 255", mono(1, 1, [255]), "--ec=0", one(), "FE18000002", 13),
    ("sample 128", mono(1, 1, [128]), "--ec 0", one(), "FE79F685000004", 27),
    ("four samples", mono(2, 2, [10, 20, 30, 40]), "--ec 0", one(width=2, height=2),
     "FE6CAF597A88000006", 48),
    ("two columns", mono(2, 1, [0, 0]), "--ec 0 --columns 2", one(width=2, columns=2),
     "FE7B0000023F76000002", 22),
    ("chroma", y4m("W1 H1 F0:0 I? A0:0 C444", bytes(3)), "--ec 0", one(chroma=True),
     "FEDE000002", 13),
    ("transparency", y4m("W1 H1 F0:0 I? A0:0 C444alpha", bytes(4)), "--ec 0",
     one(chroma=True, extra=True), "FEF5000002", 15),
    ("red", RED, "--ec 0", one(chroma=True, rct=True), "FE78DF83D92C000006", 45),
    ("a table in the record", mono(2, 2, [10, 20, 30, 40]), "--ec 0 --coder 2",
     one(width=2, height=2, coder=2), "FE6CAF597A88000006", 48),
]


def known_frames():
    """Each is packed, checked and unpacked."""
    for name, text, options, config, payload, decisions in FRAMES:
        payload = bytes.fromhex(payload)
        rate = (25, 1) if config.rct else (0, 0)
        lines = (f"frame 0: {len(payload)} bytes, {config.slices()} slices, {decisions} decisions\n"
                 "frames 1\n")
        steps = [
            Step(["pack", *options.split(), "in", "out"], f"frames 1 bytes {len(payload)}\n"),
            Step(["check", "out"], lines),
            Step(["check", "--place", "out"], lines),
            Step(["unpack", "out", "back"], "frames 1\n"),
        ]
        yield Case(name, {"in": text}, steps,
                   {"in": text, "out": avi(config, [payload], *rate), "back": text})


# ---------------------------------------------------------------------------------- canonical texts

KEPT = "ffv1: in: --rate and --scale are for PPM: the rate of the text stands\n"
LOST = "ffv1: out: AVI holds no range of colours and no siting of chroma, but .mkv does\n"


def round_trip(name, text, words, canonical, frames=1, errors=None):
    """A text is packed and unpacked."""
    steps = [Step(["pack", *words.split(), "in", "out"], ANY, errors=errors or ""),
             Step(["unpack", "out", "back"], f"frames {frames}\n")]
    return Case(name, {"in": text}, steps, {"in": text, "back": canonical})


SIX = bytes([1, 2, 3, 4, 250, 6])
CANONICAL = "W2 H2 F25:1 I? A0:0 C420jpeg"
HEADER = b"YUV4MPEG2 W2 H2 C420jpeg X"
LONGEST = HEADER + b"x" * (1024 - len(HEADER))


# the tags C and X of a text, those that come back from Matroska, and whether an AVI loses any
COLOURS = [
    ("C420jpeg", "C420jpeg", False), ("C420mpeg2", "C420mpeg2", True), ("C420paldv", "C420paldv", True),
    ("C420", "C420jpeg", False), ("", "C420jpeg", False), ("Xa", "C420jpeg", False),
    ("XCOLORRANGE=FULL", "C420jpeg XCOLORRANGE=FULL", True),
    ("Xa XCOLORRANGE=LIMITED C420paldv Xb", "C420paldv XCOLORRANGE=LIMITED", True),
    ("XCOLORRANGE=full XCOLORRANGE= XCOLORRANGE=FULL", "C420jpeg XCOLORRANGE=FULL", True),
    ("XCOLORRANGE=FULLY C420jpeg", "C420jpeg", False),
]


# what the line says stands above what the text says
CHOSEN = [
    ("--range full", "420jpeg", "420jpeg XCOLORRANGE=FULL"),
    ("--range limited", "420jpeg XCOLORRANGE=FULL", "420jpeg XCOLORRANGE=LIMITED"),
    ("--range auto", "420jpeg XCOLORRANGE=FULL", "420jpeg XCOLORRANGE=FULL"),
    ("--siting topleft", "420mpeg2", "420paldv"), ("--siting centre", "420mpeg2", "420jpeg"),
    ("--siting left --primaries 5 --transfer 1 --matrix 255", "420jpeg", "420mpeg2"),
]


def coloured_texts():
    """The range and the siting of chroma: Matroska holds them, and an AVI does not."""
    for tags, written, lost in COLOURS:
        text = y4m(f"W2 H2 F25:1 {tags}".rstrip(), SIX)
        yield round_trip(f"colours {tags} in Matroska", text, "--container mkv",
                         y4m(f"W2 H2 F25:1 I? A0:0 {written}", SIX))
        yield round_trip(f"colours {tags} in AVI", text, "", y4m(CANONICAL, SIX),
                         errors=LOST if lost else "")
    for name, length in [("422p10", 16), ("mono", 4), ("444", 12), ("411", 8)]:
        text = y4m(f"W2 H2 F25:1 I? A0:0 C{name} XCOLORRANGE=LIMITED", bytes(length))
        yield round_trip(f"a range of {name}", text, "--container mkv", text)
    for words, tags, written in CHOSEN:
        yield round_trip(f"colours {words} of {tags}", y4m(f"W2 H2 F25:1 C{tags}", SIX),
                         f"--container mkv {words}", y4m(f"W2 H2 F25:1 I? A0:0 C{written}", SIX))
    deep = y4m("W2 H2 F25:1 I? A0:0 C422p10", bytes(16))
    yield round_trip("a siting that a text cannot say", deep, "--container mkv --siting left", deep)
    yield round_trip("a range of RGB", ppm(1, 1, b"abc"), "--container mkv --range full",
                     ppm(1, 1, b"abc"))
    for tags in ["XCOLORRANGE=FULL XCOLORRANGE=FULL", "XCOLORRANGE=FULL XCOLORRANGE=LIMITED"]:
        yield refused(f"two ranges {tags}", y4m(f"W2 H2 {tags}", SIX), "61 Tag")


def tagged_texts():
    """The tags of a header."""
    yield round_trip("chroma by a name", y4m("W2 H2 F25:1 C420mpeg2 Xa", SIX), "",
                     y4m(CANONICAL, SIX), errors=LOST)
    yield round_trip("no tag C", y4m("H2 W2 F25:1", SIX), "", y4m(CANONICAL, SIX))
    yield round_trip("all tags", y4m("Xa A59:54 C422 F30000:1001 Ib Xb H1 W3", bytes(range(7))),
                     "--contexts large", y4m("W3 H1 F30000:1001 Ib A59:54 C422", bytes(range(7))))
    yield round_trip("a header of 1024 bytes", LONGEST + b"\nFRAME\n" + SIX, "",
                     y4m("W2 H2 F0:0 I? A0:0 C420jpeg", SIX))
    yield round_trip("rates of a text stay", mono(1, 1, [7]), "--rate 5 --scale 6",
                     mono(1, 1, [7]), errors=KEPT)
    for letter in "ptb?":
        text = y4m(f"W1 H1 F1:4294967295 I{letter} A65535:1 Cmono", b"\x07")
        yield round_trip(f"interlacing {letter}", text, "", text)
    for name, length in [("411", 6 + 2 * 2), ("444", 18), ("422", 6 + 2 * 4), ("420paldv", 10),
                         ("444alpha", 24)]:
        samples = bytes(range(length))
        written = "420jpeg" if name == "420paldv" else name
        yield round_trip(f"chroma {name}", y4m(f"W3 H2 C{name}", samples), "",
                         y4m(f"W3 H2 F0:0 I? A0:0 C{written}", samples),
                         errors=LOST if name == "420paldv" else "")


def several_pictures():
    """Texts of more than one picture."""
    text = y4m(CANONICAL, SIX, SIX[::-1])
    yield round_trip("two pictures", text, "--rows 1 --coder 2", text, 2)
    images = ppm(2, 2, bytes(range(12))) + ppm(2, 2, bytes(range(90, 102)))
    yield round_trip("two images", images, "--columns 2 --rows 2", images, 2)


# as Netpbm and others write a header of 1 by 1, of 8 bits
SPACED = [
    b"P6 1 1\n255\n", b"P6\n1\n1\n255\n", b"P6\n#c\n1 1\n255\n", b"P6 1 1 255 ",
    b"P6\t1\r1\n\r\n255\t",
    b"P6\n# GIMP\n# two lines\n1 1\n255\n", b"P6\r\n1 1\r\n255\r", b"P6 #c\r1 #P5\n1 255\n",
    b"P6" + b" " * 65536 + b"1 1 255\n", b"P6 #" + b"c" * 65533 + b"\n1 1 255\n",
]


def spaced_images():
    """Headers of PPM with any white space and comments."""
    for header in SPACED:
        name = header if len(header) < 64 else header[:12] + b".."
        yield round_trip(f"header {name!r}", header + b"\xff\0\0", "", RED)
    both = b"P6 1 1 255\n\xff\0\0" + b"P6\n#\n1\n1 255 \0\xff\n"
    yield round_trip("two images of other headers", both, "", RED + ppm(1, 1, b"\0\xff\n"), 2)
    deep = b"P6 # deep\n1 1\n65535\n" + bytes(6)
    spelled = b"P6\n1 1\n65535\n" + bytes(6)
    yield round_trip("RGB of 16 bits with a comment", deep, "", spelled)
    far = b"P6" + b" " * 65537 + b"1 1 255\n\xff\0\0"
    yield refused("65536 bytes after the first of white space", far, "60 Header")
    yield refused("another size after a comment", RED + b"P6 #\n2 1 255\n" + bytes(6),
                  "71 FormatChanged")


# ------------------------------------------------------------------------------------ refused texts

def refused(name, text, fault, words=""):
    """A text that is not packed: nothing is written."""
    return Case(name, {"in": text}, [Step(["pack", *words.split(), "in", "out"], "", fault)],
                {"in": text, "out": b""})


# tags, fault
TAGS = [
    ("W2 H2 C420p11", "62 Unsupported"), ("W2", "61 Tag"), ("W2 W2 H2", "61 Tag"),
    ("W02 H2", "61 Tag"), ("W2 H2 Im Q1", "62 Unsupported"), ("W2 H2 Q1 Im", "61 Tag"),
    ("W2 H8193", "61 Tag"), ("W0 H2", "61 Tag"), ("W2 H2 ", "61 Tag"), ("W2 H2 F25", "61 Tag"),
    ("W2 H2 F0:1", "61 Tag"), ("W2 H2 A1:65536", "61 Tag"), ("W2 H2 A1:0", "61 Tag"),
    ("W2 H2 Ix", "61 Tag"), ("W2 H2 C444 C9", "61 Tag"), ("W2 H2 F4294967296:1", "61 Tag"),
    ("H+2 W2", "61 Tag"), ("W2 H2\r", "61 Tag"),
]
IMAGE_HEADERS = [
    b"P5\n1 1\n255\n", b"P6\n01 1\n255\n", b"P6\n1 8193\n255\n", b"P6\n1 1\n65534\n",
    b"P6\n1 0\n255\n", b"P6\n1 1\n25", b"P61 1\n255\n", b"P6#c\n1 1\n255\n",
    b"P6\n1#c\n1\n255\n", b"P6\n1 1\n255#c\n", b"P6\n1 1\n255#\n \n", b"P6\n1\x0b1\n255\n",
    b"P6\n#c 1 1 255\n", b"P6\n1 +1\n255\n", b"P6\n1 1 0255\n",
]


def refused_headers():
    """Headers that are refused."""
    yield refused("no bytes", b"", "60 Header")
    yield refused("a header alone", y4m("W2 H2 F25:1 C420mpeg2 Xa"), "70 NoFrames")
    yield refused("a header of 1025 bytes", LONGEST + b"x\nFRAME\n" + SIX, "60 Header")
    yield refused("a header without its end", b"YUV4MPEG2 W2 H2", "60 Header")
    yield refused("another format", b"YUV4MPEG3 W2 H2\nFRAME\n" + SIX, "60 Header")
    for tags, fault in TAGS:
        yield refused(f"tags {tags!r}", y4m(tags, SIX), fault)
    for header in IMAGE_HEADERS:
        yield refused(f"header {header!r}", header + bytes(3), "60 Header")


def refused_pictures():
    """Pictures that are refused, after headers that are not."""
    yield refused("parameters of a picture", y4m("W2 H2") + b"FRAME Ip\n" + SIX, "63 FrameLine")
    yield refused("a second line that is none", y4m("W2 H2", SIX) + b"FRAMF\n" + SIX,
                  "63 FrameLine")
    yield refused("a line cut off", y4m("W2 H2") + b"FRAM", "64 FrameTruncated")
    yield refused("a sample too few", y4m("W2 H2", SIX, SIX[:5]), "64 FrameTruncated")
    yield refused("a byte after a picture", y4m("W2 H2", SIX) + b"\n", "63 FrameLine")
    yield refused("an image cut off", RED[:-1], "64 FrameTruncated")
    yield refused("a second image of another size", RED + ppm(2, 1, bytes(6)), "71 FormatChanged")
    yield refused("a second image that is none", RED + b"\n", "60 Header")
    yield refused("a second image cut off in its header", RED + b"P6\n2", "60 Header")


def refused_grids():
    """Grids that a picture does not have."""
    yield refused("three columns of two samples", y4m("W2 H2", SIX), "11 Grid", "--columns 3")
    yield refused("a grid is judged before pictures", y4m("W2 H2"), "11 Grid", "--rows 3")
    yield refused("32 columns of 31 samples", mono(31, 1, bytes(31)), "11 Grid", "--columns 32")
    yield refused("an edge within chroma", y4m("W7 H1", bytes(15)), "12 ChromaEdge", "--columns 2")
    yield round_trip("an edge between chroma", y4m("W5 H1", bytes(range(11))), "--columns 2",
                     y4m("W5 H1 F0:0 I? A0:0 C420jpeg", bytes(range(11))))


CASES = [known_frames, tagged_texts, coloured_texts, several_pictures, spaced_images, refused_headers,
         refused_pictures, refused_grids]
