# SPDX-License-Identifier: MIT OR Apache-2.0
"""Samples of 9 to 16 bits: frames whose bytes FFmpeg decodes to the same samples, records, texts."""
import itertools

import ffv1
import files
from known_answers.case import Case, Step, avi, checked, coded, fault_of, one, sealed, y4m

# depth, sample, payload of a mono picture of that sample, decisions
SINGLE = [
    (9, 0, "FE7B000002", 11), (9, 511, "FE18000002", 13), (9, 256, "FE7A7B22000004", 29),
    (10, 0, "FE7B000002", 11), (10, 1023, "FE18000002", 13), (10, 512, "FE7ABD89000004", 31),
    (12, 0, "FE7B000002", 11), (12, 4095, "FE18000002", 13), (12, 2048, "FE7AEE9985000005", 35),
    (14, 0, "FE7B000002", 11), (14, 16383, "FE18000002", 13), (14, 8192, "FE7AFA930C000005", 39),
    (16, 0, "FE7B000002", 11), (16, 65535, "FE18000002", 13),
    (16, 32768, "FE7AFE070164000006", 43),
]


def sampled(depth, width, samples):
    """A plane of samples."""
    return [list(samples[at:at + width]) for at in range(0, len(samples), width)]


# name, configuration, planes, payload, decisions
PICTURES = [
    *((f"mono of {depth} bits, {sample}", one(depth=depth), [[[sample]]], payload, decisions)
      for depth, sample, payload, decisions in SINGLE),
    ("mono of 10 bits", one(width=2, height=2, depth=10), [sampled(10, 2, [10, 20, 30, 40])],
     "FE6CAF597A88000006", 48),
    ("mono of 10 bits, far apart", one(width=2, height=2, depth=10),
     [sampled(10, 2, [40, 1000, 600, 5])], "FE77611778EB139421000009", 68),
    ("mono of 16 bits, of signed prediction", one(width=2, height=2, depth=16),
     [sampled(16, 2, [10000, 40000, 50000, 20000])],
     "FE7AFB18D00FEEBB8EBFD58DF31F949120000011", 132),
    ("mono of 12 bits", one(width=3, height=2, depth=12),
     [sampled(12, 3, [4095, 0, 4095, 0, 4095, 2048])], "FE1C0AD8D271000006", 48),
    ("4:2:2 of 10 bits", one(width=2, chroma=True, log2_h=1, depth=10),
     [[[64, 940]], [[512]], [[960]]], "FE78ED08171EBD8C935000000A", 78),
    ("4:4:4 of 16 bits with transparency", one(chroma=True, extra=True, depth=16),
     [[[32768]], [[1]], [[65535]], [[65535]]], "FEA57EA800F6D7000007", 53),
    ("red of 10 bits", one(rct=True, chroma=True, depth=10), [[[1023]], [[0]], [[0]]],
     "FE7A7A386F611E000007", 53),
    ("red of 12 bits", one(rct=True, chroma=True, depth=12), [[[4095]], [[0]], [[0]]],
     "FE7ADEB387B3FD52000008", 61),
    ("red of 14 bits", one(rct=True, chroma=True, depth=14), [[[16383]], [[0]], [[0]]],
     "FE7AF67B39FE67022C000009", 69),
    ("green of 10 bits", one(rct=True, chroma=True, depth=10), [[[0]], [[1023]], [[0]]],
     "FE7A7A0F51F020000007", 53),
    ("blue of 10 bits", one(rct=True, chroma=True, depth=10), [[[0]], [[0]], [[1023]]],
     "FE7ABD3D80000005", 35),
    ("red of 10 bits with transparency", one(rct=True, chroma=True, extra=True, depth=10),
     [[[1023]], [[0]], [[0]], [[1023]]], "FEA524F834B0CD5B4EA800000A", 75),
    ("red of 16 bits", one(rct=True, chroma=True, depth=16), [[[65535]], [[0]], [[0]]],
     "FE7AFCC7EED7F247068100000A", 77),
    ("green of 16 bits", one(rct=True, chroma=True, depth=16), [[[0]], [[65535]], [[1]]],
     "FE7AFE06F946000006", 49),
    ("red of 16 bits with transparency", one(rct=True, chroma=True, extra=True, depth=16),
     [[[65535]], [[0]], [[0]], [[65535]]], "FEA57DCEF447F69904B67F677CB000000E", 111),
    ("RGB of 10 bits", one(width=2, height=2, rct=True, chroma=True, depth=10),
     [sampled(10, 2, [1, 2, 3, 4]), sampled(10, 2, [500, 501, 502, 503]),
      sampled(10, 2, [1023, 0, 1023, 0])],
     "FE7AC591A5EB7ABAB51BD85054C0C48D1DD8000012", 144),
    ("two columns of 10 bits with parity", one(width=2, columns=2, ec=1, depth=10), [[[0, 1023]]],
     "FE7B00000200948C133C3F3D000002004ECE78E2", 24),
]


def deep_text(config, planes):
    """The text of a picture, or none where it has no name."""
    if config.rct:
        if config.extra:
            return None
        samples = files.ppm_line([sum(plane, []) for plane in planes], config.depth)
        return b"P6\n%d %d\n%d\n" % (config.width, config.height, 2 ** config.depth - 1) + samples
    name = files.name_of((config.chroma, config.log2_h, config.log2_v, config.extra), config.depth)
    if name is None:
        return None
    return y4m(f"W{config.width} H{config.height} F0:0 I? A0:0 C{name.decode()}",
               b"".join(sample.to_bytes(2, "little") for plane in planes for line in plane
                        for sample in line))


def pictures():
    """A picture is packed to a known file, and back; the file's decisions are known."""
    for name, config, planes, payload, decisions in PICTURES:
        config.wide = True
        payload, text = bytes.fromhex(payload), deep_text(config, planes)
        rate = (25, 1) if config.rct else (0, 0)
        file = avi(config, [payload], *rate)
        yield checked(f"{name} is checked", file,
                      f"frame 0: {len(payload)} bytes, {config.slices()} slices, "
                      f"{decisions} decisions\nframes 1\n")
        if text is None:
            fault = "73 NoPpm" if config.rct else "72 NoY4mName"
            yield Case(f"{name} has no text", {"in": file},
                       [Step(["unpack", "in", "back"], "", fault)], {"back": b""})
            continue
        yield Case(f"{name} is unpacked", {"in": file},
                   [Step(["unpack", "in", "back"], "frames 1\n")], {"back": text})
        words = ["--columns", str(config.columns), "--ec", str(config.ec)]
        yield Case(f"{name} is packed", {"in": text},
                   [Step(["pack", *words, "in", "out"], f"frames 1 bytes {len(payload)}\n")],
                   {"out": file})


# a residual of a mono picture of 10 bits, the sample, decisions
RESIDUALS = [(512, 512, 31), (-512, 512, 31), (1024, 0, 33), (1023, 1023, 31), (-1, 1023, 13),
             (2147483647, 1023, 73)]
# name, configuration, residuals of one place: no colour
COLOURS = [
    ("a colour of 10 bits", one(rct=True, chroma=True, depth=10), [1023, 1, 0]),
    ("a colour of 16 bits", one(rct=True, chroma=True, depth=16), [65535, 1, 0]),
    ("a transparency of 10 bits", one(rct=True, chroma=True, extra=True, depth=10), [0, 1024, 0, -1]),
]


def made():
    """Payloads made by hand: a sample is taken modulo its bits, and what is no colour is refused."""
    for residual, sample, decisions in RESIDUALS:
        config = one(depth=10)
        payload = sealed(config, coded(config, 0, [residual]))
        file = avi(config, [payload], 0, 0)
        yield checked(f"a residual of {residual}", file,
                      f"frame 0: {len(payload)} bytes, 1 slices, {decisions} decisions\nframes 1\n")
        yield Case(f"a residual of {residual} is unpacked", {"in": file},
                   [Step(["unpack", "in", "back"], "frames 1\n")],
                   {"back": y4m("W1 H1 F0:0 I? A0:0 Cmono10", sample.to_bytes(2, "little"))})
    for name, config, residuals in COLOURS:
        encoder = ffv1.Encoder()
        ffv1.put_head(encoder, config, 0, [0] * ffv1.index_count(config), 0, 0, 0)
        for plane, residual in enumerate(residuals):
            ffv1.put_number(encoder, ("sample", ffv1.class_of(plane), 0), residual, signed=True)
        yield checked(name, avi(config, [sealed(config, encoder.sentinel())]), "", "7 Colour")


SHOWN = """size 1x1
coder 1
colour YCbCr
chroma mono
depth 10
slices 1x1
contexts 666
ec 0
intra 1
rate 0/0
held states 21312 samples 3 output 2 columns 1 offsets 1025
"""
HELD = [
    ("held of two columns", one(width=352, height=2, chroma=True, log2_h=1, log2_v=1, columns=2, depth=10),
     "held states 85248 samples 1056 output 704 columns 2 offsets 1025"),
    ("held of RGB", one(width=352, height=2, rct=True, chroma=True, columns=4, depth=10,
                        sets=[ffv1.LARGE]),
     "held states 4259328 samples 3168 output 2112 columns 4 offsets 1025"),
    ("held of RGB of 16 bits", one(width=352, height=2, rct=True, chroma=True, columns=4, depth=16),
     "held states 170496 samples 3168 output 2112 columns 4 offsets 1025"),
]


def texts():
    """A text of mono of 10 bits: what is said of its file, and what is refused."""
    text = y4m("W1 H1 Cmono10", b"\xff\x03")
    yield Case("a text of 10 bits", {"in": text},
               [Step(["pack", "--ec", "0", "in", "out"], "frames 1 bytes 5\n"),
                Step(["show", "out"], SHOWN), Step(["unpack", "out", "back"], "frames 1\n")],
               {"back": y4m("W1 H1 F0:0 I? A0:0 Cmono10", b"\xff\x03")})
    yield refused("a sample of 1024", y4m("W1 H1 Cmono10", b"\x00\x04"), "65 SampleTooLarge")
    yield refused("a second sample of 1024", y4m("W2 H1 Cmono10", b"\0\0\x00\x04"),
                  "65 SampleTooLarge")
    yield refused("a sample of one byte", y4m("W1 H1 Cmono10", b"\xff"), "64 FrameTruncated")
    yield refused("a cut after a sample of 1024", y4m("W2 H1 Cmono10", b"\x00\x04\xff"),
                  "64 FrameTruncated")
    yield Case("a trial of 10 bits", {"in": text}, [Step(["trial", "in"], "", "62 Unsupported")])


def refused(name, text, fault):
    return Case(name, {"in": text}, [Step(["pack", "in", "out"], "", fault)], {"out": b""})


NAMED = ["420p9", "420p10", "420p12", "420p14", "420p16", "422p10", "444p16", "mono9", "mono10",
         "mono12", "mono16"]
UNNAMED = ["mono14", "420p11", "444alphap10", "420p10le", "440p10", "411p10", "420p8", "420p010"]


def names():
    """Which names of chroma say a depth: a text of no picture is 70, of another name 62."""
    for name in NAMED:
        yield refused(f"the name {name}", y4m(f"W2 H2 C{name}"), "70 NoFrames")
    for name in UNNAMED:
        yield refused(f"the name {name}", y4m(f"W2 H2 C{name}"), "62 Unsupported")
    for name, config in [
            ("mono of 14 bits", one(depth=14)),
            ("4:4:0 of 10 bits", one(chroma=True, log2_v=1, depth=10)),
            ("4:1:1 of 10 bits", one(chroma=True, log2_h=2, depth=10)),
            ("4:4:4 of 10 bits with transparency", one(chroma=True, extra=True, depth=10))]:
        planes = [[[0]]] * ffv1.plane_count(config)
        file = avi(config, [ffv1.encode_frame(config, planes, [0, 0, 0])])
        yield Case(f"{name} has no name", {"in": file},
                   [Step(["unpack", "in", "back"], "", "72 NoY4mName")], {"back": b""})


def image(maximum, samples):
    return b"P6\n1 1\n%d\n" % maximum + samples


def images():
    """Images of two bytes a sample, the high one first."""
    text = image(1023, bytes.fromhex("03FF00000000"))
    yield Case("an image of 10 bits", {"in": text},
               [Step(["pack", "--ec", "0", "in", "out"], "frames 1 bytes 10\n"),
                Step(["unpack", "out", "back"], "frames 1\n")], {"back": text})
    yield refused("an image with a sample of 1024", image(1023, bytes.fromhex("040000000000")),
                  "65 SampleTooLarge")
    yield refused("an image that is cut", image(1023, bytes.fromhex("0400000000")),
                  "64 FrameTruncated")
    yield refused("images of 1023 and 4095", text + image(4095, bytes(6)), "71 FormatChanged")
    yield refused("images of 1023 and 255", text + image(255, bytes(3)), "71 FormatChanged")
    for maximum in [1, 127, 254, 256, 1000, 2047, 8191, 32767, 65536]:
        yield refused(f"an image of {maximum}", image(maximum, bytes(6)), "60 Header")
    for maximum in [511, 1023, 4095, 16383, 65535]:
        text = image(maximum, bytes(6))
        yield Case(f"an image of {maximum}", {"in": text},
                   [Step(["pack", "in", "out"], None), Step(["unpack", "out", "back"], "frames 1\n")],
                   {"back": text})


# depth, the record of a mono picture of 1 by 1 with parity
RECORDS = [
    (8, "56003029E14F7638B82B67DB664A1B2F41A0E7CD4800A39AAA45"),
    (9, "560037CE1EA8C05C7122DBFA1978143EF07EEBD568008A4B34E5"),
    (10, "56003F17F59C63EA54D138F6D8A15F854E3B74E7B000E804CA71"),
    (12, "56004D5AE14F7638B82B67DB664A1B2F41A0E7CD480072D14096"),
    (14, "56005C48F59C63EA54D138F6D8A15F854E3B74E7B00057FCCDD3"),
    (16, "5600679AD3275E562E30DA37AD3FF9160E541A33D4006EE2BBEF"),
]
BITS = [0, 1, 7, 8, 9, 10, 11, 12, 13, 14, 15, 16, 17, 24, 32]
TAKEN = [0, 8, 9, 10, 12, 14, 16]


def record_fault(depth, rct, wide):
    """The fault of a record with so many bits, or none."""
    record = ffv1.write_record(ffv1.Config(1, 1, rct=rct, chroma=rct, depth=depth))
    return fault_of(lambda: ffv1.read_record(record, 1, 1, wide))


def checks():
    """Records by their depth."""
    for depth, record in RECORDS:
        yield f"a record of {depth} bits", ffv1.write_record(ffv1.Config(1, 1, depth=depth)).hex().upper(), record
    for bits, rct in itertools.product(BITS, [False, True]):
        wanted = None if bits in TAKEN else 21
        yield f"{bits} bits are read", record_fault(bits, rct, True), wanted
        strict = None if bits in (0, 8) else 21
        yield f"{bits} bits are read strictly", record_fault(bits, rct, False), strict
    for name, config, line in HELD:
        file = avi(config, [])
        yield name, shown_held(file), line


def shown_held(file):
    """The last line that `show` prints of a file."""
    import commands
    printed = []
    read = iter([file])
    commands.show(files.Source(lambda count: next(read, b"")), printed.append, False)
    return printed[-1].rstrip("\n")


CASES = [pictures, made, texts, names, images]
