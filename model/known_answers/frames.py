# SPDX-License-Identifier: MIT OR Apache-2.0
"""Payloads of small pictures that are known: worked out by hand from the formats, or by another
implementation. `check.py` asks them of the model, and `make_vectors.py` writes them for the crates.
"""
import ffv1
from known_answers.case import coded, sealed

NOTHING = [0, 0, 0]                 # nothing is said of a picture
ALL = 100000                        # more lines than there are
PARITY = "FE7B00000200948C133C"     # the sample 0 with a parity


def mono(width=1, height=1, columns=1, **changes):
    """Pictures of one plane in one row of slices, by the small set, without parity."""
    return ffv1.Config(width, height, columns=columns, **{"ec": 0, **changes})


def three(**changes):
    """Pictures of one sample in each of three planes."""
    return mono(chroma=True, **changes)


def colours(**changes):
    """The same in RCT."""
    return three(rct=True, **changes)


# ------------------------------------------------------------------------------ pictures and frames

def sample(plane, x, y):
    return (x * 3 + y * 5 + plane * 40 + x * y % 3) % 256


def filled(plane, width, height):
    return [[sample(plane, x, y) for x in range(width)] for y in range(height)]


def four(luma, chroma):
    """Four planes, those of chroma of sizes of their own."""
    return [filled(plane, *[luma, chroma, chroma, luma][plane]) for plane in range(4)]


# 12 by 8 in 4:2:0 with transparency, the last class with the set before
TRANSPARENT = ffv1.Config(12, 8, chroma=True, log2_h=1, log2_v=1, extra=True, columns=3, rows=2,
                          sets=[ffv1.SMALL, ffv1.LARGE])
TRANSPARENT_FRAME = (
    "F8DA4E7F4810BDDCEC41F72249EE4DD31BE4165687B5E20ADAA33FF7DFD66C9A205F7C00002300D27331C03B"
    "575335D356F4FBFC0F077401C10852F48AF0879AA56E92B91229954DEB8750A88AD600002300AA4507D44E95"
    "9C227555394DF502F9E3E4DE593A0FCCEB2D01471E9CACFC4D3D00060C272F7ED82F710000250012E1883699"
    "AA8847F75131D5EAAD505DAD79A3A250466CD708064A49B1FC9721126FF45FBAD7075817000025006B19B76F"
    "0F8FBB32187945C7E8FC86A10851767303C2E9C0782A8BAD3156BF5CF67C97052954E69D8A000025002C6145"
    "F4434ACD4BF94C8BCEB09AE0A4E4A60B31EDC6E883B6D5008CBF5150EBD10C8DC380853AB25600002500D7BA"
    "E687")
# 7 by 5 in RCT with transparency, each class with a set of its own, where the state 129 moves
# further after a 1
COLOURED = ffv1.Config(7, 5, coder=2, deltas=[0] * 128 + [2] + [0] * 126, rct=True, chroma=True,
                       extra=True, columns=2, rows=2, sets=[ffv1.SMALL, ffv1.LARGE, ffv1.SMALL],
                       ec=0, intra=0)
COLOURED_FRAME = (
    "F91A55BBFE5E16BFBB96BA61C4B2A23F7F97381C0000143B70EE2F0A9C1BFC5180037DDCE5026F05436CAA84"
    "8400001699E4AAB5D100068DE752310B425F1E5F8CFBC23BBA358E6C260000190FB04562DF7C182CF71A4D75"
    "62400ACB2BA58B49F7BE4027BA1DCEF29C00001D")
# one line of 32 samples 0, in as many slices
LINE = (
    "FE7B0000023F760000024F9E0000025F8E000002639800000267940000026B900000026F8C000002708DD400"
    "0003718CD4000003728BD4000003738AD40000037489D40000037588D40000037687D40000037786D4000003"
    "77C7760000037807360000037846F60000037886B600000378C6760000037906360000037945F60000037985"
    "B600000379C5760000037A05360000037A44F60000037A84B60000037AC4760000037B04360000037B43F600"
    "00037B83B6000003")


def ones(*samples):
    """Planes of one sample."""
    return [[[value]] for value in samples]


# name, configuration, what is said, planes, payload, decisions of residuals, renormalisations
ENCODED = [
    ("the sample 0", mono(), NOTHING, ones(0), "FE7B000002", 1, 1),
    ("the sample 255", mono(), NOTHING, ones(255), "FE18000002", 3, 1),
    ("the sample 128", mono(), NOTHING, ones(128), "FE79F685000004", 17, 3),
    ("a parity", mono(ec=1), NOTHING, ones(0), PARITY, 1, 1),
    ("two columns", mono(2, columns=2), NOTHING, [[[0, 0]]], "FE7B0000023F76000002", 2, 2),
    ("32 columns", mono(32, columns=32), NOTHING, [[[0] * 32]], LINE, 32, 56),
    ("deltas of 0", mono(coder=2), NOTHING, ones(0), "FE7B000002", 1, 1),
    ("three planes", three(), NOTHING, ones(0, 0, 0), "FEDE000002", 3, 1),
    ("four planes", three(extra=True), NOTHING, ones(0, 0, 0, 0), "FEF5000002", 4, 1),
    ("red", colours(), NOTHING, ones(255, 0, 0), "FE78DF83D92C000006", 35, 5),
    ("red with transparency", colours(extra=True), NOTHING, ones(255, 0, 0, 255),
     "FEA40D812CD6D2AA000008", 52, 7),
    ("four samples", mono(2, 2), NOTHING, [[[10, 20], [30, 40]]], "FE6CAF597A88000006", 38, 5),
    ("slices with transparency", TRANSPARENT, [1, 16, 11], four((12, 8), (6, 4)),
     TRANSPARENT_FRAME, 1550, 212),
    ("slices of colours", COLOURED, [3, 1, 1], four((7, 5), (7, 5)), COLOURED_FRAME, 682, 92),
]


def heads_of(config, info):
    """The decisions of the keys and the heads of all slices, each class with its own set."""
    indexes = [min(k, len(config.sets) - 1) for k in range(ffv1.index_count(config))]
    count = 0
    for slice in range(config.slices()):
        encoder = ffv1.Encoder(config.table())
        ffv1.put_head(encoder, config, slice, indexes, *info)
        count += encoder.history.count
    return count


def counts_of(config, info, payload):
    """The decisions of the residuals of a frame, and the renormalisations of its slices, their
    endings among them."""
    slices = [ffv1.Slice(config, number, payload[begin:end])
              for number, (begin, end) in enumerate(ffv1.cut(config, payload))]
    for r in range(config.rows):
        ffv1.decode_row(config, slices, r, ffv1.Decoded(), None)
    decisions = sum(slice.decoder.history.count for slice in slices)
    for slice in slices:
        slice.decoder.interval.narrow(129, 0)
    renormalisations = sum(slice.decoder.interval.count - 2 for slice in slices)
    return decisions - heads_of(config, info), renormalisations


# ---------------------------------------------------------------------- payloads that are decoded

TWO = mono(2, columns=2)
SQUARE = mono(2, 2)
HALVES = mono(2, 2, columns=2)
RED = bytes([255, 0, 0])

# name, configuration, payload, samples of all planes, decisions
DECODED = [
    ("the sample 0", mono(), "FE7B000002", bytes(1), 11),
    ("a parity", mono(ec=1), PARITY, bytes(1), 11),
    ("the sample 255", mono(), "FE18000002", b"\xff", 13),
    ("the sample 128", mono(), "FE79F685000004", b"\x80", 27),
    ("four samples", SQUARE, "FE6CAF597A88000006", bytes([10, 20, 30, 40]), 48),
    ("two columns", TWO, "FE7B0000023F76000002", bytes(2), 22),
    ("three planes", three(), "FEDE000002", bytes(3), 13),
    ("red", colours(), "FE78DF83D92C000006", RED, 45),
    ("four planes", three(extra=True), "FEF5000002", bytes(4), 15),
    ("red with transparency", colours(extra=True), "FEA40D812CD6D2AA000008", RED + b"\xff", 63),
    ("32 columns", mono(32, columns=32), LINE, bytes(32), 548),
    ("deltas of 0", mono(coder=2), "FE18000002", b"\xff", 13),
    ("a residual of 2^30", mono(), "FE7AFFFB120000000007", bytes(1), 73),
    ("a residual of 1 - 2^31", mono(), "FE7AFFFBEAFFFC000007", b"\x01", 73),
    ("64 bytes 255 but for the first", SQUARE, "FE" + "FF" * 63 + "000040", bytes(4), 14),
]


def lengths(name, config, payload):
    """Each beginning of a payload, which has no footer."""
    return [(f"{length} bytes of {name}", config, payload[:2 * length], ALL, (35, 0, 0, 0, 0), 0,
             b"") for length in range(len(payload) // 2)]


def flipped(bit):
    data = bytearray.fromhex(PARITY)
    data[bit // 8] ^= 128 >> bit % 8
    return data.hex()


def fault_of_bit(bit):
    """Its slice is damaged, but where slice_size says other than 2."""
    size = int(flipped(bit)[4:10], 16)
    return 37 if size == 2 else 36 if size < 2 else 35


# whether it is the wide profile, the aspects of slices of one sample 0 beside one another, and what
# the picture says, or the fault and its slice
ASPECTS = [
    (True, [(0, 1), (1, 0), (0, 0)], (0, 0, 0)), (False, [(0, 1), (1, 0), (0, 0)], (34, 0)),
    (True, [(0, 0), (0, 0), (65535, 0)], (0, 0, 0)),
    (False, [(0, 0), (0, 0), (65535, 0)], (34, 2)),
    (True, [(65536, 0)], (34, 0)), (True, [(0, 0), (0, 65536)], (34, 1)),
    (True, [(0, 1), (4, 3)], (41, 1)), (True, [(4, 3), (1, 0)], (41, 1)),
    (False, [(0, 0), (4, 3)], (41, 1)), (True, [(4, 3), (4, 3)], (0, 4, 3)),
    (False, [(4, 3), (4, 3)], (0, 4, 3)),
]


def with_aspects(is_wide, aspects):
    """The configuration and the payload of such slices."""
    config = mono(len(aspects), columns=len(aspects))
    config.wide = is_wide
    slices = [coded(config, k, [0], head=[k, 0, 0, 0, 0, 0, 0, *aspect])
              for k, aspect in enumerate(aspects)]
    return config, sealed(config, *slices)


# name, configuration, payload, the lines that a sink takes, the fault and its slice, plane, line
# and column, decisions before it, samples that were handed over
REFUSED = [
    ("a footer cut off", mono(), "FE7B0000", ALL, (35, 0, 0, 0, 0), 0, b""),
    ("a byte in front", mono(), "00FE7B000002", ALL, (36, 0, 0, 0, 0), 0, b""),
    ("no bytes", mono(), "", ALL, (35, 0, 0, 0, 0), 0, b""),
    ("an empty slice", mono(), "000000", ALL, (30, 0, 0, 0, 0), 1, b""),
    ("a start too great", mono(), "FF00000002", ALL, (3, 0, 0, 0, 0), 0, b""),
    ("a slice twice", TWO, "FE7B000002FE7B000002", ALL, (31, 1, 0, 0, 0), 11, b""),
    ("slices exchanged", TWO, "3F76000002FE7B000002", ALL, (30, 0, 0, 0, 0), 1, b""),
    ("another parity", mono(ec=1), PARITY[:-1] + "D", ALL, (37, 0, 0, 0, 0), 0, b""),
    ("a status", mono(ec=1), "FE7B00000201904D0E8B", ALL, (38, 0, 0, 0, 0), 0, b""),
    ("a symbol too long in the second slice", HALVES, "FEBA61FE120000053F7502FE000004", ALL,
     (4, 1, 0, 0, 1), 53, b""),
    ("a symbol too long in the second line", HALVES, "FEBA61FE120000053F99000002", ALL,
     (4, 0, 0, 1, 0), 54, bytes(2)),
    ("a symbol too long", mono(), "FE7AFFFC000004", ALL, (4, 0, 0, 0, 0), 42, b""),
    ("no colour", colours(extra=True), "FEA40D812CCF000006", ALL, (7, 0, 0, 0, 0), 49, b""),
    ("another info", TWO, "FB3C0000023DBFD4000003", ALL, (41, 1, 0, 0, 0), 28, b""),
    ("no line is taken", SQUARE, "FE6CAF597A88000006", 0, (42, 0, 0, 0, 0), 28, b""),
    ("one line is taken", SQUARE, "FE6CAF597A88000006", 1, (42, 0, 0, 1, 0), 48,
     bytes([10, 20])),
    ("a slice_x of 2^31 - 1", mono(), "BF3FFE0DFFFFF7000007", ALL, (31, 0, 0, 0, 0), 63, b""),
    ("a start inverted", mono(ec=1), "0184000002" + PARITY[10:], ALL, (37, 0, 0, 0, 0), 0, b""),
    *((f"bit {bit}", mono(ec=1), flipped(bit), ALL, (fault_of_bit(bit), 0, 0, 0, 0), 0, b"")
      for bit in range(80)),
    *lengths("a frame with a parity", mono(ec=1), PARITY),
    *lengths("a frame", mono(), PARITY[:10]),
]


def given():
    """All payloads that are decoded, as those that are refused are, with no fault."""
    return [(name, config, payload, ALL, (0, 0, 0, 0, 0), decisions, samples)
            for name, config, payload, samples, decisions in DECODED] + REFUSED


def checks():
    """What the model answers, beside what is known."""
    for name, config, info, planes, payload, *counts in ENCODED:
        made = ffv1.encode_frame(config, planes, info)
        yield f"encoded: {name}", made.hex().upper(), payload
        yield f"counted: {name}", counts_of(config, info, made), tuple(counts)
    for name, config, payload, room, place, decisions, samples in given():
        out = ffv1.decode_frame(config, bytes.fromhex(payload), room)
        fault = out.fault
        found = (fault.number, fault.slice, fault.plane, fault.line, fault.x) if fault else (0,) * 5
        handed = b"".join(bytes(line) for _, _, line in out.lines)
        yield f"decoded: {name}", (found, out.ones + out.zeros, handed), (place, decisions, samples)
    for is_wide, aspects, wanted in ASPECTS:
        out = ffv1.decode_frame(*with_aspects(is_wide, aspects))
        found = (out.fault.number, out.fault.slice) if out.fault else tuple(out.info)
        yield f"aspects {aspects}, {is_wide}", found, wanted
    bits = [fault_of_bit(bit) for bit in range(80)]
    yield "faults of bits", [bits.count(fault) for fault in [37, 35, 36]], [56, 23, 1]
