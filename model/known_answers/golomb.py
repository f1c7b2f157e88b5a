# SPDX-License-Identifier: MIT OR Apache-2.0
"""Golomb-Rice coded pictures of version 3, and the bits of their slices, worked out apart from the
model: FFmpeg 5.1.9 decodes the payload of each to the same samples. `check.py` asks the model."""
import ffv1
import record
import rice

FEW = [[1, 1, 3, 7, 11, 105]] * 2 + [[3, 11, 114]] * 3          # 7563 contexts

# name, width, height, what else the configuration says, which set of tables, the samples of each
# plane, the bits of each slice
PICTURES = [
    ("mono 1 by 1, 0",
     1, 1, {}, 0,
     [[0]],
     ["1"]),
    ("mono 1 by 1, 255",
     1, 1, {}, 0,
     [[255]],
     ["0101"]),
    ("mono 1 by 1, 128: an escape",
     1, 1, {}, 0,
     [[128]],
     ["000000000000011110100"]),
    ("mono 4 by 2, all 0: a run a line, the index goes on",
     4, 2, {}, 0,
     [[0, 0, 0, 0, 0, 0, 0, 0]],
     ["111111"]),
    ("mono 4 by 2, all 5",
     4, 2, {}, 0,
     [[5, 5, 5, 5, 5, 5, 5, 5]],
     ["0001001001010100111"]),
    ("mono 12 by 2, 0 but the last but one, 9: run of 10 and a lower part",
     12, 2, {}, 0,
     [[0, 0, 0, 0, 0, 0, 0, 0, 0, 0, 0, 0, 0, 0, 0, 0, 0, 0, 0, 0, 0, 0, 9, 0]],
     ["111111111101000001000000101"]),
    ("mono 5 by 1, 0 0 0 0 0: the last 1 is of a run that is not whole",
     5, 1, {}, 0,
     [[0, 0, 0, 0, 0]],
     ["11111"]),
    ("mono 6 by 1, 0 0 0 0 3 0",
     6, 1, {}, 0,
     [[0, 0, 0, 0, 3, 0]],
     ["11110001000101"]),
    ("mono 3 by 2, (10, 20, 10) and (200, 3, 90): turned contexts",
     3, 2, {}, 0,
     [[10, 20, 10, 200, 3, 90]],
     ["00000110000001000000111000000000000011110010000000000000110101100000000000010100"
      "011"]),
    ("mono 16 by 1, 1 2 3 .. 16: drift and bias",
     16, 1, {}, 0,
     [[1, 2, 3, 4, 5, 6, 7, 8, 9, 10, 11, 12, 13, 14, 15, 16]],
     ["01001101101001011010010101111101001010"]),
    ("mono 3 by 2 by the second set of two, 7563 contexts",
     3, 2, {"sets": [record.SMALL, FEW]}, 1,
     [[10, 20, 10, 200, 3, 90]],
     ["00000110000011100000100000000000000011110010000000000000110101000000000000010100"
      "010"]),
    ("4:2:0 2 by 2, Y 1 2 3 4, Cb 128, Cr 130: Cr by the states of Cb",
     2, 2, {"chroma": True, "log2_h": 1, "log2_v": 1}, 0,
     [[1, 2, 3, 4], [128], [130]],
     ["01001101111010000000000000111101000011111001"]),
    ("4:2:2 4 by 1, all 0: the index is 0 again in each plane",
     4, 1, {"chroma": True, "log2_h": 1}, 0,
     [[0, 0, 0, 0], [0, 0], [0, 0]],
     ["11111111"]),
    ("4:4:4 1 by 1 with transparency 255",
     1, 1, {"chroma": True, "extra": True}, 0,
     [[16], [128], [128], [255]],
     ["0000000011000000000000001111010000111111010101"]),
    ("RCT 1 by 1, (255, 0, 0): 9 bits",
     1, 1, {"rct": True, "chroma": True}, 0,
     [[255], [0], [0]],
     ["000000000000000111000100000000000001111101000100000000"]),
    ("RCT 4 by 2, black: the index goes on from plane to plane",
     4, 2, {"rct": True, "chroma": True}, 0,
     [[0, 0, 0, 0, 0, 0, 0, 0], [0, 0, 0, 0, 0, 0, 0, 0], [0, 0, 0, 0, 0, 0, 0, 0]],
     ["111100000000000000111110100110001111111011111111"]),
    ("RCT 2 by 1, black, with transparency 255",
     2, 1, {"rct": True, "chroma": True, "extra": True}, 0,
     [[0, 0], [0, 0], [0, 0], [255, 255]],
     ["11000000000000011111010010011111110110000000000000111110001100"]),
    ("mono 4 by 2, two columns, ec 1, 7 but the last, 0",
     4, 2, {"columns": 2}, 0,
     [[7, 7, 7, 7, 7, 7, 7, 0]],
     ["00001001001001",
      "0000100100100001111"]),
]


# The payload of each, in turn.
PAYLOADS = [
    "fc9b80000003", "fc9b50000003", "fc9b0007a0000005", "fc9bfc000003", "fc9b1254e0000005",
    "fc9bffd040a0000006", "fc9bf8000003", "fc9bf114000004", "fc9b06040e000f2000d600146000000d",
    "fc9b4da5a57d28000007", "f4d3060e08000f2000d400144000000d", "fc9b4de8003d0f90000008",
    "fc9bff000003", "fd7100c000f43f54000008", "fc9b0001c4001f4400000009", "fc9bf0003e98feff000008",
    "fd71c001f49fd8003e3000000a", "fc9b092400000400463da87b3e3d0921e00000050044cd0087",
]

# Payloads with other heads: name, width, height, payload, samples.
HEADS = [
    ("mono 1 by 1, 0, structure 3, aspect 9:3: the sentinel is read as 1",
     1, 1, "fc253280000004", [0]),
    ("mono 4 by 2, all 0, the head ended by one more than the least number",
     4, 2, "fc9cfc000003", [0, 0, 0, 0, 0, 0, 0, 0]),
]

# Payloads that are refused: name, width, height, payload, fault, and where: slice, plane, line, column.
REFUSED = [
    ("mono 4 by 2, bits 111111, then padding of a 1",
     4, 2, "fc9bfd000003", 29, (0, 0, 1, 0)),
    ("the same and a byte 00 more",
     4, 2, "fc9bfc00000004", 29, (0, 0, 1, 0)),
    ("the same without its bits",
     4, 2, "fc9b000002", 27, (0, 0, 0, 0)),
    ("an escape of 11, which is 1 11 by k = 2",
     4, 2, "fc9b000007e0000006", 28, (0, 0, 0, 0)),
    ("an escape of 256",
     4, 2, "fc9b0007aff8000006", 28, (0, 0, 0, 0)),
    ("behind a run the number of 127, whose difference is 128",
     4, 2, "fc9b00079ff8000006", 28, (0, 0, 0, 0)),
    ("mono 5 by 1, bits 1111 0 1: a run of 1 that is broken, where one sample is left",
     5, 1, "fc9bf4000003", 28, (0, 0, 0, 4)),
]


def config_of(width, height, options):
    """A configuration of Golomb-Rice coded samples; with parity in slices side by side alone."""
    return ffv1.Config(width, height, coder=0, ec=int("columns" in options), wide=True, **options)


def slices_of(width, height, options, table_set, planes):
    """The bits of each slice of a picture by the model."""
    config = config_of(width, height, options)
    lines = []
    for plane, samples in enumerate(planes):
        long, high = ffv1.reduced(config, plane, width, height)
        lines.append([samples[y * long:(y + 1) * long] for y in range(high)])
    coded, indexes = ffv1.coded_planes(config, lines), [table_set] * ffv1.index_count(config)
    return [rice.slice_bits(config, coded, slice, indexes) for slice in range(config.slices())]


def decoded(config, payload):
    """The samples of each plane by the model; or the fault and where it is."""
    out = ffv1.decode_frame(config, bytes.fromhex(payload))
    if out.fault:
        fault = out.fault
        return fault.number, (fault.slice, fault.plane, fault.line, fault.x)
    planes = {}
    for plane, _, samples in out.lines:
        planes.setdefault(plane, []).extend(samples)
    return [planes[plane] for plane in sorted(planes)]


def checks():
    """What the model answers, beside what is known."""
    for name, *picture, bits in PICTURES:
        yield f"bits of {name}", slices_of(*picture), bits
    for (name, width, height, options, _, planes, _), payload in zip(PICTURES, PAYLOADS):
        yield f"the payload of {name}", decoded(config_of(width, height, options), payload), planes
    for name, width, height, payload, samples in HEADS:
        yield name, decoded(config_of(width, height, {}), payload), [samples]
    for name, width, height, payload, fault, place in REFUSED:
        yield name, decoded(config_of(width, height, {}), payload), (fault, place)
    yield "bits as bytes", rice.packed("000000000000011110100"), bytes.fromhex("0007A0")
