# SPDX-License-Identifier: MIT OR Apache-2.0
"""Frames that are decoded, or refused at a known place."""
import ffv1
from known_answers.case import ANY, FRAME, Case, Step, avi, checked, coded, mono, one, sealed

PARITY = bytes.fromhex("FE7B00000200948C133C")      # FRAME with parity
NOWHERE = (0, 0, 0, 0)


def at(fault, place, decisions, lines="", frame=0):
    """What `check` prints with the place of a fault, and the fault."""
    slice, plane, line, x = place
    return (f"{lines}fault frame {frame} slice {slice} plane {plane} line {line} x {x} "
            f"decisions {decisions}\n", fault)


def placed(name, config, payload, output, fault):
    """A frame that is checked, with the place of its fault and without."""
    file = avi(config, [payload])
    return Case(name, {"in": file}, [Step(["check", "--place", "in"], output, fault),
                                     Step(["check", "in"], "", fault)], {"in": file})


def flipped_bits():
    """A frame with parity, each of its bits flipped."""
    for bit in range(80):
        data = bytearray(PARITY)
        data[bit // 8] ^= 128 >> bit % 8
        size = int.from_bytes(data[2:5], "big")
        fault = "37 SliceParity" if size == 2 else "36 Leftover" if size < 2 else "35 Footer"
        yield placed(f"bit {bit}", one(ec=1), bytes(data), *at(fault, NOWHERE, 0))


def cut_payloads():
    """Payloads that are cut off, and one of no bytes, which repeats the frame before."""
    for ec, payload in [(0, FRAME), (1, PARITY)]:
        for length in range(1, len(payload)):
            yield placed(f"{length} bytes with ec {ec}", one(ec=ec), payload[:length],
                         *at("35 Footer", NOWHERE, 0))
        empty, note = "frame 0: again\nframes 1\n", "93 Repeated 1"
        yield Case(f"no bytes with ec {ec}", {"in": avi(one(ec=ec), [b""])}, [
            Step(["check", "--place", "in"], empty, note=note), Step(["check", "in"], empty, note=note)])


# name, parity, columns, payload, fault, its place, decisions before it
DAMAGED = [
    ("a start inverted", 1, 1, "018400000200948C133C", "37 SliceParity", NOWHERE, 0),
    ("a last byte changed", 1, 1, "FE7B00000200948C133D", "37 SliceParity", NOWHERE, 0),
    ("a status", 1, 1, "FE7B00000201904D0E8B", "38 SliceStatus", NOWHERE, 0),
    ("a byte in front", 0, 1, "00FE7B000002", "36 Leftover", NOWHERE, 0),
    ("an empty slice", 0, 1, "000000", "30 NotKey", NOWHERE, 1),
    ("a start too great", 0, 1, "FF00000002", "3 BadStart", NOWHERE, 0),
    ("a slice twice", 0, 2, "FE7B000002FE7B000002", "31 Place", (1, 0, 0, 0), 11),
    ("slices exchanged", 0, 2, "3F76000002FE7B000002", "30 NotKey", NOWHERE, 1),
]
# the values of a head, fault
HEADS = [
    ([1] + [0] * 8, "31 Place"), ([0, 0, 1] + [0] * 6, "31 Place"),
    ([0] * 4 + [1] + [0] * 4, "32 SetIndex"), ([0] * 6 + [4, 0, 0], "33 Structure"),
    ([0] * 7 + [65536, 1], "34 Aspect"), ([0] * 7 + [1, 65536], "34 Aspect"),
    ([0] * 7 + [0, 65536], "34 Aspect"), ([0] * 7 + [65536, 0], "34 Aspect"),
]


def damaged_payloads():
    """Payloads that are refused, each with the place of its fault."""
    for name, ec, columns, payload, *fault in DAMAGED:
        config = one(width=columns, columns=columns, ec=ec)
        yield placed(name, config, bytes.fromhex(payload), *at(*fault))
    yield placed("31 exponent ones", one(), sealed(one(), coded(one(), 0, [], True)),
                 *at("4 SymbolTooLong", NOWHERE, 42))
    wide = coded(one(), 0, [], head=[2 ** 31 - 1] + [0] * 8)
    yield placed("a place far out", one(), sealed(one(), wide), *at("31 Place", NOWHERE, 63))
    for values, fault in HEADS:
        payload = sealed(one(), coded(one(), 0, [], head=values))
        yield checked(f"head {values}", avi(one(), [payload]), "", fault)
    config = one(width=2, columns=2)
    slices = [coded(config, 0, [0]), coded(config, 1, [0], head=[1, 0, 0, 0, 0, 0, 1, 0, 0])]
    yield checked("another structure in a slice", avi(config, [sealed(config, *slices)]), "",
                  "41 InfoDiffers")


def unknown_aspects():
    """An aspect of which just one number is 0 is unknown, and so says what 0 and 0 say."""
    def of(*aspects):
        config = one(width=len(aspects), columns=len(aspects))
        slices = [coded(config, k, [0], head=[k, 0, 0, 0, 0, 0, 0, *aspect])
                  for k, aspect in enumerate(aspects)]
        return avi(config, [sealed(config, *slices)], 0, 0)
    for aspect in [(0, 1), (1, 0), (0, 65535), (65535, 0)]:
        yield Case(f"an aspect of {aspect}", {"in": of(aspect)},
                   [Step(["unpack", "in", "out"], "frames 1\n")], {"out": mono(1, 1, [0])})
    yield Case("three unknown aspects", {"in": of((0, 1), (1, 0), (0, 0))},
               [Step(["unpack", "in", "out"], "frames 1\n")], {"out": mono(3, 1, bytes(3))})
    yield checked("an unknown aspect and a known one", of((0, 1), (4, 3)), "", "41 InfoDiffers")
    yield checked("a known aspect and an unknown one", of((4, 3), (1, 0)), "", "41 InfoDiffers")


def columns_side_by_side():
    """Faults of slices that are decoded side by side."""
    config = one(width=2, height=2, columns=2)
    first, good = coded(config, 0, [0], True), coded(config, 1, [0, 0])
    payload = sealed(config, first, coded(config, 1, [], True))
    yield placed("the second slice's first line", config, payload,
                 *at("4 SymbolTooLong", (1, 0, 0, 1), 53))
    yield placed("the first slice's second line", config, sealed(config, first, good),
                 *at("4 SymbolTooLong", (0, 0, 1, 0), 54))
    config = one(width=32, columns=32)
    payload = ffv1.encode_frame(config, [[[0] * 32]], [0, 0, 0])
    yield checked("32 columns", avi(config, [payload]),
                  f"frame 0: {len(payload)} bytes, 32 slices, 548 decisions\nframes 1\n")


def later_frames():
    """Faults after frames that are good."""
    file = avi(one(), [FRAME, FRAME, bytes(3), FRAME])
    lines = "".join(f"frame {k}: 5 bytes, 1 slices, 11 decisions\n" for k in range(2))
    yield Case("a third frame", {"in": file}, [
        Step(["check", "--place", "in"], *at("30 NotKey", NOWHERE, 1, lines, 2)),
        Step(["check", "in"], lines, "30 NotKey")])
    refused = "frame 2: fault 30 NotKey\n"
    last, ended = "frame 3: 5 bytes, 1 slices, 11 decisions\n", "frames 4 faults 1\n"
    place, fault = at("30 NotKey", NOWHERE, 1, refused, 2)
    yield Case("the frames after one that is refused", {"in": file}, [
        Step(["check", "--all", "in"], lines + refused + last + ended, fault),
        Step(["check", "--place", "--all", "in"], lines + place + last + ended, fault)])
    yield Case("a chunk of no bytes", {"in": avi(one(), [FRAME, b""])},
               [Step(["check", "--place", "in"],
                     "frame 0: 5 bytes, 1 slices, 11 decisions\nframe 1: again\nframes 2\n",
                     note="93 Repeated 1")])
    first = ffv1.encode_frame(one(), [[[9]]], [3, 5, 4])
    file = avi(one(), [first, ffv1.encode_frame(one(), [[[9]]], [3, 5, 3])])
    yield Case("another aspect is checked", {"in": file}, [Step(["check", "in"], ANY)])


def all_frames():
    """Frames that are judged one by one, whatever came before."""
    good, line = avi(one(), [FRAME]), "frame {}: 5 bytes, 1 slices, 11 decisions\n"
    yield Case("all of a good file", {"in": good},
               [Step(["check", "--all", "in"], line.format(0) + "frames 1 faults 0\n")])
    file = avi(one(), [b"\1", FRAME, bytes(3), b"\1\2"])
    lines = ("frame 0: fault 35 Footer\n" + line.format(1) + "frame 2: fault 30 NotKey\n"
             "frame 3: fault 35 Footer\nframes 4 faults 3\n")
    yield Case("the first of several faults", {"in": file}, [
        Step(["check", "--all", "in"], lines, "35 Footer"), Step(["check", "in"], "", "35 Footer")])
    file = avi(one(), [bytes(3), FRAME, FRAME])[:-2]
    lines = ("frame 0: fault 30 NotKey\n" + line.format(1) + "byte 276: fault 52 Truncated\n"
             "frames 2 faults 2\n")
    yield Case("a fault of the file after one of a frame", {"in": file},
               [Step(["check", "--all", "in"], lines, "30 NotKey")])
    yield Case("all of a file without frames", {"in": avi(one(), [])},
               [Step(["check", "--all", "in"], "", "70 NoFrames")])


def strange_payloads():
    """Payloads that no encoder writes, and that are decoded all the same."""
    for residual, sample in [(2 ** 30, 0), (-(2 ** 31 - 1), 1)]:
        payload = sealed(one(), coded(one(), 0, [residual]))
        yield Case(f"residual {residual}", {"in": avi(one(), [payload], 0, 0)}, [
            Step(["check", "in"], f"frame 0: {len(payload)} bytes, 1 slices, 73 decisions\n"
                 "frames 1\n"),
            Step(["unpack", "in", "out"], "frames 1\n")], {"out": mono(1, 1, [sample])})


# What the coded bytes of a slice are to MONO's own, FE7B, and the decisions that are read of them.
ENDINGS = [
    ("a slice without its last byte", "FE", 13), ("a last byte one too many", "FEBD", 11),
    *((f"a byte {byte} after the slice", f"FE7B{byte:02X}", 11) for byte in range(0, 256, 15)),
    ("five bytes after the slice", "FE7B0000000000", 11),
]


def endings():
    """Slices that do not end where their coder ends, and the last bytes that code the same."""
    for byte in (0x7B, 0xBC):
        yield checked(f"a last byte {byte}", avi(one(), [sealed(one(), bytes([0xFE, byte]))]),
                      "frame 0: 5 bytes, 1 slices, 11 decisions\nframes 1\n")
    for ec in (0, 1):
        for name, data, decisions in ENDINGS:
            yield placed(f"{name} with ec {ec}", one(ec=ec), sealed(one(ec=ec), bytes.fromhex(data)),
                         *at("9 Ending", NOWHERE, decisions))
    config, payload = one(width=2, height=2), sealed(one(), b"\xfe" + b"\xff" * 63)
    yield Case("all bytes 255", {"in": avi(config, [payload], 0, 0)}, [
        Step(["check", "--place", "in"], *at("9 Ending", (0, 0, 1, 0), 14)),
        Step(["unpack", "in", "out"], "", "9 Ending")], {"out": b""})


CASES = [flipped_bits, cut_payloads, damaged_payloads, unknown_aspects, columns_side_by_side,
         later_frames, all_frames, strange_payloads, endings]
