# SPDX-License-Identifier: MIT OR Apache-2.0
"""Payloads that are cut and heads that are read, whose answers are known: worked out by hand from
the formats. `check.py` asks them of the model, and `make_vectors.py` writes them for the crates.
"""
import ffv1

GUARDED = "FE7B00000200948C133C"
WRONG_PARITY, STATUS = GUARDED[:-1] + "D", "FE7B00000201904D0E8B"

# A payload of three slices, whose spans stand before each of those that are cut.
FULL = (3, 0, "010203000003" + "000000" + "09000001", 0, 0, (0, 3, 6, 6, 9, 10))

# columns, whether there is parity, payload, fault and its slice, spans
CUT = [
    (1, 0, "FE7B000002", 0, 0, (0, 2)),
    (1, 0, "FE7B0000", 35, 0, ()),
    (1, 0, "", 35, 0, ()),
    (1, 0, "FE7B000003", 35, 0, ()),
    (1, 0, "00FE7B000002", 36, 0, ()),
    (2, 0, "FE7B0000023F76000002", 0, 0, (0, 2, 5, 7)),
    (2, 0, "00000009000001", 0, 0, (0, 0, 3, 4)),
    (2, 0, "09000001", 35, 0, ()),
    (2, 0, "09000002", 35, 1, ()),
    (1, 1, GUARDED, 0, 0, (0, 2)),
    (1, 1, WRONG_PARITY, 37, 0, ()),
    (1, 1, STATUS, 38, 0, ()),
    (2, 1, STATUS + WRONG_PARITY, 38, 0, ()),
    (2, 1, WRONG_PARITY + STATUS, 37, 0, ()),
]


def two():
    """Pictures of two samples beside one another, each a slice."""
    return ffv1.Config(2, 1, columns=2, ec=0)


def coded(*numbers):
    """Slice 0, with these numbers in the place of its head."""
    encoder = ffv1.Encoder()
    encoder.put("key", 1)
    for number in numbers:
        ffv1.put_number(encoder, "head", number)
    return encoder.sentinel()


# slice, bytes, fault, the decisions where they are known, and what the head says
HEADS = [
    (0, bytes.fromhex("FE7B"), 0, 10, [0, 0, 0, 0, 0]),
    (1, bytes.fromhex("3F76"), 0, 10, [0, 0, 0, 0, 0]),
    (0, bytes.fromhex("3F76"), 30, 1, None),
    (1, bytes.fromhex("FE7B"), 31, 1, None),
    (0, coded(2 ** 31 - 1, 0, 0, 0, 0, 0, 0, 0, 0), 31, 63, None),
    (0, coded(0, 1, 0, 0, 0, 0, 0, 0, 0), 31, 4, None),
    (0, coded(0, 0, 1, 0, 0, 0, 0, 0, 0), 31, 5, None),
    (0, coded(0, 0, 0, 1, 0, 0, 0, 0, 0), 31, 6, None),
    (0, coded(0, 0, 0, 0, 1, 0, 0, 0, 0), 32, None, None),
    (0, coded(0, 0, 0, 0, 0, 1, 0, 0, 0), 32, None, None),
    (0, coded(0, 0, 0, 0, 0, 0, 4, 0, 0), 33, None, None),
    (0, coded(0, 0, 0, 0, 0, 0, 3, 65536, 1), 34, None, None),
    (0, coded(0, 0, 0, 0, 0, 0, 3, 0, 1), 34, None, None),
    (0, coded(0, 0, 0, 0, 0, 0, 3, 1, 0), 34, None, None),
    (0, coded(0, 0, 0, 0, 0, 0, 3, 65535, 12), 0, None, [0, 0, 3, 65535, 12]),
]


def cut_answer(columns, rows, ec, payload):
    """The fault and its slice, or two zeros and where each slice begins and ends."""
    config = ffv1.Config(columns, rows, columns=columns, rows=rows, ec=ec)
    try:
        return [0, 0, *(place for span in ffv1.cut(config, payload) for place in span)]
    except ffv1.Fault as fault:
        return [fault.number, fault.slice]


def head_answer(config, slice, data):
    """The fault, the decisions that were read, and what the head says."""
    decoder = ffv1.Decoder(data)
    try:
        ffv1.get_key(decoder, slice)
        indexes, structure, num, den = ffv1.get_head(decoder, config, slice)
    except ffv1.Fault as fault:
        return [fault.number, decoder.history.count, 0, 0, 0, 0, 0, 0]
    return [0, decoder.history.count, *(indexes + [0])[:3], structure, num, den]


def checks():
    """What the model answers, beside what is known."""
    for columns, ec, payload, fault, slice, spans in [FULL, *CUT]:
        found = cut_answer(columns, 1, ec, bytes.fromhex(payload))
        yield f"cut: {payload}", found, [fault, slice, *spans]
    for slice, data, fault, decisions, said in HEADS:
        found = head_answer(two(), slice, data)
        wanted = [fault, found[1] if decisions is None else decisions]
        yield f"head: {data.hex()}", found, [*wanted, *([0] * 6 if said is None else [0, *said])]
