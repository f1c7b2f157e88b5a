# SPDX-License-Identifier: MIT OR Apache-2.0
"""Bytes that are damaged at random."""


def flipped(dice, data, begin=0):
    """Bytes with one or two bits flipped, after an offset."""
    data = bytearray(data)
    for _ in range(dice.choice([1, 1, 2])):
        if begin < len(data):
            data[dice.randrange(begin, len(data))] ^= 1 << dice.randrange(8)
    return bytes(data)


def cut(dice, data):
    return data[:dice.randrange(len(data))] if data else data


def damaged(dice, data, kind, begin):
    """Bytes that are cut (0), flipped (1), or flipped after an offset (2)."""
    if kind == 0:
        return cut(dice, data)
    return flipped(dice, data, begin if kind == 2 else 0)


def inserted(dice, data, texts):
    """Bytes with some others among them."""
    place = dice.randrange(len(data) + 1)
    return data[:place] + dice.choice(texts) + data[place:]
