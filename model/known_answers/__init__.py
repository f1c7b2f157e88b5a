# SPDX-License-Identifier: MIT OR Apache-2.0
"""Command lines whose answers are known, and not from the model: they were worked out by hand from
the formats. `check.py` asks them of the model, and `tests/commands` of the built program.
"""
from known_answers import containers, damaged, depths, golomb_commands, infos, lines, lists, matroska_commands
from known_answers import noted, objects, offsets, others, payloads, ranges, repeated, riffs, salvaging
from known_answers import shared_chroma, shown, sums, texts, times, unpacking


def cases():
    """All of them."""
    for subject in [texts, payloads, unpacking, salvaging, containers, riffs, shown, lines, lists,
                    matroska_commands, noted, others, repeated, times, depths, sums, offsets, damaged, shared_chroma, ranges,
                    objects, infos, golomb_commands]:
        for group in subject.CASES:
            yield from group()
