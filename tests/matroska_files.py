# SPDX-License-Identifier: MIT OR Apache-2.0
"""Files of Matroska at random, good and bad, of frames that are given: in the forms that the writer
has, and of elements of all kinds, as other programs have them."""
import matroska
import matroska_writer
import random_matroska
from damage import damaged, inserted
from known_answers.matroska import FRAME, spell

FORMS = [matroska_writer.finished, matroska_writer.open_form, matroska_writer.begun]


class Maker(random_matroska.Maker):
    """Elements of a file of this configuration and record, whose blocks have these frames, each any
    number of times."""

    def __init__(self, dice, config, record, payloads):
        super().__init__(dice)
        self.said = record, config.width, config.height
        self.payloads = payloads or [FRAME]

    def video(self):
        return self.said

    def frame(self):
        return self.numbers.choice(self.payloads)


def whole(dice, config, record, payloads):
    """A file that is good, but for its record and payloads."""
    if not payloads or dice.random() < 0.6:
        return random_matroska.made_by(Maker(dice, config, record, payloads), "").file()
    rate = dice.choice(random_matroska.RATES)
    head = matroska.Head(1, config.width, config.height, *rate, record)
    shown = matroska_writer.Shown(dice.randrange(4), dice.choice([(0, 0), (1, 1), (16, 15)]))
    return dice.choice(FORMS)(head, shown, payloads)


IDENTS = [bytes.fromhex(ident) for ident in [
    "1A45DFA3", "4282", "4285", "42F7", "18538067", "1654AE6B", "AE", "D7", "83", "86", "63A2",
    "E0", "B0", "BA", "23E383", "1F43B675", "E7", "A3", "A0", "A1", "BF84", "114D9B74", "1549A966",
    "1C53BB6B"]]
OTHERS = [b"\0", b"ab", spell("EC80"), spell("EC 83 010203"), spell("08"), spell("A3 84 81000080"),
          spell("1F43B675 80"), spell("1F43B675 FF"), spell("1C53BB6B 80"), spell("E7 81 00"),
          spell("6D80 80"), spell("BF84 01020304")]


def with_other(dice, file):
    """A file in which the byte after an ID, which begins its size, is another, or one further."""
    places = [k + len(ident) for ident in IDENTS for k in range(len(file) - 12)
              if file[k:k + len(ident)] == ident]
    place = dice.choice(places) + dice.choice([0, 0, 0, 1, 3])
    old = file[place]
    new = dice.choice([0, 1, 0x40, 0x80, 0x81, 0xFF, old ^ 1, old + 1, old - 1, old ^ 2]) % 256
    return file[:place] + bytes([new]) + file[place + 1:]


def mkv(dice, config, record, payloads):
    """A file that is good, or one that is cut or changed."""
    file = whole(dice, config, record, payloads)
    kind = dice.randrange(20)
    if kind < 3:
        return damaged(dice, file, kind, max(file.find(b"\x1f\x43\xb6\x75"), 0))
    if kind in (3, 4, 5):
        return with_other(dice, file)
    if kind == 6:
        return inserted(dice, file, OTHERS)
    if kind == 7:
        return file + dice.choice(OTHERS)
    return file
