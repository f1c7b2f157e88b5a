# SPDX-License-Identifier: MIT OR Apache-2.0
"""Command lines and files at random, good and bad, small enough for the model: each is made from
its seed and its number alone."""
import random

import avi_format
import command_line
import ffv1
import files
import make_vectors
from damage import cut, damaged, flipped, inserted
from known_answers.containers import SOUND, chunk, chunk_list, format_of, numbers, riff
from known_answers.riffs import further
from matroska_files import mkv

MOST_SAMPLES = 450                      # of all planes of a picture
COUNTS = [0, 1, 1, 1, 2, 2, 2, 3]       # of pictures


class RandomCase:
    """Words, and the files that they may name."""

    def __init__(self, words, given):
        self.words, self.given = words, given


# -------------------------------------------------------------------------------------------- texts

def size(dice):
    """A width and a height."""
    return dice.randrange(1, 13), dice.randrange(1, 13)


def ratio(dice, most):
    """Two numbers, both zero or neither."""
    large = dice.randrange(1, most), dice.randrange(1, most)
    return dice.choice([(0, 0), (1, 1), (25, 1), large])


def name_of(dice):
    """A name of chroma, as often of 8 bits as of more."""
    deep = dice.random() < 0.5
    return dice.choice([name for name, said in files.PLANES.items() if (said[-1] > 8) == deep])


def tags_of(dice):
    """The tags of a header, and its head."""
    width, height = size(dice)
    name = name_of(dice)
    letter = dice.choice(list(files.STRUCTURES))
    rate, aspect = ratio(dice, 2 ** 32), ratio(dice, 2 ** 16)
    tags = [b"W%d" % width, b"H%d" % height, b"F%d:%d" % rate, b"I" + letter, b"A%d:%d" % aspect,
            b"C" + name, b"XYSCSS=420", b"X"]
    *planes, depth = files.PLANES[name]
    head = files.VideoHead(width, height, planes=planes, depth=depth)
    if dice.random() < 0.3:
        dice.shuffle(tags)
    return tags, head


BAD_TAGS = [
    b"", b"W0", b"W2", b"H9000", b"H01", b"F1", b"F0:1", b"F00:0", b"F1:4294967296", b"Im", b"Iz",
    b"I", b"A1", b"A0:2", b"A70000:1", b"C", b"C420p11", b"C420p10", b"C444", b"Q", b"w2", b"W+2",
    b"X ",
]
BETWEEN = [b"\n", b" ", b"\r", b"FRAME", b"0", b"\0\xff", b"P6\n1 1\n255\n"]


def planes_of(dice, head, order="little"):
    """The samples of a picture: noise, a slow change, or one value; now and then too large."""
    kind, most = dice.randrange(3), 2 ** head.depth
    base = dice.randrange(most)
    samples = [[dice.randrange(most), (base + x + 2 * y) % most, base][kind]
               for width, height in head.sizes() for y in range(height) for x in range(width)]
    if 8 < head.depth < 16 and dice.random() < 0.1:
        samples[dice.randrange(len(samples))] = dice.randrange(most, 65536)
    return files.bytes_of(samples, head.depth, order)


def y4m(dice):
    """A text of YUV4MPEG2, now and then with a tag that is bad."""
    tags, head = tags_of(dice)
    if dice.random() < 0.15:
        tags[dice.randrange(len(tags))] = dice.choice(BAD_TAGS)
    text = b" ".join([b"YUV4MPEG2", *tags]) + b"\n"
    for _ in range(dice.choice(COUNTS)):
        text += b"FRAME\n" + planes_of(dice, head)
    return text


def image_format(dice):
    """A width, a height and a depth."""
    return *size(dice), dice.choice([8] * 6 + [9, 10, 12, 14, 16])


def ppm(dice):
    """Images, now and then of two sizes or depths."""
    width, height, depth = image_format(dice)
    text = b""
    for _ in range(dice.choice(COUNTS) or 1):
        if text and dice.random() < 0.15:
            width, height, depth = dice.choice([image_format(dice),
                                                (width, height, dice.choice(ffv1.DEPTHS))])
        head = files.VideoHead(width * 3, height, planes=(False, 0, 0, False), depth=depth)
        text += files.ppm_header(width, height, depth) + planes_of(dice, head, "big")
    return text


def text_of(dice):
    """A text that is good, or one that is cut, changed, or followed by something."""
    text = y4m(dice) if dice.random() < 0.65 else ppm(dice)
    kind = dice.randrange(14)
    if kind == 0:
        return cut(dice, text)
    if kind == 1:
        return flipped(dice, text)
    if kind == 2:
        return flipped(dice, text[:60]) + text[60:]
    if kind == 3:
        return inserted(dice, text, BETWEEN)
    if kind == 4:
        return text + dice.choice([b"\n", b"F", b"FRAME\n", b"FRAME Ip\n", b"P", b"x"])
    return text


# -------------------------------------------------------------------------------------------- files

def config_of(dice):
    """A configuration of small pictures, of those that texts have or, less often, of any kind."""
    config = make_vectors.config_of(dice, ffv1.DEPTHS if dice.random() < 0.5 else [8])
    if dice.random() < 0.7:
        planes = files.PLANES[name_of(dice)]
        if config.rct:
            config.extra = False
        else:
            (config.chroma, config.log2_h, config.log2_v, config.extra, config.depth) = planes
    samples = config.width * config.height * ffv1.plane_count(config)
    try:
        ffv1.check(config)
    except ffv1.Fault:
        return config_of(dice)
    return config if samples <= MOST_SAMPLES else config_of(dice)


def payloads_of(dice, config):
    """Frames, most of them good and of one structure and aspect."""
    info, payloads = make_vectors.info_of(dice), []
    good = dice.random() < 0.5
    for _ in range(dice.choice(COUNTS)):
        if dice.random() < 0.15:
            other = make_vectors.info_of(dice)
            info = dice.choice([other, info[:1] + other[1:], other[:1] + info[1:]])
        if dice.random() < 0.1:
            info = info[:1] + dice.choice([[0, 1], [1, 0], [0, dice.randrange(65536)]])
        payload = ffv1.encode_frame(config, make_vectors.picture_of(dice, config), info)
        if not good and dice.random() < 0.5:
            payload = make_vectors.other_payload(dice, config, info, payload)
        payloads.append(payload)
    return payloads


def record_of(dice, config):
    """A record, now and then one that is damaged, with its parity made good again or not."""
    record = ffv1.write_record(config)
    kind = dice.randrange(30)
    if kind == 0:
        return flipped(dice, record)
    if kind == 1:
        return cut(dice, record)
    if kind in (2, 3):
        coded = flipped(dice, record[:-4])
        return coded + ffv1.parity(coded)
    if kind == 4:
        coded = record[:-4] + bytes(dice.randrange(256) for _ in range(dice.randrange(1, 6)))
        return coded + ffv1.parity(coded)
    return record


def other_chunk(dice):
    """A chunk that says nothing."""
    data = bytes(dice.randrange(256) for _ in range(dice.randrange(6)))
    if dice.random() < 0.3:
        own = dice.choice([b"INFO", b"INFO", b"strl", b"rec ", b"hdrl"])
        return chunk_list(own, chunk(b"JUNK", data))
    return chunk(dice.choice([b"JUNK", b"idx1", b"strn", b"01wb", b"00db"]), data)


def with_others(dice, chunks):
    """Chunks, now and then with one that says nothing among them."""
    chunks = list(chunks)
    while dice.random() < 0.15:
        chunks.insert(dice.randrange(len(chunks) + 1), other_chunk(dice))
    return chunks


def made_file(dice, config, record, payloads):
    """A file of chunks by hand."""
    rate, scale = dice.choice([(25, 1), (0, 0), (30000, 1001)] * 6 + [(25, 0)])
    strh = dice.choice([b"vids"] * 30 + [b"auds"]) + bytes(16) + numbers(scale, rate) + bytes(28)
    width, height = dice.choice([(config.width, config.height)] * 30 + [(9000, 1)])
    strf = format_of(record, width, height)
    if dice.random() < 0.2:
        end = 40 + len(record) + dice.choice([0, 0, 0, 1, -1, 10 ** 6])
        strf = numbers(end) + strf[4:] + dice.choice([b"", b"\0", b"ab"])
    strl = with_others(dice, [chunk(b"strh", strh), chunk(b"strf", strf)])
    stream = dice.choice([0] * 6 + [1, 2])
    streams = [SOUND] * stream + [chunk_list(b"strl", *strl)]
    if dice.random() < 0.2:
        total = len(payloads) + dice.choice([0, 0, 0, 1, -1])
        streams.append(chunk_list(b"odml", chunk(b"dmlh", numbers(max(total, 0)))))
    hdrl = with_others(dice, [chunk(b"avih", bytes(56)), *streams])
    return riffs_of(dice, chunk_list(b"hdrl", *hdrl), stream, payloads)


def riffs_of(dice, hdrl, stream, payloads):
    """A file of this list hdrl and frames, in one RIFF or in some, and in one movi or in some."""
    frames, moving = [chunk(b"%02ddc" % stream, payload) for payload in payloads], [[[]]]
    for frame in frames:
        moving[-1][-1].append(frame)
        if dice.random() < 0.1:
            moving[-1].append([])
        if dice.random() < 0.2:
            moving.append([[]])
    first, *others = [[chunk_list(b"movi", *with_others(dice, movi)) for movi in parts]
                      for parts in moving]
    return riff(*with_others(dice, [hdrl, *first])) + b"".join(
        further(*with_others(dice, parts)) for parts in others)


def with_size(dice, file):
    """A file of which one size, or another number, is spelled otherwise."""
    names = [b"RIFF", b"LIST", b"strh", b"strf", b"00dc", b"avih", b"vids", b"movi",
             b"AVIX", b"dmlh", b"strl"]
    places = [k for k in range(len(file) - 8) if file[k:k + 4] in names]
    place = dice.choice(places) + 4
    old = int.from_bytes(file[place:place + 4], "little")
    new = dice.choice([0, 1, 3, 4, 2 ** 31, 2 ** 32 - 1, 67108865, old ^ 1, old + 1, old + 8,
                       max(old - 1, 0), max(old - 8, 0)]) % 2 ** 32
    return file[:place] + numbers(new) + file[place + 4:]


def file_of(dice):
    """A file of either container."""
    config = config_of(dice)
    record, payloads = record_of(dice, config), payloads_of(dice, config)
    return (avi if dice.random() < 0.55 else mkv)(dice, config, record, payloads)


def avi(dice, config, record, payloads):
    """A file that is good, or one that is cut or changed."""
    if dice.random() < 0.5:
        head = avi_format.AviHead(config.width, config.height, *dice.choice([(25, 1), (0, 0)]), record)
        file = avi_format.write_avi(head, payloads)
    else:
        file = made_file(dice, config, record, payloads)
    kind = dice.randrange(24)
    if kind < 3:
        return damaged(dice, file, kind, file.find(b"movi") + 12)
    if kind == 3:
        return with_size(dice, file)
    if kind == 4:
        return inserted(dice, file, [b"\0", b"ab", b"LIST", b"00dc\0\0\0\0", chunk(b"JUNK", b"")])
    if kind == 5:
        return file + dice.choice([b"x", chunk(b"idx1", b"abc")])
    return file


# -------------------------------------------------------------------------------------------- words

VALUES = {
    "coder": ["1", "2", "2", "0", "3"], "contexts": ["small", "large", "small", "huge"],
    "columns": ["1", "2", "3", "4", "12", "32", "33", "0"],
    "rows": ["1", "2", "3", "5", "+2", "02", "33"], "ec": ["0", "1", "0", "1", "2", "-0"],
    "rate": ["25", "30000", "4294967295", "0", "4294967296"], "scale": ["1", "1001", "-1", "x", ""],
    "container": ["mkv", "avi", "auto", "mkv", "mp4"],
}


def option(dice, good):
    """An option of pack with its value, in one word or in two."""
    name = dice.choice(list(VALUES))
    value = VALUES[name][dice.randrange(2)] if good else dice.choice(VALUES[name])
    return dice.choice([[f"--{name}={value}"], [f"--{name}", value]])


def options(dice, good):
    """Options of pack, and its flags; where they are good, none comes twice."""
    found = {}
    for _ in range(dice.choice([0, 1, 2, 2, 3])):
        words = option(dice, good)
        key = words[0].split("=")[0] if good else len(found)
        found[key] = words
    return list(found.values()) + [["--progress"]] * (dice.random() < 0.1) \
        + [["--no-clobber"]] * (dice.random() < 0.1) + [["--verify"]] * (dice.random() < 0.2)


def placed(dice, paths, groups):
    """Paths in their order, with groups of words before, between and after them."""
    words = [[path] for path in paths]
    for group in groups:
        words.insert(dice.randrange(len(words) + 1), group)
    return [word for group in words for word in group]


SOME_WORDS = [
    "in", "out", "in", "out", "no", ".", "./in", "/dev/full", "/dev/null", "", "--", "-", "-h",
    "--help", "help", "--place", "--cost", "--all", "--ec", "--ec=0", "--columns", "2", "--deep",
    "-x", "-1",
    "pack", "check", "--place=1", "---", "\u00e9", "in/x", "--progress", "--version", "-V",
    "--no-clobber", "--verify", "--container", "--container=mkv", "out.mkv", "--quiet",
    "--json", "--count",
    "--against", "--against=in", "--from", "--from=1", "--frames=1",
]
OUTPUTS = ["out"] * 24 + ["out.mkv"] * 16 + ["in", "./in", "no/out", "/dev/full", "-", "out.MKV",
                                             "out.mk3d", "out.Mov", "out.ppm"]
OUTPUTS += command_line.STANDARD_OUTPUT
RANGES = [["--from", "1"], ["--frames=1"], ["--from=1", "--frames", "1"], ["--from", "2"],
          ["--frames", "2", "--from=0"], ["--from=4294967295"]]
NAMES = ["pack", "unpack", "check", "show", "info", "framemd5", "trial"]


def any_line(dice):
    """Words of any kind."""
    words = [dice.choice(SOME_WORDS) for _ in range(dice.choice([0, 1, 2, 2, 3, 4, 5]))]
    first = [] if dice.random() < 0.1 else [dice.choice(NAMES + ["help", "--help", "-h", "code"])]
    return first + words


def changed(dice, words):
    """Words of which one is left out, comes twice, or is another."""
    words, place, kind = list(words), dice.randrange(len(words)), dice.randrange(3)
    if kind == 0:
        del words[place]
    elif kind == 1:
        words.insert(place, words[place])
    else:
        words[place] = dice.choice(SOME_WORDS)
    return words


def pack_line(dice):
    """A command line of pack, most often one that is taken."""
    good = dice.random() < 0.8
    words = placed(dice, ["in", dice.choice(OUTPUTS)], options(dice, good))
    return ["pack", *(words if dice.random() < 0.9 else changed(dice, words))]


def file_line(dice):
    """A command line on a file."""
    unpack = ["unpack", "in", dice.choice(OUTPUTS)]
    words = dice.choice([unpack, unpack, ["check", "in"], ["check", "--place", "in"],
                         ["check", "in", "--place"], ["show", "in"], ["show", "--cost", "in"],
                         ["framemd5", "in"], ["info", "in"], ["info", "--json", "in"],
                         ["info", "in", "--count"]])
    if words[0] != "unpack" and dice.random() < 0.2:
        words = words + dice.choice([["in"], ["no", "in"], ["out", "in"], ["-"], ["./in", ""]])
    if dice.random() < {"check": 0.4, "unpack": 0.25}.get(words[0], 0):
        words = [words[0], "--all", *words[1:]]
    if words[0] == "check" and dice.random() < 0.2:
        words = [words[0], dice.choice(["--quiet", "--json"]), *words[1:]]
    if words[0] == "check" and dice.random() < 0.2:
        words = [words[0], "--against", dice.choice(["list", "list", "out", "in"]), *words[1:]]
    if words[0] in ("unpack", "check", "framemd5") and dice.random() < 0.2:
        words = [words[0], *dice.choice(RANGES), *words[1:]]
    if words[0] in ("unpack", "check") and dice.random() < 0.1:
        words = [words[0], "--progress", *words[1:]]
    if words[0] == "unpack" and dice.random() < 0.1:
        words = [words[0], "--no-clobber", *words[1:]]
    return words if dice.random() < 0.95 else changed(dice, words)


def list_of(dice):
    """A list of MD5s, most often of other pictures."""
    rows = [f"{dice.choice([0, 0, 0, 1])}, 0, {place}, 1, 1, {md5}\n" for place, md5 in enumerate(
        dice.choices(["93b885adfe0da089cdf634904fd59f71", "0" * 32, "0" * 31], [8, 4, 1], k=3))]
    return "".join(rows[:dice.randrange(4)]).encode()


def random_case(seed, number):
    """A case by its number."""
    dice = random.Random(f"{seed} {number}")
    kind = dice.random()
    given = {"out": b"what was there"} if dice.random() < 0.5 else {}
    given.update({"list": list_of(dice)} if dice.random() < 0.3 else {})
    if kind < 0.34:
        return RandomCase(pack_line(dice), {"in": text_of(dice), **given})
    if kind < 0.84:
        return RandomCase(file_line(dice), {"in": file_of(dice), **given})
    if kind < 0.87:
        return RandomCase(["trial", "in"], {"in": text_of(dice)})
    if kind < 0.92:
        return RandomCase(["framemd5", "in"], {"in": text_of(dice)})
    data = dice.choice([text_of, file_of])(dice)
    return RandomCase(any_line(dice), {"in": data, **given})
