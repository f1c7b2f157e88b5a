# SPDX-License-Identifier: MIT OR Apache-2.0
"""What `info` tells of a file: facts of its container and its tracks, of its head, of its record, of
its first picture, and of how many frames it has; each group as soon as it is known."""
import json
import math

import avi_format
import ffv1
import matroska
import outline
from ffv1 import Fault
from opening import begun_with, input_of
from quiet import told

# ITU-T H.273, in the words of FFmpeg
PRIMARIES = {1: "bt709", 4: "bt470m", 5: "bt470bg", 6: "smpte170m", 7: "smpte240m", 8: "film",
             9: "bt2020", 10: "smpte428", 11: "smpte431", 12: "smpte432", 22: "ebu3213"}
TRANSFERS = {1: "bt709", 4: "bt470m", 5: "bt470bg", 6: "smpte170m", 7: "smpte240m", 8: "linear",
             9: "log100", 10: "log316", 11: "iec61966-2-4", 12: "bt1361e", 13: "iec61966-2-1",
             14: "bt2020-10", 15: "bt2020-12", 16: "smpte2084", 17: "smpte428", 18: "arib-std-b67"}
MATRICES = {0: "gbr", 1: "bt709", 4: "fcc", 5: "bt470bg", 6: "smpte170m", 7: "smpte240m",
            8: "ycgco", 9: "bt2020nc", 10: "bt2020c", 11: "smpte2085", 12: "chroma-derived-nc",
            13: "chroma-derived-c", 14: "ictcp"}
RANGES = {1: "limited", 2: "full"}
SITINGS = {(1, 2): "left", (2, 2): "centre", (1, 1): "topleft"}
CONTEXTS = {666: "small", 365: "small", 7563: "large", 5063: "large", 16638: "large"}
FIELDS = {1: "top field first", 2: "bottom field first", 3: "progressive"}
CODERS = ["Golomb-Rice coder", "range coder, default table", "range coder, custom table"]
CHROMAS = {(0, 0): "4:4:4", (1, 0): "4:2:2", (1, 1): "4:2:0", (2, 0): "4:1:1", (2, 2): "4:1:0",
           (0, 1): "4:4:0"}


def tell_code(facts, name, names, number, none):
    """A number that may have a name; this one says nothing."""
    if number == none:
        facts.unknown(name)
    else:
        facts.named(name, names.get(number), number)


def tell_ratio(facts, name, first, sign, second):
    """Two numbers, unknown where the first is 0."""
    if first:
        facts.pair(name, first, sign, second)
    else:
        facts.unknown(name)


def tell_head(head, facts):
    """What the head of a file says; of colours Matroska alone says something."""
    colour = getattr(head, "colour", matroska.NO_COLOUR)
    facts.pair("size", head.width, "x", head.height)
    tell_ratio(facts, "rate", head.rate, "/", head.scale)
    tell_code(facts, "range", RANGES, colour[matroska.RANGE], 0)
    siting = colour[matroska.SITING_HORZ], colour[matroska.SITING_VERT]
    if siting == (0, 0):
        facts.unknown("siting")
    elif siting in SITINGS:
        facts.word("siting", SITINGS[siting])
    else:
        facts.pair("siting", siting[0], ",", siting[1])
    tell_code(facts, "primaries", PRIMARIES, colour[matroska.PRIMARIES], 2)
    tell_code(facts, "transfer", TRANSFERS, colour[matroska.TRANSFER], 2)
    tell_code(facts, "matrix", MATRICES, colour[matroska.MATRIX], 2)


def tell_contexts(facts, contexts):
    """How many contexts each set has, with the name of so many."""
    names = [CONTEXTS.get(count) for count in contexts]
    if facts.json:
        facts.tell("contexts", None, json.dumps(contexts, separators=(",", ":")))
        facts.tell("context_names", None, json.dumps(names, separators=(",", ":")))
    else:
        told = [f"{count} ({name})" if name else str(count) for count, name in zip(contexts, names)]
        facts.tell("contexts", ", ".join(told), None)


def tell_record(config, facts):
    """What the configuration record says."""
    chroma = config.log2_h, config.log2_v
    contexts = [ffv1.contexts_of(runs) for runs in config.sets]
    facts.number("bits", config.depth)
    facts.word("colours", "RGB" if config.rct else "YCbCr")
    if not config.chroma:
        facts.word("chroma", "mono")
    elif chroma in CHROMAS:
        facts.word("chroma", CHROMAS[chroma])
    else:
        facts.pair("chroma", 2 ** chroma[0], ",", 2 ** chroma[1])
    facts.truth("transparency", config.extra)
    facts.pair("slices", config.columns, "x", config.rows)
    facts.word("coder", CODERS[config.coder])
    tell_contexts(facts, contexts)
    facts.truth("parity", config.ec)
    facts.truth("key_frames", config.intra)


def tell_picture(config, decoded, facts):
    """What the first picture says, if there is one; the first frame may have none."""
    structure, num, den = decoded.info if decoded else (0, 0, 0)
    if structure:
        facts.word("fields", FIELDS[structure])
    else:
        facts.unknown("fields")
    tell_ratio(facts, "sample_aspect", num, ":", den)
    width, height = config.width * num, config.height * den
    common = math.gcd(width, height) or 1
    tell_ratio(facts, "display_aspect", width // common if num else 0, ":", height // common)


def tell_stream(head, config, frames, facts):
    """The facts of the record and of the first picture."""
    tell_record(config, facts)
    first = next(frames, None)
    decoded = ffv1.decode_frame(config, first) if first else None
    if decoded and decoded.fault:
        raise decoded.fault
    tell_picture(config, decoded, facts)
    return 0 if first is None else 1


def tell_count(head, count, facts):
    """How many frames there are, and how long they take."""
    facts.number("counted_frames", count)
    time = outline.fitting(1000 * count * head.scale, head.rate) if head.rate else None
    facts.seconds("counted_duration", time)


def info(source, out, choice):
    """What a file is. Own: by its first bytes, and then as it is read, from its beginning again if need
    be."""
    facts, first = outline.Facts(out, choice["json"]), source.some(outline.MOST)
    outline.outline(first, facts)
    data, is_matroska = input_of(begun_with(first, source))
    head, *_, frames = matroska.open_again(data) if is_matroska else avi_format.open_avi(data, True)
    tell_head(head, facts)
    config = ffv1.read_record(head.record, head.width, head.height, wide=True)
    count = tell_stream(head, config, iter(frames), facts)
    if choice["count"]:
        tell_count(head, count + sum(1 for _ in frames), facts)


def objectively(perform):
    """The same, but that a file whose facts are to be told as an object of JSON has its path before
    them, and the fault that ends them after, whatever becomes of it."""
    def performed(order, path, output, standard_input):
        if order.command != "info" or not order.choice["json"]:
            return perform(order, path, output, standard_input)
        met = None
        output(f'{{"path":{json.dumps(path, ensure_ascii=False)}')
        try:
            answer = perform(order, path, output, standard_input)
        except Fault as fault:
            met = fault
        first = json.dumps(met and told(met, {}), separators=(",", ":"))
        output(f',"fault":{first}}}\n')
        if met:
            raise met
        return answer
    return performed
