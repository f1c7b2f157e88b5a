#!/usr/bin/env python3
# SPDX-License-Identifier: MIT OR Apache-2.0
"""Writes the vectors that `ffv1_vectors` asks the crates: what `ffv1.py` answers, with fixed seeds.

    python3 model/make_vectors.py        # into crates/ffv1_vectors/data

Each line is one case, its fields separated by a space; bytes are hexadecimal, and `-` where there are
none. A fault of 0 means that the bytes are accepted.
"""
import os
import random

import ffv1
import files
from known_answers import depths as known_depths
from known_answers import frames as known_frames
from known_answers import slices as known_slices
from known_answers.frames import counts_of
from known_answers.slices import cut_answer, head_answer
import random_rows
from file_vectors import files_of_avi, files_of_matroska, files_written, hexadecimal

DATA = os.path.join(os.path.dirname(os.path.abspath(__file__)), "..", "crates", "ffv1_vectors", "data")
LARGE_NUMBERS = [0, 1, 2, 3, 4, 7, 15, 16, 31, 32, 65535, 65536, 2 ** 31 - 1]


def damaged(random, data):
    """Bytes with one or two bits flipped."""
    data = bytearray(data)
    for _ in range(random.choice([1, 2])):
        data[random.randrange(len(data))] ^= 1 << random.randrange(8)
    return bytes(data)


def put_too_long(encoder, base):
    """A symbol that is refused: 31 exponent decisions of 1."""
    encoder.put((base, 0), 0)
    for k in range(31):
        encoder.put((base, 1 + min(k, 9)), 1)


def head_bytes(random, config, slice):
    """A head of a slice, with one of its numbers changed in half of the cases."""
    indexes = [random.randrange(len(config.sets)) for _ in range(ffv1.index_count(config))]
    aspect = random.choice([[0, 0], [random.randrange(1, 65536), random.randrange(1, 65536)]])
    values = ffv1.place_of(config, slice) + indexes + [random.randrange(4)] + aspect
    if random.random() < 0.5:
        values[random.randrange(len(values))] = random.choice(LARGE_NUMBERS)
    encoder = ffv1.Encoder()
    if slice == 0:
        encoder.put("key", int(random.random() < 0.95))
    refused = random.randrange(len(values)) if random.random() < 0.1 else len(values)
    for value in values[:refused]:
        ffv1.put_number(encoder, "head", value)
    if refused < len(values):
        put_too_long(encoder, "head")
    return encoder.sentinel()


def heads(random, count):
    """columns rows extra sets slice bytes fault decisions three-indexes structure num den; those
    that are known, and so many"""
    lines = [[2, 1, 0, 1, slice, hexadecimal(data), *head_answer(known_slices.two(), slice, data)]
             for slice, data, *_ in known_slices.HEADS]
    count += len(lines)
    while len(lines) < count:
        columns, rows = random.choice([1, 2, 3, 17, 32]), random.choice([1, 2, 20, 32])
        sets, extra = random.choice([1, 2, 8]), random.random() < 0.4
        config = ffv1.Config(columns, rows, chroma=extra, extra=extra, columns=columns, rows=rows,
                             sets=[ffv1.SMALL] * sets)
        slice = random.choice([0, random.randrange(columns * rows)])
        data = head_bytes(random, config, slice)
        if data and random.random() < 0.3:
            data = damaged(random, data)
        if int.from_bytes((data + bytes(2))[:2], "big") >= 65280:
            continue
        answer = head_answer(config, slice, data)
        lines.append([columns, rows, int(extra), sets, slice, hexadecimal(data), *answer])
    return lines


def payload_of(random, config):
    """Slices of random bytes with their footers, some then damaged."""
    slices = [bytes(random.randrange(256) for _ in range(random.choice([0, 1, 2, 5, 9])))
              for _ in range(config.slices())]
    payload = b"".join(coded + ffv1.footer(coded, config.ec) for coded in slices)
    kind = random.randrange(6)
    if kind == 1:
        payload = damaged(random, payload)
    elif kind == 2:
        payload = payload[:random.randrange(len(payload))]
    elif kind == 3:
        payload = bytes([random.randrange(3)]) * random.choice([1, 2, 8]) + payload
    elif kind == 4:
        place = random.randrange(len(payload))
        payload = payload[:place] + bytes([random.choice([0, 1, 2, 255])]) + payload[place + 1:]
    elif kind == 5 and config.ec:
        body = slices[-1] + len(slices[-1]).to_bytes(3, "big") + bytes([random.randrange(1, 256)])
        payload = payload[:len(payload) - len(body) - 4] + body + ffv1.parity(body)
    return payload


def payloads(random, count):
    """columns rows ec bytes fault slice spans; those that are known, each where spans of another
    payload stand, and so many"""
    lines = []
    for row in known_slices.CUT:
        for columns, ec, payload, *answer, spans in [known_slices.FULL, row]:
            lines.append([columns, 1, ec, payload.lower() or "-", *answer, *spans])
    for _ in range(count):
        columns, rows, ec = random.choice([1, 2, 3]), random.choice([1, 2]), random.choice([0, 1, 1])
        config = ffv1.Config(columns, rows, columns=columns, rows=rows, ec=ec)
        payload = payload_of(random, config)
        lines.append([columns, rows, ec, hexadecimal(payload),
                      *cut_answer(columns, rows, ec, payload)])
    return lines


def small_table(random):
    """A quantisation table of one to four runs."""
    cuts = sorted(random.sample(range(1, 128), random.randrange(4)))
    return [end - begin for begin, end in zip([0] + cuts, cuts + [128])]


def set_of(random):
    """The small set, or one of few contexts."""
    if random.random() < 0.5:
        return ffv1.SMALL
    return [small_table(random) for _ in range(3)] + [[128], small_table(random)]


def deltas_of(random):
    """Deltas of a table that is accepted: some states go one further or less far."""
    while True:
        deltas = [random.choice([0] * 30 + [-1, 1]) if 16 < state < 240 else 0
                  for state in range(1, 256)]
        try:
            ffv1.table_of(deltas)
            return deltas
        except ffv1.Fault:
            pass


RANGE, RICE = (1, 1, 2), (0,)          # coder types: range coded samples, and Golomb-Rice coded ones


def config_of(random, depths=(8,), coders=RANGE):
    """A configuration of small pictures that is accepted, of any kind, of one of these depths and of
    one of these coder types; of the wide profile where these are not 8 alone, or not range coded."""
    while True:
        kind = random.choice(["mono", "chroma", "chroma", "rct"])
        wide = random.random() < 0.1
        log2_h, log2_v = random.choice([(0, 0), (1, 0), (1, 1), (2, 0), (0, 2)]) if kind == "chroma" else (0, 0)
        coder = random.choice(coders)
        config = ffv1.Config(
            random.choice([32, 33, 40]) if wide else random.randrange(1, 12),
            random.choice([1, 2, 32]) if wide else random.randrange(1, 9),
            coder=coder, deltas=deltas_of(random) if coder == 2 else None, rct=kind == "rct",
            chroma=kind != "mono", log2_h=log2_h, log2_v=log2_v,
            extra=kind != "mono" and random.random() < 0.4,
            columns=32 if wide else random.choice([1, 1, 2, 3, 4]),
            rows=random.choice([1, 1, 2, 3]), sets=[set_of(random) for _ in range(random.choice([1, 1, 2, 3]))],
            ec=random.randrange(2), intra=random.randrange(2), wide=depths != (8,) or coders != RANGE)
        config.depth = random.choice(depths) if config.wide else 8
        try:
            ffv1.check(config)
            return config
        except ffv1.Fault:
            pass


def picture_of(random, config):
    """Planes of noise, of slow change, or of one value."""
    kind, most = random.randrange(3), 2 ** config.depth
    base, planes = random.randrange(most), []
    for plane in range(ffv1.plane_count(config)):
        width, height = ffv1.reduced(config, plane, config.width, config.height)
        planes.append([[[random.randrange(most), (base + x + 2 * y + random.randrange(3)) % most, base][kind]
                        for x in range(width)] for y in range(height)])
    return planes


def info_of(random):
    aspect = random.choice([[0, 0], [1, 1], [random.randrange(1, 65536), random.randrange(1, 65536)]])
    return [random.randrange(4)] + aspect


def planes_text(config, planes):
    samples = (sample for plane in planes for line in plane for sample in line)
    return hexadecimal(files.bytes_of(samples, config.depth, "little"))


def pictures(random, count, depths=(8,), coders=RANGE):
    """A configuration, its picture, what is said of it, and the payload."""
    for _ in range(count):
        config = config_of(random, depths, coders)
        planes, info = picture_of(random, config), info_of(random)
        yield config, planes, info, ffv1.encode_frame(config, planes, info)


def config_fields(config):
    return [config.width, config.height, hexadecimal(ffv1.write_record(config))]


def frame_line(config, planes, info, payload):
    return [*config_fields(config), *info, planes_text(config, planes), hexadecimal(payload),
            *counts_of(config, info, payload)]


def frames(random, count):
    """width height record structure num den planes payload decisions renormalisations; those that
    are known, and so many"""
    return [frame_line(config, planes, info, bytes.fromhex(payload))
            for _, config, info, planes, payload, *_ in known_frames.ENCODED
            ] + random_frames(random, count, count // 5, 8)


def random_frames(random, count, rows, depth):
    """The same of so many pictures of a depth, and of so many of long rows."""
    return [frame_line(*picture) for picture in [
        *pictures(random, count, (depth,)), *random_rows.pictures(random, rows, depth)]]


def known_deep_frames():
    """The same of pictures of 9 to 16 bits that are known."""
    lines = []
    for _, config, planes, payload, _ in known_depths.PICTURES:
        config.wide = True
        lines.append(frame_line(config, planes, known_frames.NOTHING, bytes.fromhex(payload)))
    return lines


def sealed(config, slices):
    """Slices by their coded bytes, each with its footer."""
    return b"".join(coded + ffv1.footer(coded, config.ec) for coded in slices)


def slices_of(config, payload):
    return [payload[begin:end] for begin, end in ffv1.cut(config, payload)]


def put_changed_head(random, encoder, config, slice, info):
    """The key and the head of a slice, with one of its values changed."""
    values = ffv1.place_of(config, slice) + [0] * ffv1.index_count(config) + info
    kind = random.randrange(6)
    if slice == 0:
        encoder.put("key", int(kind != 0))
    first = 4 + ffv1.index_count(config)
    if kind == 1:
        values[random.randrange(4)] += 1
    elif kind == 2:
        values[random.randrange(4, first)] = len(config.sets)
    elif kind == 3:
        values[first] = 4
    elif kind == 4 and config.wide:
        values[first + 1] = 65536
    elif kind == 4:
        values[first + 1] = 0 if values[first + 1] else 1
    elif kind == 5:
        values[first] = (values[first] + 1) % 4
    for value in values:
        ffv1.put_number(encoder, "head", value)


def other_bits(random):
    """Bits of some samples: runs, numbers by few bits and whole ones, and of no sample at all."""
    return "".join(random.choice(["1", "0", "01", "001", "1" * 5, "0" * 11 + "1", "0" * 12,
                                  format(random.randrange(256), "08b")])
                   for _ in range(random.randrange(12)))


def changed_slice(random, config, slice, info):
    """A slice that is refused: by its start, by its head, or at some sample."""
    kind = random.randrange(5)
    if kind == 0:
        return bytes([255]) * random.randrange(1, 5)
    encoder = ffv1.Encoder(config.table())
    if kind < 3:
        put_changed_head(random, encoder, config, slice, info)
        return encoder.sentinel() + bytes(random.randrange(256) for _ in range(random.randrange(9)))
    indexes = [0] * ffv1.index_count(config)
    ffv1.put_head(encoder, config, slice, indexes, *info)
    if config.coder == 0:
        return encoder.sentinel() + ffv1.packed(other_bits(random))
    for _ in range(random.choice([0, 0, 1, 3])):
        ffv1.put_number(encoder, ("sample", 0, 0), 0, signed=True)
    put_too_long(encoder, ("sample", 0, 0))
    return encoder.sentinel()


def other_payload(random, config, info, payload):
    """A payload that is damaged, or made by hand in one slice."""
    kind = random.randrange(8)
    if kind == 0:
        return damaged(random, payload)
    if kind == 1:
        return payload[:random.randrange(len(payload))]
    if kind == 2:
        return bytes(random.randrange(1, 4)) + payload
    slices = slices_of(config, payload)
    slice = random.randrange(len(slices))
    if kind == 3 and config.ec:
        body = slices[-1] + len(slices[-1]).to_bytes(3, "big") + bytes([random.randrange(1, 256)])
        return sealed(config, slices[:-1]) + body + ffv1.parity(body)
    if kind == 4:
        other = random.randrange(len(slices))
        slices[slice], slices[other] = slices[other], slices[slice]
    elif kind == 5:
        slices[slice] = damaged(random, slices[slice])
    else:
        slices[slice] = changed_slice(random, config, slice, info)
    return sealed(config, slices)


def lines_text(config, lines):
    """Lines one after the other, each by its plane, its row and its samples."""
    return hexadecimal(b"".join(bytes([plane, row >> 8, row & 255])
                                + files.bytes_of(samples, config.depth, "little")
                                for plane, row, samples in lines))


def decoded_line(random, config, payload):
    """One case: a sink takes so many lines, and refuses the next."""
    room = random.choice([100000, 100000, 100000, random.randrange(4)])
    return decoded_in(config, payload, room)


def decoded_in(config, payload, room):
    """The case of a sink that takes so many lines."""
    out = ffv1.decode_frame(config, payload, room)
    fault = out.fault
    place = [fault.number, fault.slice, fault.plane, fault.line, fault.x] if fault else [0] * 5
    info = [0] * 3 if fault else out.info
    return [*config_fields(config), hexadecimal(payload), room, *place, *info, out.ones, out.zeros,
            out.renormalisations, lines_text(config, out.lines)]


def decoded(random, count, depths=(8,), coders=RANGE):
    """width height record payload room fault slice plane line x structure num den ones zeros
    renormalisations lines"""
    lines = []
    for config, _, info, payload in pictures(random, count, depths, coders):
        lines.append(decoded_line(random, config, payload))
        for _ in range(6):
            lines.append(decoded_line(random, config, other_payload(random, config, info, payload)))
    return lines


def long_rows(random, count, depth):
    """The same of so many payloads of long rows, of residuals of any size."""
    return [decoded_in(config, payload, known_frames.ALL)
            for config, payload in random_rows.payloads(random, count, depth)]


def known_aspects(is_wide):
    """The same of slices with aspects that are known, at the wide or at the strict profile."""
    return [decoded_in(*known_frames.with_aspects(is_wide, aspects), known_frames.ALL)
            for at_wide, aspects, _ in known_frames.ASPECTS if at_wide == is_wide]


def known_decoded():
    """The same of the payloads that are known, at the strict profile."""
    return [decoded_in(config, bytes.fromhex(payload), room)
            for _, config, payload, room, *_ in known_frames.given()] + known_aspects(False)


def by_depth(make, random, count):
    """So many cases of each depth above 8 bits."""
    return [line for depth in ffv1.DEPTHS[1:] for line in make(random, count, depth)]


def write(name, lines):
    os.makedirs(DATA, exist_ok=True)
    with open(os.path.join(DATA, name), "w") as out:
        out.writelines(" ".join(str(field) for field in line) + "\n" for line in lines)


if __name__ == "__main__":
    write("heads.txt", heads(random.Random(9043), 400))
    write("payloads.txt", payloads(random.Random(9044), 2000))
    write("frames.txt", frames(random.Random(9045), 300))
    write("decoded.txt", known_decoded() + decoded(random.Random(9046), 300)
          + long_rows(random.Random(9049), 60, 8))
    write("deep_frames.txt", known_deep_frames() + by_depth(
        lambda dice, count, depth: random_frames(dice, count, 20, depth), random.Random(9047), 300))
    write("deep_decoded.txt", by_depth(
        lambda dice, count, depth: decoded(dice, count, (depth,)) + long_rows(dice, 20, depth),
        random.Random(9048), 60))
    write("wide.txt", known_aspects(True))
    write("avi.txt", files_of_avi())
    write("matroska.txt", files_of_matroska(random.Random(9559), 300))
    write("written.txt", files_written(random.Random(9560), 151))
