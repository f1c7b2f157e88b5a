# SPDX-License-Identifier: MIT OR Apache-2.0
"""What the commands make of files whose samples are Golomb-Rice coded, as FFmpeg writes them by
default at 8 bits: the payloads are those of `golomb.py`."""
import hashlib

import ffv1
from known_answers.case import Case, Step, avi, y4m
from known_answers.golomb import PAYLOADS, PICTURES, REFUSED, config_of


def file_of(width, height, options, payload):
    """A file of one frame."""
    return avi(config_of(width, height, options), [bytes.fromhex(payload)])


def texts():
    """Of each picture but those of RCT the text; and its MD5."""
    for (name, width, height, options, _, planes, _), payload in zip(PICTURES, PAYLOADS):
        if "rct" in options:
            continue
        chroma = ("444alpha" if "extra" in options else "420jpeg" if "log2_v" in options
                  else "422" if "chroma" in options else "mono")
        samples = bytes(sum(planes, []))
        text = y4m(f"W{width} H{height} F25:1 I? A1:1 C{chroma}", samples)
        yield Case(f"a file of {name}", {"in": file_of(width, height, options, payload)}, [
            Step(["unpack", "in", "out"], "frames 1\n"),
            Step(["check", "--quiet", "in"], "in: sound, 1 frames\n")], {"out": text})


def lists():
    """Their MD5s are those of the samples."""
    given = {}
    for number, ((_, width, height, options, _, planes, _), payload) in enumerate(
            zip(PICTURES[:10], PAYLOADS)):
        samples = bytes(sum(planes, []))
        given[f"{number}"] = file_of(width, height, options, payload)
        given[f"{number}.list"] = (f"0, 0, 0, 1, {len(samples)}, "
                                   f"{hashlib.md5(samples).hexdigest()}\n").encode()
    yield Case("MD5s of Golomb-Rice coded pictures", given, [
        Step(["check", "--against", f"{number}.list", f"{number}"], "frames 1\n")
        for number in range(10)])


def refused():
    """Payloads that code no picture, each with its fault and the slice."""
    for name, width, height, payload, number, place in REFUSED:
        fault = f"{number} {ffv1.FAULTS[number]}"
        yield Case(f"a file of {name}", {"in": file_of(width, height, {}, payload)}, [
            Step(["check", "--quiet", "in"], f"in: {fault} in frame 0, slice {place[0]}\n", fault),
            Step(["check", "--all", "in"], f"frame 0: fault {fault}\nframes 1 faults 1\n", fault),
            Step(["unpack", "in", "out"], "", fault)], {"out": b""})


CASES = [texts, lists, refused]
