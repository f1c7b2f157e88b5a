# SPDX-License-Identifier: MIT OR Apache-2.0
"""What `show` prints."""
import ffv1
from known_answers.case import ANY, Case, Step, avi, one, ppm

SHOWN = """size 1x1
coder 1
colour YCbCr
chroma mono
slices 1x1
contexts 666
ec 0
intra 1
rate 25/1
held states 21312 samples 3 output 1 columns 1 offsets 1025
"""
SHOWN_IMAGE = """size 1x1
coder 1
colour RCT
chroma 0,0
slices 1x1
contexts 666
ec 0
intra 1
rate 25/1
held states 42624 samples 9 output 3 columns 1 offsets 1025
"""
SHOWN_OPTIONS = """size 4x6
coder 2
colour RCT
chroma 0,0
slices 2x3
contexts 16638
note other programs refuse sets of more than 16384 contexts
ec 0
intra 1
rate 30000/1001
held states 2129664 samples 36 output 12 columns 2 offsets 1025
"""
SHOWN_DEFAULTS = """size 4x6
coder 1
colour RCT
chroma 0,0
slices 1x1
contexts 666
ec 1
intra 1
rate 25/1
held states 42624 samples 36 output 12 columns 1 offsets 1025
"""
SHOWN_CHROMA = """size 352x2
coder 1
colour YCbCr
chroma 1,1
slices 2x1
contexts 666
ec 1
intra 1
rate 0/0
held states 85248 samples 1056 output 352 columns 2 offsets 1025
"""
SHOWN_ALPHA = """size 352x1
coder 1
colour YCbCr
chroma 0,0
extra 1
slices 2x1
contexts 666
ec 1
intra 1
rate 0/0
held states 127872 samples 1056 output 352 columns 2 offsets 1025
"""
SHOWN_RCT_ALPHA = """size 352x2
coder 1
colour RCT
chroma 0,0
extra 1
slices 2x1
contexts 666 666
ec 1
intra 0
rate 0/0
held states 127872 samples 4224 output 1408 columns 2 offsets 1025
"""
SHOWN_LARGE = """size 352x2
coder 1
colour RCT
chroma 0,0
slices 4x1
contexts 666 16638
note other programs refuse sets of more than 16384 contexts
ec 1
intra 1
rate 0/0
held states 4259328 samples 3168 output 1056 columns 4 offsets 1025
"""
OPTIONS = "--coder=2 --contexts large --columns 2 --rows=3 --ec 0 --rate 30000 --scale=1001"


def packed_images():
    """What is said of an image that was packed."""
    image = ppm(4, 6, bytes(range(72)))
    for name, options, lines in [("all options", OPTIONS, SHOWN_OPTIONS),
                                 ("no options", "", SHOWN_DEFAULTS)]:
        yield Case(f"{name} of pack", {"in": image}, [
            Step(["pack", *options.split(), "in", "out"], ANY), Step(["show", "out"], lines),
            Step(["unpack", "out", "back"], "frames 1\n")], {"back": image})


def shown_files():
    """What is said of files without frames."""
    both = [ffv1.SMALL, ffv1.LARGE]
    wide = {"width": 352, "height": 2, "chroma": True, "ec": 1}
    for name, config, rate, lines in [
            ("an image", one(chroma=True, rct=True), (25, 1), SHOWN_IMAGE),
            ("chroma", one(**wide, log2_h=1, log2_v=1, columns=2), (0, 0), SHOWN_CHROMA),
            ("transparency", one(**{**wide, "height": 1}, extra=True, columns=2), (0, 0),
             SHOWN_ALPHA),
            ("an image with transparency", one(**wide, rct=True, extra=True, columns=2, intra=0,
                                               sets=[ffv1.SMALL] * 2), (0, 0), SHOWN_RCT_ALPHA),
            ("two sets", one(**wide, rct=True, columns=4, sets=both), (0, 0), SHOWN_LARGE)]:
        file = avi(config, [], *rate)
        yield Case(f"{name} is shown", {"in": file}, [Step(["show", "in"], lines)], {"in": file})


FIRST = "cost frame 0: ones 11 zeros 0 renormalisations 1\n"
# name, payloads, lines after the others, fault
COSTS = [
    ("of a sample 0", ["FE7B000002"], FIRST, ""),
    ("of a sample 255", ["FE18000002"], "cost frame 0: ones 11 zeros 2 renormalisations 1\n", ""),
    ("of no frames", [], "", ""),
    ("up to a frame that is damaged", ["FE7B000002", "000000", "FE7B000002"], FIRST, "30 NotKey"),
    ("of two frames", ["FE7B000002"] * 2, FIRST + FIRST.replace("0", "1", 1), ""),
]


def costs():
    """What the frames cost."""
    for name, payloads, lines, fault in COSTS:
        file = avi(one(), [bytes.fromhex(payload) for payload in payloads])
        yield Case(f"cost {name}", {"in": file}, [
            Step(["show", "--cost", "in"], SHOWN + lines, fault), Step(["show", "in"], SHOWN)])


CASES = [packed_images, shown_files, costs]
