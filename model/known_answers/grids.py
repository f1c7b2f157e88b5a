# SPDX-License-Identifier: MIT OR Apache-2.0
"""Which columns and rows of slices a picture is packed in, where they are chosen and where not: in
Matroska, and in AVI, which has one slice by default. Worked out by hand: a picture of more than
101376 pixels has at least 4 slices, and each inner edge is a multiple of the chroma factor, if a
grid of at least as many columns as rows has such edges."""
import files
import packing

# width, height, chroma, options, columns and rows in Matroska and in AVI
GRIDS = [
    (352, 288, "mono", {}, (1, 1), (1, 1)),
    (353, 288, "mono", {}, (2, 2), (1, 1)),
    (353, 288, "mono", {"columns": 1}, (1, 1), (1, 1)),
    (353, 288, "mono", {"rows": 2}, (1, 2), (1, 2)),
    (400, 270, "420jpeg", {}, (4, 1), (1, 1)),          # half of 270 is odd, and so is a quarter
    (8191, 13, "420jpeg", {}, (5, 1), (1, 1)),          # 1638, 3276, 4914 and 6552
    (8192, 13, "mono", {}, (2, 2), (1, 1)),
    (720, 576, "422", {}, (2, 2), (1, 1)),
    (720, 486, "420jpeg", {}, (4, 1), (1, 1)),          # half of 486 is odd
    (854, 480, "422", {}, (7, 1), (1, 1)),              # 854 is 2 * 7 * 61
    (1366, 768, "422", {}, (2, 2), (1, 1)),             # no columns have even edges alone; 683 is shared
    (1366, 768, "420jpeg", {}, (2, 2), (1, 1)),         # the same
    (1998, 1080, "411", {}, (3, 2), (1, 1)),            # 2, 4 and 5 columns would leave the last out
]


def checks():
    """What the model chooses."""
    for width, height, chroma, options, matroska, avi in GRIDS:
        *planes, depth = files.PLANES[chroma.encode()]
        head = files.VideoHead(width, height, planes=planes, depth=depth)
        choice = {"coder": 1, "contexts": "small", "columns": None, "rows": None, "ec": 1, **options}
        for by_default, wanted in [(True, matroska), (False, avi)]:
            yield (f"grid of {width} by {height} {chroma} {options}",
                   packing.grid_of(head, choice, by_default), wanted)
