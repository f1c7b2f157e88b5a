# SPDX-License-Identifier: MIT OR Apache-2.0
"""What `ffv1 pack` does with a video: a part of `commands.py`."""
import avi_format
import ffv1
import files
import matroska
import matroska_writer
from ffv1 import Fault
from record import are_multiples


# --------------------------------------------------------------------------------------------- pack

def config_of(head, choice, grid):
    """The configuration of pictures with this head and grid. Own: one set, and intra 1."""
    return ffv1.Config(
        head.width, head.height, coder=choice["coder"], rct=head.rct, chroma=head.chroma,
        log2_h=head.log2_h, log2_v=head.log2_v, extra=head.extra, columns=grid[0], rows=grid[1],
        sets=[ffv1.LARGE if choice["contexts"] == "large" else ffv1.SMALL],
        ec=choice["ec"], intra=1, depth=head.depth, wide=True)


def raw_slice(head, columns, rows):
    """How many bytes the samples of the greatest slice have."""
    part = files.VideoHead(-(-head.width // columns), -(-head.height // rows),
                           planes=(head.chroma, head.log2_h, head.log2_v, head.extra))
    samples = sum(width * height for width, height in part.sizes())
    return samples * (1 if head.depth == 8 else 2)


def is_accepted(config):
    """Whether a configuration is accepted."""
    try:
        ffv1.check(config)
    except Fault:
        return False
    return True


def shares_none(config):
    """Whether a configuration is accepted, and its slices share no sample."""
    return all(are_multiples(*side) for side in ffv1.sides_of(config, 1)) and is_accepted(config)


def default_grid(head, choice):
    """Section 5 wants at least 4 slices for more than 101376 pixels. Own: the grid of at least as many
    columns as rows, of fewest slices, and of these of fewest columns, that the picture has, whose
    greatest slice has less than 12 MiB of samples, and whose slices share none; else the first such
    whose slices may share samples; else the first of any columns and rows whose slices share none;
    else one slice."""
    if head.width * head.height <= 101376:
        return 1, 1
    grids = [(columns, slices // columns) for slices in range(4, 1025) for columns in range(1, 33)
             if slices % columns == 0 and slices // columns <= 32]
    small = [grid for grid in grids if raw_slice(head, *grid) < 12 * 2 ** 20]
    wide = [grid for grid in small if grid[0] >= grid[1]]
    for suits, among in [(shares_none, wide), (is_accepted, wide), (shares_none, small)]:
        for grid in among:
            if suits(config_of(head, choice, grid)):
                return grid
    return 1, 1


def grid_of(head, choice, by_default):
    """The grid that is asked for; where none is, that of the default, or one slice."""
    if by_default and choice["columns"] is None and choice["rows"] is None:
        return default_grid(head, choice)
    return choice["columns"] or 1, choice["rows"] or 1


def video_of(source, choice, by_default=False):
    """The head of a text, the configuration of its pictures, and what encodes them one by one."""
    first = source.some(1)
    if first == b"P":
        head, pictures = files.open_ppm(source, first), files.ppm_pictures
        head.rate, head.scale = choice["rate"] or 25, choice["scale"] or 1
    else:
        head, pictures = files.open_y4m(source, first), files.y4m_pictures
    config = config_of(head, choice, grid_of(head, choice, by_default))
    ffv1.check(config)
    info = [head.structure, *head.aspect]
    frames = (ffv1.encode_frame(config, planes, info) for planes in pictures(source, head))
    return head, config, frames


def packed(lengths):
    """The count of a text that was packed; 70 where it has no picture."""
    if not lengths:
        raise Fault(70)
    return f"frames {len(lengths)} bytes {sum(lengths)}\n"


def pack(source, out, choice):
    """A text of pictures becomes an AVI, when all its frames are encoded. It answers the count, and
    the head of the text."""
    head, config, frames = video_of(source, choice)
    frames = list(frames)
    count = packed([len(frame) for frame in frames])
    avi = avi_format.AviHead(head.width, head.height, head.rate, head.scale, ffv1.write_record(config))
    out(avi_format.write_avi(avi, frames))
    return count, head


# Range, and ChromaSitingHorz and ChromaSitingVert, of what a text says
RANGES = {"limited": 1, "full": 2}
SITINGS = {"centre": (2, 2), "left": (1, 2), "topleft": (1, 1)}


def colour_of(head, choice):
    """What the line says of colours, or else the text, as Matroska says it."""
    siting = head.siting if choice["siting"] == "auto" else choice["siting"]
    values = head.range if choice["range"] == "auto" else choice["range"]
    across, down = SITINGS.get(siting, (0, 0))
    return {matroska.MATRIX: choice["matrix"], matroska.SITING_HORZ: across,
            matroska.SITING_VERT: down, matroska.RANGE: RANGES.get(values, 0),
            matroska.TRANSFER: choice["transfer"], matroska.PRIMARIES: choice["primaries"]}


def said_in(colour, planes, config):
    """What a text says of the colours of a file: the siting at 4:2:0 of 8 bits alone."""
    pair = colour.get(matroska.SITING_HORZ), colour.get(matroska.SITING_VERT)
    sited = tuple(planes) == (True, 1, 1, False) and config.depth == 8
    return {"range": {1: "limited", 2: "full"}.get(colour.get(matroska.RANGE)),
            "siting": next((name for name, pairs in SITINGS.items() if pairs == pair and sited), None)}


def is_matroska(container, path):
    """Whether OUT becomes Matroska: RFC 9559, 27.3, names what its files' names end in."""
    named = path.lower().endswith((".mkv", ".mka", ".mks", ".mk3d"))
    return container == "mkv" or container == "auto" and named


def pack_matroska(source, out, over, choice):
    """A text of pictures becomes Matroska, and each frame is written as soon as it is encoded. At
    the end the opening is written over, which does nothing where OUT is no regular file. It answers
    the count, and the head of the text."""
    head, config, frames = video_of(source, choice, by_default=True)
    matroska_writer.timed(head.rate, head.scale)
    track = matroska.Head(1, head.width, head.height, head.rate, head.scale,
                          ffv1.write_record(config), colour=colour_of(head, choice))
    tracks = matroska_writer.tracks(track, matroska_writer.Shown(head.structure, head.aspect))
    lengths, begins, end = [], [], matroska_writer.TRACKS_PLACE + len(tracks)
    for frame in frames:
        begin, end = matroska_writer.places(end, [len(frame)])
        if not begins:
            out(matroska_writer.opening(track) + tracks)
        out(matroska_writer.cluster(len(begins), frame))
        lengths.append(len(frame))
        begins.append(begin)
    count = packed(lengths)
    cues = matroska_writer.cues(begins)
    out(cues)
    over(matroska_writer.opening(track, matroska_writer.Finish(end + len(cues), end, len(lengths))))
    return count, head
