# SPDX-License-Identifier: MIT OR Apache-2.0
"""The pictures of a file as texts: a part of `commands.py`."""
import damaged_files
import ffv1
import files
from ffv1 import Fault
from packing import said_in


def planes_of(config, lines):
    """The planes of lines that were handed over."""
    planes = [[] for _ in range(ffv1.plane_count(config))]
    for plane, _, samples in lines:
        planes[plane].append(samples)
    return planes


def has_text(config):
    """Whether pictures have a text: YUV4MPEG2 by the name of their chroma, PPM without transparency."""
    planes = (config.chroma, config.log2_h, config.log2_v, config.extra)
    if config.rct and config.extra:
        raise Fault(73)
    if not config.rct and files.name_of(planes, config.depth) is None:
        raise Fault(72)


def head_of(head, config, said):
    """The head of YUV4MPEG2 for pictures that say this."""
    planes = (config.chroma, config.log2_h, config.log2_v, config.extra)
    return files.VideoHead(config.width, config.height, head.rate, head.scale, said[0], said[1:], planes,
                           depth=config.depth,
                           **said_in(getattr(head, "colour", {}), planes, config))


def unpack_y4m(head, config, frames, out):
    """The canonical text of a file; own: 71 where a frame's structure or aspect is another. A frame of
    no bytes is the picture before once more, and nothing before the first picture."""
    has_text(config)
    count, first, picture = 0, None, b""
    for payload in frames:
        count += 1
        if not payload:
            out(picture)
            continue
        decoded = ffv1.decode_frame(config, payload)
        if decoded.fault:
            raise decoded.fault
        if first is None:
            first = decoded.info
            out(files.y4m_header(head_of(head, config, first)))
        elif decoded.info != first:
            raise Fault(71)
        picture = files.y4m_picture(planes_of(config, decoded.lines), config.depth)
        out(picture)
    return count


def unpack_ppm(config, frames, out):
    """The images of a file, of a frame at fault the rows before the fault; of a frame of no bytes the
    image before once more, and nothing before the first one."""
    has_text(config)
    count, image = 0, b""
    for payload in frames:
        count += 1
        if not payload:
            out(image)
            continue
        decoded = ffv1.decode_frame(config, payload)
        rows = list(zip(*planes_of(config, decoded.lines)))
        if rows:
            out(files.ppm_header(config.width, config.height, config.depth))
        for row in rows:
            out(files.ppm_line(row, config.depth))
        if decoded.fault:
            raise decoded.fault
        image = image_of(config, planes_of(config, decoded.lines))
    return count


def salvage(head, config, frames, out, tell):
    """The pictures of a file that may be damaged, and the lines of its faults: how many frames there
    are, and the first fault. Own: for a frame that is refused, or has no bytes, the last good picture
    is written once more, and before the first good one nothing. A frame of another structure or aspect
    than the header of YUV4MPEG2 is good, and told; PPM says neither."""
    has_text(config)
    count, faults, header, last = 0, [], None, None
    for payload in frames:
        if isinstance(payload, damaged_files.Told):
            tell(f"byte {payload.offset}: fault {payload.fault}\n")
            faults.append(payload.fault)
            continue
        decoded = ffv1.decode_frame(config, payload) if payload else None
        fault = decoded and decoded.fault
        if decoded and not fault and not config.rct:
            if header is None:
                header = decoded.info
                out(files.y4m_header(head_of(head, config, header)))
            elif decoded.info != header:
                fault = Fault(71)
        if fault:
            tell(f"frame {count}: fault {fault}\n")
            faults.append(fault)
        if decoded and not decoded.fault:
            last = planes_of(config, decoded.lines)
        if last is not None:
            out(image_of(config, last) if config.rct else files.y4m_picture(last, config.depth))
        count += 1
    if not count and not faults:
        raise Fault(70)
    return count, faults[0] if faults else None


def image_of(config, planes):
    """An image of PPM."""
    rows = [files.ppm_line(row, config.depth) for row in zip(*planes)]
    return files.ppm_header(config.width, config.height, config.depth) + b"".join(rows)
