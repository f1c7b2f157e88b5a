# SPDX-License-Identifier: MIT OR Apache-2.0
"""The lines of a file's head and of the configuration of its frames."""

import ffv1
from record import are_multiples


def held(config):
    """Own: what a decoder holds: states, coded samples, output, and slices of a row. Where rows of
    slices share lines of chroma, the last one of Cb and of Cr is kept."""
    classes = 3 if config.extra else 2 if config.chroma else 1
    contexts = max(ffv1.contexts_of(runs) for runs in config.sets)
    planes = ffv1.plane_count(config) if config.rct else 1
    states = 32 * config.columns * classes * contexts
    size = 1 if config.depth == 8 else 2
    side = config.height, config.rows, 2 ** config.log2_v
    kept = 0 if are_multiples(*side) else 2 * ffv1.reduced(config, 1, config.width, 0)[0]
    return states, 3 * planes * config.width + kept, size * planes * config.width, config.columns


def shown(head, config, beside):
    """What a file says, a line each."""
    chroma = f"{config.log2_h},{config.log2_v}" if config.chroma else "mono"
    states, samples, output, columns = held(config)
    return [
        f"size {config.width}x{config.height}", f"coder {config.coder}",
        f"colour {'RCT' if config.rct else 'YCbCr'}", f"chroma {chroma}",
        *["extra 1"] * config.extra, *[f"depth {config.depth}"] * (config.depth > 8),
        f"slices {config.columns}x{config.rows}",
        " ".join(["contexts", *(str(ffv1.contexts_of(runs)) for runs in config.sets)]),
        *["note other programs refuse sets of more than 16384 contexts"]
        * any(ffv1.contexts_of(runs) > 16384 for runs in config.sets),
        f"ec {config.ec}", f"intra {config.intra}", f"rate {head.rate}/{head.scale}",
        *beside,
        f"held states {states} samples {samples} output {output} columns {columns} offsets 1025",
    ]
