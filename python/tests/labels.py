"""Chunks of labels as the published document of the compressed segmentation
encoding lays them out."""

import struct
from itertools import product

WIDTHS = (0, 1, 2, 4, 8, 16, 32)


def encode(labels, size, block, channels, bits, least=0):
    """A chunk of the labels that `labels` gives for (x, y, z) and a channel.
    A block's packed values stand before its table, and each block has at
    least this width."""
    words = [0] * channels
    for channel in range(channels):
        words[channel] = len(words)
        words += _channel(
            lambda voxel: labels(voxel, channel), size, block, bits, least
        )
    return struct.pack(f"<{len(words)}I", *words)


def _channel(label, size, block, bits, least):
    """The words of one channel."""
    grid = [-(-s // b) for s, b in zip(size, block)]
    headers, rest = [], []
    begin = 2 * grid[0] * grid[1] * grid[2]
    for k, j, i in product(*map(range, reversed(grid))):
        corner = i * block[0], j * block[1], k * block[2]
        values, table = [], []
        for w, v, u in product(*map(range, reversed(block))):
            voxel = corner[0] + u, corner[1] + v, corner[2] + w
            inside = all(a < s for a, s in zip(voxel, size))
            found = label(voxel) if inside else None
            if inside and found not in table:
                table.append(found)
            values.append(table.index(found) if inside else 0)
        width = next(
            w for w in WIDTHS if w >= least and len(table) <= 2**w
        )
        at = begin + len(rest)
        rest += _packed(values, width)
        headers += [width << 24 | begin + len(rest), at]
        for entry in table:
            rest += [entry] if bits == 32 else [entry % 2**32, entry >> 32]
    return headers + rest


def _packed(values, width):
    """The values, so many bits each, in words from the low bits on."""
    total = sum(value << place * width for place, value in enumerate(values))
    count = -(-len(values) * width // 32)
    return [total >> 32 * place & 0xFFFFFFFF for place in range(count)]


def voxels(size):
    """All voxels, x fastest, then y and z."""
    for z, y, x in product(*map(range, reversed(size))):
        yield x, y, z
