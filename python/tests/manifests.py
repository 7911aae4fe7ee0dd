"""Manifests as scope, "Manifest", lays them out."""

import struct


def manifest(shape, origin, levels):
    """The bytes of a manifest. A level is a scale, a vertex offset and nodes
    of x, y, z and fragment size."""
    data = struct.pack("<6fI", *shape, *origin, len(levels))
    for scale, _, _ in levels:
        data += struct.pack("<f", scale)
    for _, offset, _ in levels:
        data += struct.pack("<3f", *offset)
    for _, _, nodes in levels:
        data += struct.pack("<I", len(nodes))
    for _, _, nodes in levels:
        for i in range(4):
            data += struct.pack(f"<{len(nodes)}I", *(n[i] for n in nodes))
    return data


def f32(number):
    """The f32 nearest to a float. A product of two f32 is exact in a float,
    and rounding a sum of two first to a float and then here gives what one
    rounding gives."""
    return struct.unpack("<f", struct.pack("<f", number))[0]


def corners(shape, origin, position, level):
    """The near and the far corner, each operation rounded once."""
    near, far = [], []
    for s, o, p in zip(shape, origin, position):
        near.append(f32(o + f32(f32(p * s) * 2.0**level)))
        far.append(f32(near[-1] + f32(s * 2.0**level)))
    return tuple(near), tuple(far)


def z_place(node):
    """The place of a node on the Z curve: the bits of x, y and z in turn, x
    lowest."""
    return sum(
        (node[axis] >> i & 1) << 3 * i + axis
        for i in range(32)
        for axis in range(3)
    )
