"""Writes mesh manifests and what they say, from the layout in source document
001 and the rules of document 01, "Manifest". Its output is stored beside it:

    python3 manifests.py > manifests.txt

The lines:

    # what the next manifest shows
    manifest HEX                            the bytes of the file
    level LEVEL COUNT                       the nodes of a level
    node LEVEL NODE X Y Z SIZE START        a node and where its fragment starts
    corners LEVEL NODE NEAR*3 FAR*3         its corners: bits of f32, in hexadecimal
    refused LEVEL NODE                      its corners are refused

Levels and nodes count from 0.
"""

import struct


def f32(number):
    """The f32 nearest to a float, ties to even; None where it overflows.

    Python's floats have 53 bits. The product of two f32 has at most 48 and is
    exact in them. The sum of two f32 may be rounded in them, but 53 bits are at
    least 2 * 24 + 2, and then rounding twice gives what rounding once gives.
    """
    try:
        return struct.unpack("<f", struct.pack("<f", number))[0]
    except OverflowError:
        return None


def from_bits(bits):
    """The f32 of these bits."""
    return struct.unpack("<f", struct.pack("<I", bits))[0]


def bits(real):
    """The bits of an f32, in hexadecimal."""
    return "%08x" % struct.unpack("<I", struct.pack("<f", real))


def times(a, b):
    """The product of two f32, rounded once; None where it overflows."""
    return None if a is None or b is None else f32(a * b)


def plus(a, b):
    """The sum of two f32, rounded once; None where it overflows.

    Here None stands for an infinity in one of the terms too: the other term is
    finite, so the sum is not.
    """
    return None if a is None or b is None else f32(a + b)


def corner(origin, shape, position, level):
    """The near and the far corner on one axis."""
    scale = float(2**level)
    near = plus(origin, times(times(float(position), shape), scale))
    return near, plus(near, times(shape, scale))


def corners(shape, origin, position, level):
    """The reals of a node's corners, near ones first; None where refused."""
    if any(number >= 2**24 for number in position):
        return None
    pairs = [corner(origin[j], shape[j], position[j], level) for j in range(3)]
    found = [pair[0] for pair in pairs] + [pair[1] for pair in pairs]
    return None if None in found else found


def z_order(position):
    """The place on the Z curve: the bits of x, y and z in turn, x lowest."""
    place = 0
    for height in range(32):
        for axis in range(3):
            place += (position[axis] >> height & 1) << (3 * height + axis)
    return place


def encoded(shape, origin, scales, offsets, levels):
    """The bytes of a manifest, in the order of source document 001."""
    count = len(levels)
    parts = [struct.pack("<3f", *shape), struct.pack("<3f", *origin)]
    parts.append(struct.pack("<I", count))
    parts.append(struct.pack("<%df" % count, *scales))
    for offset in offsets:
        parts.append(struct.pack("<3f", *offset))
    parts.append(struct.pack("<%dI" % count, *[len(nodes) for nodes in levels]))
    for nodes in levels:
        for axis in range(3):
            parts += [struct.pack("<I", position[axis]) for position, _ in nodes]
        parts += [struct.pack("<I", size) for _, size in nodes]
    return b"".join(parts)


def show(title, shape, origin, levels):
    """Prints a manifest and what it says. The nodes of a level are given as
    pairs of a position and a fragment size, in any order."""
    levels = [sorted(nodes, key=lambda node: z_order(node[0])) for nodes in levels]
    shape = [f32(real) for real in shape]
    origin = [f32(real) for real in origin]
    scales = [float(2**level) for level in range(len(levels))]
    offsets = [[level / 4, -level / 8, 0.5] for level in range(len(levels))]
    print("# " + title)
    print("manifest " + encoded(shape, origin, scales, offsets, levels).hex())
    start = 0
    for level, nodes in enumerate(levels):
        print("level", level, len(nodes))
        for node, (position, size) in enumerate(nodes):
            print("node", level, node, *position, size, start)
            start += size
            found = corners(shape, origin, position, level)
            if found is None:
                print("refused", level, node)
            else:
                print("corners", level, node, *[bits(real) for real in found])


def spread(count, limit, seed):
    """Different nodes with positions below a limit, from a fixed sequence."""
    found = {}
    while len(found) < count:
        numbers = []
        for _ in range(4):
            seed = (seed * 6364136223846793005 + 1442695040888963407) % 2**64
            numbers.append(seed >> 33)
        found[tuple(number % limit for number in numbers[:3])] = numbers[3] % 100_000
    return list(found.items())


def main():
    """Prints all manifests."""
    ones, zeros = [1.0] * 3, [0.0] * 3
    greatest = from_bits(0x7F7FFFFF)
    smallest = from_bits(1)
    origin = [10.0, -20.0, 30.5]

    show("no levels", ones, zeros, [])
    show("one level and one node", ones, zeros, [[((0, 0, 0), 9)]])
    show("one level without nodes", ones, zeros, [[]])
    show(
        "one level: the eight nodes of a cube",
        [64.0, 32.0, 16.0],
        origin,
        [[((n & 1, n >> 1 & 1, n >> 2), 10**n) for n in range(8)]],
    )
    show(
        "two levels: the far end of each axis",
        [0.1, 0.2, 0.3],
        [-0.7, 1.3, 1e6],
        [
            [((2**24 - 1, 0, 0), 5), ((0, 2**24 - 1, 0), 0), ((0, 0, 2**24 - 1), 7)],
            [((2**24 - 1, 2**24 - 1, 2**24 - 1), 2**32 - 1), ((1, 2, 3), 1)],
        ],
    )
    show(
        "three levels, two of them empty: origin 10, shape 8, position 3, level 2",
        [8.0] * 3,
        [10.0] * 3,
        [[], [], [((3, 3, 3), 1)]],
    )
    show(
        "five levels: the first, the third and the last are empty",
        [1 / 3, 2 / 3, 5 / 3],
        [1e-3, -1e3, 1e5],
        [[], spread(6, 2**16, 1), [], spread(3, 2**20, 2), []],
    )
    show(
        "five levels of nodes all over, also past the last position with corners",
        [0.7, 1.9, 123.456],
        [3.3e4, -8.1e2, 5.5e-5],
        [spread(4, 2**bits, bits) for bits in (2, 8, 16, 24, 27)],
    )
    show(
        "positions of 2^24 and more",
        ones,
        zeros,
        [[((2**24, 0, 0), 1), ((0, 2**24 + 1, 0), 2), ((0, 0, 2**32 - 1), 3)]],
    )
    show(
        "fragment starts beyond 2^32",
        ones,
        zeros,
        [
            [((n, n, n), 2**32 - 1) for n in range(3)],
            [],
            [((5, 4, 3), 2**32 - 1), ((3, 4, 5), 2**31)],
        ],
    )
    show("32 levels without nodes", ones, origin, [[] for _ in range(32)])
    show(
        "32 levels, nodes on the first, the eighth and the last",
        [1.1, 1.2, 1.3],
        [-1e9, 2e9, -3e-9],
        [spread(3, 2**12, level) if level in (0, 7, 31) else [] for level in range(32)],
    )
    show(
        "32 levels with one or two nodes each",
        [0.3, 0.03, 0.003],
        [7e7, -7e3, 7e-3],
        [spread(1 + level % 2, 2**24, 50 + level) for level in range(32)],
    )
    show(
        "subnormal shapes and a negative zero",
        [smallest, 3 * smallest, from_bits(0x007FFFFF)],
        [-0.0, -2 * smallest, -from_bits(0x007FFFFF)],
        [[((0, 0, 0), 1), ((1, 1, 1), 2), ((7, 5, 3), 3)], [((1, 1, 1), 4)]],
    )
    show(
        "corners that overflow, and some that just do not",
        [greatest, greatest / 2, greatest / 4],
        [-greatest, 0.0, 0.0],
        [
            [((0, 0, 0), 1), ((1, 0, 0), 2), ((1, 1, 3), 3), ((2, 0, 0), 4), ((1, 2, 0), 5)],
            [((0, 0, 0), 6), ((0, 0, 1), 7)],
        ],
    )


main()
