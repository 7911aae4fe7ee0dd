"""Mesh manifests."""

import random
import struct
import unittest

from coronagamba import Corners, Header, Manifest, Node, Refused, Visit

from .manifests import corners, f32, manifest, z_place

SHAPE = (8.0, 8.0, 8.0)
ORIGIN = (10.0, 10.0, 10.0)
NONE = (0.0, 0.0, 0.0)
# The third of four levels has no nodes.
LEVELS = [
    (1.0, (0.5, -0.5, 0.0), [(1, 0, 0, 7), (0, 1, 0, 11), (0, 0, 1, 0)]),
    (2.0, NONE, [(2**32 - 1, 0, 0, 2**32 - 1), (0, 0, 2**32 - 1, 2**32 - 1)]),
    (4.0, NONE, []),
    (8.0, NONE, [(3, 3, 3, 13)]),
]
SOUND = manifest(SHAPE, ORIGIN, LEVELS)


def visits(levels):
    """All nodes of levels, with the sum of all earlier sizes."""
    start = 0
    for level, (_, _, nodes) in enumerate(levels):
        for number, (x, y, z, size) in enumerate(nodes):
            yield Visit(level, number, Node((x, y, z), start, size))
            start += size


def samples(seed, count):
    """Random sound manifests: shape, origin, levels."""
    rng = random.Random(seed)
    for _ in range(count):
        shape = tuple(f32(rng.uniform(0.1, 99)) for _ in "xyz")
        origin = tuple(f32(rng.uniform(-99, 99)) for _ in "xyz")
        levels = []
        for _ in range(rng.randrange(5)):
            positions = {
                tuple(rng.getrandbits(rng.choice([2, 24])) for _ in "xyz")
                for _ in range(rng.randrange(6))
            }
            nodes = [
                (*position, rng.getrandbits(32))
                for position in sorted(positions, key=z_place)
            ]
            levels.append((1.0, NONE, nodes))
        yield shape, origin, levels


class Questions(unittest.TestCase):
    def test_the_scopes_lengths(self):
        none = manifest(SHAPE, ORIGIN, [])
        single = manifest(SHAPE, ORIGIN, [(1.0, NONE, [(0, 0, 0, 1)])])
        self.assertEqual((len(none), len(single)), (28, 64))
        Manifest(none).check()
        Manifest(single).check()
        with self.assertRaises(Refused) as caught:
            Manifest(single + b"\0").check()
        self.assertEqual(caught.exception.number, 15)

    def test_header(self):
        self.assertEqual(Manifest(SOUND).header(), Header(SHAPE, ORIGIN))

    def test_fields(self):
        levels = len(LEVELS)
        reals = set(range(6)) | set(range(7, 7 + 4 * levels))
        opened = Manifest(SOUND)
        for number in range(len(SOUND) // 4):
            code = "<f" if number in reals else "<I"
            (expected,) = struct.unpack_from(code, SOUND, 4 * number)
            found = opened.field(number)
            self.assertEqual(found, expected)
            self.assertIs(type(found), type(expected), number)

    def test_nodes_one_by_one(self):
        opened = Manifest(SOUND)
        for level, number, node in visits(LEVELS):
            self.assertEqual(opened.node(level, number), node)

    def test_the_scopes_corners(self):
        empty = (1.0, NONE, [])
        levels = [empty, empty, (1.0, NONE, [(3, 3, 3, 1)])]
        opened = Manifest(manifest(SHAPE, ORIGIN, levels))
        self.assertEqual(
            opened.corners(2, 0), Corners((106.0,) * 3, (138.0,) * 3)
        )

    def test_corners_are_rounded_step_by_step(self):
        met = 0
        for shape, origin, levels in samples(7, 100):
            opened = Manifest(manifest(shape, origin, levels))
            for level, number, node in visits(levels):
                met += 1
                expected = corners(shape, origin, node.position, level)
                self.assertEqual(opened.corners(level, number), expected)
        self.assertGreater(met, 300)

    def test_corners_that_are_not_there(self):
        with self.assertRaises(Refused) as caught:
            Manifest(SOUND).corners(1, 0)
        self.assertEqual(caught.exception.number, 18)
        self.assertEqual(Manifest(SOUND).node(1, 0).position[0], 2**32 - 1)


class Nodes(unittest.TestCase):
    def test_all_nodes_in_order(self):
        self.assertEqual(list(Manifest(SOUND).nodes()), list(visits(LEVELS)))

    def test_random_manifests(self):
        for shape, origin, levels in samples(8, 100):
            opened = Manifest(manifest(shape, origin, levels))
            expected = list(visits(levels))
            self.assertEqual(list(opened.nodes()), expected)
            for level in range(len(levels)):
                nodes = [v.node for v in expected if v.level == level]
                self.assertEqual(opened.nodes_of(level), nodes)

    def test_no_levels(self):
        none = Manifest(manifest(SHAPE, ORIGIN, []))
        self.assertEqual(list(none.nodes()), [])

    def test_levels_that_are_not_there(self):
        for level in (len(LEVELS), 2**32 - 1):
            with self.assertRaises(Refused) as caught:
                Manifest(SOUND).nodes_of(level)
            self.assertEqual(caught.exception.number, 18)

    def test_all_nodes_are_refused_at_the_call(self):
        with self.assertRaises(Refused) as caught:
            Manifest(SOUND[:-1]).nodes()
        self.assertEqual(caught.exception.number, 15)

    def test_two_iterations_do_not_meet(self):
        opened = Manifest(SOUND)
        pairs = list(zip(opened.nodes(), opened.nodes()))
        self.assertEqual([a for a, _ in pairs], [b for _, b in pairs])
        self.assertEqual(len(pairs), 6)

    def test_changed_bytes_are_judged_at_the_next_level(self):
        data = bytearray(SOUND)
        nodes = Manifest(data).nodes()
        first = [next(nodes) for _ in LEVELS[0][2]]
        self.assertEqual(first, list(visits(LEVELS))[:3])
        # The first level's node count.
        at = 28 + 16 * len(LEVELS)
        data[at:at + 4] = struct.pack("<I", 2**32 - 1)
        with self.assertRaises(Refused) as caught:
            next(nodes)
        self.assertEqual(caught.exception.number, 15)
