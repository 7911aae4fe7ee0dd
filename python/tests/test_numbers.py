"""Numbers that the library's types cannot hold never reach it."""

import unittest

from coronagamba import Card, Manifest, Pair, Shard, Sharding, Volume

from .shards import u64s

SHARDING = Sharding(0, 0, 0, 0, 0)
VOLUME = Volume((9, 9, 9), (1, 1, 1))
SHARD = Shard(SHARDING, 0, bytes(16))
PAIR = Pair(SHARDING, 0, bytes(16), b"")
MANIFEST = Manifest(bytes(28))

# For each number that a caller gives: its name, its range and a call of it.
U8 = (0, 2**8 - 1)
U32 = (0, 2**32 - 1)
U64 = (0, 2**64 - 1)
I32 = (-(2**31), 2**31 - 1)
ARGUMENTS = [
    ("preshift", U8, lambda n: Sharding(n, 0, 0, 0, 0)),
    ("hash", U8, lambda n: Sharding(0, n, 0, 0, 0)),
    ("minishard_bits", U8, lambda n: Sharding(0, 0, n, 0, 0)),
    ("shard_bits", U8, lambda n: Sharding(0, 0, 0, n, 0)),
    ("kind", U8, lambda n: Sharding(0, 0, 0, 0, n)),
    ("id", U64, SHARDING.place),
    ("ids[1]", U64, lambda n: SHARDING.places([0, n])),
    ("shard", U64, SHARDING.shard_name),
    ("shard", U64, SHARDING.index_name),
    ("shard", U64, SHARDING.data_name),
    ("size x", U32, lambda n: Volume((n, 1, 1), (1, 1, 1))),
    ("size y", U32, lambda n: Volume((1, n, 1), (1, 1, 1))),
    ("chunk z", U32, lambda n: Volume((1, 1, 1), (1, 1, n))),
    ("offset x", I32, lambda n: Volume((1, 1, 1), (1, 1, 1), (n, 0, 0))),
    ("offset z", I32, lambda n: Volume((1, 1, 1), (1, 1, 1), (0, 0, n))),
    ("cell y", U32, lambda n: VOLUME.key((0, n, 0))),
    ("cells[1] z", U32, lambda n: VOLUME.keys([(0, 0, 0), (0, 0, n)])),
    ("key", U64, VOLUME.cell),
    ("cell x", U32, lambda n: VOLUME.bounds((n, 0, 0))),
    ("cell z", U32, lambda n: VOLUME.chunk_name((0, 0, n))),
    ("number", U64, lambda n: Shard(SHARDING, n, b"")),
    ("id", U64, SHARD.lookup),
    ("id", U64, SHARD.chunk),
    ("minishard", U64, SHARD.listed_count),
    ("minishard", U64, SHARD.listing),
    ("number", U64, lambda n: Pair(SHARDING, n, b"", b"")),
    ("id", U64, PAIR.chunk),
    ("minishard", U64, PAIR.listing),
    ("start", U64, lambda n: PAIR.range(n, 0)),
    ("end", U64, lambda n: PAIR.locate_range(0, n)),
    ("scale", U64, lambda n: Card.read_info(b"", n)),
    ("number", U64, MANIFEST.field),
    ("level", U64, lambda n: MANIFEST.node(n, 0)),
    ("node", U64, lambda n: MANIFEST.node(0, n)),
    ("level", U64, lambda n: MANIFEST.corners(n, 0)),
    ("node", U64, lambda n: MANIFEST.corners(0, n)),
]


class Index:
    """An object that is a number to Python."""

    def __init__(self, number):
        self.number = number

    def __index__(self):
        return self.number


class Numbers(unittest.TestCase):
    def assert_raises_naming(self, kind, name, call, value):
        with self.subTest(name=name, value=value):
            with self.assertRaises(kind) as caught:
                call(value)
            self.assertTrue(str(caught.exception).startswith(f"{name} "))

    def test_out_of_range(self):
        for name, (least, most), call in ARGUMENTS:
            for value in (least - 1, most + 1, 10**30, -(10**30)):
                self.assert_raises_naming(OverflowError, name, call, value)

    def test_no_integers(self):
        for name, _, call in ARGUMENTS:
            for value in (1.0, "1", None, b"1"):
                self.assert_raises_naming(TypeError, name, call, value)

    def test_the_edges_of_the_range_are_let_through(self):
        sharding = Sharding(255, 255, 255, 255, 255)
        self.assertEqual(sharding.preshift, 255)
        edges = Volume([2**32 - 1] * 3, [2**32 - 1] * 3, [-(2**31)] * 3)
        self.assertEqual(edges.bounds((0, 0, 0)).begin.x, -(2**31))
        self.assertEqual(edges.bounds((0, 0, 0)).end.x, 2**31 - 1)
        last = Sharding(0, 0, 12, 32, 0).place(2**64 - 1)
        self.assertEqual(last, (2**32 - 1, 2**12 - 1))

    def test_what_python_takes_for_an_integer(self):
        sharding = Sharding(Index(1), False, True, Index(0), 0)
        self.assertEqual(sharding, Sharding(1, 0, 1, 0, 0))
        self.assertEqual(repr(sharding.hash), "0")
        self.assertEqual(sharding.place(Index(2)), (0, 1))

    def test_not_three(self):
        for triple in ((), (1, 2), (1, 2, 3, 4)):
            with self.assertRaisesRegex(ValueError, "^size must be three"):
                Volume(triple, (1, 1, 1))
            with self.assertRaisesRegex(ValueError, "^cell must be three"):
                VOLUME.key(triple)
        with self.assertRaisesRegex(TypeError, "^cell must be three"):
            VOLUME.key(7)

    def test_other_kinds(self):
        with self.assertRaisesRegex(TypeError, "^sharding must be"):
            Shard((0, 0, 0, 0), 0, u64s(0, 0))
        with self.assertRaisesRegex(TypeError, "^sharding must be"):
            Card(None, VOLUME)
        with self.assertRaisesRegex(TypeError, "^volume must be"):
            Card(SHARDING, SHARDING)
