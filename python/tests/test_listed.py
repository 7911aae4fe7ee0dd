"""The ids of a shard as Python's containers have them, and listings as
arrays."""

import struct
import sys
import unittest
from unittest import mock

from coronagamba import Listed, Pair, Refused, Shard, Sharding, Span

from . import shards
from .shards import u64s
from .test_pair import cut
from .test_shard import CASE, SETTLED, samples

# The second entry of the shard index is reversed.
DAMAGED = SETTLED[:16] + u64s(1, 0) + SETTLED[32:]


def both(sharding, number, file):
    """A shard of these bytes, and the pair that they are cut into."""
    return Shard(sharding, number, file), cut(sharding, number, file)


class Ids(unittest.TestCase):
    def assert_refused(self, expected, call):
        with self.assertRaises(Refused) as caught:
            call()
        self.assertEqual(caught.exception.args, expected)

    def test_of_every_layout(self):
        for rng, sharding, number, content in samples(41, 40):
            groups = shards.by_minishard(sharding, content)
            for ids in groups:
                rng.shuffle(ids)
            file = shards.scattered(sharding, content, rng, groups)
            expected = [id for ids in groups for id in ids]
            for shard in both(sharding, number, file):
                self.assertEqual(list(shard), expected)
                self.assertEqual(len(shard), len(expected))
                for id in content:
                    self.assertIn(id, shard)
                for id in rng.sample(range(999), 20):
                    if shards.place(sharding, id)[0] == number:
                        self.assertEqual(id in shard, id in content)

    def test_what_is_listed(self):
        for shard in both(CASE, 0, SETTLED):
            self.assertEqual(
                list(shard.listed()),
                [Listed(4, Span(32, 2)), Listed(10, Span(34, 3))],
            )

    def test_an_id_of_another_shard_is_no_plain_no(self):
        sharding = Sharding(0, 0, 0, 1, 0)
        shard = Shard(sharding, 0, bytes(16))
        self.assertNotIn(2, shard)
        self.assert_refused((5, None, None), lambda: 3 in shard)

    def test_a_damaged_shard(self):
        for shard in both(CASE, 0, DAMAGED):
            self.assertIn(4, shard)
            self.assertNotIn(6, shard)
            self.assert_refused((7, None, 16), lambda: 7 in shard)
            for call in (len, iter, list, Shard.listed):
                self.assert_refused((7, 1, 16), lambda: call(shard))

    def test_what_is_no_id(self):
        shard = Shard(CASE, 0, SETTLED)
        for other in ("4", 4.0, None):
            with self.assertRaisesRegex(TypeError, "^id must be an integer"):
                other in shard
        for other in (-1, 2**64):
            with self.assertRaisesRegex(OverflowError, "^id must be from 0"):
                other in shard

    def test_a_shard_is_true_whatever_it_lists(self):
        for file in (SETTLED, bytes(32), DAMAGED, b""):
            shard = Shard(CASE, 0, file)
            self.assertTrue(shard)
            self.assertTrue(Pair(CASE, 0, file, b""))
            shard.release()
            self.assertTrue(shard)

    def test_bytes_that_change_on_the_way(self):
        data = bytearray(SETTLED)
        found = iter(Shard(CASE, 0, data))
        self.assertEqual(next(found), 4)
        data[16:32] = u64s(1, 0)
        self.assertEqual(next(found), 10)
        self.assert_refused((7, None, 16), lambda: next(found))


class StandIn:
    """The one call of numpy that a listing takes, over a memoryview."""

    @staticmethod
    def frombuffer(rows, dtype):
        kinds = [kind for _, kind in dtype]
        assert kinds == ["<u8"] * 3
        names = [name for name, _ in dtype]
        return names, list(struct.iter_unpack("<3Q", memoryview(rows)))


class Arrays(unittest.TestCase):
    def test_numpy_is_asked_for_the_right_array(self):
        names = ["id", "start", "length"]
        with mock.patch.dict(sys.modules, numpy=StandIn):
            for shard in both(CASE, 0, SETTLED):
                self.assertEqual(
                    shard.listing_array(0), (names, [(4, 32, 2), (10, 34, 3)])
                )
                self.assertEqual(shard.listing_array(1), (names, []))
                with self.assertRaises(Refused) as caught:
                    shard.listing_array(2)
                self.assertEqual(caught.exception.number, 33)

    def test_without_numpy_it_says_so(self):
        shard = Shard(CASE, 0, SETTLED)
        with mock.patch.dict(sys.modules, numpy=None):
            with self.assertRaisesRegex(
                ImportError, "^listing_array needs numpy; listing does"
            ):
                shard.listing_array(0)
