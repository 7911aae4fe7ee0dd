"""Measures, and the yearly holdings sheet, against what the tests count by
themselves."""

import random
import unittest

from coronagamba import IDENTITY, VOLUME, Counts, Pair, Refused, Shard
from coronagamba import Sharding, Sheet

from . import shards
from .test_pair import cut
from .test_shard import CASE, SETTLED, samples


def mixed(seed, count):
    """Shards and pairs with the rows of each as a sheet should have them: some
    sound, some cut off within their shard index."""
    for place, (rng, sharding, number, content) in enumerate(
        samples(seed, count)
    ):
        file = shards.scattered(sharding, content, rng)
        rows = [0] * 17
        if place % 4 == 3:
            short = file[:16 * 2**sharding.minishard_bits - 1]
            rows[3] = 1
            yield Shard(sharding, number, short), rows
            rows = [0] * 17
            rows[13] = 1
            yield Pair(sharding, number, short, file[len(short):]), rows
            continue
        listed = sum(map(len, content.values()))
        settled = len(shards.settled(sharding, content))
        rows[0], rows[14], rows[15] = 1, len(content), listed
        rows[16] = len(file) - settled
        found = Counts(len(content), listed, rows[16], settled)
        yield Shard(sharding, number, file), rows, found
        yield cut(sharding, number, file), rows, found


class Measures(unittest.TestCase):
    def test_the_scopes_case(self):
        shard = Shard(CASE, 0, SETTLED)
        self.assertEqual(shard.measure(), Counts(2, 5, 0, 85))
        more = Shard(CASE, 0, SETTLED + b"--")
        self.assertEqual(more.measure(), Counts(2, 5, 2, 85))

    def test_what_shards_hold(self):
        for shard, _, *counts in mixed(31, 60):
            if counts:
                self.assertEqual(shard.measure(), counts[0])

    def test_a_form_that_is_too_long(self):
        count, size = 4096, 300_000
        index = b"".join(
            shards.u64s(size + 24 * m, size + 24 * m + 24)
            for m in range(count)
        )
        tables = b"".join(shards.rows([m], [0], [size]) for m in range(count))
        file = index + bytes(size) + tables
        shard = Shard(Sharding(0, IDENTITY, 12, 0, VOLUME), 0, file)
        expected = Counts(count, count * size, 0, 2**30 + 1)
        self.assertEqual(shard.measure(), expected)

    def test_it_is_refused_as_the_check_is(self):
        shard = Shard(CASE, 0, shards.u64s(0, 0, 1, 0))
        for call in (shard.check, shard.measure):
            with self.assertRaises(Refused) as caught:
                call()
            self.assertEqual(caught.exception.args, (7, 1, 16))


class Sheets(unittest.TestCase):
    def test_any_order_gives_the_sum_of_all(self):
        all = [(shard, rows) for shard, rows, *_ in mixed(32, 80)]
        expected = tuple(map(sum, zip(*(rows for _, rows in all))))
        self.assertGreater(min(expected[0], expected[3], expected[13]), 10)
        rng = random.Random(33)
        for _ in range(5):
            rng.shuffle(all)
            sheet, parts = Sheet(), [Sheet() for _ in range(3)]
            for shard, _ in all:
                sheet.add(shard)
                rng.choice(parts).add(shard)
            self.assertEqual(sheet.rows, expected)
            joined = Sheet()
            for part in parts:
                joined.join(part)
            self.assertEqual(joined, sheet)

    def test_rows_and_their_names(self):
        sheet = Sheet(range(100, 117))
        self.assertEqual(sheet.rows, tuple(range(100, 117)))
        self.assertEqual(sheet.sound, 100)
        self.assertEqual(list(sheet.refused), list(Sheet.NUMBERS))
        self.assertEqual(list(sheet.refused.values()), list(range(101, 114)))
        found = sheet.chunks, sheet.bytes, sheet.unlisted
        self.assertEqual(found, (114, 115, 116))
        self.assertEqual(Sheet().rows, (0,) * 17)
        self.assertEqual(eval(repr(sheet)), sheet)
        self.assertNotEqual(sheet, Sheet())
        self.assertNotEqual(Sheet(), (0,) * 17)
        with self.assertRaises(TypeError):
            hash(sheet)

    def test_totals_at_their_end(self):
        more = Shard(CASE, 0, SETTLED + b"--")
        for row, adds in ((0, 1), (14, 2), (15, 5), (16, 2)):
            rows = [7] * 17
            rows[row] = 2**64 - 1 - adds
            sheet = Sheet(rows)
            sheet.add(more)
            self.assertEqual(sheet.rows[row], 2**64 - 1)
            with self.assertRaises(Refused) as caught:
                sheet.add(more)
            self.assertEqual(caught.exception.args, (27, None, None))
            self.assertEqual(sheet.rows[row], 2**64 - 1)
        sheet = Sheet([1] * 16 + [2**63])
        with self.assertRaises(Refused):
            sheet.join(sheet)
        self.assertEqual(sheet.rows, (1,) * 16 + (2**63,))
        sheet = Sheet(range(17))
        sheet.join(sheet)
        self.assertEqual(sheet.rows, tuple(range(0, 34, 2)))

    def test_arguments(self):
        for rows in ([], [0] * 16, [0] * 18):
            with self.assertRaisesRegex(ValueError, "rows must be 17"):
                Sheet(rows)
        with self.assertRaisesRegex(OverflowError, r"rows\[3\]"):
            Sheet([0, 0, 0, 2**64] + [0] * 13)
        with self.assertRaisesRegex(TypeError, r"rows\[0\]"):
            Sheet(["0"] + [0] * 16)
        with self.assertRaisesRegex(TypeError, "a Shard or a Pair"):
            Sheet().add(SETTLED)
        with self.assertRaisesRegex(TypeError, "must be a Sheet"):
            Sheet().join([0] * 17)
        shard = Shard(CASE, 0, SETTLED)
        shard.release()
        sheet = Sheet()
        with self.assertRaises(ValueError):
            sheet.add(shard)
        self.assertEqual(sheet, Sheet())
