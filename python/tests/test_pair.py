"""Shards of the earlier edition, an index file and a data file each."""

import mmap
import random
import unittest

from coronagamba import IDENTITY, MESH, VOLUME, Half, Held, Listed, Pair
from coronagamba import Refused, Shard, Sharding, Span
from coronagamba._buffers import Lent

from . import shards
from .manifests import manifest
from .shards import u64s
from .test_shard import CASE, CONTENT, SETTLED, listed, samples

SEAM = 32
INDEX, DATA = SETTLED[:SEAM], SETTLED[SEAM:]


def cut(sharding, number, file):
    """A pair of the two files that this one is cut into."""
    seam = 16 * 2**sharding.minishard_bits
    return Pair(sharding, number, file[:seam], file[seam:])


def told(call):
    """What a call gives, or the parts of its refusal."""
    try:
        found = call()
    except Refused as refusal:
        return refusal.args
    return bytes(found) if isinstance(found, memoryview) else found


def answers(shard, ids):
    """What all calls give on some ids."""
    found = [told(shard.check), told(shard.unlisted), told(shard.measure)]
    for id in ids:
        found += [told(lambda: shard.lookup(id)), told(lambda: shard.chunk(id))]
        for call in (shard.lookup_fragment, shard.fragment):
            found.append(told(lambda: call(id, 0, 0)))
    for minishard in range(2**shard.sharding.minishard_bits + 1):
        found.append(told(lambda: shard.listed_count(minishard)))
        found.append(told(lambda: shard.listing(minishard)))
    for drop in (False, True):
        found.append(told(lambda: shard.settled_length(drop_unlisted=drop)))
        found.append(told(lambda: shard.settled(drop_unlisted=drop)))
    return found


class TheScopesCase(unittest.TestCase):
    def setUp(self):
        self.pair = Pair(CASE, 0, INDEX, DATA)

    def test_places_count_in_the_joined_file(self):
        self.assertEqual(self.pair.lookup(10), Span(start=34, length=3))
        self.assertEqual(self.pair.chunk(10), b"cde")
        self.assertEqual(
            self.pair.listing(0),
            [Listed(4, Span(32, 2)), Listed(10, Span(34, 3))],
        )

    def test_the_settled_form_is_one_file(self):
        self.pair.check()
        self.assertEqual(self.pair.unlisted(), 0)
        self.assertEqual(self.pair.settled_length(), 85)
        self.assertEqual(self.pair.settled(), SETTLED)
        self.assertEqual(listed(self.pair), CONTENT)

    def test_attributes(self):
        self.assertIs(self.pair.sharding, CASE)
        self.assertEqual(self.pair.number, 0)
        with self.assertRaises(AttributeError):
            self.pair.number = 1

    def test_names(self):
        sharding = Sharding(0, IDENTITY, 0, 5, VOLUME)
        self.assertEqual(sharding.index_name(10), "0a.index")
        self.assertEqual(sharding.data_name(10), "0a.data")
        most = Sharding(0, IDENTITY, 0, 32, VOLUME)
        self.assertEqual(most.index_name(2**32 - 1), "ffffffff.index")


class AsJoined(unittest.TestCase):
    def test_every_answer_is_that_of_the_joined_file(self):
        for rng, sharding, number, content in samples(21, 60):
            file = shards.scattered(sharding, content, rng)
            ids = sorted(content)[:3] + [rng.getrandbits(64)]
            pair = cut(sharding, number, file)
            shard = Shard(sharding, number, file)
            self.assertEqual(answers(pair, ids), answers(shard, ids))

    def test_damaged(self):
        rng, refused = random.Random(22), set()
        for at in range(len(SETTLED)):
            for flip in (1, 128):
                damaged = bytearray(SETTLED)
                damaged[at] ^= flip
                pair, shard = cut(CASE, 0, damaged), Shard(CASE, 0, damaged)
                ids = [4, 10, rng.randrange(12)]
                found = answers(pair, ids)
                self.assertEqual(found, answers(shard, ids))
                if isinstance(found[0], tuple):
                    refused.add(found[0][0])
        self.assertLessEqual({7, 8, 10, 11}, refused)

    def test_a_mesh(self):
        sharding = Sharding(0, IDENTITY, 0, 0, MESH)
        node = [(1, (0, 0, 0), [(0, 0, 0, 4), (1, 0, 0, 3)])]
        bytes_ = manifest((1, 1, 1), (0, 0, 0), node)
        file = shards.settled(sharding, {9: bytes_}, {9: b"nearfar"})
        pair = cut(sharding, 0, file)
        pair.check()
        self.assertEqual(pair.lookup_fragment(9, 0, 1), Span(20, 3))
        self.assertEqual(pair.fragment(9, 0, 1), b"far")
        shard = Shard(sharding, 0, file)
        self.assertEqual(answers(pair, [9]), answers(shard, [9]))

    def test_cut_at_another_place(self):
        for seam in (0, 1, 16, 31, 33, 40, 85):
            pair = Pair(CASE, 0, SETTLED[:seam], SETTLED[seam:])
            for call in (
                pair.check,
                lambda: pair.lookup(4),
                lambda: pair.fragment(4, 0, 0),
                lambda: pair.listing(0),
                pair.unlisted,
                pair.settled,
                lambda: pair.settle(bytearray(99)),
                lambda: pair.range(0, 0),
            ):
                self.assertEqual(told(call), (23, None, None))

    def test_the_longest(self):
        with mmap.mmap(-1, 2**30 - SEAM) as data:
            with Pair(CASE, 0, bytes(SEAM), data) as pair:
                pair.check()
                self.assertEqual(len(pair.range(SEAM, 2**30)), 2**30 - SEAM)


class Ranges(unittest.TestCase):
    def test_every_range(self):
        pair = Pair(CASE, 0, INDEX, DATA)
        length = len(SETTLED)
        ends = (0, 1, 30, 31, 32, 33, 84, 85, 86, 2**64 - 1)
        for start in ends:
            for end in ends:
                with self.subTest(start=start, end=end):
                    crosses = start < SEAM < end
                    if start > end or end > length or crosses:
                        place = told(lambda: pair.locate_range(start, end))
                        self.assertEqual(place, (24, None, None))
                        part = told(lambda: pair.range(start, end))
                        self.assertEqual(part, (24, None, None))
                        continue
                    part = pair.range(start, end)
                    self.assertEqual(part, SETTLED[start:end])
                    half, before = Half.DATA, SEAM
                    if start < SEAM:
                        half, before = Half.INDEX, 0
                    self.assertEqual(
                        pair.locate_range(start, end),
                        Held(half, start - before, end - start),
                    )

    def test_a_range_is_a_part_of_the_callers_buffer(self):
        index, data = bytearray(INDEX), bytearray(DATA)
        pair = Pair(CASE, 0, index, data)
        for start, end, own, place in (
            (0, 32, index, 0),
            (31, 32, index, 31),
            (31, 31, index, 31),
            (32, 32, data, 0),
            (32, 85, data, 0),
            (84, 85, data, 52),
        ):
            part = pair.range(start, end)
            self.assertIs(part.obj, own)
            self.assertTrue(part.readonly)
            if start < end:
                with Lent("part", part) as lent, Lent("own", own) as whole:
                    self.assertEqual(lent.address, whole.address + place)

    def test_a_range_takes_no_shard_number(self):
        pair = Pair(CASE, 77, INDEX, DATA)
        self.assertEqual(told(pair.check), (5, None, None))
        self.assertEqual(pair.range(34, 37), b"cde")


class Buffers(unittest.TestCase):
    def test_both_are_held_until_they_are_released(self):
        index, data = bytearray(INDEX), bytearray(DATA)
        pair = Pair(CASE, 0, index, data)
        chunk = pair.chunk(10)
        for held in (index, data):
            with self.assertRaises(BufferError):
                held.append(0)
        pair.release()
        index.append(0)
        with self.assertRaises(BufferError):
            data.append(0)
        self.assertEqual(chunk, b"cde")
        chunk.release()
        data.append(0)
        for call in (
            pair.check,
            lambda: pair.chunk(4),
            lambda: pair.range(0, 0),
            pair.settled,
        ):
            with self.assertRaisesRegex(ValueError, "released"):
                call()
        pair.release()

    def test_the_end_of_the_block_releases(self):
        index, data = bytearray(INDEX), bytearray(DATA)
        with Pair(CASE, 0, index, data) as pair:
            pair.check()
        index.append(0)
        data.append(0)

    def test_one_that_is_no_buffer(self):
        data = bytearray(DATA)
        for index, other, name in ((7, data, "index"), (data, None, "data")):
            with self.assertRaisesRegex(TypeError, f"^{name} must be"):
                Pair(CASE, 0, index, other)
        data.append(0)
        with self.assertRaisesRegex(TypeError, "^sharding must be"):
            Pair(7, 0, INDEX, DATA)

    def test_an_output_that_overlaps_either(self):
        room = bytearray(SETTLED + bytes(len(SETTLED)))
        view = memoryview(room)
        before = bytes(room)
        with Pair(CASE, 0, view[:32], view[32:85]) as pair:
            for out in (room, view[31:], view[84:], view[:32], view[5:6]):
                with self.assertRaisesRegex(ValueError, "^out overlaps"):
                    pair.settle(out)
            self.assertEqual(room, before)
            self.assertEqual(pair.settle(view[85:]), 85)
        self.assertEqual(room, SETTLED + SETTLED)

    def test_nothing_past_the_form_is_touched(self):
        out = bytearray(b"\x55" * (len(SETTLED) + 9))
        self.assertEqual(Pair(CASE, 0, INDEX, DATA).settle(out), 85)
        self.assertEqual(out, SETTLED + b"\x55" * 9)
        short = bytearray(b"\x55" * 84)
        found = told(lambda: Pair(CASE, 0, INDEX, DATA).settle(short))
        self.assertEqual(found, (13, None, None))
        self.assertEqual(short, b"\x55" * 84)

    def test_unlisted_bytes(self):
        pair = Pair(CASE, 0, INDEX, DATA + b"--")
        self.assertEqual(pair.unlisted(), 2)
        self.assertEqual(told(pair.settled), (22, None, None))
        self.assertEqual(pair.settled(drop_unlisted=True), SETTLED)
        empty = Pair(CASE, 0, u64s(9, 9, 0, 0), b"")
        self.assertEqual(empty.settled(), bytes(32))
