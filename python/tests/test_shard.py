"""Lookup, the check, listings, unlisted bytes and settling."""

import mmap
import random
import unittest

from coronagamba import IDENTITY, MURMUR, VOLUME, Absent, Listed, Refused
from coronagamba import Shard, Sharding, Span

from . import shards
from .shards import u64s

CASE = Sharding(0, IDENTITY, 1, 0, VOLUME)
CONTENT = {4: b"ab", 10: b"cde"}
# The scope's settled form, written out: entries, chunks, rows.
SETTLED = (
    u64s(5, 53, 0, 0) + b"abcde" + u64s(4, 6) + u64s(0, 0) + u64s(2, 3)
)


def listed(shard):
    """What a shard lists: ids and bytes."""
    found = {}
    for minishard in range(2**shard.sharding.minishard_bits):
        for id, _ in shard.listing(minishard):
            found[id] = bytes(shard.chunk(id))
    return found


def samples(seed, count):
    """Random specifications, shard numbers and contents."""
    rng = random.Random(seed)
    for _ in range(count):
        sharding = Sharding(
            rng.choice([0, 1, 9]),
            rng.choice([IDENTITY, MURMUR]),
            rng.randrange(4),
            rng.randrange(3),
            VOLUME,
        )
        number = rng.randrange(2**sharding.shard_bits)
        ids = [rng.getrandbits(rng.choice([8, 64])) for _ in range(40)]
        content = {
            id: rng.randbytes(rng.choice([0, 1, 5]))
            for id in ids
            if shards.place(sharding, id)[0] == number
        }
        yield rng, sharding, number, content


class ManyMinishards(unittest.TestCase):
    """Change requests, order 4: up to 2^16 minishards."""

    def test_the_last_of_65536(self):
        sharding = Sharding(0, IDENTITY, 16, 0, VOLUME)
        last = 65535
        front = bytes(16 * last) + u64s(3, 27) + b"abc"
        shard = Shard(sharding, 0, front + u64s(last, 0, 3))
        shard.check()
        self.assertEqual(shard.chunk(last), b"abc")
        form = bytes(16 * last) + u64s(3, 27) + b"abc" + u64s(last, 0, 3)
        self.assertEqual(shard.settled(), form)
        faulty = Shard(sharding, 0, front + u64s(last, 0, 28))
        with self.assertRaises(Refused) as told:
            faulty.check()
        self.assertEqual(told.exception.number, 11)
        self.assertEqual(told.exception.minishard, last)

    def test_17_bits(self):
        with self.assertRaises(Refused) as told:
            sharding = Sharding(0, IDENTITY, 17, 0, VOLUME)
            Shard(sharding, 0, bytes(2**21)).check()
        self.assertEqual(told.exception.number, 1)


class TheScopesCase(unittest.TestCase):
    def setUp(self):
        self.shard = Shard(CASE, 0, SETTLED)

    def test_the_builder_makes_the_scopes_form(self):
        self.assertEqual(len(SETTLED), 85)
        self.assertEqual(shards.settled(CASE, CONTENT), SETTLED)

    def test_lookup(self):
        self.assertEqual(self.shard.lookup(10), Span(start=34, length=3))
        self.assertEqual(self.shard.lookup(4), (32, 2))
        for id in (6, 7):
            with self.assertRaises(Absent):
                self.shard.lookup(id)

    def test_chunk(self):
        self.assertEqual(self.shard.chunk(10), b"cde")
        self.assertEqual(bytes(self.shard.chunk(4)), b"ab")

    def test_check_and_listing(self):
        self.shard.check()
        self.assertEqual(self.shard.listed_count(0), 2)
        self.assertEqual(
            self.shard.listing(0),
            [Listed(4, Span(32, 2)), Listed(10, Span(34, 3))],
        )
        self.assertEqual(self.shard.listing(1), [])

    def test_settling(self):
        self.assertEqual(self.shard.settled_length(), 85)
        self.assertEqual(self.shard.settled(), SETTLED)

    def test_attributes(self):
        self.assertIs(self.shard.sharding, CASE)
        self.assertEqual(self.shard.number, 0)
        with self.assertRaises(AttributeError):
            self.shard.number = 1


class Soundness(unittest.TestCase):
    def test_an_empty_entry_may_point_anywhere(self):
        shard = Shard(CASE, 0, u64s(2**64 - 1, 2**64 - 1, 77, 77))
        shard.check()
        self.assertEqual(shard.settled(), bytes(32))

    def test_a_chunk_without_bytes_is_there(self):
        shard = Shard(CASE, 0, shards.settled(CASE, {2: b"", 4: b"x"}))
        self.assertEqual(bytes(shard.chunk(2)), b"")
        self.assertEqual(shard.lookup(2).length, 0)

    def test_a_lookup_judges_only_its_minishard(self):
        # The second entry is reversed.
        damaged = bytearray(SETTLED)
        damaged[16:32] = u64s(1, 0)
        shard = Shard(CASE, 0, damaged)
        self.assertEqual(shard.chunk(10), b"cde")
        with self.assertRaises(Refused) as caught:
            shard.check()
        self.assertEqual(caught.exception.args, (7, 1, 16))
        with self.assertRaises(Refused) as caught:
            shard.lookup(7)
        self.assertEqual(caught.exception.args, (7, None, 16))

    def test_the_longest_file(self):
        with mmap.mmap(-1, 2**30) as longest:
            with Shard(CASE, 0, longest) as shard:
                shard.check()
                with self.assertRaises(Absent):
                    shard.lookup(2)

    def test_every_damaged_byte_of_an_index_keeps_answers_in_the_file(self):
        for at in range(len(SETTLED)):
            for flip in (1, 128, 255):
                damaged = bytearray(SETTLED)
                damaged[at] ^= flip
                shard = Shard(CASE, 0, damaged)
                try:
                    start, length = shard.lookup(10)
                except Refused as refusal:
                    self.assertIn(refusal.number, range(7, 13))
                else:
                    self.assertLessEqual(start + length, len(damaged))
                    self.assertEqual(
                        shard.chunk(10), damaged[start:start + length]
                    )


class Layouts(unittest.TestCase):
    def test_two_layouts_of_one_content_settle_alike(self):
        different = 0
        for rng, sharding, number, content in samples(4, 60):
            one = shards.scattered(sharding, content, rng)
            other = shards.scattered(sharding, content, rng)
            different += one != other
            expected = shards.settled(sharding, content)
            for file in (one, other, expected):
                shard = Shard(sharding, number, file)
                shard.check()
                self.assertEqual(shard.settled(drop_unlisted=True), expected)
                length = shard.settled_length(drop_unlisted=True)
                self.assertEqual(length, len(expected))
                self.assertEqual(listed(shard), content)
        self.assertGreater(different, 50)

    def test_other_content_settles_otherwise(self):
        changed = 0
        for rng, sharding, number, content in samples(5, 60):
            filled = [id for id, chunk in content.items() if chunk]
            if not filled:
                continue
            changed += 1
            other = dict(content)
            first = other[filled[0]]
            other[filled[0]] = bytes([first[0] ^ 1]) + first[1:]
            forms = [
                Shard(
                    sharding, number, shards.scattered(sharding, some, rng)
                ).settled(drop_unlisted=True)
                for some in (content, other)
            ]
            self.assertNotEqual(*forms)
        self.assertGreater(changed, 30)

    def test_ids_in_order_of_arrival(self):
        for rng, sharding, number, content in samples(6, 20):
            groups = shards.by_minishard(sharding, content)
            for ids in groups:
                rng.shuffle(ids)
            shard = Shard(
                sharding,
                number,
                shards.scattered(sharding, content, rng, groups),
            )
            self.assertEqual(
                shard.settled(drop_unlisted=True),
                shards.settled(sharding, content),
            )
            for id, chunk in content.items():
                self.assertEqual(bytes(shard.chunk(id)), chunk)
            for minishard, ids in enumerate(groups):
                found = [entry.id for entry in shard.listing(minishard)]
                self.assertEqual(found, ids)
                self.assertEqual(shard.listed_count(minishard), len(ids))


class Unlisted(unittest.TestCase):
    """Change requests, order 8."""

    def assert_22(self, call):
        with self.assertRaises(Refused) as caught:
            call()
        self.assertEqual(
            caught.exception.args, (Refused.UNLISTED_BYTES, None, None)
        )

    def test_a_settled_form_has_none(self):
        for _, sharding, number, content in samples(7, 20):
            form = shards.settled(sharding, content)
            shard = Shard(sharding, number, form)
            self.assertEqual(shard.unlisted(), 0)
            self.assertEqual(shard.settled(), form)

    def test_layouts(self):
        refused = 0
        for rng, sharding, number, content in samples(8, 60):
            file = shards.scattered(sharding, content, rng)
            shard = Shard(sharding, number, file)
            count = shards.unlisted(sharding, file)
            self.assertEqual(shard.unlisted(), count)
            form = shards.settled(sharding, content)
            self.assertEqual(shard.settled(drop_unlisted=True), form)
            if count == 0:
                self.assertEqual(shard.settled(), form)
                continue
            refused += 1
            self.assert_22(shard.settled)
            self.assert_22(shard.settled_length)
            out = bytearray(b"-" * len(form))
            self.assert_22(lambda: shard.settle(out))
            self.assertEqual(out, b"-" * len(form))
            # An output that is too short is told last.
            self.assert_22(lambda: shard.settle(bytearray()))
        self.assertGreater(refused, 40)

    def test_either_end(self):
        for file in (
            u64s(6, 54, 0, 0) + b"-abcde" + u64s(4, 6, 1, 0, 2, 3),
            SETTLED + b"-",
        ):
            shard = Shard(CASE, 0, file)
            self.assertEqual(shard.unlisted(), 1)
            self.assert_22(shard.settled)
            self.assertEqual(shard.settled(drop_unlisted=True), SETTLED)

    def test_an_entry_of_an_empty_minishard_lists_nothing(self):
        for at in (0, 1, 4, 2**64 - 1):
            shard = Shard(CASE, 0, u64s(at, at, 0, 0) + b"abcd")
            self.assertEqual(shard.unlisted(), 4)

    def test_bytes_listed_twice_count_once(self):
        rows = u64s(4, 2, 48, -2 % 2**64, 3, 3)
        shard = Shard(CASE, 0, u64s(0, 48, 0, 0) + rows + b"abcd")
        self.assertEqual(shard.unlisted(), 0)

    def test_the_wish_is_true_or_false(self):
        shard = Shard(CASE, 0, SETTLED + b"-")
        for wish in (1, 0, None, "yes", 256):
            for call in (
                lambda: shard.settled(drop_unlisted=wish),
                lambda: shard.settled_length(drop_unlisted=wish),
                lambda: shard.settle(bytearray(99), drop_unlisted=wish),
            ):
                with self.assertRaisesRegex(TypeError, "^drop_unlisted must"):
                    call()
        with self.assertRaises(TypeError):
            shard.settled(True)
