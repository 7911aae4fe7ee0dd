"""Places and shard names."""

import ctypes
import dataclasses
import mmap
import random
import unittest
from array import array

from coronagamba import IDENTITY, MESH, MURMUR, VOLUME, Place, Refused
from coronagamba import Sharding

from . import shards

CASE = Sharding(
    preshift=1, hash=IDENTITY, minishard_bits=1, shard_bits=0, kind=VOLUME
)


class Places(unittest.TestCase):
    def test_the_scopes_case(self):
        self.assertEqual(CASE.place(2), Place(shard=0, minishard=1))
        self.assertEqual(CASE.place(3).minishard, 1)
        self.assertEqual(CASE.place(4).minishard, 0)

    def test_shard_bits_stand_above_minishard_bits(self):
        sharding = Sharding(4, IDENTITY, 4, 8, VOLUME)
        self.assertEqual(sharding.place(0xABCDE), Place(0xBC, 0xD))

    def test_many_at_once(self):
        rng = random.Random(2)
        for hash in (IDENTITY, MURMUR):
            sharding = Sharding(3, hash, 5, 9, VOLUME)
            ids = [rng.getrandbits(64) for _ in range(100)]
            expected = [shards.place(sharding, id) for id in ids]
            found = sharding.places(ids)
            self.assertEqual(list(zip(*found)), expected)
            self.assertEqual([each.typecode for each in found], ["Q", "Q"])

    def test_ids_of_every_kind(self):
        ids = [2, 3, 4, 2**64 - 1]
        expected = array("Q", [0] * 4), array("Q", [1, 1, 0, 1])
        for given in (
            ids,
            iter(ids),
            tuple(ids),
            array("Q", ids),
            array("L", ids),
            memoryview(array("Q", ids)),
            memoryview(shards.u64s(*ids)).cast("Q"),
            (ctypes.c_uint64 * 4)(*ids),
        ):
            with self.subTest(kind=type(given)):
                self.assertEqual(CASE.places(given), expected)

    def test_ids_that_are_not_aligned(self):
        for start in range(8):
            ids = memoryview(bytes(start) + shards.u64s(2, 3, 4))[start:]
            _, minishards = CASE.places(ids.cast("Q"))
            self.assertEqual(minishards.tolist(), [1, 1, 0])

    def test_no_ids(self):
        for given in ([], array("Q"), memoryview(b"").cast("Q")):
            self.assertEqual(CASE.places(given), (array("Q"), array("Q")))

    def test_integers_of_every_width(self):
        numbers = memoryview(array("Q", [2, 4, 3, 4, 4, 4]))
        for given in (
            *(array(code, [2, 3, 4]) for code in "bBhHiIlLqQ"),
            (ctypes.c_int32 * 3)(2, 3, 4),
            (ctypes.c_long * 3)(2, 3, 4),
            (ctypes.c_uint64.__ctype_be__ * 3)(2, 3, 4),
            (ctypes.c_int16.__ctype_be__ * 3)(2, 3, 4),
            numbers[::2],
            memoryview(array("Q", [4, 3, 2]))[::-1],
        ):
            with self.subTest(kind=type(given)):
                _, minishards = CASE.places(given)
                self.assertEqual(minishards, array("Q", [1, 1, 0]))

    def test_a_number_of_a_buffer_that_is_out_of_range(self):
        for code in "bhilq":
            for place in range(3):
                ids = array(code, [1, 1, 1])
                ids[place] = -1
                with self.assertRaises(OverflowError) as caught:
                    CASE.places(ids)
                told = str(caught.exception)
                self.assertTrue(told.startswith(f"ids[{place}] must"), told)

    def test_buffers_of_no_numbers(self):
        for given in (
            bytes(16),
            bytearray(16),
            memoryview(bytes(16)),
            mmap.mmap(-1, 16),
            array("f", [1.0]),
            array("d", [1.0]),
            memoryview(b"\1").cast("?"),
            memoryview(bytes(16)).cast("c"),
        ):
            with self.subTest(kind=type(given)):
                with self.assertRaisesRegex(TypeError, "^ids must be integer"):
                    CASE.places(given)
        for given in (7, None, 1.5):
            with self.assertRaisesRegex(TypeError, "^ids must be a buffer or"):
                CASE.places(given)
        released = memoryview(array("Q", [1]))
        released.release()
        with self.assertRaisesRegex(ValueError, "^ids cannot be read"):
            CASE.places(released)


class Names(unittest.TestCase):
    def test_the_scopes_cases(self):
        for bits, shard, name in (
            (4, 10, "a.shard"),
            (5, 10, "0a.shard"),
            (0, 0, "0.shard"),
            (32, 2**32 - 1, "ffffffff.shard"),
            (12, 0, "000.shard"),
        ):
            sharding = Sharding(0, IDENTITY, 0, bits, VOLUME)
            self.assertEqual(sharding.shard_name(shard), name)


class Allowed(unittest.TestCase):
    def test_each_field_at_its_edge(self):
        most = (63, 1, 16, 32, 1)
        Sharding(0, 0, 0, 0, 0).check()
        Sharding(*most).check()
        for place in range(5):
            for value in (most[place] + 1, 255):
                fields = list(most)
                fields[place] = value
                # Any numbers make one.
                sharding = Sharding(*fields)
                with self.assertRaises(Refused) as caught:
                    sharding.check()
                self.assertEqual(caught.exception.args, (1, None, None))


class Values(unittest.TestCase):
    def test_a_specification_is_a_value(self):
        same = Sharding(1, 0, 1, 0, 0)
        self.assertEqual(CASE, same)
        self.assertEqual(hash(CASE), hash(same))
        self.assertNotEqual(CASE, Sharding(1, 1, 1, 0, 0))
        with self.assertRaises(dataclasses.FrozenInstanceError):
            CASE.preshift = 2

    def test_no_field_is_assumed(self):
        with self.assertRaises(TypeError):
            Sharding(0, 0, 0, 0)

    def test_replacing_a_field_tests_it(self):
        self.assertEqual(dataclasses.replace(CASE, hash=1).hash, 1)
        for field in ("hash", "kind"):
            with self.assertRaises(OverflowError):
                dataclasses.replace(CASE, **{field: 256})

    def test_the_kind_decides_nothing_about_places(self):
        mesh = dataclasses.replace(CASE, kind=MESH)
        self.assertNotEqual(mesh, CASE)
        self.assertEqual(mesh.place(2), CASE.place(2))
        self.assertEqual(mesh.shard_name(0), CASE.shard_name(0))
