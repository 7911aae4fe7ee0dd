"""Bytes-like objects: which are taken, that nothing is copied, and that they
are let go."""

import ctypes
import mmap
import sys
import tempfile
import unittest
from array import array
from concurrent.futures import ThreadPoolExecutor

from coronagamba import Absent, Card, Manifest, Refused, Shard, Sharding
from coronagamba import Volume
from coronagamba._buffers import Lent, u32_triples, u64s

from . import shards
from .manifests import manifest

try:
    import numpy
except ImportError:
    numpy = None

# The names of what is held, in complaints.
HELD = "^(file|bytes) must be"
SHARDING = Sharding(0, 0, 1, 0, 0)
CONTENT = {4: b"ab", 10: b"cde", 7: b"f" * 8}
FILE = shards.settled(SHARDING, CONTENT)
MANIFEST = manifest((8, 8, 8), (0, 0, 0), [(1, (0, 0, 0), [(0, 0, 0, 1)])])
CARD = Card(SHARDING, Volume((9, 9, 9), (1, 1, 1))).to_bytes()


def padded(data):
    """The bytes, with zeros up to a multiple of 16."""
    return data + bytes(-len(data) % 16)


def kinds(data):
    """Objects of many kinds with these bytes at their front."""
    yield data
    yield bytearray(data)
    yield memoryview(data)
    yield memoryview(b"1" + data + b"2")[1:-1]
    yield memoryview(bytearray(data)).toreadonly()
    yield array("B", data)
    yield array("b", data)
    yield array("Q", padded(data))
    yield memoryview(padded(data)).cast("Q", [2, len(padded(data)) // 16])
    yield (ctypes.c_ubyte * len(data)).from_buffer_copy(data)
    writable = mmap.mmap(-1, len(data))
    writable[:] = data
    yield writable


class Kinds(unittest.TestCase):
    def test_shards(self):
        for data in kinds(FILE):
            with self.subTest(kind=type(data)):
                shard = Shard(SHARDING, 0, data)
                shard.check()
                self.assertEqual(bytes(shard.chunk(10)), b"cde")
                self.assertEqual(shard.settled(drop_unlisted=True), FILE)

    def test_manifests(self):
        for data in kinds(MANIFEST):
            with self.subTest(kind=type(data)):
                Manifest(data).check()

    def test_cards(self):
        for data in kinds(CARD):
            # Two kinds cannot have 46 bytes.
            if memoryview(data).nbytes == len(CARD):
                with self.subTest(kind=type(data)):
                    self.assertEqual(Card.read(data).sharding, SHARDING)

    def test_outputs(self):
        for out in kinds(bytes(len(FILE))):
            with self.subTest(kind=type(out)):
                if memoryview(out).readonly:
                    with self.assertRaisesRegex(TypeError, "^out must be"):
                        Shard(SHARDING, 0, FILE).settle(out)
                else:
                    length = Shard(SHARDING, 0, FILE).settle(out)
                    self.assertEqual(length, len(FILE))
                    self.assertEqual(bytes(out)[:length], FILE)

    def test_a_mapped_file(self):
        with tempfile.TemporaryFile() as file:
            file.write(FILE)
            file.flush()
            mapped = mmap.mmap(file.fileno(), 0, access=mmap.ACCESS_READ)
            with mapped, Shard(SHARDING, 0, mapped) as shard:
                with shard.chunk(7) as chunk:
                    self.assertEqual(chunk, b"f" * 8)
                self.assertEqual(shard.settled(), FILE)
            self.assertTrue(mapped.closed)

    def test_no_bytes(self):
        for data in (b"", bytearray(), array("Q"), memoryview(FILE)[:0]):
            for call, number in (
                (Shard(SHARDING, 0, data).check, 6),
                (lambda: Shard(SHARDING, 0, data).lookup(4), 6),
                (Manifest(data).check, 15),
                (Manifest(data).nodes, 15),
                (lambda: Card.read(data), 14),
            ):
                with self.assertRaises(Refused) as caught:
                    call()
                self.assertEqual(caught.exception.number, number)
        with self.assertRaises(Refused) as caught:
            Shard(SHARDING, 0, FILE).settle(bytearray())
        self.assertEqual(caught.exception.number, 13)

    def test_not_contiguous(self):
        doubled = bytearray(2 * len(FILE))
        for strided in (memoryview(doubled)[::2], memoryview(doubled)[::-1]):
            for call in (
                lambda: Shard(SHARDING, 0, strided),
                lambda: Manifest(strided),
                lambda: Card.read(strided),
            ):
                with self.assertRaisesRegex(TypeError, HELD + " a C-c"):
                    call()
            with self.assertRaisesRegex(TypeError, "^out must be a C-c"):
                Shard(SHARDING, 0, FILE).settle(strided)
        self.assertEqual(doubled, bytes(len(doubled)))

    def test_no_bytes_like_object(self):
        for other in ("text", 7, None, [1, 2], object()):
            for call in (
                lambda: Shard(SHARDING, 0, other),
                lambda: Manifest(other),
                lambda: Card.read(other),
            ):
                with self.assertRaisesRegex(TypeError, HELD):
                    call()
            with self.assertRaisesRegex(TypeError, "^out must be"):
                Shard(SHARDING, 0, FILE).settle(other)


if numpy is not None:

    class Numpy(unittest.TestCase):
        def test_arrays(self):
            data = numpy.frombuffer(FILE, numpy.uint8)
            self.assertEqual(Shard(SHARDING, 0, data).chunk(10), b"cde")
            out = numpy.zeros(len(FILE), numpy.uint8)
            Shard(SHARDING, 0, data).settle(out)
            self.assertEqual(out.tobytes(), FILE)
            with self.assertRaisesRegex(TypeError, HELD + " a C-c"):
                Manifest(numpy.zeros((4, 4), order="F"))

        def test_batches(self):
            ids = numpy.array([4, 7, 2**64 - 1], numpy.uint64)
            _, minishards = SHARDING.places(ids)
            self.assertEqual(minishards.tolist(), [0, 1, 1])
            volume = Volume((5, 3, 1), (1, 1, 1))
            cells = numpy.array([(4, 2, 0), (3, 1, 0)], numpy.uint32)
            self.assertEqual(volume.keys(cells).tolist(), [24, 7])
            self.assertEqual(volume.keys(cells[:0]).tolist(), [])
            self.assertEqual(volume.key(cells[0]), 24)
            with self.assertRaisesRegex(ValueError, "^cells must hold"):
                volume.keys(cells.T)

        def test_integers_of_every_type(self):
            volume = Volume((5, 3, 1), (1, 1, 1))
            for kind in "bBhHiIlLqQ":
                for order in "<>":
                    dtype = numpy.dtype(kind).newbyteorder(order)
                    ids = numpy.array([4, 7, 2], dtype)
                    _, minishards = SHARDING.places(ids)
                    self.assertEqual(minishards.tolist(), [0, 1, 0])
                    _, minishards = SHARDING.places(ids[::-2])
                    self.assertEqual(minishards.tolist(), [0, 0])
                    cells = numpy.array([(4, 2, 0), (3, 1, 0)], dtype)
                    self.assertEqual(volume.keys(cells).tolist(), [24, 7])
                    turned = numpy.asfortranarray(cells)
                    self.assertEqual(volume.keys(turned).tolist(), [24, 7])
                    self.assertEqual(volume.key(cells[0]), 24)
                    self.assertIn(ids[0], Shard(SHARDING, 0, FILE))

        def test_other_arrays(self):
            for kind in ("f", "d", "?", "c", "O", "M8[s]"):
                array = numpy.zeros(3, kind)
                with self.assertRaisesRegex((TypeError, ValueError), "^ids "):
                    SHARDING.places(array)
            with self.assertRaisesRegex(OverflowError, r"^ids\[1\] must"):
                SHARDING.places(numpy.array([1, -1]))
            with self.assertRaisesRegex(TypeError, "^id must be an integer"):
                SHARDING.place(numpy.float64(1))
            with self.assertRaisesRegex(TypeError, "^cell x must be an int"):
                Volume((5, 3, 1), (1, 1, 1)).key(numpy.zeros(3))

        def test_a_listing(self):
            shard = Shard(SHARDING, 0, FILE)
            for minishard in (0, 1):
                found = shard.listing_array(minishard)
                self.assertEqual(found.dtype.names, ("id", "start", "length"))
                self.assertEqual(found["id"].dtype, numpy.uint64)
                expected = [(id, *span) for id, span in shard.listing(minishard)]
                self.assertEqual(found.tolist(), expected)
            empty = Shard(SHARDING, 0, bytes(32)).listing_array(0)
            self.assertEqual(empty.shape, (0,))


class Uncopied(unittest.TestCase):
    def test_a_chunk_is_a_part_of_the_callers_buffer(self):
        data = bytearray(FILE)
        shard = Shard(SHARDING, 0, data)
        chunk = shard.chunk(10)
        self.assertIs(chunk.obj, data)
        start, length = shard.lookup(10)
        data[start:start + length] = b"CDE"
        self.assertEqual(chunk, b"CDE")
        with Lent("chunk", chunk) as part, Lent("data", data) as whole:
            self.assertEqual(part.address, whole.address + start)
            self.assertEqual(part.count, length)

    def test_a_chunk_is_read_only(self):
        chunk = Shard(SHARDING, 0, bytearray(FILE)).chunk(10)
        self.assertTrue(chunk.readonly)
        with self.assertRaises(TypeError):
            chunk[0] = 0

    def test_calls_see_what_the_buffer_holds_now(self):
        data = bytearray(FILE)
        shard = Shard(SHARDING, 0, data)
        shard.check()
        data[0:16] = shards.u64s(1, 0)
        with self.assertRaises(Refused):
            shard.check()
        opened = bytearray(MANIFEST)
        kept = Manifest(opened)
        opened[4:8] = bytes(4)
        with self.assertRaises(Refused) as caught:
            kept.check()
        self.assertEqual(caught.exception.number, 16)

    def test_the_library_gets_the_objects_own_memory(self):
        data = bytearray(FILE)
        own = (ctypes.c_ubyte * len(data)).from_buffer(data)
        with Lent("data", data) as lent:
            self.assertEqual(lent.address, ctypes.addressof(own))

    def test_batches_are_copied_only_where_they_are_not_aligned(self):
        for prepare, code, width in ((u64s, "Q", 8), (u32_triples, "I", 4)):
            data = memoryview(bytearray(4 * 24))
            for start in range(width):
                given = data[start:start + 24].cast(code)
                with Lent("given", given) as lent:
                    address = lent.address
                with Lent("kept", prepare("given", given)) as lent:
                    self.assertEqual(lent.address % width, 0)
                    self.assertIs(
                        lent.address == address, address % width == 0
                    )


class Released(unittest.TestCase):
    def assert_free(self, data):
        """A bytearray can grow only where nobody holds its buffer."""
        data.append(0)
        data.pop()

    def assert_held(self, data):
        with self.assertRaises(BufferError):
            data.append(0)

    def test_a_shard_holds_its_buffer_until_it_is_released(self):
        data = bytearray(FILE)
        shard = Shard(SHARDING, 0, data)
        self.assert_held(data)
        shard.release()
        self.assert_free(data)
        for call in (
            lambda: shard.lookup(4),
            lambda: shard.chunk(4),
            shard.check,
            lambda: shard.listing(0),
            shard.unlisted,
            shard.settled,
        ):
            with self.assertRaisesRegex(ValueError, "released"):
                call()
        shard.release()

    def test_the_end_of_the_shard_or_the_block_releases(self):
        data = bytearray(FILE)
        with Shard(SHARDING, 0, data):
            self.assert_held(data)
        self.assert_free(data)
        shard = Shard(SHARDING, 0, data)
        self.assert_held(data)
        del shard
        self.assert_free(data)

    def test_a_chunk_outlives_its_shard(self):
        data = bytearray(FILE)
        with Shard(SHARDING, 0, data) as shard:
            chunk = shard.chunk(10)
        self.assertEqual(chunk, b"cde")
        self.assert_held(data)
        chunk.release()
        self.assert_free(data)

    def test_nodes_end_with_their_manifest(self):
        data = bytearray(MANIFEST)
        opened = Manifest(data)
        nodes = opened.nodes()
        opened.release()
        self.assert_free(data)
        with self.assertRaisesRegex(ValueError, "released"):
            next(nodes)

    def test_lent_buffers_are_released_after_the_call(self):
        shard = Shard(SHARDING, 0, FILE)
        for length in (0, len(FILE) - 1):
            out = bytearray(length)
            with self.assertRaises(Refused):
                shard.settle(out)
            self.assert_free(out)
        out = bytearray(len(FILE))
        shard.settle(out)
        self.assert_free(out)
        card = bytearray(CARD)
        Card.read(card)
        self.assert_free(card)
        ids = array("Q", [1, 2])
        SHARDING.places(ids)
        ids.append(3)

    def test_nothing_is_leaked(self):
        data, out = bytearray(FILE), bytearray(len(FILE))
        shard = Shard(SHARDING, 0, data)
        counts = sys.getrefcount(data), sys.getrefcount(out)
        for _ in range(100):
            shard.check()
            shard.lookup(10)
            shard.chunk(10)
            shard.listing(0)
            shard.settle(out)
            with self.assertRaises(Absent):
                shard.lookup(6)
        self.assertEqual((sys.getrefcount(data), sys.getrefcount(out)), counts)


class Writing(unittest.TestCase):
    def test_nothing_past_the_form_is_touched(self):
        out = bytearray(b"\x55" * (len(FILE) + 9))
        length = Shard(SHARDING, 0, FILE).settle(out)
        self.assertEqual(out, FILE + b"\x55" * 9)
        self.assertEqual(length, len(FILE))

    def test_a_refusal_changes_nothing(self):
        damaged = bytearray(FILE)
        damaged[16:32] = shards.u64s(1, 0)
        for shard, room, number in (
            (Shard(SHARDING, 0, FILE), len(FILE) - 1, 13),
            (Shard(SHARDING, 0, damaged), len(FILE), 7),
            (Shard(SHARDING, 1, FILE), len(FILE), 5),
            (Shard(Sharding(64, 0, 0, 0, 0), 0, FILE), len(FILE), 1),
        ):
            out = bytearray(b"\x55" * room)
            with self.assertRaises(Refused) as caught:
                shard.settle(out)
            self.assertEqual(caught.exception.number, number)
            self.assertEqual(out, b"\x55" * room)

    def test_an_output_that_overlaps_the_shard(self):
        room = bytearray(FILE + bytes(len(FILE)))
        before = bytes(room)
        view = memoryview(room)
        with Shard(SHARDING, 0, view[:len(FILE)]) as shard:
            for out in (room, view[1:], view[len(FILE) - 1:]):
                with self.assertRaisesRegex(ValueError, "^out overlaps"):
                    shard.settle(out)
            self.assertEqual(room, before)
            # A part of no bytes has none in common, wherever it stands.
            with self.assertRaises(Refused) as caught:
                shard.settle(view[5:5])
            self.assertEqual(caught.exception.number, 13)
            # The neighbouring bytes are not shared.
            shard.settle(view[len(FILE):])
        self.assertEqual(room, FILE + FILE)


class Threads(unittest.TestCase):
    def test_many_threads_ask_one_shard(self):
        shard = Shard(SHARDING, 0, FILE)
        ids = sorted(CONTENT) * 200
        with ThreadPoolExecutor(4) as pool:
            found = list(pool.map(lambda id: bytes(shard.chunk(id)), ids))
        self.assertEqual(found, [CONTENT[id] for id in ids])
