"""Intake: forms however parts are cut, refusals that change nothing, buffers
that are lent, made and let go."""

import mmap
import random
import unittest
from array import array

from coronagamba import IDENTITY, MESH, VOLUME, Intake, Refused, Shard
from coronagamba import Sharding

from . import shards
from .test_shard import CASE, CONTENT, SETTLED, samples

# Two shards of two minishards: of shard 0 ids 0, 4, 8 .. are in minishard 0,
# and 1, 5, 9 .. in minishard 1.
FOUR = Sharding(0, IDENTITY, 1, 1, VOLUME)


def parts(rng, data):
    """The bytes in random parts, empty ones among them."""
    count = rng.randrange(5)
    cuts = sorted(rng.randrange(len(data) + 1) for _ in range(count))
    for begin, end in zip([0] + cuts, cuts + [len(data)]):
        yield data[begin:end]


class Forms(unittest.TestCase):
    def test_the_form_of_the_scope(self):
        out, waiting = bytearray(len(SETTLED)), bytearray(32)
        with Intake(CASE, 0, out, waiting) as intake:
            for id, data in sorted(CONTENT.items()):
                intake.announce(id, len(data))
                intake.part(data)
        self.assertEqual(out, SETTLED)
        self.assertEqual(intake.form, SETTLED)

    def test_random_deliveries_in_random_cuts(self):
        chunks = 0
        for rng, sharding, number, content in samples(11, 300):
            expected = shards.settled(sharding, content)
            groups = shards.by_minishard(sharding, content)
            more = rng.randrange(3)
            out = bytearray(rng.randbytes(len(expected) + more))
            kept = out[len(expected):]
            room = Intake.WAITING_BYTES * max(map(len, groups))
            with Intake(sharding, number, out, room) as intake:
                for id in (id for ids in groups for id in ids):
                    intake.announce(id, len(content[id]))
                    for part in parts(rng, content[id]):
                        intake.part(part)
                    chunks += 1
                self.assertEqual(intake.length, len(expected))
            self.assertEqual(intake.form, expected)
            self.assertEqual(out[len(expected):], kept)
            shard = Shard(sharding, number, intake.form)
            self.assertEqual(shard.settled(), expected)
        self.assertGreater(chunks, 1000)

    def test_what_is_needed(self):
        with Intake(FOUR, 0, 200, 32) as intake:
            self.assertEqual(intake.length, 2 * Intake.MINISHARD_BYTES)
            intake.announce(4, 7)
            self.assertEqual(intake.length, 32 + Intake.CHUNK_BYTES + 7)
            self.assertEqual(intake.owed, 7)
            intake.part(b"abc")
            self.assertEqual(intake.owed, 4)
            intake.part(b"defg")
        self.assertEqual((intake.length, intake.owed), (63, 0))


class Refusals(unittest.TestCase):
    def assert_refused(self, number, call, *arguments):
        with self.assertRaises(Refused) as caught:
            call(*arguments)
        self.assertEqual(caught.exception.args, (number, None, None))

    def test_opening(self):
        out = bytearray(b"7" * 31)
        mesh = Sharding(0, IDENTITY, 1, 0, MESH)
        for number, sharding, shard in (
            (1, mesh, 0),
            (5, CASE, 1),
            (13, CASE, 0),
        ):
            self.assert_refused(number, Intake, sharding, shard, out, 16)
        self.assertEqual(out, b"7" * 31)
        # The buffer was let go.
        out.append(0)

    def test_a_refused_call_changes_nothing(self):
        content = {4: b"ab", 5: b"c", 9: b"def"}
        expected = shards.settled(FOUR, content)
        out, waiting = bytearray(len(expected)), bytearray(32)
        with Intake(FOUR, 0, out, waiting) as intake:

            def refused(number, call, *arguments):
                before = bytes(out), bytes(waiting), intake.length, intake.owed
                self.assert_refused(number, call, *arguments)
                after = bytes(out), bytes(waiting), intake.length, intake.owed
                self.assertEqual(before, after)

            refused(26, intake.part, b"a")
            refused(10, intake.announce, 2, 0)
            refused(13, intake.announce, 4, 2**64 - 1)
            intake.announce(4, 2)
            refused(26, intake.announce, 8, 0)
            refused(26, intake.part, b"abc")
            intake.part(b"a")
            refused(26, intake.close)
            intake.part(b"b")
            refused(25, intake.announce, 4, 0)
            intake.announce(5, 1)
            intake.part(b"c")
            refused(25, intake.announce, 8, 0)
            refused(13, intake.announce, 9, 4)
            intake.announce(9, 3)
            intake.part(b"def")
            refused(13, intake.announce, 13, 0)
            self.assertEqual(intake.close(), len(expected))
            refused(25, intake.announce, 13, 0)
            refused(25, intake.part, b"")
            refused(25, intake.close)
        self.assertEqual(out, expected)

    def test_the_end_of_the_block_refuses_where_bytes_are_owed(self):
        out = bytearray(99)
        with self.assertRaises(Refused) as caught:
            with Intake(FOUR, 0, out, 16) as intake:
                intake.announce(4, 2)
        self.assertEqual(caught.exception.number, Refused.INTAKE_OWED)
        out.append(0)
        with self.assertRaisesRegex(ValueError, "not closed"):
            intake.form

    def test_an_exception_leaves_the_shard_open(self):
        out = bytearray(99)
        with self.assertRaises(KeyError):
            with Intake(FOUR, 0, out, 16) as intake:
                intake.announce(4, 2)
                intake.part(b"ab")
                raise KeyError
        # Not closed: the shard index still lists nothing.
        self.assertEqual(out[:32], bytes(32))
        with self.assertRaisesRegex(ValueError, "not closed"):
            intake.form
        for call in (lambda: intake.part(b""), intake.close):
            with self.assertRaises(ValueError):
                call()
        out.append(0)


class Buffers(unittest.TestCase):
    def deliver(self, out, waiting):
        with Intake(CASE, 0, out, waiting) as intake:
            for id, data in sorted(CONTENT.items()):
                intake.announce(id, len(data))
                intake.part(data)
        self.assertEqual(bytes(intake.form), SETTLED)
        return intake

    def test_kinds(self):
        long = len(SETTLED) + 3
        for out in (
            bytearray(long),
            memoryview(bytearray(long + 2))[1:-1],
            array("B", bytes(long)),
            array("Q", bytes(88)),
            mmap.mmap(-1, long),
            long,
        ):
            for waiting in (bytearray(32), memoryview(bytearray(40)), 32):
                with self.subTest(out=type(out), waiting=type(waiting)):
                    self.deliver(out, waiting)

    def test_an_object_that_has_an_index_may_be_a_buffer(self):
        class Indexed(bytearray):
            def __index__(self):
                return 7

        self.deliver(Indexed(len(SETTLED)), 32)

    def test_parts_are_any_bytes(self):
        data = b"ab"
        for part in (data, bytearray(data), memoryview(data), array("B", data)):
            with Intake(FOUR, 0, 58, 16) as intake:
                intake.announce(4, 2)
                intake.part(part)
            self.assertEqual(intake.form[32:34], b"ab")

    def test_other_objects(self):
        for out, waiting, name in (
            (bytes(99), 16, "out"),
            (99, bytes(16), "waiting"),
            (None, 16, "out"),
            (99, "sixteen bytes ..", "waiting"),
            (memoryview(bytearray(99))[::2], 16, "out"),
        ):
            with self.subTest(name=name):
                with self.assertRaisesRegex(TypeError, f"^{name} must be"):
                    Intake(FOUR, 0, out, waiting)
        with self.assertRaisesRegex(OverflowError, "^out must be"):
            Intake(FOUR, 0, -1, 16)
        with self.assertRaisesRegex(TypeError, "^sharding must be"):
            Intake(None, 0, 99, 16)
        with Intake(FOUR, 0, 99, 16) as intake:
            for size in (-1, 2**64):
                with self.assertRaisesRegex(OverflowError, "^size must be"):
                    intake.announce(4, size)
            with self.assertRaisesRegex(TypeError, "^bytes must be"):
                intake.part("text")

    def test_overlaps(self):
        both = bytearray(120)
        with self.assertRaisesRegex(ValueError, "overlap"):
            Intake(FOUR, 0, memoryview(both)[:104], memoryview(both)[103:])
        view = memoryview(both)
        with Intake(FOUR, 0, view[:104], view[104:]) as intake:
            intake.announce(4, 1)
            for shared in (view[103:104], view[104:105]):
                with self.assertRaisesRegex(ValueError, "overlap"):
                    intake.part(shared)
            intake.part(b"a")

    def test_buffers_are_held_and_let_go(self):
        out, waiting = bytearray(len(SETTLED) + 5), bytearray(32)
        intake = Intake(CASE, 0, out, waiting)
        for held in (out, waiting):
            with self.assertRaises(BufferError):
                held.append(0)
        with intake:
            intake.close()
        waiting.append(0)
        del out[intake.length:]
        self.assertEqual(out, bytes(32))
        form = intake.form
        with self.assertRaises(BufferError):
            out.append(0)
        with self.assertRaises(TypeError):
            form[0] = 1
        form.release()
        out.append(0)

    def test_a_file_is_written_in_place(self):
        """A mapped file becomes the shard, and is cut to its length."""
        with mmap.mmap(-1, 4096) as mapped:
            intake = self.deliver(mapped, 32)
            self.assertEqual(mapped[: intake.length], SETTLED)


class ManyMinishards(unittest.TestCase):
    """The second buffer is used afresh for each."""

    def test_one_chunk_in_some_of_them(self):
        sharding = Sharding(0, IDENTITY, 10, 0, VOLUME)
        rng = random.Random(16)
        content = {id: rng.randbytes(2) for id in range(0, 1024, 7)}
        expected = shards.settled(sharding, content)
        with Intake(sharding, 0, len(expected), 16) as intake:
            for id, data in content.items():
                intake.announce(id, 2)
                intake.part(data)
        self.assertEqual(intake.form, expected)
