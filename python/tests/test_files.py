"""Shards and pairs that are read from files, and errors that name them."""

import os
import pickle
import tempfile
import threading
import unittest
from pathlib import Path
from unittest import mock

from coronagamba import Absent, Pair, Refused, Shard, Sheet, _files

from .shards import u64s
from .test_shard import CASE, SETTLED


class Files(unittest.TestCase):
    def setUp(self):
        folder = tempfile.TemporaryDirectory()
        self.addCleanup(folder.cleanup)
        self.folder = Path(folder.name)
        self.shard = self.write("0.shard", SETTLED)
        self.index = self.write("0.index", SETTLED[:32])
        self.data = self.write("0.data", SETTLED[32:])

    def write(self, name, data):
        path = self.folder / name
        path.write_bytes(data)
        return path

    def test_a_shard(self):
        for path in (self.shard, str(self.shard), os.fsencode(self.shard)):
            with Shard.from_path(path, CASE, 0) as shard:
                self.assertEqual(shard.settled(), SETTLED)
                self.assertEqual(shard.paths, (str(self.shard),))
                self.assertEqual(shard.sharding, CASE)
        # The file is closed: another may take its place.
        shard = Shard.from_path(self.shard, CASE, number=0)
        self.shard.write_bytes(b"")
        self.assertEqual(shard.chunk(10), b"cde")

    def test_a_pair(self):
        pair = Pair.from_paths(self.index, str(self.data), CASE, 0)
        self.assertEqual(pair.settled(), SETTLED)
        self.assertEqual(pair.paths, (str(self.index), str(self.data)))
        self.assertEqual(pair.range(34, 37), b"cde")

    def test_bytes_have_no_path(self):
        self.assertEqual(Shard(CASE, 0, SETTLED).paths, ())

    def test_what_it_shows(self):
        shard = Shard.from_path(self.shard, CASE, 3)
        self.assertEqual(
            repr(shard), f"<Shard 3 of {CASE}: 85 bytes from '{self.shard}'>"
        )
        pair = Pair.from_paths(self.index, self.data, CASE, 0)
        self.assertEqual(
            repr(pair),
            f"<Pair 0 of {CASE}: 32 bytes and 53 bytes from"
            f" '{self.index}' and '{self.data}'>",
        )

    def test_every_refusal_names_the_files(self):
        shard = Shard.from_path(self.shard, CASE, 0)
        with self.assertRaises(Absent) as caught:
            shard.chunk(6)
        self.assertEqual(
            str(caught.exception),
            f"{self.shard}: refused 12: The id is not listed.",
        )
        self.shard.write_bytes(SETTLED[:16] + u64s(1, 0) + SETTLED[32:])
        shard = Shard.from_path(self.shard, CASE, 0)
        for call in (
            shard.check,
            shard.measure,
            shard.unlisted,
            shard.settled,
            shard.listed,
            lambda: len(shard),
            lambda: shard.lookup(7),
            lambda: shard.listing(1),
            lambda: shard.lookup_fragment(7, 0, 0),
        ):
            with self.assertRaises(Refused) as caught:
                call()
            self.assertEqual(caught.exception.number, 7)
            self.assertEqual(caught.exception.paths, (str(self.shard),))
        copy = pickle.loads(pickle.dumps(caught.exception))
        self.assertEqual(str(copy), str(caught.exception))

        pair = Pair.from_paths(self.data, self.index, CASE, 0)
        names = str(self.data), str(self.index)
        for call in (pair.check, lambda: pair.range(0, 1)):
            with self.assertRaises(Refused) as caught:
                call()
            self.assertEqual(caught.exception.paths, names)
            told = str(caught.exception)
            expected = f"{names[0]} and {names[1]}: refused 23: "
            self.assertTrue(told.startswith(expected), told)

    def test_a_refusal_of_bytes_names_none(self):
        with self.assertRaises(Refused) as caught:
            Shard(CASE, 0, b"").check()
        self.assertEqual(caught.exception.paths, ())
        self.assertTrue(str(caught.exception).startswith("refused 6: "))

    def test_files_that_cannot_be_read(self):
        missing = self.folder / "1.shard"
        # Its first page is there for no process.
        unreadable = Path("/proc/self/mem")
        for path in (missing, self.folder, unreadable):
            for call in (
                lambda: Shard.from_path(path, CASE, 0),
                lambda: Pair.from_paths(path, self.data, CASE, 0),
                lambda: Pair.from_paths(self.index, path, CASE, 0),
            ):
                with self.assertRaises(OSError) as caught:
                    call()
                self.assertEqual(caught.exception.filename, str(path))
                self.assertIn(str(path), str(caught.exception))

    def test_what_is_no_path(self):
        for other in (0, None, 1.5, [str(self.shard)]):
            for name, call in (
                ("path", lambda: Shard.from_path(other, CASE, 0)),
                ("index", lambda: Pair.from_paths(other, self.data, CASE, 0)),
                ("data", lambda: Pair.from_paths(self.index, other, CASE, 0)),
            ):
                with self.assertRaisesRegex(TypeError, f"^{name} must be a s"):
                    call()
        with self.assertRaisesRegex(TypeError, "^sharding must be"):
            Shard.from_path(self.shard, None, 0)
        with self.assertRaisesRegex(OverflowError, "^number must be"):
            Shard.from_path(self.shard, CASE, -1)

    def test_a_file_is_read_no_further_than_is_needed(self):
        self.assertEqual(_files.ENOUGH, 2**30 + 1)
        for length in (84, 85, 86):
            with mock.patch.object(_files, "ENOUGH", length):
                _, read = _files.read("path", self.shard)
            self.assertEqual(read, SETTLED[:length])

    def test_files_without_a_length(self):
        pipe = self.folder / "pipe"
        os.mkfifo(pipe)
        writer = threading.Thread(target=pipe.write_bytes, args=(SETTLED,))
        writer.start()
        shard = Shard.from_path(pipe, CASE, 0)
        writer.join()
        self.assertEqual(shard.settled(), SETTLED)
        with self.assertRaises(Refused) as caught:
            Shard.from_path(os.devnull, CASE, 0).check()
        self.assertEqual(caught.exception.number, 6)

    def test_a_sheet_takes_them(self):
        sheet = Sheet()
        sheet.add(Shard.from_path(self.shard, CASE, 0))
        sheet.add(Pair.from_paths(self.index, self.data, CASE, 0))
        self.assertEqual((sheet.sound, sheet.chunks), (2, 4))
