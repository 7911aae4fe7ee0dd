"""python/build, on small archives in a folder laid out as the repository is.
"""

import os
import shutil
import subprocess
import sys
import tempfile
import unittest
from pathlib import Path

HERE = Path(__file__).resolve().parent.parent


class Build(unittest.TestCase):
    def setUp(self):
        folder = tempfile.TemporaryDirectory()
        self.addCleanup(folder.cleanup)
        self.root = Path(folder.name)
        self.object = self.root / "target/shared/libcoronagamba.so"
        (self.root / "python").mkdir()
        for name in ("build", "exports.map"):
            shutil.copy(HERE / name, self.root / "python")
        (self.root / "include").mkdir()
        header = HERE.parent / "include/coronagamba.h"
        shutil.copy(header, self.root / "include")

    def archive(self, number, folder="target/staticlib"):
        """Makes an archive of a function that gives this number, and one that
        is not of the interface. Gives its folder."""
        place = self.root / folder
        place.mkdir(parents=True, exist_ok=True)
        source = (
            f"int coronagamba_one(void) {{ return {number}; }}"
            " int inner(void) { return 0; }"
        )
        subprocess.run(
            ["gcc", "-c", "-fPIC", "-x", "c", "-", "-o", "coronagamba.o"],
            input=source,
            text=True,
            cwd=place,
            check=True,
        )
        subprocess.run(
            ["ar", "rc", "libcoronagamba.a", "coronagamba.o"], cwd=place, check=True
        )
        return place

    def build(self, archive=None):
        known = dict(os.environ)
        known.pop("CORONAGAMBA_LIB_DIR", None)
        if archive is not None:
            known["CORONAGAMBA_LIB_DIR"] = str(archive)
        return subprocess.run(
            [self.root / "python/build"],
            env=known,
            capture_output=True,
            text=True,
        )

    def assert_built(self, number, archive=None):
        done = self.build(archive)
        self.assertEqual((done.returncode, done.stderr), (0, ""))
        self.assertEqual(self.ask("library.coronagamba_one()"), str(number))

    def ask(self, question):
        """What the object answers, in a process of its own."""
        program = (
            "import ctypes, sys; library = ctypes.CDLL(sys.argv[1]);"
            f" print({question}, end='')"
        )
        return subprocess.run(
            [sys.executable, "-c", program, str(self.object)],
            stdout=subprocess.PIPE,
            text=True,
            check=True,
        ).stdout

    def test_no_archive(self):
        done = self.build()
        self.assertEqual(done.returncode, 1)
        self.assertIn("./build coronagamba", done.stderr)
        self.assertFalse(self.object.exists())

    def test_only_the_interface_is_shown(self):
        self.archive(1)
        self.assert_built(1)
        self.assertEqual(self.ask("hasattr(library, 'inner')"), "False")

    def test_the_same_archive_is_linked_once(self):
        self.archive(2)
        self.assert_built(2)
        before = self.object.stat()
        self.assert_built(2)
        after = self.object.stat()
        self.assertEqual(before.st_ino, after.st_ino)
        self.assertEqual(before.st_mtime_ns, after.st_mtime_ns)

    def test_another_archive_is_linked_again(self):
        older = self.archive(3, "elsewhere")
        self.archive(4)
        self.assert_built(4)
        self.archive(5)
        self.assert_built(5)
        self.assert_built(3, older)

    def test_what_cannot_be_linked_leaves_no_object(self):
        place = self.archive(6)
        (place / "libcoronagamba.a").write_bytes(b"no archive")
        self.assertNotEqual(self.build().returncode, 0)
        self.assertEqual(list(self.object.parent.iterdir()), [])
