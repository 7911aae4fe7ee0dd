"""Where the module looks for the shared object, each case in a process of its
own."""

import os
import shutil
import subprocess
import sys
import tempfile
import unittest
from pathlib import Path

from coronagamba import _library

PACKAGE = Path(_library.__file__).resolve().parent
OBJECT = _library.library._name
REPORT = "import coronagamba._library as l; print(l.library._name)"


class Loading(unittest.TestCase):
    """A copy of the module in a folder laid out as the repository is."""

    def setUp(self):
        folder = tempfile.TemporaryDirectory()
        self.addCleanup(folder.cleanup)
        self.root = Path(folder.name).resolve()
        self.package = self.root / "python/coronagamba"
        shutil.copytree(
            PACKAGE,
            self.package,
            ignore=shutil.ignore_patterns("*.so", "__pycache__"),
        )

    def run_module(self, library=None):
        """The finished process of an import, with the variable or without."""
        known = {k: v for k, v in os.environ.items() if k != _library.VARIABLE}
        known["PYTHONPATH"] = str(self.package.parent)
        if library is not None:
            known[_library.VARIABLE] = str(library)
        return subprocess.run(
            [sys.executable, "-B", "-c", REPORT],
            env=known,
            cwd=self.root,
            capture_output=True,
            text=True,
        )

    def put(self, *folders):
        """Puts the object into a folder of the copy and gives its path."""
        path = self.root.joinpath(*folders, _library.FILE)
        path.parent.mkdir(parents=True, exist_ok=True)
        shutil.copy(OBJECT, path)
        return path

    def assert_loads(self, path, library=None):
        found = self.run_module(library)
        self.assertEqual(found.stdout, f"{path}\n", found.stderr)

    def assert_import_error(self, words, library=None):
        found = self.run_module(library)
        self.assertEqual(found.stdout, "")
        last = found.stderr.splitlines()[-1]
        for word in ["ImportError", "python/build", *words]:
            self.assertIn(word, last)

    def test_no_object(self):
        repository = self.root / "target/shared" / _library.FILE
        beside = self.package / _library.FILE
        self.assert_import_error([str(repository), str(beside)])

    def test_beside_the_module(self):
        self.assert_loads(self.put("python", "coronagamba"))

    def test_in_the_repository_first(self):
        self.put("python", "coronagamba")
        self.assert_loads(self.put("target", "shared"))

    def test_named_by_the_variable_first(self):
        self.put("target", "shared")
        named = self.put("elsewhere")
        self.assert_loads(named, named)

    def test_named_by_a_relative_path(self):
        named = self.put()
        self.assert_loads(named, _library.FILE)

    def test_an_empty_variable_names_nothing(self):
        self.assert_loads(self.put("target", "shared"), "")

    def test_a_missing_file_is_not_replaced_by_another(self):
        self.put("target", "shared")
        missing = self.root / "missing.so"
        self.assert_import_error([str(missing)], missing)

    def test_not_a_shared_object(self):
        text = self.root / "text.so"
        text.write_text("text")
        self.assert_import_error([str(text), "cannot be loaded"], text)

    def test_an_object_without_the_functions(self):
        other = self.root / "other.so"
        subprocess.run(
            ["gcc", "-shared", "-x", "c", os.devnull, "-o", str(other)],
            check=True,
        )
        first = next(iter(_library.FUNCTIONS))
        self.assert_import_error([str(other), first], other)

    def test_an_object_of_another_version(self):
        other = self.root / "other.so"
        functions = "".join(
            f"unsigned long {name}(void) {{ return 3ul << 32 | 4; }}\n"
            for name in _library.FUNCTIONS
        )
        subprocess.run(
            ["gcc", "-shared", "-fPIC", "-x", "c", "-", "-o", str(other)],
            input=functions,
            text=True,
            check=True,
        )
        self.assert_import_error([str(other), "version 3.0.4"], other)
