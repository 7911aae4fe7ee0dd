"""Type hints: each function has them, a program that is written with them
runs, and mypy, where it is there, finds nothing in either."""

import ast
import subprocess
import sys
import tempfile
import unittest
from importlib.util import find_spec
from pathlib import Path

from . import typed_use

ROOT = Path(__file__).resolve().parents[1]


def bare(function):
    """The parameters of a function that have no hint, and `return` where its
    result has none."""
    given = function.args
    every = [*given.posonlyargs, *given.args, *given.kwonlyargs]
    every += [each for each in (given.vararg, given.kwarg) if each]
    found = [
        each.arg
        for each in every
        if each.annotation is None and each.arg not in ("self", "cls")
    ]
    return found + ["return"] * (function.returns is None)


class Hints(unittest.TestCase):
    def test_every_function_has_them(self):
        count = 0
        for path in (ROOT / "coronagamba").glob("*.py"):
            for node in ast.walk(ast.parse(path.read_text())):
                if isinstance(node, (ast.FunctionDef, ast.AsyncFunctionDef)):
                    count += 1
                    self.assertEqual(bare(node), [], (path.name, node.name))
        self.assertGreater(count, 100)

    def test_a_program_with_them_runs(self):
        with tempfile.TemporaryDirectory() as folder:
            typed_use.main(Path(folder))


if find_spec("mypy") is not None:

    class Mypy(unittest.TestCase):
        def test_strict(self):
            with tempfile.TemporaryDirectory() as cache:
                done = subprocess.run(
                    [sys.executable, "-m", "mypy", "--strict"]
                    + ["--cache-dir", cache]
                    + ["-p", "coronagamba", "-m", "tests.typed_use"],
                    cwd=ROOT,
                    capture_output=True,
                    text=True,
                )
            self.assertEqual((done.returncode, done.stderr), (0, ""), done.stdout)
