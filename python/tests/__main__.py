"""Runs all tests. The last line is 'N passed, M failed'; a test that is
skipped counts as failed. Where numpy or mypy is not there, the tests with it
are not among them, and a line before says so."""

import sys
import unittest
from importlib.util import find_spec
from pathlib import Path


class Counting(unittest.TextTestResult):
    """Counts the tests that passed; subtests belong to theirs."""

    passed = 0

    def addSuccess(self, test):
        super().addSuccess(test)
        self.passed += 1


def main():
    here = Path(__file__).resolve().parent
    suite = unittest.defaultTestLoader.discover(
        str(here), top_level_dir=str(here.parent)
    )
    runner = unittest.TextTestRunner(sys.stdout, resultclass=Counting)
    result = runner.run(suite)
    failed = (
        len(result.failures)
        + len(result.errors)
        + len(result.skipped)
        + len(result.expectedFailures)
        + len(result.unexpectedSuccesses)
    )
    for module in ("numpy", "mypy"):
        if find_spec(module) is None:
            print(f"{module} is not there: the tests with it were not run")
    print(f"{result.passed} passed, {failed} failed")
    return 0 if failed == 0 and result.passed > 0 else 1


if __name__ == "__main__":
    sys.exit(main())
