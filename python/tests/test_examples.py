"""The examples of the docstrings and of the README run as they stand."""

import doctest
import importlib
import pkgutil
import unittest

import coronagamba


def load_tests(loader, tests, pattern):
    suite = unittest.TestSuite()
    for module in pkgutil.iter_modules(coronagamba.__path__, "coronagamba."):
        found = importlib.import_module(module.name)
        if not module.name.startswith("coronagamba._"):
            # Raises where a public module has no example.
            suite.addTests(doctest.DocTestSuite(found))
    suite.addTests(doctest.DocFileSuite("../README.md"))
    return suite
