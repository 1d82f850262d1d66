"""The examples of docstrings, and of README.md where it lies beside these tests."""

import doctest
import pathlib

from puneloviash import _defaults, _errors, _pathspec, _walk

README = pathlib.Path(__file__).resolve().parent.parent / "README.md"


def load_tests(loader, tests, ignore):
    for module in _defaults, _errors, _pathspec, _walk:
        tests.addTests(doctest.DocTestSuite(module))
    import puneloviash

    tests.addTests(doctest.DocTestSuite(puneloviash))
    tests.addTests(doctest.DocFileSuite(str(README), module_relative=False))
    return tests
