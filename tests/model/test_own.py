"""The tests of the independent model itself (audit/tests): worked values, definitions, laws."""

import unittest

from tests.support.program import TOP


def load_tests(loader: unittest.TestLoader, cases: unittest.TestSuite, pattern: str | None) \
        -> unittest.TestSuite:
    cases.addTests(loader.discover(str(TOP / "audit" / "tests"), top_level_dir=str(TOP)))
    return cases
