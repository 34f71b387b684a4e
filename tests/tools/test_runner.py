"""The runner itself: what fails, is skipped or left out is counted and told, and nothing else."""

import contextlib
import io
import sys
from unittest import mock

from tests import __main__ as runner
from tests.support import module
from tests.support.case import Case

SAMPLE = """
import unittest
from tests.support.case import long


class Sample(unittest.TestCase):
    def test_passes(self):
        pass

    def test_fails(self):
        self.assertEqual(1, 2)

    def test_parts(self):
        for number in range(4):
            with self.subTest(number=number):
                self.assertEqual(number % 2, 0)

    def test_error(self):
        raise OSError("no disk")

    def test_skipped(self):
        self.skipTest("no proxy is installed")

    @unittest.expectedFailure
    def test_unexpected(self):
        pass

    @long
    def test_long(self):
        pass


class Broken(unittest.TestCase):
    @classmethod
    def setUpClass(cls):
        raise OSError("no server")

    def test_never(self):
        pass
"""


class Runner(Case):
    def found(self, name: str, text: str, is_fast: bool) -> runner.Outcome:
        self.write(f"{name}.py", text)
        with mock.patch.object(sys, "path", [self.room, *sys.path]), mock.patch.dict(sys.modules):
            found = module.run(name, is_fast)
        return runner.Outcome(name, 0.5, "a line\n", found)

    def told(self, outcome: runner.Outcome) -> tuple[bool, str]:
        with contextlib.redirect_stdout(io.StringIO()) as out:
            runner.tell(outcome)
            passed = runner.summary([outcome])
        return passed, out.getvalue()

    def test_counts(self) -> None:
        passed, text = self.told(self.found("sample", SAMPLE, False))
        self.assertFalse(passed)
        lines = text.splitlines()
        self.assertEqual(lines[0].split(), "sample 0.5 s 2 passed, 5 failed, 1 skipped".split())
        self.assertEqual(lines[1], "    a line")
        self.assertEqual(lines[-1], "2 passed, 5 failed, 1 skipped")
        for wanted in ("failed: sample.Sample.test_fails\n", "1 != 2", "(number=1)", "(number=3)",
                       "OSError: no disk", "OSError: no server", "it passes, and was expected",
                       "not tested: no proxy is installed: sample.Sample.test_skipped\n"):
            self.assertIn(wanted, text)

    def test_fast(self) -> None:
        _, text = self.told(self.found("sample", SAMPLE, True))
        self.assertIn("\nleft out by --fast: 1\n1 passed, 5 failed, 1 skipped\n", text)

    def test_passes(self) -> None:
        sample = "import unittest\n\n\nclass Sample(unittest.TestCase):\n" \
            "    def test_it(self):\n        pass\n"
        passed, text = self.told(self.found("sound", sample, False))
        self.assertTrue(passed)
        self.assertEqual(text.splitlines()[-1], "1 passed, 0 failed")

    def test_no_module(self) -> None:
        passed, text = self.told(self.found("broken", "import nothing_of_this_name\n", False))
        self.assertFalse(passed)
        self.assertIn("ModuleNotFoundError", text)
        self.assertEqual(text.splitlines()[-1], "0 passed, 1 failed")

    def test_process_ends(self) -> None:
        """A module whose process ends amid its tests has failed."""
        found = runner.run_module("no_module_at_all", False).found
        self.assertEqual(found["failed cases"], 1)
        with self.assertRaises(SystemExit), contextlib.redirect_stderr(io.StringIO()) as err:
            runner.chosen(["nowhere"])
        self.assertIn("there is no package or module nowhere", err.getvalue())
