"""Runs one module of tests in this process, and writes what each case came to as JSON.

    python3 -m tests.support.module MODULE RESULT [--fast]
"""

import importlib
import json
import os
import sys
import traceback
import unittest
from collections.abc import Iterator
from types import ModuleType, TracebackType
from typing import Any

from .program import TOP


def place_of(trace: TracebackType) -> str:
    """The line of the test that failed."""
    frames = traceback.extract_tb(trace)
    own = [frame for frame in frames if "/unittest/" not in frame.filename]
    return f"{os.path.relpath(own[0].filename, TOP)}:{own[0].lineno}: " if own else ""


class Outcomes(unittest.TestResult):
    """Names of what passed, and case and message of what failed or was skipped."""

    def __init__(self) -> None:
        super().__init__()
        self.passed: list[str] = []
        self.failed: list[tuple[str, str]] = []
        self.failed_cases: set[str] = set()
        self.left_out: list[tuple[str, str]] = []

    def _fail(self, test: unittest.TestCase, error: Any, part: unittest.TestCase | None = None) \
            -> None:
        kind, value, trace = error
        if isinstance(value, AssertionError):
            message = f"{place_of(trace)}{value}"
        else:
            message = "".join(traceback.format_exception(kind, value, trace))
        self.failed.append(((part or test).id(), message))
        self.failed_cases.add(test.id())

    def addSuccess(self, test: unittest.TestCase) -> None:
        self.passed.append(test.id())

    def addFailure(self, test: unittest.TestCase, err: Any) -> None:
        self._fail(test, err)

    def addError(self, test: unittest.TestCase, err: Any) -> None:
        self._fail(test, err)

    def addSubTest(self, test: unittest.TestCase, subtest: unittest.TestCase, err: Any) -> None:
        if err is not None:
            self._fail(test, err, subtest)

    def addSkip(self, test: unittest.TestCase, reason: str) -> None:
        self.left_out.append((test.id(), reason))

    def addExpectedFailure(self, test: unittest.TestCase, err: Any) -> None:
        self._fail(test, err)

    def addUnexpectedSuccess(self, test: unittest.TestCase) -> None:
        self.failed.append((test.id(), "it passes, and was expected to fail"))
        self.failed_cases.add(test.id())


def cases_of(suite: unittest.TestSuite) -> Iterator[unittest.TestCase]:
    for part in suite:
        if isinstance(part, unittest.TestSuite):
            yield from cases_of(part)
        else:
            yield part


def takes_long(case: unittest.TestCase, module: ModuleType) -> bool:
    method = getattr(case, case.id().rpartition(".")[2], None)
    return (getattr(module, "LONG", False) is True
            or any(getattr(part, "long", False) is True for part in (method, type(case))))


def run(name: str, is_fast: bool) -> dict[str, Any]:
    outcomes, kept, fast_only = Outcomes(), [], 0
    try:
        module = importlib.import_module(name)
        for case in cases_of(unittest.defaultTestLoader.loadTestsFromModule(module)):
            if is_fast and takes_long(case, module):
                fast_only += 1
            else:
                kept.append(case)
        unittest.TestSuite(kept).run(outcomes)
    except unittest.SkipTest as skipped:
        outcomes.left_out.append((name, str(skipped)))
    except Exception:
        outcomes.failed.append((name, traceback.format_exc()))
        outcomes.failed_cases.add(name)
    return {"passed": [case for case in outcomes.passed if case not in outcomes.failed_cases],
            "failed": outcomes.failed, "failed cases": len(outcomes.failed_cases),
            "skipped": outcomes.left_out, "fast only": fast_only}


def main(words: list[str]) -> None:
    name, result = words[:2]
    found = run(name, "--fast" in words[2:])
    with open(result, "w", encoding="utf-8") as file:
        json.dump(found, file)


if __name__ == "__main__":
    main(sys.argv[1:])
