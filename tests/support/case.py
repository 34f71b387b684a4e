"""A test with a folder of its own, and what it holds a run against."""

import itertools
import os
import shutil
import tempfile
import unittest
from collections.abc import Callable
from typing import Any, TypeVar

from .program import Done, Word

Test = TypeVar("Test", bound=Callable[..., Any])
SHOWN = 200


def long(test: Test) -> Test:
    """Marks a test method or a class as one that `--fast` leaves out."""
    setattr(test, "long", True)
    return test


def tools_missing(*names: str) -> list[str]:
    """Those of the commands that aren't installed here."""
    return [name for name in names if not shutil.which(name)]


def read(path: Word) -> bytes:
    with open(path, "rb") as file:
        return file.read()


def first_difference(found: str, wanted: str) -> str:
    """The first line in which two texts differ."""
    pairs = itertools.zip_longest(found.splitlines(True), wanted.splitlines(True))
    for number, (ours, theirs) in enumerate(pairs, 1):
        if ours != theirs:
            return f"line {number} is {str(ours)[:SHOWN]!r}, wanted {str(theirs)[:SHOWN]!r}"
    return "the same"


class Case(unittest.TestCase):
    """A test with a folder of its own, in `room`; `file` is where its ledger may be."""

    maxDiff = None

    def setUp(self) -> None:
        self.room = tempfile.mkdtemp(prefix="billctl-")
        self.addCleanup(shutil.rmtree, self.room, ignore_errors=True)
        self.file = os.path.join(self.room, "rows.db")

    def at(self, *names: str) -> str:
        """A path in the folder."""
        return os.path.join(self.room, *names)

    def write(self, name: str, data: bytes | str) -> str:
        with open(self.at(name), "wb") as file:
            file.write(data.encode() if isinstance(data, str) else data)
        return self.at(name)

    def assert_same(self, found: bytes | str, wanted: bytes | str, what: str = "") -> None:
        """Two texts are the same; else the first line in which they differ is told."""
        ours, theirs = (text if isinstance(text, str) else text.decode("utf-8", "backslashreplace")
                        for text in (found, wanted))
        if ours != theirs:
            self.fail(f"{what}: {first_difference(ours, theirs)}")

    def assert_done(self, done: Done, status: int, out: bytes | str | None = None,
                    what: str = "") -> None:
        """A run ended with this status, and wrote this where it is given."""
        if done.status != status:
            self.fail(f"{what}: status {done.status}, wanted {status}; it wrote "
                      f"{done.out[-SHOWN:]!r} {done.err[-SHOWN:]!r}")
        if out is not None:
            self.assert_same(done.out, out, what)
