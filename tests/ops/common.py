"""What the tests of the companion share: its command, a folder of their own, and a small ledger."""

import contextlib
import io
import os
import subprocess
import sys
from collections.abc import Iterable
from typing import Any
from unittest import mock

from tests.support import case, rows
from tests.support.program import PROGRAM, TOP
from tests.support.requests import HEADER as COLUMNS
from tests.support.rows import TABLE, Row

LEDGER = os.path.join(TOP, "ops", "ledger")

sys.path.insert(0, os.path.join(TOP, "ops"))
os.environ["BILLCTL"] = PROGRAM

from companion.words import main  # noqa: E402

Told = tuple[int, str, str]

# A small ledger: an account with a charge, on the day after its first closing.
LINES = """feerow 2011-01-02 3000 4100
roll 2024-01-10
open anna o 2024-01-06 5 1999 2499 2199 2999 2500 100
charge anna c1 2024-01-10 purchase 100000
roll 2024-02-06
"""
HEADER = COLUMNS + "\n"


def ledger(*words: object, given: str | bytes = "") -> Told:
    """Carries out words of the companion in this process, and gives status, standard output and
    standard error."""
    out, err = io.StringIO(), io.StringIO()
    stdin = io.TextIOWrapper(io.BytesIO(given.encode() if isinstance(given, str) else given))
    with (mock.patch("sys.stdin", stdin), contextlib.redirect_stdout(out),
          contextlib.redirect_stderr(err)):
        try:
            status: Any = main([str(word) for word in words])
        except SystemExit as ended:
            status = ended.code
    return status, out.getvalue(), err.getvalue()


def start_ledger(*words: str, **how: Any) -> "subprocess.Popen[str]":
    """Starts the companion's command by itself."""
    return subprocess.Popen([sys.executable, LEDGER, *words], stdin=subprocess.DEVNULL,
                            stdout=subprocess.PIPE, stderr=subprocess.PIPE, text=True, **how)


class Case(case.Case):
    """A test with a folder of its own, and a small ledger in it."""

    def begin(self, lines: str | bytes = LINES) -> None:
        """The small ledger, or another one, in a new file."""
        done = ledger("run", self.file, "--new", "--far", given=lines)
        self.assertEqual(done[0], 0, done)

    def make(self, kept: Iterable[Row], table: str = TABLE, *more: str) -> None:
        """A file that stock SQLite makes, with these rows."""
        rows.make(self.file, kept, table, *more)

    def rows(self) -> list[Row]:
        return rows.rows_of(self.file)

    def expect(self, done: Told, status: int, message: str) -> None:
        """The status, and a message on standard error."""
        self.assertEqual(done[0], status, done)
        self.assertIn(message, done[2])
