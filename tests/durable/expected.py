"""What runs that aren't killed give, and whether the rows of a file are those of its replies."""

import io
import os
import shutil
import signal
import sqlite3
import subprocess
import time
from typing import NamedTuple, NoReturn

from ..support.program import apply, as_input, run
from ..support.rows import Row, base_of, copied
from .requests import IMPORT, LINES, MIXED_IMPORT, OPENING

WAITING = 1024  # so many rows may be kept before their replies are written


class Outcome(NamedTuple):
    """The replies that were written whole, and how many rows more there are."""

    replies: int
    ahead: int


class Way(NamedTuple):
    """A command, its input, and the replies of a run over the opening's rows."""

    command: str
    lines: list[str]
    replies: list[str]


def fail(text: str) -> NoReturn:
    raise AssertionError(text)


def was_killed(status: int) -> None:
    """A run that ends by itself shows nothing about kills."""
    if status != -signal.SIGKILL:
        fail(f"the run isn't killed: it ends with {status}")


def pipes(running: "subprocess.Popen[bytes]") -> tuple[io.RawIOBase, io.RawIOBase]:
    """The input and the output of a run that has pipes for them."""
    source, replies = running.stdin, running.stdout
    if not isinstance(source, io.RawIOBase) or not isinstance(replies, io.RawIOBase):
        fail("the run has no pipes")
    return source, replies


def sound_rows(file: str, replies: int) -> list[Row]:
    """The rows by a stock SQLite, which finds the file sound. A file whose run replied nothing may
    have no table yet."""
    try:
        with copied(file) as path, base_of(path) as base:
            check = base.execute("PRAGMA integrity_check").fetchall()
            if check != [("ok",)]:
                fail(f"integrity_check says {check}")
            return base.execute("SELECT seq, body FROM kept ORDER BY seq").fetchall()
    except sqlite3.Error as error:
        if replies:
            fail(f"a stock SQLite can't read the rows: {error}")
        return []


def accepted(replies: list[str]) -> list[str]:
    """Those of lines and records that keep a row."""
    return [reply for reply in replies if reply.startswith("ok")]


class Expected:
    """Runs that aren't killed: their replies, rows and seconds."""

    def __init__(self, room: str) -> None:
        self.opened = os.path.join(room, "opened")
        file = os.path.join(room, "whole")
        begun = time.monotonic()
        done = apply(file, OPENING + LINES)
        self.seconds, self.replies = time.monotonic() - begun, done.lines
        self.rows = sound_rows(file, 1)
        numbers = [number for number, _ in self.rows]
        if done.status != 0 or numbers != list(range(1, len(OPENING) + len(LINES) + 1)):
            fail(f"a run that isn't killed ends with {done.status}, {len(numbers)} rows are kept")
        done = apply(self.opened, OPENING)
        if done.status != 0 or sound_rows(self.opened, 1) != self.rows[: len(OPENING)]:
            fail(f"the opening ends with {done.status}")
        self._import(room)

    def _import(self, room: str) -> None:
        """The same by import, and with records that are refused."""
        done = run([self.begun(room), "import"], as_input(IMPORT))
        if done.status != 0 or done.lines != self.charged or self.rows_in(room) != self.rows:
            fail(f"an import that isn't killed ends with {done.status}")
        done = run([self.begun(room), "import"], as_input(MIXED_IMPORT))
        is_whole = len(done.lines) == len(MIXED_IMPORT) - 1 and accepted(done.lines) == self.charged
        if done.status != 1 or not is_whole or self.rows_in(room) != self.rows:
            fail(f"an import with records that are refused ends with {done.status}")
        self.ways = (Way("apply", LINES, self.charged), Way("import", IMPORT, self.charged),
                     Way("import", MIXED_IMPORT, done.lines))

    @property
    def charged(self) -> list[str]:
        """The replies to the charges."""
        return self.replies[len(OPENING):]

    def begun(self, room: str) -> str:
        """A file with the opening's rows."""
        return shutil.copyfile(self.opened, os.path.join(self.emptied(room), "rows"))

    @staticmethod
    def emptied(room: str) -> str:
        """The folder, without a file or a log of rows."""
        for end in ("", "-wal", "-shm"):
            if os.path.exists(os.path.join(room, "rows" + end)):
                os.remove(os.path.join(room, "rows" + end))
        return room

    @staticmethod
    def rows_in(room: str) -> list[Row]:
        return sound_rows(os.path.join(room, "rows"), 1)

    def has_rows(self, replies: int, rows: list[Row], most: int) -> None:
        """The rows are those of so many replies and of the next lines, at most so many."""
        if not replies <= len(rows) <= replies + most:
            fail(f"{replies} replies and {len(rows)} rows, where at most {most} may be ahead")
        if rows != self.rows[: len(rows)]:
            fail(f"{replies} replies, and the {len(rows)} rows aren't those of the lines")

    def imported(self, room: str, replies: list[str], most: int = WAITING) -> Outcome:
        """The rows of the opening's file are those of an import with these replies, and a second
        import makes them all."""
        file = os.path.join(room, "rows")
        if replies != self.charged[: len(replies)]:
            fail("the replies aren't those of an import that isn't killed")
        rows = sound_rows(file, 1)
        self.has_rows(len(OPENING) + len(replies), rows, most)
        again = run([file, "import"], as_input(IMPORT))
        if again.status != 0 or again.lines != self.charged or sound_rows(file, 1) != self.rows:
            fail(f"sent again, the import ends with {again.status}")
        return Outcome(len(replies), len(rows) - len(OPENING) - len(replies))
