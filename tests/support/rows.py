"""Rows of a ledger's file, by a stock SQLite (Python's own)."""

import contextlib
import os
import shutil
import sqlite3
import tempfile
from collections.abc import Iterable, Iterator

from .program import Word

TABLE = "CREATE TABLE kept (seq INTEGER PRIMARY KEY, body BLOB NOT NULL) STRICT"
ENDS = ("", "-wal")
Row = tuple[int, bytes]


@contextlib.contextmanager
def base_of(file: Word) -> Iterator[sqlite3.Connection]:
    """The file itself; what the block changes is kept at its end."""
    with contextlib.closing(sqlite3.connect(file)) as base, base:
        yield base


def copy(file: Word, to: Word) -> None:
    """Copies a file and its log, as they are."""
    for end in ENDS:
        if os.path.exists(os.fspath(file) + end):
            shutil.copyfile(os.fspath(file) + end, os.fspath(to) + end)


@contextlib.contextmanager
def copied(file: Word) -> Iterator[str]:
    """A copy of the file and its log, which may be read and written while a run has the file."""
    with tempfile.TemporaryDirectory() as room:
        path = os.path.join(room, "rows")
        copy(file, path)
        yield path


def rows_of(file: Word) -> list[Row]:
    """All rows by number, read from a copy of the file and its log."""
    with copied(file) as path, base_of(path) as base:
        return base.execute("SELECT seq, body FROM kept ORDER BY seq").fetchall()


def count_of(file: Word) -> int:
    """How many rows there are."""
    with copied(file) as path, base_of(path) as base:
        return int(base.execute("SELECT count(*) FROM kept").fetchone()[0])


def bodies_of(file: Word) -> list[bytes]:
    return [body for _, body in rows_of(file)]


def integrity(file: Word) -> str:
    """What SQLite's integrity_check says of a copy: `ok`, or the first thing that isn't."""
    with copied(file) as path, base_of(path) as base:
        return str(base.execute("PRAGMA integrity_check").fetchone()[0])


def make(file: Word, rows: Iterable[Row], table: str = TABLE, *more: str) -> None:
    """A new file with these rows; more statements come behind the one of the table."""
    with base_of(file) as base:
        for statement in (table, *more):
            base.execute(statement)
        base.executemany("INSERT INTO kept VALUES (?, ?)", rows)


def replace(file: Word, rows: Iterable[Row]) -> None:
    """Puts these rows in the place of those of the file."""
    with base_of(file) as base:
        base.execute("DELETE FROM kept")
        base.executemany("INSERT INTO kept VALUES (?, ?)", rows)
