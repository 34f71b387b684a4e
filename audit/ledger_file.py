"""The rows of a ledger's file, which is read and never written.

A reader of SQLite that opens a file with a log beside it may make another
file there, and may carry the log's commits over.  So the file and its log
are copied first, and all that is done is done to the copy.
"""

import contextlib
import fcntl
import shutil
import sqlite3
import tempfile
from collections.abc import Iterator
from pathlib import Path

# the bytes of a file by which readers and writers of SQLite keep out of each other's way
_SHARED_FIRST, _SHARED_SIZE = 0x40000002, 510
COLUMNS = [("seq", "INTEGER"), ("body", "BLOB")]


class Unreadable(Exception):
    """Why a file can't be read, in words."""


def _copy(path: Path, folder: Path) -> Path:
    """Copies the file and its log, held as a reader of SQLite holds them."""
    copy = folder / "ledger.db"
    with open(path, "rb") as file:
        try:
            fcntl.lockf(file, fcntl.LOCK_SH | fcntl.LOCK_NB, _SHARED_SIZE, _SHARED_FIRST)
        except OSError:
            raise Unreadable(f"{path} is in use by another process") from None
        with open(copy, "wb") as out:
            shutil.copyfileobj(file, out)
        log = Path(f"{path}-wal")
        if log.exists():
            shutil.copyfile(log, f"{copy}-wal")
    return copy


@contextlib.contextmanager
def copied(path: str) -> Iterator[Path]:
    """A copy of a ledger's file, with its log, in a folder of its own."""
    with tempfile.TemporaryDirectory(prefix="audit-") as folder:
        try:
            copy = _copy(Path(path), Path(folder))
        except OSError as error:
            raise Unreadable(f"{path}: {error.strerror}") from None
        yield copy


def write(path: Path, bodies: list[bytes]) -> None:
    """A new ledger's file of these rows."""
    with contextlib.closing(sqlite3.connect(path)) as base:
        base.execute("CREATE TABLE kept (seq INTEGER PRIMARY KEY, body BLOB NOT NULL) STRICT")
        base.executemany("INSERT INTO kept VALUES (?, ?)", enumerate(bodies, start=1))
        base.commit()


def rows_of(copy: Path) -> list[tuple[int, bytes]]:
    """The kept rows of a copy by their numbers; none where it has no table."""
    try:
        with contextlib.closing(sqlite3.connect(copy)) as base:
            names = [name for name, in base.execute("SELECT name FROM sqlite_master")]
            if not names:
                return []
            columns = [row[1:3] for row in base.execute("PRAGMA table_info(kept)")]
            if names != ["kept"] or columns != COLUMNS:
                raise Unreadable(f"it has other tables than a ledger's: {', '.join(names)}")
            return base.execute("SELECT seq, body FROM kept ORDER BY seq").fetchall()
    except sqlite3.Error as error:
        raise Unreadable(f"SQLite can't read it: {error}") from None
