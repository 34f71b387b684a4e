"""A look at a ledger's file: why billctl couldn't open it, and its rows, read by stock sqlite3.

A look leaves the file and its log as they are and makes nothing beside them. The file is read where
it lies if its log has no commits, else a copy of both in a temporary folder. While it is read,
billctl is kept from it as from a file in use.
"""

import contextlib
import os
import shutil
import sqlite3
import stat
import tempfile
import urllib.parse
from collections.abc import Generator, Iterator

from companion import locks
from companion.rights import whose
from companion.trouble import CANNOT_OPEN, DAMAGED, FOUND, OWN_FILES, Trouble, say

# A row's number and its bytes.
Row = tuple[int, bytes]

MAGIC = b"SQLite format 3\0"

# A log's header and the header of its first frame: with fewer bytes it has no commits.
FRAMES_BEGIN = 56

# While a run keeps rows the log grows to some 4.3 MB.
ROOM = 5_000_000

# What to do where a copy can't be made in the folder for temporary files, or on a disk of its own.
OTHER_FOLDER = "TMPDIR may name another folder"
MORE_ROOM = "make room on this disk"

TABLE = "CREATE TABLE kept (seq INTEGER PRIMARY KEY, body BLOB NOT NULL) STRICT"
COLUMNS = [("seq", "INTEGER", 0, None, 1), ("body", "BLOB", 1, None, 0)]


def log_of(path: str) -> str:
    """The log that belongs to a file, where a link leads."""
    return os.path.realpath(path) + "-wal"


def cause_of_name(path: str) -> str | None:
    """Why a path can't be that of a ledger's file, else None."""
    if path == "-":
        return "- keeps rows in memory, so there is no file to look at"
    if path == ":memory:" or path.startswith("file:"):
        return f"{path} names no file for billctl; write ./ in front of it"
    folder = os.path.dirname(os.path.realpath(path))
    if not os.path.isdir(folder):
        return f"{path}: its folder {folder} isn't there"
    if not os.access(folder, os.R_OK | os.X_OK):
        return f"{path}: its folder {folder} may not be read by this user{whose(folder)}"
    return None


def cause_of_kind(path: str, what: str) -> str | None:
    """Why a path that is there is no plain file that this user may read and write, else None."""
    found = os.lstat(path)
    if stat.S_ISDIR(found.st_mode):
        return f"{what} is a folder"
    if not stat.S_ISREG(found.st_mode):
        return f"{what} is no plain file"
    if found.st_nlink != 1:
        return f"{what} has {found.st_nlink} names (hard links); billctl takes a file with one"
    for right, word in ((os.R_OK, "read"), (os.W_OK, "written")):
        if not os.access(path, right):
            return f"{what} may not be {word} by this user{whose(path)}"
    return None


def cause_of_journal(real: str, path: str) -> str | None:
    """Why a rollback journal beside the file keeps billctl from it, else None."""
    journal = real + "-journal"
    if not os.path.lexists(journal):
        return None
    if os.path.isfile(journal) and not os.path.islink(journal):
        with open(journal, "rb") as file:
            if file.read(1) in (b"", b"\0"):
                return None
    return (f"{path}: {journal} is there, a journal that sqlite3 left; "
            "open the file once with sqlite3, which plays it back")


def cause_of_content(real: str, path: str) -> str | None:
    """Why the file's front is that of no SQLite database, else None."""
    with open(real, "rb") as file:
        front = file.read(len(MAGIC))
    if front in (b"", MAGIC):
        return None
    return f"{path} is no SQLite database: it doesn't begin as one"


def cause_of_pair(real: str, path: str) -> str | None:
    """Why the file or the log beside it can't be opened, but for locks, else None."""
    log = log_of(path)
    cause = cause_of_kind(real, path) or cause_of_journal(real, path)
    if cause:
        return cause
    if os.path.lexists(log):
        return cause_of_kind(log, f"{path}: its log {log}") or cause_of_content(real, path)
    if not os.access(os.path.dirname(real), os.W_OK):
        folder = os.path.dirname(real)
        return (f"{path}: its log can't be made, since the folder {folder} "
                f"may not be written by this user{whose(folder)}")
    return cause_of_content(real, path)


def require_openable(path: str, wait: int = 0) -> None:
    """Raises Trouble with the cause where billctl couldn't open the file, or where it isn't there.

    Waits for a lock.
    """
    cause = cause_of_name(path)
    if cause:
        raise Trouble(cause, CANNOT_OPEN)
    if not os.path.lexists(path):
        raise Trouble(f"{path} isn't there; billctl would begin a new, empty ledger under "
                      "this name", FOUND)
    real = os.path.realpath(path)
    if os.path.exists(real):
        cause = cause_of_pair(real, path)
    else:
        cause = f"{path} is a link to {real}, which isn't there"
    if cause:
        raise Trouble(cause, CANNOT_OPEN)
    locks.wait_for([real, real + "-wal"], wait)


def warn_of_room(path: str) -> None:
    """Says where the disk of a file has too little room for a run."""
    free = shutil.disk_usage(os.path.dirname(os.path.realpath(path))).free
    if free < ROOM:
        say(f"the disk of {path} has {free:,} bytes left; a run that keeps rows wants {ROOM:,}, "
            "and ends with 5 without them")


def has_commits(real: str) -> bool:
    """Whether the log may hold commits that the file doesn't have yet."""
    log = real + "-wal"
    return os.path.exists(log) and os.path.getsize(log) > FRAMES_BEGIN


def copy_pair(real: str, to: str, advice: str = OTHER_FOLDER) -> None:
    """Copies a file and its log, where it has commits, under another path.

    Raises Trouble with what to do where that can't be done.
    """
    try:
        shutil.copyfile(real, to)
        if has_commits(real):
            shutil.copyfile(real + "-wal", to + "-wal")
    except OSError as error:
        raise Trouble(f"{to}: a copy of {real} can't be made: {error.strerror}; {advice}",
                      OWN_FILES) from error


@contextlib.contextmanager
def held(path: str, wait: int = 0) -> Iterator[str]:
    """The real path of a file that billctl could open, kept from billctl meanwhile."""
    require_openable(path, wait)
    real = os.path.realpath(path)
    with contextlib.ExitStack() as stack:
        for each in (real, real + "-wal"):
            if not os.path.exists(each):
                continue
            if not locks.take_shared(stack.enter_context(open(each, "rb"))):
                raise Trouble(f"{each} is in use by {locks.who_has(each)}", CANNOT_OPEN)
        yield real


@contextlib.contextmanager
def copied(path: str, wait: int = 0) -> Iterator[str]:
    """The path of a copy of a file and its log, in a temporary folder that goes at the end."""
    with tempfile.TemporaryDirectory(prefix="ledger-") as room:
        copy = os.path.join(room, "copy")
        with held(path, wait) as real:
            copy_pair(real, copy)
        yield copy


def connection(real: str) -> sqlite3.Connection:
    """A connection to a file whose log has no commits.

    It reads alone, locks nothing and makes nothing.
    """
    name = "file:" + urllib.parse.quote(real) + "?mode=ro&immutable=1"
    return sqlite3.connect(name, uri=True, isolation_level=None)


def things_of(base: sqlite3.Connection) -> list[tuple[str, str, str]]:
    return base.execute("SELECT type, name, sql FROM sqlite_master ORDER BY rowid").fetchall()


def cause_of_form(base: sqlite3.Connection, path: str) -> str | None:
    """That the table isn't spelled as a ledger's, else None."""
    for _, _, sql in things_of(base):
        if " ".join(sql.split()) != TABLE:
            return (f"{path}: its table kept is of another form: {' '.join(sql.split())}; "
                    f"a ledger's is: {TABLE}")
    return None


def cause_of_schema(base: sqlite3.Connection, path: str) -> str | None:
    """What the database has that isn't the table of a ledger, else None."""
    for kind, name, sql in things_of(base):
        if (kind, name) != ("table", "kept"):
            return (f"{path} has the {kind} {name}, which is no ledger's; "
                    "a ledger's file has the table kept alone")
        columns = [row[1:6] for row in base.execute("PRAGMA table_info(kept)")]
        if columns != COLUMNS or "STRICT" not in sql.upper():
            return cause_of_form(base, path)
    return None


def rows_in(base: sqlite3.Connection, path: str, since: int = 0) -> Generator[Row, None, None]:
    """The rows of a database behind the first ones in order, as numbers and bytes."""
    cause = cause_of_schema(base, path)
    if cause:
        raise Trouble(cause, CANNOT_OPEN)
    if not things_of(base):
        return
    if since == 0:
        yield from base.execute("SELECT seq, body FROM kept ORDER BY seq")
    else:
        yield from base.execute("SELECT seq, body FROM kept WHERE seq > ? ORDER BY seq", (since,))


@contextlib.contextmanager
def open_rows(path: str, wait: int = 0, since: int = 0) -> Iterator[Iterator[Row]]:
    """The rows of a ledger's file behind the first ones in order.

    Raises Trouble with the cause where it can't be opened or is damaged.
    """
    with contextlib.ExitStack() as stack:
        real = stack.enter_context(held(path, wait))
        try:
            if has_commits(real):
                room = stack.enter_context(tempfile.TemporaryDirectory(prefix="ledger-"))
                copy = os.path.join(room, "copy")
                copy_pair(real, copy)
                base = sqlite3.connect(copy, isolation_level=None)
            else:
                base = connection(real)
            stack.callback(base.close)
            rows = rows_in(base, path, since)
            stack.callback(rows.close)
            yield rows
        except sqlite3.Error as error:
            raise Trouble(f"{path} is damaged, as SQLite finds: {error}; restore a backup",
                          CANNOT_OPEN) from error


def damaged(number: int, reason: str) -> Trouble:
    return Trouble(f"row {number} isn't sound: {reason}; restore a backup, or look with check",
                   DAMAGED)
