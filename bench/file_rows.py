"""What a row in a file costs, beside single commits by a stock SQLite (Python's own).

`apply` gets 5,000 lines one by one, so that each is a commit; SQLite makes as many single commits
of the same rows to the same table with the same journal mode and synchronous; in turn, three times
each. Then the same lines all at once, whose rows wait for common commits, and how long 200,000 rows
take to load. The disk of --folder decides.
"""

import os
import sqlite3
import subprocess
import time
from collections.abc import Iterable, Iterator

from tests.support.rows import TABLE, Row as KeptRow, rows_of

from .measure import Options, Row, measured, room_in, stop, written
from .streams import RATES

CASES = ("commits", "loads")
LINES = 5000
LOADED = 200_000
ACCOUNTS = 100
INSERT = "INSERT INTO kept (seq, body) VALUES (?1, ?2)"


def lines_of(count: int) -> Iterator[str]:
    yield "roll 2024-03-01"
    yield from (f"open a{at} o 2024-03-01 5 {RATES}" for at in range(ACCOUNTS))
    for number in range(count - ACCOUNTS - 1):
        cents = 100 + number % 9000
        yield f"charge a{number % ACCOUNTS} c{number} 2024-03-01 purchase {cents}"


def one_by_one(program: str, file: str, lines: str) -> float:
    """Seconds, where each line is given once the one before is answered."""
    begun = time.monotonic()
    words = [program, file, "apply"]
    with open(lines, "rb") as source, subprocess.Popen(
            words, stdin=subprocess.PIPE, stdout=subprocess.PIPE, bufsize=0) as running:
        if running.stdin is None or running.stdout is None:
            stop("file-rows: the run has no pipes")
        for line in source:
            running.stdin.write(line)
            running.stdout.read(4096)
        running.stdin.close()
    if running.returncode != 0:
        stop(f"file-rows: apply ends with {running.returncode}")
    return time.monotonic() - begun


def stock(file: str, rows: Iterable[KeptRow]) -> float:
    """Seconds of single commits by the stock SQLite, its opening and closing included."""
    begun = time.monotonic()
    base = sqlite3.connect(file, isolation_level=None)
    base.execute("PRAGMA journal_mode = WAL")
    base.execute("PRAGMA synchronous = FULL")
    base.execute(TABLE)
    for row in rows:
        base.execute(INSERT, row)
    base.close()
    return time.monotonic() - begun


def commits(program: str, count: int, room: str) -> Iterator[Row]:
    lines = os.path.join(room, "lines")
    written(lambda: lines_of(count), lines)
    ours, theirs, together = [], [], []
    for turn in range(3):
        file = os.path.join(room, f"ours{turn}")
        ours.append(one_by_one(program, file, lines))
        at_once = [program, os.path.join(room, f"together{turn}"), "apply"]
        together.append(measured(at_once, lines).seconds)
        theirs.append(stock(os.path.join(room, f"theirs{turn}"), rows_of(file)))
    note = f"{min(ours) / min(theirs):.2f} of the time of SQLite {sqlite3.sqlite_version}"
    yield Row(f"{count:,} lines, a commit each", count / min(ours), "rows/s", note)
    yield Row("the same by a stock SQLite", count / min(theirs), "rows/s")
    yield Row(f"{count:,} lines at once", count / min(together), "rows/s")


def loads(program: str, count: int, room: str) -> Iterator[Row]:
    lines, file = os.path.join(room, "lines"), os.path.join(room, "loaded")
    written(lambda: lines_of(count), lines)
    kept = measured([program, file, "apply"], lines)
    note = f"the file has {os.path.getsize(file) / 1e6:.1f} MB"
    yield Row(f"{count:,} rows: applied", kept.seconds, "s", note)
    yield Row(f"{count:,} rows: loaded", measured([program, file, "apply"]).seconds, "s")


def measure(case: str, options: Options) -> Iterator[Row]:
    with room_in(options.folder) as room:
        program = options.programs()[0]
        if case == "commits":
            yield from commits(program, options.size(LINES), room)
        else:
            yield from loads(program, options.size(LOADED), room)
