"""Rows a second of a start over the file of 1,000 and of 4,000 accounts.

They have 24 billed cycles with three posts in each. The most memory is in the note.
"""

import os
from collections.abc import Iterator

from .measure import Options, Row, least, measured, memory_room, written
from .streams import cycled

POSTS = 3
CASES = ("1000", "4000")


def measure(case: str, options: Options) -> Iterator[Row]:
    accounts = options.size(int(case))
    with memory_room() as room:
        path, file = os.path.join(room, "lines"), os.path.join(room, "rows.db")
        rows = written(lambda: cycled(accounts, POSTS), path)
        measured([options.programs()[0], file, "apply"], path)
        for program in options.programs():
            used = least(3, lambda: measured([program, file, "apply"]))
            note = f"{used.seconds:.2f} s, {used.megabytes:.0f} MB"
            yield Row(f"{accounts:,} accounts, {rows:,} rows", rows / used.seconds, "rows/s", note)
