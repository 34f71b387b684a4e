"""How often a night reads all rows: 1,000 accounts with 20,000 records, held against calls.

    python3 -m tests.ops.loads [ACCOUNTS RECORDS]

Both have the same rows, replies, statements, books and reports. A night by calls takes a call for
each statement and account, so this isn't in the gate; test_load.py counts there, and compares a
smaller issuer.
"""

import os
import sys
import unittest

from ..support.program import TOP
from ..support.rows import count_of
from .common import HEADER, PROGRAM
from .home import Home

ACCOUNTS = 1000
RECORDS = 20_000
MOST = 1.3

# The two nights: the first one has most records and all bills, the second one a few records.
DAYS = ("2024-02-06", "2024-02-07")
FEW = 40

# A program that writes how many rows its file has each time it is started.
COUNTING = """#!/bin/sh
[ -f "$1" ] && PYTHONPATH="{top}" "{python}" -m tests.ops.count_rows "$1" >>"{log}"
exec "{program}" "$@"
"""


class Counted(Home):
    """Two nights of so many accounts, by a program that counts the rows it is started over."""

    def nights(self, accounts: int, records: int, *more: str) -> list[float]:
        """Goes through both nights. Gives how often each one read all of its rows."""
        log = self.at("loads")
        counting = self.write("counting", COUNTING.format(
            top=TOP, python=sys.executable, log=log, program=PROGRAM))
        os.chmod(counting, 0o755)
        self.begin("feerow 2011-01-02 3000 4100\nroll 2024-02-05\n" + "".join(
            f"open a{n} o 2024-01-06 5 1999 2499 2199 2999 2500 100\n" for n in range(accounts)))
        found = []
        for day, number, before in ((DAYS[0], records, "2024-02-05"), (DAYS[1], FEW, DAYS[0])):
            self.put("cards.csv", HEADER + "".join(
                f"a{n % accounts},{day}.{n},charge,{before},purchase,{100 + n % 7000},,\n"
                for n in range(number)))
            self.assertEqual(self.night(day, "--program", counting, *more)[0], 0)
            found.append(self.times(log))
        self.assertEqual(count_of(self.file), accounts + 2 + 1 + records + accounts + 1 + FEW)
        return found

    def times(self, log: str) -> float:
        """How often all rows were read since the last time."""
        with open(log, encoding="ascii") as file:
            read = sum(int(line) for line in file)
        os.remove(log)
        return read / count_of(self.file)

    def left(self) -> tuple[dict[str, bytes], list[tuple[int, bytes]]]:
        """What the nights left: all files but those of SQLite, and the rows."""
        return {name: data for name, data in self.listing().items()
                if ".db" not in name}, self.rows()

    def compared(self, accounts: int, records: int) -> list[list[float]]:
        """By one load, and by calls: the same is left. Gives how often each read all rows."""
        once = self.nights(accounts, records)
        files, rows = self.left()
        self.home = self.at("by calls")
        os.makedirs(os.path.join(self.home, "inbox"))
        self.file = os.path.join(self.home, "rows.db")
        calls = self.nights(accounts, records, "--calls")
        found, kept = self.left()
        self.assertEqual(sorted(found), sorted(files))
        for name, data in files.items():
            self.assert_same(found[name], data, name)
        self.assertEqual(kept, rows)
        return [once, calls]


def main(words: list[str]) -> int:
    accounts, records = (int(word) for word in words) if words else (ACCOUNTS, RECORDS)

    class Whole(Counted):
        def test_loads(self) -> None:
            once, calls = self.compared(accounts, records)
            print("loads of each night:", ", ".join(f"{times:.2f}" for times in once),
                  "and by calls", ", ".join(f"{times:.0f}" for times in calls), flush=True)
            self.assertLessEqual(max(once), MOST)

    result = unittest.TextTestRunner().run(Whole("test_loads"))
    return 0 if result.wasSuccessful() else 1


if __name__ == "__main__":
    sys.exit(main(sys.argv[1:]))
