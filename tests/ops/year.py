"""A year of a made bank with 200 accounts, by `night` alone, and all that goes wrong in a year.

    python3 -m tests.ops.year [ACCOUNTS NIGHTS]

Each accident is told by the sentence that names it; none costs a record or a wrong statement: at
the end each record that was sent is in the ledger once, the independent model says the same of all
rows and all printed statements, and the reports prove one another. The gate goes through a shorter
one (test_year.py).
"""

import collections
import glob
import os
import re
import resource
import shutil
import sqlite3
import subprocess
import sys
import time
import unittest
from collections.abc import Callable
from datetime import date, timedelta

from .bank import COLUMNS, FIRST, ONE_DAY, Bank
from .common import PROGRAM, TOP, ledger
from .home import Home
from .stops import STEPS, full_at, killed_at, small_disk

# What a disk of a night has beside the home: the log of a run grows to some 4.3 MB.
ROOM = 6_000_000

# By what a night ends on a full disk: its own files, or rows that can't be kept.
FULL = {12: "No space left on device",
        5: "billctl ended with 5: the rows couldn't be loaded, or some couldn't be kept"}


class Year(Home):
    """The nights, and an accident on some of them."""

    def go_through(self, accounts: int, nights: int,
                   tell: Callable[[str], None] = lambda text: None) -> None:
        self.bank, self.stray = Bank(accounts), Bank(accounts, "x")
        self.begin(self.bank.opening())
        self.put("columns/bank.toml", COLUMNS)
        accidents = [self.changed_row, self.lost_row, self.sent_twice, self.month_before,
                     self.swapped, self.dated_back, self.left_out, self.killed, self.full_disk,
                     self.full_home, self.two_clocks, self.restored, self.changed_sheet]
        day, number, step = FIRST, 0, max(2, nights // len(accidents))
        self.days: list[date] = []
        begun = time.monotonic()
        while number < nights:
            day, number = day + ONE_DAY, number + 1
            self.bring(day)
            if number % step == 0 and number // step <= len(accidents):
                accident = accidents[number // step - 1]
                tell(f"{day}: {accident.__name__}")
                day = accident(day)
            else:
                self.plain(day)
            self.days.append(day)
            if number % 10 == 0:
                tell(f"{day}: {number} of {nights} nights, {time.monotonic() - begun:.0f} s")
        self.ended()
        tell(f"the end: {time.monotonic() - begun:.0f} s")

    def bring(self, day: date) -> None:
        for name, text in self.bank.files(day).items():
            self.put(name, text)
        if not self.days:
            return
        tasks = self.text("statements", str(self.days[-1]), "work.txt")
        names = self.bank.to_refund(tasks, self.days[-1], day)
        if names:
            self.put(f"a-refunds-{day}.txt", self.bank.refunds(self.credits(names)))

    def credits(self, names: list[str]) -> dict[str, int]:
        """The credit balances of some accounts, in cents."""
        lines = [line.split(" ") for line in
                 ledger("accounts", self.file, "--owed")[1].splitlines()]
        return {line[0]: int(line[7].replace(".", "")) for line in lines if line[0] in names}

    def plain(self, day: date) -> None:
        done = self.night(day)
        self.assertEqual(done[0], 0, done[2])
        self.assertEqual(self.names("inbox"), [])

    def refused(self, day: date, status: int, sentence: str, *more: str) -> None:
        done = self.night(day, *more)
        self.assertEqual(done[0], status, done[2])
        self.assertRegex(done[2], sentence)

    def by_hand(self, text: str) -> None:
        base = sqlite3.connect(self.file)
        base.execute(text)
        base.commit()
        base.close()

    def spoiled(self, day: date, text: str, sentence: str) -> date:
        """The file is changed by hand: the night refuses it until the right one is back."""
        kept = self.at("kept.db")
        for end in ("", "-wal"):
            if os.path.exists(self.file + end):
                shutil.copyfile(self.file + end, kept + end)
        self.by_hand(text)
        self.refused(day, 10, re.escape(sentence))
        for end in ("", "-wal"):
            if os.path.exists(kept + end):
                os.replace(kept + end, self.file + end)
        self.plain(day)
        return day

    def changed_row(self, day: date) -> date:
        """The last cents of a charge become others: a sound row of another amount."""
        lines = ledger("rows", self.file)[1].splitlines()
        number = max(place for place, line in enumerate(lines, 1)
                     if line.startswith("charge") and int(line.split(" ")[5]) % 256 != 42)
        return self.spoiled(day, "UPDATE kept SET body = CAST(substr(body, 1, length(body) - 1) "
                                 f"|| x'2a' AS BLOB) WHERE seq = {number}",
                            "sealed: a row was changed, lost or put in")

    def lost_row(self, day: date) -> date:
        return self.spoiled(day, "DELETE FROM kept WHERE seq = (SELECT max(seq) FROM kept)",
                            "an older file was restored, or rows were lost")

    def sent_twice(self, day: date) -> date:
        """Each record of a sheet that comes again is a repeat."""
        self.plain(day)
        name = f"bank-{day - ONE_DAY}.csv"
        shutil.copyfile(os.path.join(self.home, "done", str(day), name),
                        os.path.join(self.home, "inbox", name))
        self.refused(day, 0, f"inbox {name}: [0-9]+ records?, 0 new rows, 0 refused")
        return day

    def month_before(self, day: date) -> date:
        """A sheet comes with the days of one that was sent long before."""
        self.put("bank-old.csv", self.stray.sheet(day - timedelta(days=28)))
        self.refused(day, 1, "inbox bank-old.csv: .*28 days before .*, and newest_days is 3: it is "
                             "a sheet of another time")
        return day

    def swapped(self, day: date) -> date:
        """The days of a sheet stand as DD/MM."""
        before = day - ONE_DAY
        if before.day == before.month:
            before -= ONE_DAY
        self.put("bank-swapped.csv", self.stray.sheet(before).replace(f"{before:%m/%d/%Y}",
                                                                      f"{before:%d/%m/%Y}"))
        self.refused(day, 1, "inbox bank-swapped.csv: .*"
                             "(no day of the calendar|are (its )?days and months swapped\\?)")
        return day

    def dated_back(self, day: date) -> date:
        back = day - timedelta(days=60)
        self.put("notice.txt", f"notice card-002 back {back} purchase 2999 {day}\n")
        self.refused(day, 1, f"inbox notice.txt: nothing was sent: line 1: its notice is of {back},"
                             f" and today is {day}. A notice that is dated back raises rates of "
                             "days past")
        return day

    def left_out(self, day: date) -> date:
        """No night on a day: the next one goes over both."""
        later = day + ONE_DAY
        self.bring(later)
        self.plain(later)
        return later

    def killed(self, day: date) -> date:
        """The night is killed at each of its steps, and goes on each time."""
        for step in STEPS:
            self.assertTrue(killed_at(step, self.home, "--day", str(day)), step)
        self.refused(day, 0, "night: the night of process [0-9]+ didn't end; this one continues it")
        self.assertEqual(self.names("inbox"), [])
        return day

    def full_disk(self, day: date) -> date:
        """The disk is full at each step of the night, which goes on once there is room."""
        home, disk = self.home, self.at("disk")
        os.mkdir(disk)
        size = sum(len(data) + 4096 for data in self.listing().values())
        with small_disk(disk, 2 * size + ROOM) as is_there:
            self.home = shutil.copytree(home, os.path.join(disk, "home"))
            self.file = os.path.join(self.home, "rows.db")
            for step in STEPS if is_there else ():
                reached, done = full_at(step, os.path.join(disk, "filler"), self.home, "--day",
                                        str(day))
                self.assertTrue(reached, step)
                self.assertIn(done[0], FULL, done[2])
                self.assertIn(FULL[done[0]], done[2], step)
            self.plain(day)
            shutil.rmtree(home)
            shutil.copytree(self.home, home)
        self.home, self.file = home, os.path.join(home, "rows.db")
        return day

    def full_home(self, day: date) -> date:
        """The companion can't write a file of more than some bytes."""
        limits = resource.getrlimit(resource.RLIMIT_FSIZE)
        resource.setrlimit(resource.RLIMIT_FSIZE, (10, limits[1]))
        try:
            self.refused(day, 12, "File too large")
        finally:
            resource.setrlimit(resource.RLIMIT_FSIZE, limits)
        self.plain(day)
        return day

    def two_clocks(self, day: date) -> date:
        """One clock is behind, the other one far ahead."""
        self.refused(day - timedelta(days=2), 10, f"the ledger's today is {day - ONE_DAY} already, "
                                                  f"and {day - timedelta(days=2)} is before it")
        self.refused(day + timedelta(days=30), 10, "31 days, and no roll can be taken back; more "
                                                   "than 7 days want --far")
        self.plain(day)
        return day

    def restored(self, day: date) -> date:
        """An older backup is restored: two nights are gone through again, and then this one, whose
        files wait meanwhile."""
        statements = {name: data for name, data in self.listing().items()
                      if name.startswith("statements/")}
        again = self.days[-2:]
        saved = max(name for name in self.names("backups")
                    if name.endswith(".db") and name[5:15] <= str(self.days[-3]))
        backup = os.path.join(self.home, "backups", saved)
        self.assertEqual(ledger("restore", backup, self.file)[0], 0)
        self.refused(day, 10, "an older file was restored, or rows were lost")
        done = ledger("restore", backup, self.file, "--again")
        self.assertEqual(done[0], 0, done)
        for each in again:
            self.assertIn(f"    ledger night {self.home} --day {each}\n", done[2])
            self.assertIn(self.night(each)[0], (0, 1))
        self.assertEqual({name: data for name, data in self.listing().items()
                          if name in statements}, statements)
        self.plain(day)
        return day

    def changed_sheet(self, day: date) -> date:
        """A line of a sheet is lost on the way: its total tells."""
        lines = self.stray.sheet(day - ONE_DAY).splitlines(keepends=True)
        self.put("bank-short.csv", "".join(lines[:1] + lines[2:]))
        self.refused(day, 1, "inbox bank-short.csv: .*records are missing, or were changed")
        return day

    def ended(self) -> None:
        """Nothing is lost or twice, the reports prove one another, and the model has the same rows
        and statements."""
        done = ledger("chain", self.home)
        self.assertEqual(done[0], 0, done)
        self.assertEqual(ledger("due", self.file)[1], "")
        posts = [line.split(" ") for line in ledger("posts", self.file)[1].splitlines()]
        kept = collections.Counter((post[0], post[2]) for post in posts
                                   if re.fullmatch("[kx][0-9]+", post[2]))
        self.assertEqual(kept, collections.Counter(self.bank.sent))
        files = sorted(glob.glob(os.path.join(self.home, "statements", "*", "*-*.txt")))
        self.assertEqual(len(files), sum(post[3] == "bill" for post in posts))
        self.assertGreater(len(files), len(self.bank.names) * (len(self.days) // 31))
        audit = subprocess.run([sys.executable, "-m", "audit", self.file, "--program", PROGRAM,
                                "--quiet", "--sent", *files],
                               cwd=TOP, capture_output=True, text=True, check=False)
        self.assertEqual(audit.returncode, 0, audit.stdout + audit.stderr)


def main(words: list[str]) -> int:
    accounts, nights = (int(word) for word in words) if words else (200, 365)

    class Whole(Year):
        def test_year(self) -> None:
            self.go_through(accounts, nights, lambda text: print(text, flush=True))

    result = unittest.TextTestRunner().run(Whole("test_year"))
    return 0 if result.wasSuccessful() else 1


if __name__ == "__main__":
    sys.exit(main(sys.argv[1:]))
