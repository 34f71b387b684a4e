"""A night that is killed, or whose disk is full, at each of its steps: the next one goes on."""

import os
from unittest import mock

from .common import HEADER, ledger
from .home import Home
from .stops import ALL, full_at, killed_at, small_disk

DAY = "2024-02-06"
ACCOUNTS = 12
RECORDS = 30
SIZE = 8_000_000
OPENING = "feerow 2011-01-02 3000 4100\nroll 2024-02-05\n" + "".join(
    f"open a{n} o 2024-01-06 5 1999 2499 2199 2999 2500 100\n" for n in range(ACCOUNTS))

# By a server, by one pipe for what is sent, and by calls.
WAYS: tuple[tuple[bool, tuple[str, ...]], ...] = ((False, ()), (True, ()), (False, ("--calls",)))
FULL = {12: "No space left on device",
        5: "billctl ended with 5: the rows couldn't be loaded, or some couldn't be kept"}


class Stops(Home):
    def fresh(self, home: str) -> None:
        """A home with a ledger on the day of its first closing, and two files in the inbox."""
        self.home, self.file = home, os.path.join(home, "rows.db")
        os.makedirs(os.path.join(home, "inbox"))
        self.begin(OPENING)
        self.put("a.csv", HEADER + "".join(
            f"a{n % ACCOUNTS},c{n},charge,2024-02-05,purchase,{n + 1},,\n" for n in range(RECORDS)))
        self.put("b.txt", "lower a1 l 2024-02-05 cash 2000\n")

    def gone_through(self, *more: str) -> None:
        """The night ends, with the same rows, statements, replies and books as without a stop."""
        done = self.night(DAY, "--wait", "60", *more)
        self.assertEqual(done[0], 0, done)
        self.assertEqual(self.names("inbox"), [])
        self.assertEqual(self.rows(), self.wanted_rows)
        self.assertEqual(ledger("chain", self.home)[0], 0)
        found = self.kept()
        for name, data in self.wanted.items():
            self.assertEqual(found.get(name), data, name)

    def kept(self) -> dict[str, bytes]:
        return {name: data for name, data in self.listing().items()
                if name.split("/")[0] in ("statements", "done", "books")}

    def setUp(self) -> None:
        super().setUp()
        self.fresh(self.at("undisturbed"))
        self.assertEqual(self.night(DAY)[0], 0)
        self.wanted, self.wanted_rows = self.kept(), self.rows()
        self.assertEqual(len(self.names("statements", DAY)), ACCOUNTS + 1)

    def test_kills(self) -> None:
        for number, (bulk, more) in enumerate(WAYS):
            with mock.patch("companion.night.is_bulk", lambda lines, rows, bulk=bulk: bulk):
                self.fresh(self.at(f"killed{number}"))
                for step in ALL:
                    self.assertTrue(killed_at(step, self.home, "--day", DAY, *more), step)
                self.gone_through(*more)

    def test_told(self) -> None:
        """What was refused before a stop is in the status of the night that goes on, and what came
        back is in its report."""
        for number, step in enumerate(("put_away", "bill", "save_end", "end_report")):
            self.fresh(self.at(f"told{number}"))
            self.put("a.csv", HEADER + "a1,p,payment,2024-02-05,,500,600,online\n"
                                       "nobody,c,charge,2024-02-05,purchase,1,,\n")
            self.put("b.txt", "return a1 r 2024-02-06 2\n")
            self.assertTrue(killed_at(step, self.home, "--day", DAY))
            self.assertEqual(self.night(DAY)[0], 1, step)
            report = self.text("reports", f"{DAY}.txt")
            self.assertEqual(report.count("payments returned: 0\n"), 0, step)
            self.assertTrue(report.rpartition("newly late: 0\n")[2].startswith(
                "payments returned: 1\n  a1 r\n"), report)
        # the file of the return comes again: a repeat, and nothing came back since
        self.put("b.txt", "return a1 r 2024-02-06 2\n")
        self.assertEqual(self.night("2024-02-07")[0], 0)
        self.assertIn("payments returned: 0\n", self.text("reports", "2024-02-07.txt"))

    def test_full_disks(self) -> None:
        """Each is told by what can't be written, or by the status of billctl."""
        statuses = set()
        disk = self.at("disk")
        os.mkdir(disk)
        for bulk, more in WAYS:
            with (small_disk(disk, SIZE) as is_there,
                  mock.patch("companion.night.is_bulk", lambda lines, rows, bulk=bulk: bulk)):
                if not is_there:
                    self.skipTest("this user can't mount a small disk: full disks aren't tested")
                self.fresh(os.path.join(disk, "home"))
                for step in ALL:
                    reached, done = full_at(step, os.path.join(disk, "filler"), self.home, "--day",
                                            DAY, *more)
                    self.assertTrue(reached, (step, done))
                    self.assertIn(done[0], FULL, (step, done))
                    self.assertIn(FULL[done[0]], done[2], step)
                    self.assertNotIn("TMPDIR", done[2])
                    if done[0] == 12:
                        self.assertIn("; the next call goes on from here\n", done[2])
                    self.assertEqual(self.text("night.lock"), "")
                    statuses.add(done[0])
                self.gone_through(*more)
        self.assertEqual(statuses, set(FULL))
