"""One load a night: by a server, by one pipe and by calls the same comes out, and a kill or a full
disk at any step is gone on from."""

import os
import random
import re
import signal
import subprocess
from unittest import mock

from tests.support.case import long

from .common import HEADER, PROGRAM, ledger, start_ledger
from .home import Home
from .loads import ACCOUNTS, MOST, RECORDS, Counted

DAY = "2024-02-06"

# A program whose server can't write more than so many bytes of a file.
NARROW = """#!/bin/sh
[ "$2" = serve ] && ulimit -f {blocks}
exec "{program}" "$@"
"""

LINES = """roll 2024-02-06
 roll 2024-02-06
roll 2024-02-30
show anna
show anna b
charge anna c9 2024-02-05 purchase 007
charge anna c9 2024-02-05 purchase 1234567890123
charge anna c9 2024-02-05 plan: 5
charge anna c9 2024-02-05 plan:07 5
charge anna c9  purchase 5
charge _anna c9 2024-02-05 purchase 5
charge anna abcdefghijklmnopqrstuvwxyz0123456 2024-02-05 purchase 5
payment anna p9 2024-02-05 600 post 5
plan anna q 2024-02-05 promo 100 2024-08-05
review anna v 2024-02-05 maybe
bill anna b 1 2
bill anna b

unknown anna
amend anna a 2 2024-02-05 -1
"""
RECORDS_TEXT = """anna,c9,charge,2024-02-05,purchase,5,,
anna,c9,charge,2024-02-05,purchase,5,600,
anna,c9,payment,2024-02-05,,5,600,post
anna,c9,payment,2024-02-05,cash,5,600,mail
anna,c9,payment,2024-02-05,,,600,mail
anna,c9,refund,2024-02-05,,5,,
anna,c9,charge,2024-02-05,purchase,5,,,
anna,c9,charge,2024-02-05
,c9,charge,2024-02-05,purchase,5,,
anna, c9,charge,2024-02-05,purchase,5,,
"""


class Ways(Home):
    """The same night by a server, by one pipe for what is sent, and by calls."""

    def go(self, *more: str, bulk: bool = False) -> dict[str, bytes]:
        """Two nights of a small issuer. Gives what they left, without files of SQLite."""
        draw = random.Random(20240206)
        self.begin("feerow 2011-01-02 3000 4100\nroll 2024-02-05\n" + "".join(
            f"open a{n} o 2024-01-{n + 6:02} {n + 5} 1999 2499 2199 2999 2500 100\n"
            for n in range(9)))
        with mock.patch("companion.night.is_bulk", lambda lines, rows: bulk):
            for day in (DAY, "2024-02-07"):
                self.put("cards.csv", HEADER + "".join(
                    f"a{draw.randrange(10)},k{day}{n},charge,2024-02-0{draw.randint(5, 8)},"
                    f"purchase,{draw.randint(0, 5000)},,\n" for n in range(40)) + RECORDS_TEXT)
                self.put("desk.txt", LINES.replace("roll", "holiday").replace("anna", "a1")
                         + "lower a1 l 2024-02-05 cash 2000\ncharge a2 q 2024-02-05 cash 5000\n"
                         "dispute a2 d 2024-02-05 2 100\nindex 2024-03-01 500\n")
                self.put("odd.csv", HEADER + '"a3","q1",charge,2024-02-06,purchase,300,,\r\n')
                self.assertEqual(self.night(day, *more)[0], 1)
            # the second night's cards were refused, and a bill waited for the next call
            self.assertEqual(self.night(day, *more)[0], 0)
        return {name: data for name, data in self.listing().items() if ".db" not in name}

    def rows_left(self) -> list[tuple[int, bytes]]:
        return self.rows()

    def test_same(self) -> None:
        served = self.go()
        rows = self.rows_left()
        for more, bulk in ((("--calls",), False), ((), True)):
            self.home = self.at(f"home{bulk}")
            os.makedirs(os.path.join(self.home, "inbox"))
            self.file = os.path.join(self.home, "rows.db")
            self.assertEqual(self.go(*more, bulk=bulk), served)
            self.assertEqual(self.rows_left(), rows)
        self.assertIn(b"bad 6 6\n", served[f"done/{DAY}/desk.txt.replies"])
        self.assertIn(b"bad 45 5\n", served[f"done/{DAY}/cards.csv.replies"])

    def test_bulk_ended(self) -> None:
        """Where many lines wait, the last input goes by a call of its own, and no bill is due: the
        night goes on with a server."""
        self.begin("roll 2024-02-06\nopen anna o 2024-02-06 5 1999 2499 2199 2999 2500 100\n")
        self.put("odd.csv", HEADER + '"anna","q1",charge,2024-02-06,purchase,300,,\r\n')
        with mock.patch("companion.night.is_bulk", lambda lines, rows: True):
            done = self.night("2024-02-07")
        self.assertEqual(done[0], 0, done)
        self.assertIn("  charge 3.00 0.00 (new: 3.00 0.00)\n", done[2])

    def test_forms(self) -> None:
        """What the companion calls bad is what billctl does, for lines changed at random."""
        from companion.inputs import bad_field_of_line
        draw = random.Random(5)
        good = LINES.splitlines() + ["charge anna c9 2024-02-05 purchase 5", "x" * 600,
                                     "open anna o 2024-01-06 5 1999 2499 2199 2999 2500 100"]
        lines = []
        for _ in range(3000):
            line = draw.choice(good)
            place = draw.randrange(len(line) + 1)
            lines.append(draw.choice((line[:place], line[:place] + draw.choice(" 0a-:é.")
                                      + line[place:], line[:place] + line[place + 1:])))
        done = subprocess.run([PROGRAM, "-", "apply"], input="".join(
            line + "\n" for line in lines).encode(), capture_output=True, check=False)
        for number, (line, reply) in enumerate(zip(lines, done.stdout.decode().splitlines()), 1):
            bad = bad_field_of_line(line)
            if reply.startswith("bad") or bad is not None:
                self.assertEqual(f"bad {number} {bad}", reply, line)
        self.assertEqual(len(lines), done.stdout.count(b"\n"))


@long
class Loads(Counted):
    def test_loads(self) -> None:
        """A night of 1,000 accounts with 20,000 records reads at most 1.3 times all rows."""
        for times in self.nights(ACCOUNTS, RECORDS):
            self.assertLessEqual(times, MOST)


class Stopped(Home):
    """Kills and full disks of a night by a server."""

    OPENING = "feerow 2011-01-02 3000 4100\nroll 2024-02-05\n" + "".join(
        f"open a{n} o 2024-01-06 5 1999 2499 2199 2999 2500 100\n" for n in range(12))
    RECORDS = HEADER + "".join(f"a{n % 12},c{n},charge,2024-02-05,purchase,{n + 1},,\n"
                               for n in range(30))

    def setUp(self) -> None:
        super().setUp()
        self.begin(self.OPENING)
        self.put("a.csv", self.RECORDS)
        self.put("b.txt", "lower a1 l 2024-02-05 cash 2000\n")

    def finished(self) -> None:
        """The night is gone through, each record is there once, and each bill is printed."""
        lines = ledger("rows", self.file)[1]
        self.assertEqual(len(re.findall(r"^charge .*$", lines, re.M)), 30)
        self.assertEqual(len(re.findall(r"^bill .*$", lines, re.M)), 12)
        self.assertEqual(len(self.names("statements", DAY)), 13)
        self.assertEqual(self.names("inbox"), [])
        self.assertEqual(ledger("chain", self.home)[0], 0)
        self.assertEqual(ledger("check", self.file)[0], 0)

    def test_kills(self) -> None:
        """The companion is killed at each line that it tells; its server goes with it."""
        told = self.night(DAY, "--day", DAY)[2].splitlines()
        steps = [line.split(":")[0] for line in told]
        kept = self.listing()
        self.finished()
        for place in range(len(steps)):
            self.home = self.at(f"home{place}")
            os.makedirs(os.path.join(self.home, "inbox"))
            self.file = os.path.join(self.home, "rows.db")
            self.begin(self.OPENING)
            self.put("a.csv", self.RECORDS)
            self.put("b.txt", "lower a1 l 2024-02-05 cash 2000\n")
            self.killed_at(place + 1)
            done = self.night(DAY, "--wait", "60")
            self.assertEqual(done[0], 0, done)
            self.finished()
            after = self.listing()
            for name, data in kept.items():
                if name.startswith("statements/"):
                    self.assertEqual(after[name], data, name)

    def killed_at(self, lines: int) -> None:
        """Kills a night once it has told so many lines."""
        running = start_ledger("night", self.home, "--day", DAY)
        assert running.stderr is not None and running.stdout is not None
        for _ in range(lines):
            running.stderr.readline()
        os.kill(running.pid, signal.SIGKILL)
        running.wait()
        running.stderr.close()
        running.stdout.close()

    def test_full_disk(self) -> None:
        """The server can't keep a row: the night ends with 5 and names it; the next one goes on."""
        statuses = set()
        for blocks in (40, 100, 160):
            narrow = self.write("narrow", NARROW.format(program=PROGRAM, blocks=blocks))
            os.chmod(narrow, 0o755)
            done = self.night(DAY, "--program", narrow)
            statuses.add(done[0])
            self.assertIn(done[0], (0, 5), done)
            if done[0] == 5:
                self.assertIn("billctl ended with 5", done[2])
        self.assertIn(5, statuses)
        self.assertEqual(self.night(DAY)[0], 0)
        self.finished()


class Sheets(Home):
    """Banks' sheets as they come, by descriptions in the home."""

    COLUMNS = 'date = "DD.MM.YYYY hh:mm"\nseparator = ";"\npoint = ","\nleast_digits = 1\n' \
        'stop = "End"\ntotal = "Total"\n[columns]\naccount = "Card"\nkey = "Ref"\n' \
        'day = "Booked"\nminute = "Booked"\ndebit = "Debit"\ncredit = "Credit"\n[always]\n' \
        'place = "purchase"\nchannel = "online"\n[accounts]\n"4711 0001" = "anna"\n' \
        '[signs]\nplus = "charge"\n' \
        'minus = "payment"\n'
    SHEET = "Card;Ref;Booked;Debit;Credit\n4711 0001;r1;05.02.2024 09:15;12,5;\n" \
        "4711 0001;r2;05.02.2024 17:00;;7\nTotal;;;12,50;7,00\nEnd of sheet\n"

    def setUp(self) -> None:
        super().setUp()
        self.begin("roll 2024-02-05\nopen anna o 2024-01-06 5 1999 2499 2199 2999 2500 100\n")
        self.put("columns/bank.toml", self.COLUMNS)

    def test_night(self) -> None:
        self.put("bank-2024-02-05.csv", self.SHEET)
        self.put("banker.csv", HEADER + "anna,c1,charge,2024-02-05,cash,1,,\n")
        done = self.night(DAY)
        self.assertEqual(done[0], 0, done)
        self.assertIn("  sheet: 2 records: 1 charge 12.50, 1 payment 7.00\n", done[2])
        self.assertEqual(ledger("rows", self.file, "--since", "3")[1], """\
charge anna r1 2024-02-05 purchase 1250
payment anna r2 2024-02-05 1020 online 700
charge anna c1 2024-02-05 cash 1
bill anna bill-1 1
""")
        self.assertEqual(self.text("done", DAY, "bank-2024-02-05.csv"), self.SHEET)

    def test_refused(self) -> None:
        """A sheet that isn't understood, one without its total, and a workbook."""
        self.put("bank.1", self.SHEET.replace("12,5;", "12,5;1"))
        self.put("bank.2", self.SHEET.replace("12,50", "12,51"))
        self.put("bank.3", "PK\x03\x04 a workbook\n")
        self.put("other.csv", "PK\x03\x04 a workbook\n")
        self.assertEqual(self.night(DAY)[0], 1)
        for name, why in (("bank.1", "a record has a debit or a credit, and not both"),
                          ("bank.2", "the records sum up to 12.50, and the line 'Total' has 12.51"),
                          ("bank.3", "the input is a workbook (.xlsx) or another zip"),
                          ("other.csv", "the input is a workbook (.xlsx) or another zip")):
            self.assertIn(why, self.text("refused", DAY, f"{name}.why"))
        # the bill waits for them, and the next call issues it
        self.assertEqual(ledger("rows", self.file, "--since", "3")[1], "")
        self.assertEqual(self.night(DAY)[0], 0)
        self.assertEqual(ledger("rows", self.file, "--since", "3")[1], "bill anna bill-1 1\n")

    def test_description(self) -> None:
        """What a description may not say."""
        for text, why in (('newest_days = "x"\n', "newest_days and oldest_days are numbers"),
                          ("least_digits = 3\n", "least_digits is 2, or 1"),
                          ('[columns]\ndebit = "a"\n', "the two columns debit and credit"),
                          ('date = "DD.MM.YYYY hh"\n', "names hh and mm once each, or neither"),
                          ('columns = "a"\n', "are sections")):
            self.expect(ledger("convert", self.write("c.toml", text), given="a\n"), 10, why)
