"""A month of 50 accounts by `night` alone, day by day, with what goes wrong in a month."""

import ctypes
import fcntl
import glob
import os
import resource
import shutil
import signal
import subprocess
import sys
from datetime import date, timedelta
from typing import Any
from unittest import mock

from audit.lines import read_line
from audit.machine import Machine
from audit.statement_text import statement_text
from audit.tasks import tasks_text
from tests.support.program import PROGRAM, TOP, Session

from .common import Told, ledger, start_ledger
from .home import Home
from .issuer import FIRST, HEADER, Issuer
from .stops import killed_at

DAYS = 31
BIG = 8000
MUCH = 8000
PAGE = 4096

# A log grows by 256 kB at once, and so many bytes are that of some thousand records.
LOG = 300_000

# What is left on the small disk: enough for the log of a few rows, and too little for that of an
# import of 8,000 records.
ROOM = 400_000


# A billctl that is killed as soon as one of its files is too large, and that has the caller killed
# with it.
KILLED = """#!{python}
import os, resource, signal, sys
if sys.argv[2] in ("import", "apply"):
    child = os.fork()
    if child == 0:
        signal.signal(signal.SIGXFSZ, signal.SIG_DFL)
        resource.setrlimit(resource.RLIMIT_FSIZE, ({limit}, {limit}))
        os.execv("{program}", sys.argv)
    status = os.waitpid(child, 0)[1]
    if os.WIFSIGNALED(status):
        os.kill(os.getppid(), signal.SIGKILL)
    sys.exit(os.WEXITSTATUS(status))
os.execv("{program}", sys.argv)
"""


class Killed(Home):
    def killed(self, day: date, name: str, *words: str) -> None:
        """The companion and billctl are killed amid many records; the next call finishes the
        night, and no record is lost or twice."""
        late = day - timedelta(days=1)
        self.put(f"{name}.csv", HEADER
                 + "".join(f"card-{n % 50 + 1:02},{name}{n},charge,{late},purchase,{n},,\n"
                           for n in range(1, BIG + 1)))
        rows = self.kill_amid(day, name, *words)
        self.assertIn(f"{name}.csv", os.listdir(os.path.join(self.home, "inbox")))
        done = self.night(day)
        self.assertEqual(done[0], 0, done)
        self.assertIn("this one continues it", done[2])
        self.assertIn(f"inbox {name}.csv: {BIG} records, ", done[2])
        self.assertEqual(self.kept(name), BIG)
        self.assertGreater(rows, 0)

    def kept(self, name: str) -> int:
        """How many rows have a key of this name."""
        return sum(f" {name}" in line for line in ledger("rows", self.file)[1].splitlines())

    def kill_amid(self, day: date, name: str, *words: str) -> int:
        """Has billctl killed when the log of its run is of some size, and the companion with it.
        Gives how many rows were kept."""
        limit = os.path.getsize(self.file) + LOG
        killed = self.write("killed", KILLED.format(python=sys.executable, limit=limit,
                                                    program=PROGRAM))
        os.chmod(killed, 0o755)
        running = start_ledger("night", self.home, "--day", str(day), *words, "--program", killed)
        running.communicate()
        self.assertEqual(running.returncode, -signal.SIGKILL)
        kept = self.kept(name)
        self.assertLess(kept, BIG)
        return kept


class Calls(Killed):
    def test_killed_import(self) -> None:
        """Killed amid an import of its own, as a night by calls makes it."""
        self.begin("".join(line + "\n" for line in Issuer().opening()))
        self.killed(FIRST + timedelta(days=1), "big", "--calls")


class Month(Killed):
    def test_month(self) -> None:
        self.issuer = Issuer()
        self.begin("".join(line + "\n" for line in self.issuer.opening()))
        troubles = {4: self.broken_files, 9: self.second_call, 14: self.killed_apply,
                    19: self.full_disk, 24: self.stale_lock}
        for number in range(1, DAYS + 1):
            day = FIRST + timedelta(days=number)
            self.put("cards.csv", self.issuer.records(day - timedelta(days=1)))
            if number % 3 == 0:
                self.put("desk.txt", self.issuer.lines(day - timedelta(days=1)))
            troubles.get(number, self.plain)(day)
            self.assertEqual(os.listdir(os.path.join(self.home, "inbox")), [])
            self.assertEqual(ledger("due", self.file)[1], "")
        self.assertEqual(ledger("check", self.file)[0], 0)
        self.assertEqual(ledger("today", self.file)[1], f"{FIRST + timedelta(days=DAYS)}\n")
        self.saved()
        self.of_the_model()

    def plain(self, day: date) -> None:
        done = self.night(day)
        self.assertEqual(done[0], 0, done)
        report = os.path.join(self.home, "reports", f"{day}.txt")
        self.assertEqual(done[1], report + "\n")
        with open(report, encoding="ascii") as file:
            told = file.read()
        self.assertIn(f"night of {day}\n", told)
        self.assertIn(f"roll: from {day - timedelta(days=1)} to {day}\n", told)
        for line in told.splitlines():
            self.assertIn(line, done[2])

    def broken_files(self, day: date) -> None:
        """A wrong header and a cut file: the night goes on without them, ends with 1, and says
        where they are."""
        self.put("a-wrong.csv", HEADER.replace("day,place", "place,day")
                 + f"card-01,x1,charge,purchase,{day},100,,\n")
        self.put("b-cut.csv", HEADER + f"card-01,x2,charge,{day},purchase,987")
        done = self.night(day)
        self.assertEqual(done[0], 1, done)
        for text in ("inbox a-wrong.csv: nothing was sent: column 4 of the header is 'place', "
                     f"wanted 'day'; the header is {HEADER.strip()}; it is in "
                     f"refused/{day}/a-wrong.csv\n",
                     "inbox b-cut.csv: nothing was sent: the last line doesn't end with a line "
                     f"feed, so it may be cut: 'card-01,x2,charge,{day},purchase,987'; it is in "
                     f"refused/{day}/b-cut.csv\n"):
            self.assertIn(text, done[2])
        self.assertEqual(sorted(os.listdir(os.path.join(self.home, "refused", str(day)))),
                         ["a-wrong.csv", "a-wrong.csv.why", "b-cut.csv", "b-cut.csv.why"])
        self.assertEqual(self.night(day)[0], 0)

    def second_call(self, day: date) -> None:
        """A second call of the same night changes no byte, and ends with 0."""
        self.plain(day)
        before = self.listing()
        done = self.night(day)
        self.assertEqual(done[:2], (0, ""))
        self.assertIn(f"the night of {day} is done, and nothing came since: "
                      f"{os.path.join(self.home, 'reports', f'{day}.txt')}", done[2])
        self.assertEqual(self.listing(), before)

    def killed_apply(self, day: date) -> None:
        """Killed amid the one run that takes all records of a night."""
        self.killed(day, "big")

    def full_disk(self, day: date) -> None:
        """The disk takes no more: the night ends with what stands told, and the next one, with
        room, finishes it."""
        late = day - timedelta(days=1)
        self.put("much.csv", HEADER
                 + "".join(f"card-{n % 50 + 1:02},much{n},charge,{late},purchase,{n},,\n"
                           for n in range(1, MUCH + 1)))
        done = self.with_full_disk(day)
        self.assertEqual(done[0], 5, done)
        self.assertIn("much.csv: billctl ended with 5: the rows couldn't be loaded, or some "
                      "couldn't be kept", done[2])
        self.assertIn("the first one without a reply", done[2])
        self.assertEqual(self.night(day)[0], 0)
        lines = ledger("rows", self.file)[1]
        self.assertEqual(sum(" much" in line for line in lines.splitlines()), MUCH)

    def with_full_disk(self, day: date) -> Told:
        """The night with the ledger on a small disk, where this user may mount one; else with a
        limit on the size of files."""
        disk = self.at("disk")
        os.mkdir(disk)
        libc = ctypes.CDLL(None, use_errno=True)
        size = os.path.getsize(self.file)
        taken = sum(len(data) // PAGE + 1 for data in self.listing().values()) * PAGE
        if os.geteuid() == 0 and libc.mount(b"tmpfs", disk.encode(), b"tmpfs", 0,
                                            f"size={taken + ROOM}".encode()) == 0:
            try:
                home, self.home = self.home, os.path.join(disk, "home")
                shutil.copytree(home, self.home)
                done = self.night(day)
                shutil.rmtree(home)
                shutil.copytree(self.home, home)
                return done
            finally:
                self.home = home
                libc.umount2(disk.encode(), 2)
        limits = resource.getrlimit(resource.RLIMIT_FSIZE)
        resource.setrlimit(resource.RLIMIT_FSIZE, (size + 300_000, limits[1]))
        try:
            return self.night(day)
        finally:
            resource.setrlimit(resource.RLIMIT_FSIZE, limits)

    def stale_lock(self, day: date) -> None:
        """The lock of a night whose process is gone is no lock; that of a night under way is
        one."""
        gone = subprocess.Popen([sys.executable, "-c", ""])
        gone.wait()
        with open(os.path.join(self.home, "night.lock"), "w", encoding="ascii") as file:
            file.write(f"{gone.pid}\n")
        done = self.night(day)
        self.expect(done, 0, f"night: the night of process {gone.pid} didn't end; this one "
                             "continues it\n")

    def saved(self) -> None:
        """The last backup has all rows, and its seal is that of the report."""
        rows = len(ledger("rows", self.file)[1].splitlines())
        last = FIRST + timedelta(days=DAYS)
        with open(os.path.join(self.home, "reports", f"{last}.txt"), encoding="ascii") as file:
            report = file.read()
        with open(os.path.join(self.home, "backups", f"rows-{last}-{rows}.db.seal"),
                  encoding="ascii") as file:
            self.assertIn(f"seal: {file.read()}", report)
        self.assertTrue(report.endswith(f"rows: {rows}\n"))

    def of_the_model(self) -> None:
        """The month's statements and open tasks, of each day, are those of the second computation;
        and so is the whole file."""
        machine: Any = Machine()
        issued: dict[int, dict[str, str]] = {}
        tasks: dict[int, str] = {}
        for line in ledger("rows", self.file)[1].splitlines():
            request: Any = read_line(line.encode())
            if request.word == "roll":
                tasks[machine.today] = tasks_text(machine.work())
            self.assertTrue(machine.apply(request).new, line)
            if request.word == "bill":
                statement = machine.issued_statement(request.account, request.cycle)
                text = statement_text(request.account, statement)
                name = f"{request.account}-{request.cycle}.txt"
                issued.setdefault(machine.today, {})[name] = text
        tasks[machine.today] = tasks_text(machine.work())
        self.assertGreater(sum(map(len, issued.values())), 50)
        for number in range(1, DAYS + 1):
            self.of_the_day(FIRST + timedelta(days=number), issued, tasks)
        done = subprocess.run([sys.executable, "-m", "audit", self.file, "--program", PROGRAM,
                               "--quiet", "--sent", *self.statement_files()],
                              cwd=TOP, capture_output=True, text=True)
        self.assertEqual(done.returncode, 0, done.stdout + done.stderr)

    def statement_files(self) -> list[str]:
        return sorted(glob.glob(os.path.join(self.home, "statements", "*", "*-*.txt")))

    def of_the_day(self, day: date, issued: dict[int, dict[str, str]],
                   tasks: dict[int, str]) -> None:
        folder = os.path.join(self.home, "statements", str(day))
        number = (day - FIRST.replace(year=1970, month=1, day=1)).days
        found = {}
        for name in os.listdir(folder):
            with open(os.path.join(folder, name), encoding="ascii") as file:
                found[name] = file.read()
        self.assertEqual(found.pop("work.txt"), tasks[number], day)
        self.assertEqual(found, issued.get(number, {}), day)


class Inbox(Home):
    def setUp(self) -> None:
        super().setUp()
        self.begin("roll 2024-02-05\nopen anna o 2024-01-06 5 1999 2499 2199 2999 2500 100\n")

    def test_refused(self) -> None:
        """Some records are refused: status 1, the reasons are in the report and beside the file."""
        self.put("cards.csv", HEADER
                 + "anna,c1,charge,2024-02-05,purchase,500,,\n"
                   "ben,c1,charge,2024-02-05,purchase,500,,\n")
        done = self.night("2024-02-06")
        why = ("record 3: ben,c1,charge,2024-02-05,purchase,500,,: no 1 UnknownAccount: "
               "there is no account of this name\n")
        self.expect(done, 1, "inbox cards.csv: 2 records, 1 new row, 1 refused\n  " + why)
        with open(os.path.join(self.home, "done", "2024-02-06", "cards.csv.replies"),
                  encoding="ascii") as file:
            self.assertEqual(file.read(), "ok 2\nno 1 UnknownAccount\n" + why)
        self.assertEqual(ledger("rows", self.file, "--since", "3")[1],
                         "charge anna c1 2024-02-05 purchase 500\nbill anna bill-1 1\n")

    def test_rolls(self) -> None:
        self.put("desk.txt", "roll 2024-02-07\n")
        done = self.night("2024-02-06")
        self.expect(done, 1, "inbox desk.txt: nothing was sent: it rolls, and only the night does; "
                             "it is in refused/2024-02-06/desk.txt")
        self.assertEqual(ledger("today", self.file)[1], "2024-02-06\n")

    def test_awaiting(self) -> None:
        """Where a file was refused, bills wait for it while there is time: a statement has no
        record that comes behind its bill."""
        record = "anna,c1,charge,2024-02-05,purchase,500,,\n"
        self.put("cards.csv", HEADER + record[:-1])
        done = self.night("2024-02-06")
        # 21 days before the due date, 2024-03-01
        self.expect(done, 1, "bills: 1 waits for the next call, since records of cards.csv are "
                    "missing, and a statement has none that come behind its bill; the first has "
                    "until 2024-02-09\nbills: 0\n")
        self.put("cards.csv", HEADER + record)
        self.assertEqual(self.night("2024-02-06")[0], 0)
        self.assertIn("2024-02-05 CHARGE          2           5.00\n",
                      self.text("statements", "2024-02-06", "anna-1.txt"))
        self.assertEqual(ledger("due", self.file)[1], "")

    def test_awaiting_no_longer(self) -> None:
        """A bill waits for no file on its last day, nor where the next call has none that is
        refused; a night that was stopped remembers the one that was."""
        self.put("cards.csv", HEADER[:-1])
        self.assertEqual(self.night("2024-02-06")[0], 1)
        self.put("cards.csv", HEADER[:-1])
        for step in ("put_away", "bill"):
            self.assertTrue(killed_at(step, self.home, "--day", "2024-02-07"))
            self.assertIn("it is in refused/2024-02-07/cards.csv\n",
                          self.text("reports", "2024-02-07.part"))
        self.expect(self.night("2024-02-07"), 1, "bills: 1 waits for the next call, since records "
                    "of cards.csv are missing")
        self.assertEqual(self.names("refused", "2024-02-07"), ["cards.csv", "cards.csv.why"])
        self.put("cards.csv", HEADER[:-1])
        done = self.night("2024-02-09")
        self.expect(done, 1, "bills: 1\n")
        self.assertNotIn("waits", done[2])

    def test_awaiting_next_call(self) -> None:
        self.put("cards.csv", HEADER[:-1])
        self.assertEqual(self.night("2024-02-06")[0], 1)
        self.expect(self.night("2024-02-06"), 0, "bills: 1\n")

    def test_names(self) -> None:
        """What is still being written stays, and a second file of a name doesn't take the place of
        the first."""
        self.put(".cards.csv", HEADER)
        for _ in range(2):
            self.put("cards.csv", HEADER)
            self.assertEqual(self.night("2024-02-06")[0], 0)
        self.assertEqual(os.listdir(os.path.join(self.home, "inbox")), [".cards.csv"])
        self.assertEqual(sorted(os.listdir(os.path.join(self.home, "done", "2024-02-06"))),
                         ["cards.csv", "cards.csv.2", "cards.csv.2.replies", "cards.csv.replies"])
        self.assertEqual(sorted(os.listdir(os.path.join(self.home, "reports"))),
                         ["2024-02-06-2.txt", "2024-02-06.txt"])

    def test_growing(self) -> None:
        self.put("cards.csv", HEADER)
        with mock.patch("companion.night.os.path.getsize", lambda path: 1000):
            self.expect(self.night("2024-02-06"), 1,
                        "inbox cards.csv: it was written to meanwhile, so it stays for the next "
                        "call")
        self.assertEqual(os.listdir(os.path.join(self.home, "inbox")), ["cards.csv"])

    def test_days(self) -> None:
        self.expect(self.night("2024-02-13"), 10,
                    "rolls from 2024-02-05 to 2024-02-13, 8 days, and no roll can be taken back; "
                    "more than 7 days want --far")
        self.assertEqual(self.night("2024-02-13", "--far")[0], 0)
        self.expect(self.night("2024-02-12"), 10,
                    "the ledger's today is 2024-02-13 already, and 2024-02-12 is before it")
        with open(os.path.join(self.home, "reports", "2024-02-13.txt"), encoding="ascii") as file:
            self.assertIn("bills: 1, 1 of them too late to ask for a payment\n", file.read())

    def test_home(self) -> None:
        self.expect(ledger("night", self.at("none")), 10, f"{self.at('none')} is no folder")
        self.expect(ledger("night", self.room), 10,
                    f"{self.file_in(self.room)} isn't there; begin the ledger by `run "
                    f"{self.file_in(self.room)} --new`")

    def file_in(self, home: str) -> str:
        return os.path.join(home, "rows.db")

    def test_owner(self) -> None:
        """Root is refused where the ledger is another user's, who couldn't go on from there."""
        before = self.listing()
        with (mock.patch("companion.rights.owner_of", lambda path: 12345),
              mock.patch("os.geteuid", lambda: 0)):
            self.expect(self.night("2024-02-06"), 10,
                        f"night: {self.file} belongs to 12345, who couldn't write what a night of "
                        "root leaves; call as 12345 (sudo -u 12345)")
        self.assertEqual(self.listing(), before)

    def test_under_way(self) -> None:
        """A second night in the folder is turned away, and so is a night while another process has
        the ledger."""
        with open(os.path.join(self.home, "night.lock"), "w", encoding="ascii") as file:
            file.write("4711\n")
            file.flush()
            fcntl.flock(file, fcntl.LOCK_EX)
            self.expect(self.night("2024-02-06"), 11,
                        f"another night is under way in {self.home}: process 4711")
        with Session([self.file, "apply"]) as session:
            session.ask("show anna")
            self.expect(self.night("2024-02-06", "--wait", "0"), 5,
                        f"{self.file} is in use by {session.process}")
            session.end()
        self.assertEqual(self.night("2024-02-06")[0], 0)
