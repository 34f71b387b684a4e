"""Each cause for which a ledger's file can't be opened, or isn't sound, by the message of
`check`."""

import os
import shutil
import socket
import subprocess
import sys
from unittest import mock

from tests.support.program import Session
from tests.support.rows import TABLE

from .common import LINES, Case, ledger

ROLL, OPEN, CHARGE = (bytes.fromhex(text) for text in (
    "010100004d47",
    "01040161016f00004d47000000000000000500000000000007cf00000000000009c300000000000008970000"
    "000000000bb700000000000009c40000000000000064",
    "0105016102633100004d470000000000000004e2",
))

# Another program, which reads the ledger's file and goes on having it until its input ends.
READER = """import sqlite3, sys
base = sqlite3.connect(sys.argv[1], isolation_level=None)
base.execute('BEGIN')
base.execute('SELECT count(*) FROM kept').fetchall()
print('has it', flush=True)
sys.stdin.read()
"""


class Names(Case):
    def check(self, path: str, status: int, message: str) -> None:
        self.expect(ledger("check", path, "--wait", "0"), status, message)

    def test_sound(self) -> None:
        self.begin()
        self.assertEqual(ledger("check", self.file),
                         (0, "rows 5\naccounts 1\ntoday 2024-02-06\n", ""))

    def test_not_there(self) -> None:
        self.check(self.file, 1,
                   f"check: {self.file} isn't there; billctl would begin a new, empty ledger under "
                   "this name")
        self.assertEqual(os.listdir(self.room), [])

    def test_no_file(self) -> None:
        self.check("-", 5, "- keeps rows in memory, so there is no file to look at")
        for name in (":memory:", "file:rows.db"):
            self.check(name, 5, f"{name} names no file for billctl; write ./ in front of it")

    def test_folder_missing(self) -> None:
        self.check(self.at("no", "rows.db"), 5, f"its folder {self.at('no')} isn't there")

    def test_folder(self) -> None:
        self.check(self.room, 5, f"{self.room} is a folder")

    def test_no_plain_file(self) -> None:
        with socket.socket(socket.AF_UNIX) as door:
            door.bind(self.file)
            self.check(self.file, 5, f"{self.file} is no plain file")

    def test_link_to_nothing(self) -> None:
        os.symlink(self.at("gone"), self.file)
        self.check(self.file, 5, f"{self.file} is a link to {self.at('gone')}, which isn't there")

    def test_link(self) -> None:
        self.begin()
        os.symlink(self.file, self.at("other.db"))
        self.assertEqual(ledger("check", self.at("other.db"))[0], 0)

    def test_second_name(self) -> None:
        self.begin()
        os.link(self.file, self.at("second.db"))
        self.check(self.file, 5,
                   f"{self.file} has 2 names (hard links); billctl takes a file with one")

    def test_rights(self) -> None:
        """What the system says of rights is put in its place, since root may do all."""
        self.begin()
        for path, right, word in ((self.file, os.R_OK, "read"), (self.file, os.W_OK, "written")):
            with mock.patch("os.access", lambda asked, mode, path=path,
                            right=right: not (asked == path and mode & right)):
                self.check(self.file, 5, f"{self.file} may not be {word} by this user")
        with mock.patch("os.access", lambda asked, mode: asked != self.room):
            self.check(self.file, 5, f"its folder {self.room} may not be read by this user")
        os.remove(self.file + "-wal") if os.path.exists(self.file + "-wal") else None
        with mock.patch("os.access", lambda asked,
                        mode: not (asked == self.room and mode == os.W_OK)):
            self.check(self.file, 5,
                       f"its log can't be made, since the folder {self.room} may not be written by "
                       "this user")

    def test_whose(self) -> None:
        """A right that is missing is told with the file's owner, and what to do."""
        self.begin()
        with (mock.patch("os.access", lambda asked, mode: asked != self.file),
              mock.patch("companion.rights.owner_of", lambda path: 12345),
              mock.patch("os.geteuid", lambda: 12346)):
            self.check(self.file, 5, f"{self.file} may not be read by this user: it belongs to "
                       "12345, and this user is 12346; call as 12345, or have root give it to "
                       "12346 by chown")

    def test_log(self) -> None:
        self.begin()
        log = self.file + "-wal"
        if os.path.exists(log):
            os.remove(log)
        os.mkdir(log)
        self.check(self.file, 5, f"its log {log} is a folder")

    def test_journal(self) -> None:
        self.begin()
        self.write("rows.db-journal", b"\xd9\xd5\x05\xf9 a journal")
        self.check(self.file, 5,
                   f"{self.file}-journal is there, a journal that sqlite3 left; open the file once "
                   "with sqlite3")

    def test_program(self) -> None:
        self.begin()
        self.expect(ledger("check", self.file, "--program", self.at("none")), 12,
                    f"{self.at('none')} is no program that can be run")
        broken = self.write("broken", "no program")
        os.chmod(broken, 0o755)
        self.expect(ledger("check", self.file, "--program", broken), 12,
                    f"{broken} can't be run: Exec format error")

    def test_room(self) -> None:
        self.begin()
        little = shutil.disk_usage(self.room)._replace(free=1000)
        with mock.patch("shutil.disk_usage", lambda path: little):
            self.check(self.file, 0,
                       "has 1,000 bytes left; a run that keeps rows wants 5,000,000, and ends with "
                       "5 without them")


class Locks(Case):
    def test_run(self) -> None:
        self.begin()
        with Session([self.file, "apply"]) as session:
            self.assertIn("show anna", session.ask("show anna"))
            self.expect(ledger("check", self.file, "--wait", "0"), 5,
                        f"{self.file} is in use by {session.process}")
            self.assertEqual(session.end(), 0)
        self.assertEqual(ledger("check", self.file)[0], 0)

    def test_stopped_run(self) -> None:
        """A look waits, and says for whom."""
        self.begin()
        with Session([self.file, "apply"]) as session:
            session.ask("show anna")
            done = ledger("today", self.file, "--wait", "1")
            self.expect(done, 5,
                        f"waiting for {self.file}, in use by {session.process}")
            session.kill()
        self.assertEqual(ledger("today", self.file, "--wait", "0")[:2], (0, "2024-02-06\n"))

    def test_sqlite(self) -> None:
        """Another program that reads the file by SQLite."""
        self.begin()
        reader = subprocess.Popen([sys.executable, "-c", READER, self.file], stdin=subprocess.PIPE,
                                  stdout=subprocess.PIPE)
        assert reader.stdout
        self.assertEqual(reader.stdout.readline(), b"has it\n")
        self.expect(ledger("check", self.file, "--wait", "0"), 5,
                    f"{self.file} is in use by process {reader.pid} (")
        reader.communicate()
        self.assertEqual(ledger("check", self.file, "--wait", "0")[0], 0)


class Content(Case):
    def check(self, status: int, message: str) -> None:
        self.expect(ledger("check", self.file, "--wait", "0"), status, message)

    def test_empty(self) -> None:
        self.write("rows.db", b"")
        done = ledger("check", self.file)
        self.assertEqual(done[:2], (0, "rows 0\naccounts 0\ntoday 2011-01-01\n"))
        self.assertIn("has no table yet: an empty ledger", done[2])

    def test_no_database(self) -> None:
        self.write("rows.db", LINES * 30)
        self.check(5, f"{self.file} is no SQLite database: it doesn't begin as one")

    def test_damaged_pages(self) -> None:
        self.make([(1, ROLL), *((n, OPEN) for n in range(2, 400))])
        with open(self.file, "r+b") as file:
            file.seek(4096)
            file.write(b"\xff" * 4096)
        self.check(5, f"{self.file} is damaged, as SQLite finds: database disk image is malformed; "
                      "restore a backup")

    def test_cut_pages(self) -> None:
        self.make([(1, ROLL), (2, OPEN)])
        size = os.path.getsize(self.file)
        os.truncate(self.file, 5000)
        os.truncate(self.file, size)
        self.check(5, f"{self.file} is damaged, as SQLite's integrity_check finds: ")

    def test_other_things(self) -> None:
        for text, what in (("CREATE TABLE notes (a)", "table notes"),
                           ("CREATE INDEX fast ON kept (body)", "index fast"),
                           ("CREATE VIEW days AS SELECT seq FROM kept", "view days")):
            self.make([(1, ROLL)], TABLE, text)
            self.check(5, f"{self.file} has the {what}, which is no ledger's; a ledger's file has "
                          "the table kept alone")
            self.assertEqual(ledger("today", self.file)[0], 5)
            os.remove(self.file)

    def test_other_form(self) -> None:
        for text in ("CREATE TABLE kept (seq INTEGER PRIMARY KEY, body BLOB NOT NULL)",
                     "CREATE TABLE kept (seq INTEGER PRIMARY KEY, body TEXT NOT NULL) STRICT",
                     "CREATE TABLE kept (seq INTEGER PRIMARY KEY CHECK (seq > 0), body BLOB NOT "
                     "NULL) STRICT"):
            self.make([], text)
            self.check(5, f"{self.file}: its table kept is of another form: {text}; a ledger's is: "
                          f"{TABLE}")
            os.remove(self.file)

    def test_damaged_rows(self) -> None:
        for rows, number, why in (
            ([(1, ROLL), (2, OPEN), (4, CHARGE)], 3, "its number is 4"),
            ([(1, ROLL), (2, OPEN), (3, CHARGE[:-1])], 3,
             "its bytes are no spelling of a request: its bytes end inside a field"),
            ([(1, ROLL), (2, OPEN), (3, OPEN)], 3,
             "it is `open a o 2024-03-01 5 1999 2499 2199 2999 2500 100`, which is a repeat of "
             "post 1"),
            ([(1, ROLL), (2, CHARGE), (3, OPEN)], 2,
             "it is `charge a c1 2024-03-01 purchase 1250`, which would be refused: "
             "no 1 UnknownAccount: there is no account of this name"),
            ([(1, b""), (2, OPEN), (3, CHARGE)], 1,
             "its bytes are no spelling of a request: it has fewer than two bytes"),
            ([(-1, ROLL), (2, OPEN), (3, CHARGE)], 1, "its number is -1"),
        ):
            self.make(rows)
            self.check(8, f"row {number} is damaged: {why}")
            os.remove(self.file)
        self.make([(1, ROLL), (2, CHARGE)])
        self.expect(ledger("today", self.file), 8,
                    "row 2 isn't sound: it names the account a, which isn't there")
        os.remove(self.file)
        self.make([(1, ROLL), (2, OPEN.replace(bytes([0, 5]), bytes([0, 31]), 1))])
        self.expect(ledger("due", self.file), 8,
                    "row 2 isn't sound: it opens an account that closes on day 31 of the month")
