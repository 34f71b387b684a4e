"""Seals, backups, restores, and the statements of a day."""

import hashlib
import os
import shutil
import sqlite3

from tests.support.program import TOP, Session

from .common import LINES, Case, ledger

MONTH = os.path.join(TOP, "examples", "month")
NAMES = ("anna", "ben", "cora")


def month_file(name: str) -> bytes:
    with open(os.path.join(MONTH, name), "rb") as file:
        return file.read()


class Seals(Case):
    def test_seal(self) -> None:
        """Over each row its number in eight bytes, its length in four, and its bytes; worked out
        here apart from the companion."""
        self.begin()
        sum_of = hashlib.sha256()
        for seq, body in self.rows():
            sum_of.update(bytes([0] * 7 + [seq, 0, 0, 0, len(body)]) + body)
        self.assertEqual(ledger("seal", self.file)[:2], (0, f"5 {sum_of.hexdigest()}\n"))

    def test_since(self) -> None:
        self.begin()
        rows, hash_of = ledger("seal", self.file)[1].split()
        ledger("run", self.file, given="charge anna c2 2024-02-06 purchase 500\n")
        self.expect(ledger("seal", self.file, "--since", rows, hash_of), 0,
                    f"seal: the first 5 rows of {self.file} are those of the seal; 1 came since")
        shutil.copyfile(self.file, self.at("kept.db"))
        for change in ("UPDATE kept SET body = (SELECT body FROM kept WHERE seq = 6) WHERE seq = 4",
                       "UPDATE kept SET seq = -5 WHERE seq = 5"):
            base = sqlite3.connect(self.file)
            base.execute(change)
            base.commit()
            base.close()
            self.expect(ledger("seal", self.file, "--since", rows, hash_of), 1,
                        f"the first 5 rows of {self.file} aren't those of the seal: a row was "
                        "changed, lost or put in")
            shutil.copyfile(self.at("kept.db"), self.file)
        base = sqlite3.connect(self.file)
        base.execute("DELETE FROM kept WHERE seq > 3")
        base.commit()
        base.close()
        self.expect(ledger("seal", self.file, "--since", rows, hash_of), 1,
                    "has 3 rows, and the seal is of 5: 2 are lost")


class Backups(Case):
    def test_backup(self) -> None:
        self.begin()
        to = self.at("saved", "rows-2024-02-06-5.db")
        before = self.rows()
        self.assertEqual(ledger("backup", self.file, self.at("saved")),
                         (0, to + "\n", f"backup: {to}, 5 rows\n"))
        self.assertEqual(sorted(os.listdir(self.at("saved"))),
                         ["rows-2024-02-06-5.db", "rows-2024-02-06-5.db.seal"])
        with open(to + ".seal", encoding="ascii") as file:
            self.assertEqual(file.read(), ledger("seal", self.file)[1])
        self.assertEqual(ledger("backup", self.file, self.at("saved"))[2],
                         f"backup: {to} is there already with these rows\n")
        ledger("run", self.file, given="charge anna c2 2024-02-06 purchase 500\n")
        os.chmod(self.file, 0o640)
        done = ledger("restore", to, self.file)
        self.assertEqual(os.stat(self.file).st_mode & 0o777, 0o640)
        self.expect(done, 0, f"restore: {self.file} has the 5 rows of {to}")
        self.assertEqual(self.rows(), before)
        moved = [name for name in os.listdir(self.room) if name.startswith("rows.db.before-")]
        self.assertIn(f"restore: what was there is in {self.at(moved[0])}", done[2])
        self.assertEqual(ledger("rows", self.at(moved[0], "rows.db"), "--since", "5")[1],
                         "charge anna c2 2024-02-06 purchase 500\n")

    def test_damaged(self) -> None:
        """A backup takes the place of a file that can't be read, which is kept beside it."""
        self.begin()
        to = ledger("backup", self.file, self.at("saved"))[1].strip()
        before = self.rows()
        with open(self.file, "rb") as file:
            sound = file.read()
        page = len(sound) // 2
        changed = sound[:page] + b"\xff" * 8 + sound[page + 8:]
        for spoiled, why in ((changed, "is damaged, as SQLite"),
                             (sound[:page], "is damaged, as SQLite"),
                             (b"no database\n" * 400, "is no SQLite database")):
            with open(self.file, "wb") as file:
                file.write(spoiled)
            self.assertEqual(ledger("check", self.file)[0], 5)
            done = ledger("restore", to, self.file)
            self.expect(done, 0, f"restore: what is there can't be read: {self.file} {why}")
            self.assertEqual(self.rows(), before)
            folder = done[2].split("what was there is in ")[1].split(";")[0]
            with open(os.path.join(folder, "rows.db"), "rb") as file:
                self.assertEqual(file.read(), spoiled)
        os.remove(self.file)
        os.mkdir(self.file)
        self.expect(ledger("restore", to, self.file), 5, f"{self.file} is a folder")

    def test_modes(self) -> None:
        """A backup and a restored file are for those who might read the file, and no others."""
        self.begin()
        to = ledger("backup", self.file, self.at("saved"))[1].strip()
        self.assertEqual(os.stat(to).st_mode & 0o777, 0o600)
        os.chmod(to, 0o644)
        for end in ("", "-wal"):
            if os.path.exists(self.file + end):
                os.remove(self.file + end)
        self.expect(ledger("restore", to, self.file), 0, f"{self.file} has the 5 rows of {to}")
        self.assertEqual(os.stat(self.file).st_mode & 0o777, 0o600)

    def test_log(self) -> None:
        """What a killed run left in the log is in the backup."""
        with Session([self.file, "apply"]) as session:
            session.write(LINES.encode())
            for _ in LINES.splitlines():
                session.read_line()
            session.kill()
        self.assertEqual(ledger("backup", self.file, self.at("saved"))[0], 0)
        self.assertEqual(ledger("rows", self.at("saved", "rows-2024-02-06-5.db"))[1], LINES)

    def test_refused(self) -> None:
        self.begin()
        to = ledger("backup", self.file, self.at("saved"))[1].strip()
        base = sqlite3.connect(to)
        base.execute("DELETE FROM kept WHERE seq = 5")
        base.commit()
        base.close()
        self.expect(ledger("restore", to, self.file), 10,
                    f"{to} isn't what was backed up: its seal is 4 ")
        self.expect(ledger("backup", self.file, self.at("saved")), 10,
                    f"{to} is there already with other rows: a row was changed")
        self.expect(ledger("restore", self.file, self.file), 10,
                    f"{self.file} is the backup itself")
        self.expect(ledger("restore", self.at("none"), self.file), 1,
                    f"{self.at('none')} isn't there")
        base = sqlite3.connect(self.file)
        base.execute("UPDATE kept SET body = x'00' WHERE seq = 3")
        base.commit()
        base.close()
        self.expect(ledger("backup", self.file, self.at("other")), 8, "row 3")
        self.assertEqual(os.listdir(self.at("other")), [])

    def test_in_use(self) -> None:
        self.begin()
        to = ledger("backup", self.file, self.at("saved"))[1].strip()
        with Session([self.file, "apply"]) as session:
            session.ask("show anna")
            for words in (("backup", self.file, self.at("saved")), ("restore", to, self.file)):
                self.expect(ledger(*words, "--wait", "0"), 5,
                            f"{self.file} is in use by {session.process}")
            session.end()
        self.assertEqual(sorted(os.listdir(self.room)),
                         sorted(["rows.db", "saved",
                                 *(["rows.db-wal"] if os.path.exists(self.file + "-wal") else [])]))


class Statements(Case):
    def test_month(self) -> None:
        """The month of a small issuer: `run` and `bills`, its statements by a server and by calls,
        held against the examples."""
        self.begin(month_file("opening.txt"))
        self.assertEqual(ledger("run", self.file, given=month_file("records.csv"))[0], 1)
        self.assertEqual(ledger("run", self.file, given=month_file("records-corrected.csv"))[0], 1)
        self.assertEqual(ledger("bills", self.file)[1],
                         "".join(f"bill {name} bill-1 1\n" for name in NAMES))
        self.assertEqual(ledger("run", self.file, given=ledger("bills", self.file)[1])[0], 0)
        for folder, more in (("served", ()), ("called", ("--calls",))):
            done = ledger("statements", self.file, "2026-03-29", self.at(folder), *more)
            self.assertEqual(done[:2],
                             (0, "".join(self.at(folder, f"{name}-1.txt") + "\n"
                                         for name in NAMES)))
            self.assertIn("statements: 3 issued on 2026-03-29, 3 of them new in "
                          f"{self.at(folder)}; 0 open tasks in work.txt\n", done[2])
            self.assertEqual(sorted(os.listdir(self.at(folder))),
                             ["anna-1.txt", "ben-1.txt", "cora-1.txt", "work.txt"])
            for name in NAMES:
                with open(self.at(folder, f"{name}-1.txt"), "rb") as file:
                    self.assertEqual(file.read(), month_file(f"statement-{name}.out"))
        done = ledger("statements", self.file, "2026-03-29", self.at("served"))
        self.assertIn("3 issued on 2026-03-29, 0 of them new", done[2])
        self.assertEqual(ledger("statements", self.file, "2026-03-28", self.at("none"))[:2],
                         (0, ""))
        self.write(os.path.join("served", "ben-1.txt"), "another text")
        self.expect(ledger("statements", self.file, "2026-03-29", self.at("served")), 12,
                    f"{self.at('served', 'ben-1.txt')} is there already with another text: it "
                    "was printed from rows that are gone, or changed since. Keep it")

    def test_no_server(self) -> None:
        """Where a server can't be had, each statement is asked by a call."""
        self.begin(LINES + "".join(f"open a{n} o 2024-01-06 5 1999 2499 2199 2999 2500 100\n"
                                   for n in range(4)))
        ledger("run", self.file, given=ledger("bills", self.file)[1])
        lame = self.write("lame",
                          f'#!/bin/sh\n[ "$2" = serve ] && exit 0\nexec "{os.environ["BILLCTL"]}" '
                          '"$@"\n')
        os.chmod(lame, 0o755)
        done = ledger("statements", self.file, "2024-02-06", self.at("out"), "--program", lame)
        self.expect(done, 0, "statements: the server gave no answer; 5 by a call each")
        self.assertEqual(len(os.listdir(self.at("out"))), 6)
