"""A ledger's file recomputed: reading it leaves it alone, and a difference is shown with both
sides."""

import dataclasses
import hashlib
import sqlite3
import subprocess
import sys
import tempfile
import unittest
from pathlib import Path

from audit.check import Audit, Different, Progress, compare_sent, recomputed
from audit.commands import load
from audit.connections import serve
from audit.ledger_file import Unreadable, copied, rows_of
from audit.program import Failed
from audit.rows import decode, encode
from audit.sent import statements_below
from audit.views import view

from .session import billed

TABLE = "CREATE TABLE kept (seq INTEGER PRIMARY KEY, body BLOB NOT NULL) STRICT"


def rows() -> list[tuple[int, bytes]]:
    """An account with two statements, a payment and a dispute, and one without posts."""
    p = billed(50000)
    p.apply("charge a c2 2024-02-20 cash 3000", "dispute a x1 2024-02-20 2 1000", "roll 2024-03-06",
            "bill a b2 2", "open b o 2024-03-06 20 1999 2499 2199 2999 2500 100")
    return p.keeper.rows


def changed(kept: list[tuple[int, bytes]], place: int, **fields: int) -> list[tuple[int, bytes]]:
    """The same rows but for some fields of one."""
    request = decode(kept[place][1])
    assert request is not None, f"row {place + 1} is no request"
    other = dataclasses.replace(request, **fields)
    return [*kept[:place], (place + 1, encode(other)), *kept[place + 1:]]


class Stub:
    """What a program tells that carried out other rows: a program and its server in one."""

    def __init__(self, kept: list[tuple[int, bytes]], wrong: dict[str, bytes] | None = None,
                 told: tuple[bytes, int] = (b"", 0)) -> None:
        """What it answers wrongly behind the right text, by path; and what its runs tell."""
        self.machine, self.wrong, self.told = load(kept), wrong or {}, told

    def run(self, words: list[str], data: bytes = b"") -> tuple[bytes, int]:
        return self.told

    def get(self, path: str) -> bytes | None:
        answer = serve(self.machine, f"GET {path} HTTP/1.1\r\n\r\n".encode())
        found = answer.body if answer is not None and answer.status == 200 else None
        return (found or b"") + self.wrong[path] if path in self.wrong else found


def word_of(body: bytes) -> str | None:
    """The word of a kept row."""
    request = decode(body)
    return None if request is None else request.word


def audited(kept: list[tuple[int, bytes]], others: list[tuple[int, bytes]]) -> str:
    stub = Stub(others)
    return Audit(load(kept), stub).whole(Progress(quiet=True)).text()


class Compared(unittest.TestCase):
    def test_same(self) -> None:
        """1,000.00 and 30.00 charged, 500.00 paid, 10.00 set aside on two segments, 7.86 and 0.31
        of interest."""
        self.assertEqual(audited(rows(), rows()),
                         "accounts 2, statements issued 2, recomputed 2, entries 7, cents 155817, "
                         "open tasks 2")

    def test_changed_amount(self) -> None:
        kept = rows()
        place = next(i for i, (_, body) in enumerate(kept) if word_of(body) == "payment")
        with self.assertRaises(Different) as found:
            audited(changed(kept, place, cents=50001), kept)
        text = str(found.exception)
        self.assertTrue(text.startswith("account a, show, line 1 of the output\n  model:   show a"))
        self.assertIn("\n  program: show a", text)

    def test_each_view(self) -> None:
        """Whatever the program tells otherwise is found, and named."""
        for path, name in (("/accounts/a", "account a, show"),
                           ("/accounts/a/entries", "account a, entries"),
                           ("/accounts/a/statements/1", "account a, statement 1 as issued"),
                           ("/accounts/a/cycles/2", "account a, cycle 2 as recomputed"),
                           ("/accounts/a/statements/3", "account a, statement 3 as issued"),
                           ("/work", "account a, open tasks")):
            stub = Stub(rows(), {path: b"2024-09-09 a ACK 9\n"})
            with self.assertRaises(Different) as found:
                Audit(load(rows()), stub).whole(Progress(quiet=True))
            self.assertTrue(str(found.exception).startswith(name + ","), found.exception)

    def test_task_of_no_account(self) -> None:
        stub = Stub(rows(), {"/work": b"2099-12-31 z CREDIT 0\n"})
        with self.assertRaises(Different) as found:
            Audit(load(rows()), stub).whole(Progress(quiet=True))
        self.assertTrue(str(found.exception).startswith("open tasks of all accounts,"))

    def test_damaged(self) -> None:
        kept = rows()[:3] + [(9, b"")]
        stub = Stub([], told=(b"damaged 4\n", 8))
        with self.assertRaises(Failed) as found:
            recomputed(kept, stub, Progress(quiet=True))
        self.assertIn("row 4 is damaged", str(found.exception))
        stub = Stub([])
        with self.assertRaises(Different):
            recomputed(kept, stub, Progress(quiet=True))


class Files(unittest.TestCase):
    def setUp(self) -> None:
        self.folder = tempfile.TemporaryDirectory()
        self.addCleanup(self.folder.cleanup)
        self.file = Path(self.folder.name) / "ledger.db"

    def written(self, kept: list[tuple[int, bytes]], log: bool = False) -> None:
        """A file with these rows; or with all of them in the log that a killed run leaves."""
        lines = ["import os, sqlite3", f"base = sqlite3.connect({str(self.file)!r})"]
        if log:
            lines += ["base.execute('PRAGMA journal_mode = WAL')",
                      "base.execute('PRAGMA wal_autocheckpoint = 0')"]
        lines += [f"base.execute({TABLE!r})",
                  f"base.executemany('INSERT INTO kept VALUES (?, ?)', {kept!r})",
                  "base.commit()", "os._exit(0)"]
        subprocess.run([sys.executable, "-c", "\n".join(lines)], check=True)
        shared = Path(f"{self.file}-shm")
        if shared.exists():
            shared.unlink()

    def sums(self) -> dict[str, str]:
        return {p.name: hashlib.sha256(p.read_bytes()).hexdigest()
                for p in Path(self.folder.name).iterdir()}

    def test_rows_with_and_without_a_log(self) -> None:
        for log in (False, True):
            self.written(rows(), log)
            before = self.sums()
            self.assertEqual(set(before), {"ledger.db", "ledger.db-wal"} if log else {"ledger.db"})
            with copied(str(self.file)) as copy:
                self.assertEqual(rows_of(copy), rows())
            self.assertEqual(self.sums(), before)
            self.file.unlink()

    def test_no_rows(self) -> None:
        self.written([])
        with copied(str(self.file)) as copy:
            self.assertEqual(rows_of(copy), [])

    def test_statements_as_sent(self) -> None:
        """A row that was changed to another one that is accepted differs from what was sent."""
        kept = rows()
        machine = load(kept)
        sent = Path(self.folder.name) / "sent"
        sent.mkdir()
        (sent / "both").write_text("".join(view(machine, "statement", "a", k) or ""
                                           for k in (1, 2)))
        statements = statements_below([str(sent)])
        self.assertEqual([(s.account, s.cycle) for s in statements], [("a", 1), ("a", 2)])
        self.assertEqual(compare_sent(machine, statements).sent, 2)
        place = next(i for i, (_, body) in enumerate(kept) if word_of(body) == "payment")
        with self.assertRaises(Different) as found:
            compare_sent(load(changed(kept, place, cents=50001)), statements)
        self.assertIn(f"account a, statement 2 in {sent / 'both'}, line ", str(found.exception))
        self.assertIn("-500.01\n  sent:", str(found.exception))
        (sent / "tasks").write_text("2024-03-21 a ACK 6\n")
        self.assertEqual(statements_below([str(sent)]), statements)
        for path in (sent / "tasks", sent / "none"):
            with self.assertRaises(Unreadable):
                statements_below([str(path)])

    def test_unreadable(self) -> None:
        def why() -> str:
            with self.assertRaises(Unreadable) as found:
                with copied(str(self.file)) as copy:
                    rows_of(copy)
            return str(found.exception)

        self.assertEqual(why(), f"{self.file}: No such file or directory")
        self.file.write_bytes(b"no database at all, but some bytes" * 40)
        self.assertIn("SQLite can't read it", why())
        self.file.unlink()
        base = sqlite3.connect(self.file)
        base.execute("CREATE TABLE other (x)")
        base.close()
        self.assertIn("other tables than a ledger's: other", why())

    def test_in_use(self) -> None:
        self.written(rows())
        base = sqlite3.connect(self.file)
        base.execute("PRAGMA locking_mode = EXCLUSIVE")
        base.execute("BEGIN EXCLUSIVE")
        code = f"from audit.ledger_file import copied\nwith copied({str(self.file)!r}): pass"
        done = subprocess.run([sys.executable, "-c", code], capture_output=True, text=True,
                              cwd=Path(__file__).resolve().parents[2])
        self.assertIn("is in use by another process", done.stderr)
        base.close()


if __name__ == "__main__":
    unittest.main()
