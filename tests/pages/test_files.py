"""`audit statements` as a command: files, manifest, calls again, and the issuer's files."""

import contextlib
import csv
import hashlib
import io
import json
import os
import subprocess
import sys
from pathlib import Path

from audit.statements.command import main
from tests.support.case import Case
from tests.support.program import EXAMPLES, PROGRAM, TOP, Done, apply, run
from tests.support.rows import base_of

from .issuer import NAMES, NOTES, toml
from .schema import faults
from .statements import shown_text

DAY = "2024-03-06"
HOSTILE = ("<script>alert(1)</script>", "\"><img src=x onerror=alert(1)>", "'; --", "=1+1",
           "a\u202eb\u2066c", "x" * 10_000, "nul\x00here", "&amp;<b>", "]]></style>",
           "\u05d0\u200f")


class Called(Case):
    def setUp(self) -> None:
        super().setUp()
        run([self.file, "apply"], (EXAMPLES / "returned-payment.txt").read_bytes())
        self.out = Path(self.at("out"))

    def call(self, *words: str, day: str = DAY, program: str = PROGRAM,
             file: str | None = None) -> Done:
        """A call in this process; a process of its own takes longer than what it does."""
        out, err = io.StringIO(), io.StringIO()
        with contextlib.redirect_stdout(out), contextlib.redirect_stderr(err):
            status = main([file or self.file, day, str(self.out), "--program", program,
                           "--jobs", "2", *words])
        return Done(status, out.getvalue().encode(), err.getvalue().encode())

    def files(self) -> dict[str, bytes]:
        if not self.out.exists():
            return {}
        return {path.name: path.read_bytes() for path in sorted(self.out.iterdir())}

    def page(self, **texts: str | None) -> str:
        """The page by an issuer's files that lie in the room."""
        self.write("ISSUER.toml", toml(**texts))
        words = ["--form", "html", "--issuer", self.at("ISSUER.toml")]
        for name in ("names", "notes"):
            if os.path.exists(self.at(f"{name}.csv")):
                words += [f"--{name}", self.at(f"{name}.csv")]
        self.assert_done(self.call(*words), 0)
        return self.files()["anna-2.html"].decode()


class Files(Called):
    def test_forms_and_manifest(self) -> None:
        done = self.call("--form", "text", "--form", "json", "--form", "html")
        self.assert_done(done, 0)
        found = self.files()
        self.assertEqual(sorted(found), ["anna-2.html", "anna-2.json", "anna-2.txt",
                                         "manifest.csv"])
        self.assert_same(found["anna-2.txt"], run([self.file, "statement", "anna", "2"]).out)
        head, *records, total = csv.reader(found["manifest.csv"].decode().splitlines())
        self.assertEqual(len(head), 8)
        for _, cycle, name, size, digest, balance, minimum, due in records:
            self.assertEqual((int(size), digest),
                             (len(found[name]), hashlib.sha256(found[name]).hexdigest()))
            self.assertEqual((cycle, balance, minimum, due), ("2", "104087", "7627", "2024-04-01"))
        sizes = sum(len(found[record[2]]) for record in records)
        self.assertEqual(total, ["total", "1", "3", str(sizes), "", "104087", "7627", ""])
        self.assertEqual(done.text.splitlines(), [str(self.out / name) for name in (
            "anna-2.txt", "anna-2.json", "anna-2.html", "manifest.csv")])

    def test_manifest_is_the_trial(self) -> None:
        lines = ["feerow 2011-01-02 3000 4100", "roll 2024-01-10"]
        for number in range(6):
            lines += [f"open a{number} o 2024-01-05 12 1999 2499 2199 2999 2500 100",
                      f"charge a{number} c 2024-01-09 purchase {5000 * (number + 1)}"]
        lines += ["roll 2024-02-13", *(f"bill a{number} b 1" for number in range(6))]
        other = self.at("six.db")
        apply(other, lines)
        self.assert_done(self.call(day="2024-02-13", file=other), 0)
        total = self.files()["manifest.csv"].decode().splitlines()[-1].split(",")
        change = run([other, "trial", "2011-01-01", "2024-01-12"]).lines[-1].split()[1]
        self.assertEqual(int(total[5]), int(change.replace(".", "")))
        self.assertEqual(total[1], "6")

    def test_again_and_stopped(self) -> None:
        words = ("--form", "json", "--form", "html")
        self.call(*words)
        whole = self.files()
        (self.out / "manifest.csv").unlink()
        (self.out / "anna-2.html").unlink()
        (self.out / ".anna-2.html.part").write_bytes(whole["anna-2.html"][:100])
        self.assert_done(self.call(*words), 0)
        self.assertEqual(self.files(), whole)

    def test_other_bytes(self) -> None:
        self.call()
        (self.out / "anna-2.json").write_bytes(b"{}\n")
        (self.out / "manifest.csv").unlink()
        done = self.call()
        self.assert_done(done, 1, "")
        self.assertIn(b"anna-2.json is there already with other bytes", done.err)
        self.assertEqual(self.files(), {"anna-2.json": b"{}\n"})

    def test_as_a_process(self) -> None:
        words = [sys.executable, "-m", "audit", "statements", self.file, DAY, str(self.out)]
        done = subprocess.run([*words, "--program", PROGRAM], cwd=TOP, capture_output=True)
        self.assertEqual(done.returncode, 0, done.stderr)
        self.assertEqual(sorted(self.files()), ["anna-2.json", "manifest.csv"])

    def test_no_statements(self) -> None:
        self.assert_done(self.call(day="2024-03-05"), 0)
        self.assertEqual(self.files()["manifest.csv"].decode().splitlines()[1:],
                         ["total,0,0,0,,0,0,"])

    def test_only_json_without_names(self) -> None:
        data = json.loads((self.call(), self.files()["anna-2.json"])[1])
        self.assertIsNone(data["addressee"])
        self.assertNotIn(b".", json.dumps(data["summary"]).encode())

    def test_ledger_stays(self) -> None:
        before = {path: Path(path).read_bytes() for path in (self.file, self.file + "-wal")}
        self.call()
        self.assertEqual(before, {path: Path(path).read_bytes() for path in before})


class Refused(Called):
    def expect(self, status: int, said: str, *words: str, **how: str) -> None:
        done = self.call(*words, **how)
        self.assert_done(done, status, "", said)
        self.assertIn(said, done.err.decode())
        self.assertNotIn("Traceback", done.err.decode())
        self.assertEqual(self.files(), {}, said)

    def test_program_that_differs(self) -> None:
        """A program that tells a cent more: nothing is written."""
        lying = self.write("lying", f"#!/bin/sh\n{PROGRAM} \"$@\" | sed 's/1040.87/1040.88/'\n")
        os.chmod(lying, 0o755)
        self.expect(1, "different: account anna, statement 2, text", program=lying)

    def test_ledgers(self) -> None:
        self.expect(2, "no day", day="2024-02-30")
        self.expect(2, "No such file", file=self.at("none.db"))
        with base_of(self.file) as base:
            base.execute("UPDATE kept SET body = x'02ff' WHERE seq = 3")
        self.expect(2, "row 3 is damaged")

    def test_texts(self) -> None:
        wanted = {
            "telephone": ("telephone", None, "ends without the key telephone"),
            "place": ("errors_text", "call {phone}", "line 6: errors_text has the place {phone}"),
            "empty": ("name", " ", "line 1: name has to be a text")}
        for name, (key, text, said) in wanted.items():
            path = self.write(f"{name}.toml", toml(**{key: text}))
            self.expect(2, said, "--issuer", path)
        self.expect(2, "line 12: fax is no key", "--issuer",
                    self.write("more.toml", toml() + 'fax = "1"\n'))
        self.expect(2, "line 2: byte 0xe9 isn't UTF-8", "--issuer",
                    self.write("latin.toml", 'name = "a"\ntelephone = "é"\n'.encode("latin-1")))
        self.expect(2, "line 2", "--issuer", self.write("bad.toml", 'name = "a"\nb = \n'))
        self.expect(2, "No such file", "--issuer", self.at("none.toml"))

    def test_tables(self) -> None:
        names = {NAMES + "anna,A,,,,\nbob,B,,,,\nanna,C,,,,\n": "line 4: anna has a name on line 2",
                 NAMES + "anna,A,,\n": "line 2: it has 4 columns, not 6",
                 NAMES + "anna, ,,,,\n": "line 2: the name of anna is empty",
                 NAMES + "an na,A,,,,\n": "line 2: 'an na' is no name of an account",
                 NAMES + 'anna,"A,,,,\n': "line 2: it is no CSV",
                 "account,name\nanna,A\n": "line 1: the columns have to be account,name,line1",
                 "": "line 1: the columns have to be"}
        for text, said in names.items():
            self.expect(2, said, "--names", self.write("names.csv", text))
        for data in ((NAMES + "anna,A,,,,\n").encode("utf-16"),
                     NAMES.encode() + b"anna,\xff,,,,\n"):
            self.expect(2, "isn't UTF-8", "--names", self.write("names.csv", data))
        notes = {NOTES + "anna,c,a\nanna,c,b\n": "line 3: anna c has a note on line 2",
                 NOTES + "anna,c!,a\n": "line 2: 'c!' is no key of a post"}
        for text, said in notes.items():
            self.expect(2, said, "--notes", self.write("notes.csv", text))


class Names(Called):
    def test_names_and_notes(self) -> None:
        self.write("names.csv", "\ufeff" + NAMES + "anna,Anna M. Lee,5 Hill Road,,\"Bath, ME\",\n")
        self.write("notes.csv", NOTES + "anna,p,Thank you Anna\n")
        text = shown_text(self.page())
        for wanted in ("Anna M. Lee", "5 Hill Road", "Bath, ME", "Thank you Anna", "Harbor Bank",
                       "within 60 days", "1-800-555-0177"):
            self.assertIn(wanted, text)
        self.assertNotIn("[", text)

    def test_hostile_data(self) -> None:
        """In the data a name and a note are as they were given, whatever is in them."""
        for number, text in enumerate(HOSTILE):
            self.out = Path(self.at(f"data{number}"))
            cell = text.replace('"', '""')
            names = self.write("names.csv", f'{NAMES}anna,"{cell}",,,,\n')
            notes = self.write("notes.csv", f'{NOTES}anna,p,"{cell}"\n')
            self.assert_done(self.call("--names", names, "--notes", notes), 0)
            data = json.loads(self.files()["anna-2.json"])
            noted = [one["note"] for one in data["transactions"] if one["key"] == "p"]
            self.assertEqual([data["addressee"]["name"], *noted], [text] * 2)
            self.assertEqual(faults(data), [])

    def test_late_charge_has_its_note(self) -> None:
        """A charge that is on no statement is identified among the corrections of the next one."""
        lines = ["feerow 2011-01-02 3000 4100", "roll 2024-01-10",
                 "open a o 2024-01-06 5 1999 2499 2199 2999 2500 100",
                 "charge a c1 2024-01-09 purchase 5000", "roll 2024-02-06", "bill a b1 1",
                 "charge a slip 2024-01-20 purchase 700", "amend a m 2 2024-01-09 4000",
                 "roll 2024-03-06", "bill a b2 2"]
        other = self.at("late.db")
        apply(other, lines)
        self.write("notes.csv", NOTES + "a,slip,\"Kiosk <1>, Rye\"\na,c1,\"Book Shop, Bath\"\n")
        done = self.call("--form", "html", "--notes", self.at("notes.csv"), day=DAY, file=other)
        self.assert_done(done, 0)
        text = shown_text(self.files()["a-2.html"].decode())
        self.assertIn("Charge, Kiosk <1>, Rye , reference slip, dated Jan 20, 2024", text)
        self.assertIn("Correction of c1, Book Shop, Bath , reference m,", text)
        self.assertNotIn(b"no note in --notes", done.err)

    def test_what_lacks(self) -> None:
        done = self.call("--form", "html")
        self.assertIn("[name]", shown_text(self.files()["anna-2.html"].decode()))
        self.assertIn(b"no name in --names", done.err)
        self.assertIn(b"no --issuer", done.err)

    def test_hostile(self) -> None:
        for number, text in enumerate(HOSTILE):
            with self.subTest(text=text[:20]):
                self.out = Path(self.at(f"out{number}"))
                cell = text.replace('"', '""')
                self.write("names.csv", f'{NAMES}anna,"{cell}","{cell}",,,\n')
                self.write("notes.csv", f'{NOTES}anna,p,"{cell}"\n')
                page = self.page(**({} if "\x00" in text else {"errors_text": text}))
                shown = "".join("\ufffd" if c in "\x00\u202e\u2066" else c for c in text)
                self.assertGreaterEqual(shown_text(page).count(" ".join(shown.split())), 3)
                self.assertNotIn("<script", page)
                self.assertNotIn("<img", page)
                self.assertFalse(set(page) & set("\x00\u202e\u2066"))
