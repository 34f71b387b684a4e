"""`ops/ledger statements --form`, and the forms that a night writes by its `night.toml`."""

import json
import os
import subprocess
import sys
from pathlib import Path
from typing import Any
from unittest import mock

from tests.ops.common import LEDGER, LINES, Case, Told, ledger
from tests.ops.home import OPENING, Home
from tests.support.program import EXAMPLES, PROGRAM, TOP, run
from companion.pages import owed_at_closings

from .issuer import NAMES, NOTES, toml

DAY = "2024-02-06"
FORMS = ("--form", "json", "--form", "html")


def called(*words: object, env: dict[str, str] | None = None) -> Told:
    """The companion as a process of its own, since what the model prints isn't this process's."""
    done = subprocess.run([sys.executable, LEDGER, *map(str, words)], capture_output=True,
                          text=True, env=env)
    return done.returncode, done.stdout, done.stderr


class Word(Case):
    def setUp(self) -> None:
        super().setUp()
        self.begin(LINES + "bill anna b1 1\n")
        self.out = Path(self.at("out"))

    def test_forms(self) -> None:
        self.write("issuer.toml", toml())
        self.write("names.csv", NAMES + "anna,Anna Lee,5 Hill Road,,,\n")
        self.write("notes.csv", NOTES + "anna,c1,\"Book Shop, Bath\"\n")
        done = called("statements", self.file, DAY, self.out, *FORMS, "--issuer",
                      self.at("issuer.toml"), "--names", self.at("names.csv"), "--notes",
                      self.at("notes.csv"))
        self.assertEqual(done[0], 0, done)
        names = ["anna-1.html", "anna-1.json", "manifest.csv"]
        self.assertEqual(sorted(os.listdir(self.out)), names)
        self.assertEqual(sorted(done[1].splitlines()), [str(self.out / name) for name in names])
        self.assertIn("Book Shop, Bath", (self.out / "anna-1.html").read_text(encoding="utf-8"))
        data = json.loads((self.out / "anna-1.json").read_text(encoding="utf-8"))
        self.assertEqual(data["addressee"]["name"], "Anna Lee")
        self.assertEqual(os.stat(self.out).st_mode & 0o777, 0o700)

    def test_examples(self) -> None:
        """The files of examples/issuer leave nothing in brackets on the pages of examples/month."""
        file, issuer = self.at("month.db"), EXAMPLES / "issuer"
        for word, name in (("apply", "opening.txt"), ("import", "records-corrected.csv"),
                           ("apply", "closing.txt")):
            run([file, word], (EXAMPLES / "month" / name).read_bytes())
        status, printed, said = called(
            "statements", file, "2026-03-29", self.out, *FORMS, "--issuer", issuer / "issuer.toml",
            "--names", issuer / "names.csv", "--notes", issuer / "notes.csv")
        self.assertEqual((status, len(printed.splitlines())), (0, 7), said)
        self.assertEqual(said.splitlines()[0],
                         f"statements: 3 issued on 2026-03-29, 7 new files in {self.out}")
        for page in self.out.glob("*.html"):
            text = page.read_text(encoding="utf-8")
            self.assertIn("Harbor Bank", text)
            self.assertNotRegex(text, r"\[(name|merchant|address|telephone)\]")

    def test_text(self) -> None:
        """The text with a manifest is the text without a form."""
        self.assertEqual(called("statements", self.file, DAY, self.out, "--form", "text")[0], 0)
        self.assertEqual(ledger("statements", self.file, DAY, self.at("plain"))[0], 0)
        text = run([self.file, "statement", "anna", "1"]).out
        for folder in (self.out, Path(self.at("plain"))):
            self.assertEqual((folder / "anna-1.txt").read_bytes(), text)
        self.assertEqual(sorted(os.listdir(self.at("plain"))), ["anna-1.txt", "work.txt"])

    def test_refused(self) -> None:
        self.expect(ledger("statements", self.file, DAY, self.out, "--names", "x.csv"), 2,
                    "--names and --notes are for --form")
        self.expect(ledger("statements", self.file, DAY, self.out, "--form", "json", "--calls"), 2,
                    "--calls is for statements without --form")
        self.expect(ledger("statements", self.file, DAY, self.out, "--form", "doc"), 2,
                    "invalid choice: 'doc'")
        self.expect(called("statements", self.at("none.db"), DAY, self.out, *FORMS), 1,
                    "none.db isn't there")
        self.expect(called("statements", self.file, DAY, self.out, *FORMS, "--names",
                           self.write("names.csv", "account\n")), 12, "line 1: the columns have")
        self.assertFalse(self.out.exists())

    def test_other_bytes(self) -> None:
        words = ("statements", self.file, DAY, self.out, *FORMS)
        self.assertEqual(called(*words)[0], 0)
        (self.out / "anna-1.json").write_bytes(b"{}\n")
        self.expect(called(*words), 1, "anna-1.json is there already with other bytes")

    def test_without_the_model(self) -> None:
        """The companion alone says what lacks; ops/install puts the model beside it."""
        env = dict(os.environ, BILLCTL=PROGRAM, PYTHONPATH="")
        os.mkdir(self.at("ops"))
        for name in ("ledger", "companion"):
            subprocess.run(["cp", "-r", os.path.join(TOP, "ops", name), self.at("ops")], check=True)
        words = [sys.executable, self.at("ops", "ledger"), "statements", self.file, DAY,
                 str(self.out), "--form", "json"]
        done = subprocess.run(words, capture_output=True, text=True, env=env)
        self.assertEqual(done.returncode, 12, done)
        self.assertIn("(audit/ of the repository) isn't here", done.stderr)
        root = self.at("root")
        subprocess.run([os.path.join(TOP, "ops", "install"), "--root", root], env=env, check=True,
                       capture_output=True)
        words[1] = os.path.join(root, "opt/billctl/ops/ledger")
        del env["BILLCTL"]
        done = subprocess.run(words, capture_output=True, text=True, env=env)
        self.assertEqual(done.returncode, 0, done)


SHEET = """Card,Ref,Type,Booked,Amount,Merchant,City
anna,c1,charge,2024-02-03,12.50,Book Shop,Bath
ben,c1,charge,2024-02-03,4.00,"=1+1 <b>",
ben,p1,payment,2024-02-04,1.00,,
"""
COLUMNS = """note = ["Merchant", "City"]
[columns]
account = "Card"
key = "Ref"
kind = "Type"
day = "Booked"
cents = "Amount"
[always]
place = "purchase"
minute = "600"
channel = "online"
"""
KEPT = 'account,key,text\nanna,c1,"Book Shop, Bath"\nben,c1,=1+1 <b>\n'


class Notes(Case):
    def convert(self, sheet: str = SHEET, columns: str = COLUMNS) -> Told:
        return ledger("convert", self.write("columns.toml", columns), "--notes",
                      self.at("notes.csv"), given=sheet)

    def notes(self) -> str:
        return Path(self.at("notes.csv")).read_text(encoding="utf-8")

    def test_written(self) -> None:
        done = self.convert()
        self.expect(done, 0, "2 notes in")
        self.assertIn("anna,c1,charge,2024-02-03,purchase,1250,,\n", done[1])
        self.assertEqual(self.notes(), KEPT)

    def test_example(self) -> None:
        folder = os.path.join(TOP, "examples", "sheet")
        sheet = Path(folder, "bank.csv").read_bytes()
        done = ledger("convert", os.path.join(folder, "columns.toml"), "--notes",
                      self.at("notes.csv"), given=sheet)
        self.assertEqual(done[0], 0, done)
        self.assertEqual(self.notes(), "account,key,text\nanna,b-1001,Baker\n"
                                       "ben,b-1002,Main Street; north\n")

    def test_again_and_more(self) -> None:
        self.convert()
        self.assertEqual(self.convert()[0], 0)
        self.assertEqual(self.notes(), KEPT)
        more = SHEET.splitlines()[0] + "\ncora,c9,charge,2024-02-03,1.00,Kiosk,Rye\n"
        self.assertEqual(self.convert(more)[0], 0)
        self.assertEqual(self.notes(), KEPT + 'cora,c9,"Kiosk, Rye"\n')

    def test_refused(self) -> None:
        self.convert()
        self.expect(self.convert(SHEET.replace("Bath", "Rye")), 10, "has another note of anna c1")
        self.assertEqual(self.convert(SHEET.replace("Bath", "Rye"))[1], "")
        self.expect(self.convert(columns=COLUMNS.partition("\n")[2]), 10, "has no `note`")
        self.expect(self.convert(columns=COLUMNS.replace('["Merchant", "City"]', '"City"')), 10,
                    "note is a list")
        self.expect(self.convert(columns=COLUMNS.replace("City", "Town")), 10,
                    "0 columns 'Town', for note")
        self.assertEqual(self.notes(), KEPT)
        self.write("notes.csv", "account,text\n")
        self.expect(self.convert(), 10, "notes.csv, line 1: the columns have to be")
        self.write("notes.csv", NOTES + "anna,c1\n")
        self.expect(self.convert(), 10, "notes.csv, line 2: it is no account, key and text")
        self.write("notes.csv", b"account,key,text\nanna,c1,\xff\n")
        self.expect(self.convert(), 10, "no CSV in UTF-8")


class Nights(Home):
    def setUp(self) -> None:
        super().setUp()
        self.begin(OPENING)
        self.put("columns/bank.toml", COLUMNS)
        self.put("issuer.toml", toml())
        self.put("names.csv", NAMES + "anna,Anna Lee,5 Hill Road,,,\nben,Ben Day,1 Quay,,,\n")
        self.put("night.toml", 'forms = ["json", "html"]\nissuer = "issuer.toml"\n'
                               'names = "names.csv"\nnotes = "notes.csv"\n')

    def put(self, name: str, text: str) -> None:
        """A file below the home; the inbox is named."""
        path = os.path.join(self.home, name)
        os.makedirs(os.path.dirname(path), exist_ok=True)
        with open(path, "w", encoding="utf-8", newline="") as file:
            file.write(text)

    def counting(self) -> str:
        """A program that notes its words, so that its loads can be counted."""
        path = self.write("counting", f"#!/bin/sh\necho \"$@\" >>{self.at('calls')}\n"
                                      f"exec {PROGRAM} \"$@\"\n")
        os.chmod(path, 0o755)
        return path

    def calls(self) -> list[str]:
        with open(self.at("calls"), encoding="utf-8") as file:
            return file.read().splitlines()

    def test_night(self) -> None:
        """Statements in the forms that are wanted, with notes of the bank's sheet; two loads of
        the ledger in all: the server's, and the model's own reading."""
        self.put("inbox/bank.csv", SHEET)
        done = self.night(DAY, "--program", self.counting())
        self.assertEqual(done[0], 0, done)
        self.assertEqual(self.names("statements", DAY), [
            "anna-1.html", "anna-1.json", "anna-1.txt", "ben-1.html", "ben-1.json", "ben-1.txt",
            "manifest.csv", "work.txt"])
        self.assertEqual(self.text("notes.csv"), KEPT)
        page = self.text("statements", DAY, "ben-1.html")
        self.assertIn("=1+1 &lt;b&gt;", page)
        self.assertIn("Ben Day", page)
        report = self.text("reports", f"{DAY}.txt")
        self.assertIn("  2 notes in notes.csv\n", report)
        self.assertRegex(report, r"\npages: 2 statements as json, html: 4 files, [0-9,]+ bytes; "
                                 rf"statements/{DAY}/manifest.csv\n")
        change = run([self.file, "trial", "2011-01-01", "2024-02-05"]).lines[-1].split()[1]
        self.assertIn(f"  new balances {change}, minimum payments ", report)
        self.assertIn(f"  change of trial up to the closings of 2 statements: {change}, the same\n",
                      report)
        own = [call for call in self.calls() if call.startswith(f"{self.file} ")]
        self.assertEqual([call.split()[1] for call in own], ["serve"])

    def test_again(self) -> None:
        """A night that is called again changes nothing; one that was stopped goes on."""
        self.put("inbox/bank.csv", SHEET)
        self.assertEqual(self.night(DAY)[0], 0)
        before = self.listing()
        self.assertEqual(self.night(DAY)[0], 0)
        self.assertEqual(self.listing(), before)
        for name in (f"reports/{DAY}.txt", f"statements/{DAY}/ben-1.json",
                     f"statements/{DAY}/manifest.csv"):
            os.remove(os.path.join(self.home, name))
        self.put(f"statements/{DAY}/.ben-1.json.part", "{")
        self.assertEqual(self.night(DAY)[0], 0)
        after = self.listing()
        self.assertEqual({name: data for name, data in after.items() if "statements" in name},
                         {name: data for name, data in before.items() if "statements" in name})

    def test_more_of_the_day(self) -> None:
        """Statements that a second night of the day issued have a manifest of their own."""
        self.assertEqual(self.night(DAY)[0], 0)
        first = self.text("statements", DAY, "manifest.csv")
        self.put("inbox/late.txt", "open cora o 2024-01-06 5 1999 2499 2199 2999 2500 100\n")
        self.assertEqual(self.night(DAY)[0], 0)
        self.assertEqual(self.text("statements", DAY, "manifest.csv"), first)
        second = self.text("statements", DAY, "manifest-2.csv").splitlines()
        self.assertTrue(set(first.splitlines()[:-1]) < set(second))
        self.assertEqual(len(second), 8)
        self.assertIn("manifest-2.csv", self.text("reports", f"{DAY}-2.txt"))

    def test_refused(self) -> None:
        """What is wrong in the issuer's files stops the night at its pages; it goes on later."""
        self.put("names.csv", NAMES + "anna,A,,,,\nanna,B,,,,\n")
        done = self.night(DAY)
        self.expect(done, 12, "names.csv, line 3: anna has a name on line 2")
        self.assertIn("The rows, the bills and the backup stand", done[2])
        self.assertEqual(self.names("statements", DAY), ["anna-1.txt", "ben-1.txt", "work.txt"])
        self.assertEqual(self.names("reports"), [f"{DAY}.part"])
        self.put("names.csv", NAMES + "anna,A,,,,\nben,B,,,,\n")
        self.assertEqual(self.night(DAY)[0], 0)
        self.assertIn("manifest.csv", self.names("statements", DAY))
        self.put(f"statements/{DAY}/anna-1.json", "{}")
        os.remove(os.path.join(self.home, f"reports/{DAY}.txt"))
        self.expect(self.night(DAY), 1, "anna-1.json is there already with other bytes")

    def test_posts_since(self) -> None:
        """The sums of accounts with a post after their bill aren't held against the entries."""
        self.put("inbox/bank.csv", SHEET)
        self.assertEqual(self.night(DAY)[0], 0)
        self.put("inbox/late.txt", "charge anna late 2024-02-01 purchase 700\n")
        self.assertEqual(self.night(DAY, "--late")[0], 0)
        report = self.text("reports", f"{DAY}-2.txt")
        self.assertIn("  change of trial up to the closings of 1 statement: 3.00, the same; of 1 "
                      "with posts since their bills it may differ\n", report)

    def test_sums_that_differ(self) -> None:
        """A cent more in the entries than in the manifest is found."""
        def more(*given: Any) -> dict[tuple[str, int], int]:
            return {which: cents + 1 for which, cents in owed_at_closings(*given).items()}

        with mock.patch("companion.report.owed_at_closings", more):
            done = self.night(DAY)
        self.expect(done, 1, "not the same")
        self.assertIn("another balance in the manifest than by trial: anna 1, ben 1", done[2])

    def test_reissued(self) -> None:
        """With --reissue pages that were sent stay, and the new ones have a folder of their own."""
        self.assertEqual(self.night(DAY)[0], 0)
        self.put(f"statements/{DAY}/anna-1.json", "{}")
        os.remove(os.path.join(self.home, f"reports/{DAY}.txt"))
        self.assertEqual(self.night(DAY, "--reissue")[0], 0)
        self.assertEqual(self.text("statements", DAY, "anna-1.json"), "{}")
        self.assertEqual(self.names("statements", DAY, "reissued"), [
            "anna-1.html", "anna-1.json", "ben-1.html", "ben-1.json", "manifest.csv"])

    def test_settings(self) -> None:
        for text, said in (('forms = ["doc"]\n', "forms is a list of text, json, html, pdf"),
                           ("forms = []\n", "forms is a list"),
                           ('forms = ["json"]\nname = "a"\n', "'name' is none of forms, issuer"),
                           ("forms = [\n", "isn't understood")):
            self.put("night.toml", text)
            before = self.listing()
            self.expect(self.night(DAY), 10, said)
            after = self.listing()
            after.pop("night.lock", None)
            self.assertEqual(after, before)

    def test_other_note(self) -> None:
        """A note that differs from the one that is there is told, and the first one stays."""
        self.put("notes.csv", NOTES + "anna,c1,Kiosk\n")
        self.put("inbox/bank.csv", SHEET)
        done = self.night(DAY)
        self.expect(done, 1, "1 of them have another text there, which stays: anna c1")
        self.assertIn("anna,c1,Kiosk\n", self.text("notes.csv"))
