"""What the command answers: a program that tells a changed cent, accounts and words that are none,
and files that stay as they are."""

import json
import os
import subprocess
import sys
from pathlib import Path

from tests.explain.common import RETURNED, ExplainCase
from tests.support.program import PROGRAM, TOP


class Command(ExplainCase):
    def explain(self, *words: str, program: str = PROGRAM) -> tuple[str, str, int]:
        """Standard output, standard error and the status of a call."""
        done = subprocess.run([sys.executable, "-m", "audit", "explain", *words, "--program",
                               program], cwd=TOP, capture_output=True, text=True, check=False)
        return done.stdout, done.stderr, done.returncode

    def lying(self, word: str, old: str, new: str) -> str:
        """A program that tells another number in the text of a command."""
        path = Path(self.at("lying"))
        path.write_text(f"#!/bin/sh\ncase $2 in {word}) '{PROGRAM}' \"$@\" | "
                        f"sed 's/{old}/{new}/';; *) exec '{PROGRAM}' \"$@\";; esac\n")
        path.chmod(0o755)
        return str(path)

    def test_changed_cent(self) -> None:
        file = self.ledger(RETURNED)
        for word, old, new in (("statement", "76.27", "76.28"), ("statement", "998.97", "998.96"),
                               ("export", "2500", "2501"), ("repay", "1739.32", "1739.33")):
            with self.subTest(word):
                out, _, status = self.explain(file, "a", "2", "--issued", "--form", "json",
                                              program=self.lying(word, old, new))
                self.assertEqual(status, 1)
                model, program = out.splitlines()[-2:]
                self.assertTrue(model.startswith("  model: ") and old in model, out)
                self.assertTrue(program.startswith("  program: ") and new in program, out)
                self.assertNotIn("nodes", out)

    def test_changed_cent_elsewhere(self) -> None:
        file = self.ledger(RETURNED)
        for words, lie in ((("a", "2"), ("restate", "76.27", "76.28")),
                           (("a", "2", "--changes"), ("restate", "76.27", "76.28")),
                           (("a", "--balance"), ("trial", "change 1040.87", "change 1040.88"))):
            with self.subTest(" ".join(words)):
                out, _, status = self.explain(file, *words, program=self.lying(*lie))
                self.assertEqual((status, out.splitlines()[0][:10]), (1, "different:"))

    def test_checker(self) -> None:
        file = self.ledger(RETURNED)
        statement = self.write("statement.txt", subprocess.run(
            [PROGRAM, file, "statement", "a", "2"], capture_output=True, check=True).stdout)
        earlier = self.write("earlier.txt", subprocess.run(
            [PROGRAM, file, "statement", "a", "1"], capture_output=True, check=True).stdout)
        before = {name: Path(self.at(name)).read_bytes() for name in os.listdir(self.room)
                  if name.startswith(os.path.basename(file))}
        out, _, status = self.explain(file, "a", "2", "--issued", "--form", "json")
        self.assertEqual(status, 0)
        self.assertEqual(out, self.explain(file, "a", "2", "--issued", "--form", "json")[0])
        explanation = self.write("explanation.json", out)
        self.assertEqual(self.recheck(explanation, "--file", file, "--statement", statement), 0)
        self.write("statement.txt", Path(statement).read_text().replace("76.27", "76.26"))
        self.assertEqual(self.recheck(explanation, "--statement", statement), 1)
        self.assertEqual(self.recheck(explanation, "--statement", earlier), 1)  # not explained
        document = json.loads(out)
        document["rows"][7][1] = document["rows"][7][1][:-2] + "e9"
        self.assertEqual(self.recheck(self.write("other.json", json.dumps(document)), "--file",
                                      file), 1)
        self.assertEqual(self.recheck(self.write("none.json", "{}")), 2)
        after = {name: Path(self.at(name)).read_bytes() for name in before}
        self.assertEqual(after, before)

    def recheck(self, *words: str) -> int:
        return subprocess.run([sys.executable, "-I", str(TOP / "audit" / "recheck.py"), *words],
                              cwd=self.room, capture_output=True, check=False).returncode

    def test_alone(self) -> None:
        """The checker is one file of at most 200 lines that imports nothing of the repository."""
        text = (TOP / "audit" / "recheck.py").read_text(encoding="utf-8")
        self.assertLessEqual(len(text.splitlines()), 200)
        imported = [line.split()[1] for line in text.splitlines()
                    if line.startswith(("import ", "from "))]
        self.assertLessEqual(set(imported), {"argparse", "datetime", "json", "re", "sqlite3", "sys",
                                             "pathlib", "typing"})

    def test_not_there(self) -> None:
        file = self.ledger(RETURNED)
        for words, said in ((("b", "2"), "no account is named b"),
                            (("a", "3"), "cycle 3 of a isn't closed before 2024-03-06"),
                            (("a", "3", "--issued"), "statement 3 of a wasn't issued"),
                            (("a", "3", "--changes"), "statement 3 of a wasn't issued"),
                            (("a", "--balance", "2024-03-07"), "isn't a day from 2024-01-06"),
                            (("a", "2", "--number", "grave"), "no number of this cycle is named")):
            with self.subTest(" ".join(words)):
                out, told, status = self.explain(file, *words)
                self.assertEqual((out, status), ("", 1))
                self.assertIn(said, told)
        self.assertEqual(self.explain(self.at("none.db"), "a", "2")[2], 2)
        self.assertEqual(self.explain(file, "a")[2], 2)

    def test_whole_file(self) -> None:
        file = self.ledger(RETURNED)
        out, _, status = self.explain(file)
        said = "explained: accounts 1, statements issued 2, recomputed 2, numbers "
        self.assertEqual((out[:len(said)], status), (said, 0))
