"""A year of a million accounts (bench/year), here of a few, over the program.

Its table says what was kept and issued, its sums agree, and a row that was changed between the
nights and the trial balance is found, as is a run that was stopped.
"""

import json
import os
import re
import shutil
import subprocess
import sys
import tempfile
import unittest
from typing import Any

from bench.year.accounts import Draw
from bench.year.calendar import HOLIDAYS, calendar_of
from bench.year.load import Shard
from tests.support.case import Case
from tests.support.program import PROGRAM, TOP

SHARDS, ACCOUNTS, MONTHS, SAMPLE = 2, 20, 2, 4
SUMS = re.compile(r"Trial balance of all shards: (.*); sum of the new balances of all accounts: "
                  r"(.*): (.*)\.")

# A program that changes a sound charge of its file to another amount before its trial balance.
CHANGING = """#!{python}
import os, sqlite3, sys
words = sys.argv[1:]
if "trial" in words and "{shard}" in words[0]:
    with sqlite3.connect(words[0]) as base:
        base.execute(
            "UPDATE kept SET body = CAST(substr(body, 1, length(body) - 1) || x'2a' AS BLOB) "
            "WHERE seq = (SELECT max(seq) FROM kept WHERE hex(substr(body, 2, 1)) = '05' "
            "AND hex(substr(body, -1)) != '2A')")
    base.close()
os.execv("{program}", ["{program}", *words])
"""


def year(room: str, *more: str, program: str = PROGRAM) -> subprocess.CompletedProcess[str]:
    """A call whose results and files are in a folder."""
    words = [sys.executable, "-m", "bench", "year", "--shards", str(SHARDS), "--accounts",
             str(ACCOUNTS), "--months", str(MONTHS), "--sample", str(SAMPLE), "--results",
             os.path.join(room, "results"), "--folder", os.path.join(room, "shards"), *more]
    return subprocess.run(words, cwd=TOP, env=dict(os.environ, BILLCTL=program), text=True,
                          capture_output=True)


def results(room: str) -> list[dict[str, Any]]:
    with open(os.path.join(room, "results"), encoding="utf-8") as file:
        return [json.loads(line) for line in file]


class Year(Case):
    whole: subprocess.CompletedProcess[str]
    place: str

    @classmethod
    def setUpClass(cls) -> None:
        cls.place = tempfile.mkdtemp(prefix="billctl-")
        cls.addClassCleanup(shutil.rmtree, cls.place)
        cls.whole = year(cls.place)

    def test_all_agrees(self) -> None:
        """The table has the sums of the shards, and nothing is left of their files."""
        done, found = self.whole, results(self.place)
        self.assertEqual(done.returncode, 0, done.stderr)
        self.assertEqual([line["shard"] for line in found], [0, 1])
        count, rows = ACCOUNTS * MONTHS, sum(line["rows"] for line in found)
        for wanted in (f"| statements issued | {count} | {count} | {SHARDS * count} |",
                       f"| {rows:,} |\n", "| starts of the program | 5 | 5 | 10 |",
                       f"\nShard 0, audited by a sample of {SAMPLE} of its {ACCOUNTS} accounts ",
                       f": the same: accounts {SAMPLE}, statements issued {SAMPLE * MONTHS}, ",
                       f", statements sent {SAMPLE * MONTHS}.\n"):
            self.assertIn(wanted, done.stdout)
        self.assertEqual(os.listdir(os.path.join(self.place, "shards")), [])

    def test_sums_agree(self) -> None:
        found, sums = results(self.place), SUMS.search(self.whole.stdout)
        assert sums
        self.assertEqual(sums[1], sums[2])
        self.assertEqual(sums[3], "the same")
        self.assertEqual(int(re.sub("[.,]", "", sums[1])), sum(line["trial"] for line in found))
        for line in found:
            with self.subTest(shard=line["shard"]):
                self.assertEqual(line["trial"], line["balances"])
                self.assertEqual(set(line["memory"]), {"apply", "serve", "trial"})
                self.assertTrue(all(memory > 0 for memory in line["memory"].values()))
                self.assertTrue(all(taken[0] > 0 for taken in line["seconds"].values()))

    def seeded(self, seed: int, **more: Any) -> str:
        """A file with the results as if they were of another seed, with other figures."""
        lines = []
        for line in results(self.place):
            line["setup"]["seed"] = seed
            lines.append(json.dumps({**line, **more}) + "\n")
        return self.write(f"results-{seed}", "".join(lines))

    def test_table_of_several_calls(self) -> None:
        """Calls side by side give one table; a shard that is wrong is named with its seed."""
        first = os.path.join(self.place, "results")
        done = year(self.room, "--table", self.seeded(2), first)
        self.assertEqual(done.returncode, 0, done.stderr)
        count, rows = ACCOUNTS * MONTHS, sum(line["rows"] for line in results(self.place))
        for wanted in (f"| all shards ({2 * SHARDS}) |",
                       f"| statements issued | {count} | {count} | {2 * SHARDS * count} |",
                       f"| {2 * rows:,} |\n", "\nShard 0 of seed 1, audited by a sample of ",
                       "\nShard 0 of seed 2, audited by a sample of "):
            self.assertIn(wanted, done.stdout)
        self.assertFalse(os.path.exists(self.at("results")))
        wrong = year(self.room, "--table", first, self.seeded(3, trial=1))
        self.assertEqual(wrong.returncode, 1, wrong.stderr)
        self.assertEqual(re.findall("^(.*) disagrees: its trial balance is 0.01,", wrong.stdout,
                                    re.M), ["Shard 0 of seed 3", "Shard 1 of seed 3"])

    def test_table_refuses(self) -> None:
        """The same shard twice, other runs, what is no result, and a file that isn't there."""
        first = os.path.join(self.place, "results")
        other = self.seeded(4)
        with open(other, encoding="utf-8") as file:
            text = file.read().replace(f'"months": {MONTHS}', f'"months": {MONTHS + 1}')
        for files, why in (((first, first), "shard 0 of seed 1 stands twice"),
                           ((first, self.write("months", text)), "are of 2 kinds of runs"),
                           ((self.write("text", "a\n"),), "is no result of a shard"),
                           ((self.at("none"),), "can't be read: No such file or directory")):
            with self.subTest(why=why):
                done = year(self.room, "--table", *files)
                self.assertEqual(done.returncode, 1)
                self.assertIn(why, done.stderr)
                self.assertEqual(done.stdout, "")

    def changing(self, shard: str) -> str:
        """A program that changes a row of this shard's file."""
        program = self.write("billctl", CHANGING.format(python=sys.executable, program=PROGRAM,
                                                        shard=shard))
        os.chmod(program, 0o755)
        return program

    def test_changed_row_is_found(self) -> None:
        """Between the nights and the sum a charge becomes another one: the shard is named with both
        sums, and its files stay."""
        done = year(self.room, program=self.changing("billctl-year-1"))
        self.assertEqual(done.returncode, 1, done.stderr)
        sums = SUMS.search(done.stdout)
        assert sums
        self.assertNotEqual(sums[1], sums[2])
        self.assertEqual(sums[3], "they disagree")
        named = re.findall("^Shard (.*) disagrees: its trial balance is (.*), the sum of its new "
                           r"balances (.*)\.$", done.stdout, re.M)
        self.assertEqual([found[0] for found in named], ["1"])
        self.assertNotEqual(named[0][1], named[0][2])
        self.assertEqual(os.listdir(self.at("shards")), ["billctl-year-1"])
        self.assertIn(f"its files stay in {self.at('shards', 'billctl-year-1')}", done.stderr)

    def test_audit_finds_it(self) -> None:
        """The printed statements aren't those of the changed rows."""
        done = year(self.room, "--shards", "1", "--accounts", str(SAMPLE),
                    program=self.changing("billctl-year-0"))
        self.assertEqual(done.returncode, 1, done.stderr)
        self.assertRegex(done.stdout, r"\nShard 0: its audit found a difference: account c0-\d+, "
                                      "statement ")

    def test_goes_on(self) -> None:
        """A run that was stopped in its second shard keeps the first one, and ends as a run that
        wasn't."""
        first, second = results(self.place)
        with open(os.path.join(self.place, "results"), encoding="utf-8") as file:
            self.write("results", file.readline() + file.readline()[:10])
        again = year(self.room)
        self.assertEqual(again.returncode, 0, again.stderr)
        self.assertNotIn("shard 0, month 1", again.stderr)
        self.assertIn("shard 1, month 1", again.stderr)
        kept, made = results(self.room)
        self.assertEqual(kept, first)
        for name in ("rows", "statements", "trial", "balances"):
            self.assertEqual(made[name], second[name])
        for line in self.whole.stdout.splitlines():
            if not re.search("second|memory", line):
                self.assertIn(line, again.stdout.splitlines())

    def test_other_results_are_refused(self) -> None:
        shutil.copy(os.path.join(self.place, "results"), self.room)
        done = year(self.room, "--seed", "5")
        self.assertEqual(done.returncode, 1)
        self.assertRegex(done.stderr, "line 1 of .* is of .*: call it as before, or name another "
                                      "file by --results\n$")


class Load(unittest.TestCase):
    """What is drawn needs no program."""

    def lines(self, seed: int) -> list[str]:
        shard = Shard(3, ACCOUNTS, seed)
        found = shard.opening()
        for month in (1, 2, 3):
            for night in shard.nights(month):
                found += night.shared + night.records
            found += shard.bills(month)
            for account in shard.accounts:
                account.owed, account.minimum = 30_000, 2_500
        return found

    def test_same_for_the_same_seed(self) -> None:
        self.assertEqual(self.lines(1), self.lines(1))
        self.assertNotEqual(self.lines(1), self.lines(2))

    def test_each_kind_is_there(self) -> None:
        shard, words = Shard(0, 400, 1), set[str]()
        for month in range(1, 7):
            for night in shard.nights(month):
                words.update(line.split(" ")[0] for line in night.shared + night.records)
            for account in shard.accounts:
                account.owed, account.minimum = 30_000, 2_500
        self.assertEqual(words, {"roll", "index", "charge", "credit", "payment", "return",
                                 "dispute", "ack", "resolve"})

    def test_each_closing_day_has_a_shard(self) -> None:
        self.assertEqual({calendar_of(shard).closing_day for shard in range(28)},
                         set(range(1, 29)))

    def test_nights_follow_each_other(self) -> None:
        """Each day from the one after the opening to the one after the last closing, once."""
        calendar = calendar_of(5)
        days = [day for month in range(1, 14) for day in calendar.nights(month)]
        self.assertEqual(days, sorted(set(days)))
        self.assertEqual((days[-1] - days[0]).days + 1, len(days))
        self.assertEqual((days[0] - calendar.opening).days, 1)
        self.assertEqual((days[-1] - calendar.closing(13)).days, 1)

    def test_holidays_are_in_order(self) -> None:
        self.assertEqual(list(HOLIDAYS), sorted(set(HOLIDAYS)))

    def test_draws_are_below(self) -> None:
        draw = Draw("seed")
        self.assertEqual({draw.below(3) for _ in range(100)}, {0, 1, 2})


if __name__ == "__main__":
    unittest.main()
