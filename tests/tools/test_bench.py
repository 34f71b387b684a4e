"""bench/ prints its table: here over a program that does nothing, with few accounts."""

import os
import shutil
import subprocess
import sys

from tests.support.case import Case
from tests.support.program import TOP

# a measure -> its cases with two accounts, and the unit. Each account has one opening, 24 bills and
# its posts; all share two lines before, and a roll for each day of posts and at the end.
TABLE = {
    "memory": (["3-posts, 2 accounts, 269 lines", "10-posts, 2 accounts, 773 lines",
                "opens, 2 accounts, 4 lines"], "MB"),
    "loads": (["2 accounts, 269 rows"] * 2, "rows/s"),
    "instructions:opens": (["opens, 100,002 lines"], ""),
    "instructions:closed": (["closed, 326 lines"], ""),
}


class Bench(Case):
    def bench(self, *words: str) -> subprocess.CompletedProcess[str]:
        environment = dict(os.environ, BILLCTL=shutil.which("true") or "")
        return subprocess.run([sys.executable, "-m", "bench", *words], cwd=TOP, env=environment,
                              capture_output=True, text=True)

    def test_table(self) -> None:
        """A line a case, with the number of accounts that it is of."""
        done = self.bench(*TABLE, "--count", "2")
        self.assertEqual((done.returncode, done.stderr), (0, ""), done.stdout)
        head, *lines = done.stdout.splitlines()
        self.assertEqual(head.split(), ["measure", "case", "figure", "unit", "note"])
        wanted = [(name.split(":")[0], case, unit) for name, (cases, unit) in TABLE.items()
                  for case in cases]
        self.assertEqual(len(lines), len(wanted), done.stdout)
        for line, (name, case, unit) in zip(lines, wanted):
            with self.subTest(case):
                self.assertEqual(line[:14].rstrip(), name)
                self.assertEqual(line[15:59].rstrip(), case)
                self.assertIn(unit, line[60:])

    def test_measures_are_named(self) -> None:
        done = self.bench("--list")
        self.assertEqual(done.returncode, 0, done.stderr)
        for word in ("instructions:", "memory:", "loads:", "    cases: 3-posts, 10-posts, opens"):
            self.assertIn(word, done.stdout)

    def test_an_unknown_one_is_told(self) -> None:
        done = self.bench("none")
        self.assertNotEqual(done.returncode, 0)
        self.assertIn("there is no measure none; there are ", done.stderr)
