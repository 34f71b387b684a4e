"""The texts in examples/explained, byte for byte, and how wide they are."""

import contextlib
import io

from audit.explaining.command import main
from audit.explaining.rules import PARTS, RULES
from tests.explain.common import ExplainCase
from tests.support.program import EXAMPLES, PROGRAM, TOP

FOLDER = EXAMPLES / "explained"
CORRECTION = b"amend anna m1 4 2024-02-10 2000\n"
WIDTH = 100
# text -> the request lines, and the words of the call
TEXTS = {
    "interest": ("statement", "a 2 --issued --number interest"),
    "late-fee": ("statement", "a 2 --issued --number fee"),
    "statement": ("statement", "a 2 --issued"),
    "part-paid": ("part-paid", "a 2 --issued --number interest"),
    "correction": ("", "anna 2 --changes"),
    "balance": ("statement", "a --balance 2024-03-01"),
}


class Texts(ExplainCase):
    def lines(self, name: str) -> bytes:
        if name:
            return (FOLDER / f"{name}.txt").read_bytes()
        return (EXAMPLES / "two-years.txt").read_bytes() + CORRECTION

    def explained(self, file: str, *words: str) -> str:
        out = io.StringIO()
        with contextlib.redirect_stdout(out):
            status = main([file, *words, "--program", PROGRAM])
        self.assertEqual(status, 0, out.getvalue())
        return out.getvalue()

    def test_texts(self) -> None:
        for name, (lines, words) in TEXTS.items():
            with self.subTest(name):
                found = self.explained(self.ledger(self.lines(lines)), *words.split())
                self.assert_same(found, (FOLDER / f"{name}.explained").read_bytes(), name)
                self.assertLessEqual(max(map(len, found.splitlines())), WIDTH)

    def test_values(self) -> None:
        """Worked by hand: 600.00 over 29 days at a daily rate of 0.000547671 is 9.5294754."""
        file = self.ledger(self.lines("part-paid"))
        found = self.explained(file, "a", "2", "--issued", "--number", "interest")
        self.assertIn("INTEREST THIS PERIOD                   9.53\n", found)
        self.assertIn("9.52947540000", found)
        self.assertIn("600.00", found)

    def test_parts(self) -> None:
        """Where the ledger's rules and the regulation part, both sentences are a row of RULES."""
        rows = [row for row in (TOP / "docs" / "RULES.md").read_text(encoding="utf-8").splitlines()
                if row.startswith("| ")]
        for rule, (ledger, regulation) in PARTS.items():
            with self.subTest(rule):
                said = ledger.split(" ", 2)[2].rstrip(".")  # behind its first words
                row, = [row for row in rows if said in row]
                self.assertIn(regulation.rstrip(".") or "| \u2013 |", row)
                self.assertIn(rule, RULES)
