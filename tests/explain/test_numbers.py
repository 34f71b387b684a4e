"""Every number of closed cycles has its node, the checker finds nothing, and the program tells the
same: over the first and last cycles of each account; all by `python3 -m tests.explain`."""

import json

from audit.demo import demo_requests
from audit.generate import generate
from audit.lines import line_text
from audit.recheck import Check
from tests.explain.common import (LATE_TWICE, PART_PAID, PRINTED, RETURNED, RULES, ExplainCase,
                                  missing)
from tests.support.program import EXAMPLES

INPUTS, LINES = 8, 150
SHORT = ("two-cycles", "disputes", "notice", "allocation", "returned-payment", "variable-notice",
         "variable-penalty", "penalty-twice", "repay", "mail-closed-due-date", "five-years",
         "allocation-deferred-last-cycles", "official-52b1ii-late-again", "variable-plan")


def generated(seed: int) -> str:
    return "".join(line + "\n" for line in generate(seed, LINES, 3))


def demonstration(accounts: int, cycles: int) -> str:
    return "".join(line_text(r) + "\n" for r in demo_requests(1, accounts, cycles))


class Numbers(ExplainCase):
    def test_examples(self) -> None:
        for name in SHORT:
            with self.subTest(name):
                lines = (EXAMPLES / f"{name}.txt").read_bytes()
                self.assertGreater(self.sound(lines, whole=False), 10)

    def test_own_ledgers(self) -> None:
        for lines in (RETURNED, PART_PAID, LATE_TWICE):
            self.assertGreater(self.sound(lines, whole=True), 50)

    def test_demonstration(self) -> None:
        self.assertGreater(self.sound(demonstration(2, 6), whole=False), 500)

    def test_planted(self) -> None:
        """Each number that loses its node is found, and a text that isn't explained at all."""
        for _, _, cycles in self.accounts(RETURNED):
            for document in (cycles.recomputed(2), cycles.issued(2)):
                made = json.loads(json.dumps(document.json()))
                self.assertEqual(missing(made), [])
                planted = [n for n in made["numbers"] if "text" in n]
                self.assertGreater(len(planted), 20)
                for number in planted:
                    without = made | {"numbers": [n for n in made["numbers"] if n is not number]}
                    self.assertEqual(len(missing(without)), 1, number)
                    self.assertNotEqual(Check(without, RULES).all(), [], number)
                for name in PRINTED[made["as"]]:
                    texts = {k: text for k, text in made["texts"].items() if k != name}
                    self.assertEqual(missing(made | {"texts": texts}), [f"there is no {name}"])

    def test_generated(self) -> None:
        for seed in range(1, INPUTS + 1):
            with self.subTest(seed):
                self.sound(generated(seed), whole=False)
