"""Explanations of a balance and of what later posts changed: the checker finds nothing."""

from pathlib import Path

from audit.days import closing
from audit.explaining.changes import Changes
from audit.explaining.owed import Owed
from tests.explain.common import LATE_TWICE, PART_PAID, RETURNED, ExplainCase, faults_of
from tests.explain.test_numbers import SHORT, demonstration, generated
from tests.explain.test_texts import CORRECTION
from tests.support.program import EXAMPLES

SEEDS = 4
OWN = {"returned": RETURNED, "part-paid": PART_PAID, "late twice": LATE_TWICE}


class Others(ExplainCase):
    def ledgers(self) -> dict[str, str]:
        """Ledgers by name."""
        def lines(path: Path) -> str:
            return path.read_text(encoding="utf-8")
        found = dict(OWN, demonstration=demonstration(2, 6))
        found |= {name: lines(EXAMPLES / f"{name}.txt") for name in SHORT}
        found |= {f"generated {seed}": generated(seed) for seed in range(1, SEEDS + 1)}
        found["corrected"] = lines(EXAMPLES / "two-years.txt") + CORRECTION.decode()
        return found

    def test_balance(self) -> None:
        """Of each account on the opening day, the day after each closing, and today."""
        count = 0
        for ledger, lines in self.ledgers().items():
            for name, machine, cycles in self.accounts(lines):
                account, rows = machine.accounts[name], cycles.rows
                last = machine.closed_cycles(account)
                ends = [(closing(account.anchor, k) or 0) + 1 for k in range(1, last + 1)]
                for day in {account.anchor.opened, *ends[:3], *ends[-2:], machine.today}:
                    with self.subTest(f"{ledger}, {name}, {day}"):
                        document = Owed(machine, rows, day).document
                        self.assertEqual(faults_of(document.json()), [])
                        count += sum(node.how == "shown" for node in document.nodes)
        self.assertGreater(count, 20)  # numbers of issued statements that a balance hangs on

    def test_changes(self) -> None:
        """Of each issued statement."""
        steps = 0
        for ledger, lines in self.ledgers().items():
            for name, machine, cycles in self.accounts(lines):
                for k in list(machine.accounts[name].issued)[:4]:
                    with self.subTest(f"{ledger}, {name}, {k}"):
                        changes = Changes(machine, cycles.rows, k)
                        self.assertEqual(faults_of(changes.json()), [])
                        steps += len(changes.steps)
        self.assertGreater(steps, 5)
