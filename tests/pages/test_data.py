"""Every number of every issued statement, over the examples, the demonstration and random inputs.

Each statement as data is held against what the program prints: its text, its repayment and the
entries. Then faults are planted in the data, one after the other, and each has to be found.
"""

import copy
import os
import tempfile
from collections.abc import Iterable
from typing import Any

from audit.demo import demo_requests
from audit.generate import generate
from audit.lines import line_text
from audit.statements.held import Held, Parted
from tests.support.case import Case
from tests.support.case import long as takes_long
from tests.support.program import EXAMPLES, PROGRAM, run

from .schema import faults
from .statements import all_data

SHORT = ("allocation", "disputes", "every-task", "notice", "penalty-twice", "repay",
         "returned-payment", "two-cycles", "official-g18-interest")
SEEDS = range(1, 7)  # those of a whole run are of `python3 -m tests.pages`


def run_sums(one: dict[str, Any]) -> int:
    """The interest of all rates of a balance, less what a limit took off."""
    found: int = sum(run["interest"] for run in one["rates"] + (one["deferred_interest"] or []))
    return found - int(one["interest_not_charged"])


class Numbers(Case):
    def hold(self, what: str, lines: bytes) -> int:
        """All statements of a ledger of these lines. Gives how many there are."""
        with tempfile.TemporaryDirectory() as room:
            file = os.path.join(room, "rows.db")
            run([file, "apply"], lines)
            found = all_data(file)
            for wanted, data in found:
                name = f"{what}, {data['account']} {data['cycle']}"
                self.assertEqual(faults(data), [], name)
                try:
                    Held(PROGRAM, wanted.rows).hold(data)
                except Parted as parted:
                    self.fail(f"{what}: {parted}")
                self.hold_rates(name, data)
            return len(found)

    def hold_rates(self, name: str, data: dict[str, Any]) -> None:
        """Rates have their days and their interest."""
        for one in data["balances"]:
            where = f"{name}, {one['segment']}"
            self.assertEqual(run_sums(one), one["interest"], where)
            days = sum(run["days"] for run in one["rates"])
            self.assertLessEqual(days, data["period"]["days"], where)
            self.assertEqual(one["rates"][-1]["rate"], one["rate"], where)
            borne = sum(run["balance_days"] for run in one["rates"])
            self.assertEqual((2 * borne + data["period"]["days"]) // (2 * data["period"]["days"]),
                             one["average_daily_balance"], where)
        self.assertEqual(data["payment"]["grace_amount"] > data["summary"]["new_balance"]
                         and data["summary"]["new_balance"] >= 0, False, name)

    def examples(self, names: Iterable[str]) -> int:
        return sum(self.hold(name, (EXAMPLES / f"{name}.txt").read_bytes()) for name in names)

    def test_short_examples(self) -> None:
        self.assertGreater(self.examples(SHORT), 10)

    @takes_long
    def test_all_examples(self) -> None:
        names = [path.stem for path in sorted(EXAMPLES.glob("*.txt")) if path.stem not in SHORT]
        self.assertGreater(self.examples(names), 100)

    @takes_long
    def test_demonstration(self) -> None:
        lines = "".join(f"{line_text(r)}\n" for r in demo_requests(1, 5, 6)).encode()
        self.assertEqual(self.hold("demo", lines), 30)

    def drawn(self, seed: int) -> int:
        lines = "".join(f"{line}\n" for line in generate(seed, 150, 3))
        return self.hold(f"seed {seed}", lines.encode())

    @takes_long
    def test_random_inputs(self) -> None:
        self.assertGreater(sum(self.drawn(seed) for seed in SEEDS), 10)


# What is planted: where in the data, and how it is changed.
PLANTED = (
    (("summary", "previous_balance"), 1), (("summary", "earlier_corrections"), -1),
    (("summary", "payments"), 1), (("summary", "interest"), 1), (("summary", "new_balance"), 1),
    (("summary", "in_dispute"), 1), (("summary", "purchases"), 1), (("summary", "fees"), 1),
    (("payment", "minimum"), 1), (("payment", "late", "fee_up_to"), 1),
    (("payment", "late", "rate_up_to"), 1), (("year_to_date", "fees"), 1),
    (("year_to_date", "interest"), 1), (("fees", "total"), 1), (("fees", "each", 0, "cents"), 1),
    (("transactions", 0, "cents"), 1), (("transactions", 0, "post"), 1),
    (("transactions", 0, "parts", 0, "cents"), 1), (("balances", 0, "rate"), 1),
    (("balances", 0, "daily_rate_billionths"), 1), (("balances", 0, "balance"), 1),
    (("balances", 0, "average_daily_balance"), 1), (("balances", 0, "interest"), 1),
    (("repayment", "exact", "minimum_months"), 1), (("repayment", "exact", "minimum_total"), 1),
    (("repayment", "exact", "payment"), 1), (("repayment", "exact", "payment_total"), 1))
WORDS = ((("payment", "due"), "2024-04-02"), (("period", "closing"), "2024-03-04"),
         (("period", "first"), "2024-02-07"), (("transactions", 0, "kind"), "CREDIT"),
         (("balances", 0, "segment"), "cash:3"), (("account",), "other"))


class Planted(Case):
    """Faults in the second statement of the example of a returned payment."""

    def setUp(self) -> None:
        super().setUp()
        run([self.file, "apply"], (EXAMPLES / "returned-payment.txt").read_bytes())
        self.wanted, self.data = all_data(self.file)[1]

    def is_found(self, place: tuple[Any, ...], change: Any) -> bool:
        data = copy.deepcopy(self.data)
        inside: Any = data
        for name in place[:-1]:
            inside = inside[name]
        old = inside[place[-1]]
        inside[place[-1]] = old + change if isinstance(change, int) else change
        self.assertNotEqual(inside[place[-1]], old)
        try:
            Held(PROGRAM, self.wanted.rows).hold(data)
        except Exception as error:
            return "statement" in str(error) or "repay" in str(error)
        return False

    def test_each_is_found(self) -> None:
        Held(PROGRAM, self.wanted.rows).hold(self.data)
        for place, change in (*PLANTED, *WORDS):
            with self.subTest(place=place):
                self.assertTrue(self.is_found(place, change))

    def test_schema_finds(self) -> None:
        self.assertEqual(faults(self.data), [])
        for name in self.data:
            short = {key: value for key, value in self.data.items() if key != name}
            self.assertIn(f"$: {name} is missing", faults(short))
        self.assertTrue(faults(dict(self.data, more=1)))
        self.assertTrue(faults(dict(self.data, cycle=1.5)))
        self.assertTrue(faults(dict(self.data, issued="2024-3-6")))
        self.assertTrue(faults(dict(self.data, currency="EUR")))
