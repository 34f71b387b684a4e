"""The words of an explanation: how a value follows, what wasn't taken, which differences between
the rules and the regulation are told."""

from audit.explaining.changes import Changes
from audit.explaining.document import Document
from audit.explaining.how import how_text
from audit.explaining.nodes import Node, Nodes
from audit.explaining.text import text_of
from audit.views import view
from tests.explain.common import LATE_TWICE, PART_PAID, RETURNED, ExplainCase
from tests.explain.test_texts import CORRECTION
from tests.support.program import EXAMPLES

DAY = 19789  # 2024-03-07, as days since 1970-01-01


def leaf(value: int, unit: str = "cents") -> Node:
    return Nodes().leaf("none", value, unit, "a fact")


class How(ExplainCase):
    def test_numbers(self) -> None:
        """An operation on few numbers is written out with them."""
        make = Nodes().make
        whole, part, rest = leaf(100_000), leaf(-40_000), leaf(2_500)
        for how, of, by, said in (
                ("sum", [whole, part], None, "1000.00 minus 400.00"),
                ("sum", [rest, rest, rest], None, "25.00 plus 25.00 plus 25.00"),
                ("sum", [rest] * 4, None, "the sum of these"),
                ("difference", [whole, rest], None, "1000.00 minus 25.00"),
                ("least", [whole, rest], None, "the lesser of 1000.00 and 25.00"),
                ("greatest", [whole, rest, rest], None, "the greatest of 1000.00, 25.00 and 25.00"),
                ("product", [whole], -1, "1000.00 with a minus, as it is taken off"),
                ("at_least_zero", [part], None, "nothing, as this is below 0")):
            with self.subTest(said):
                self.assertEqual(how_text(make(how, of, "a number", by=by)), said)

    def test_rates(self) -> None:
        """19.99 divided by 100 is 0.1999, and a 365th of that 0.000547671 and a bit."""
        make = Nodes().make
        scaled = make("product", [leaf(1999, "basis points")], "", unit="billionths", by=100_000)
        daily = make("floor_divide", [scaled], "", unit="billionths", by=365)
        self.assertEqual(how_text(scaled), "19.99 divided by 100")
        self.assertEqual(how_text(daily), "0.199900000 divided by 365, rounded down")
        self.assertEqual((scaled.value, daily.value), (199_900_000, 547_671))

    def test_truths(self) -> None:
        """What is said is so, also of a truth that is false."""
        make = Nodes().make
        early, late = leaf(DAY, "day"), leaf(DAY + 3, "day")
        for how, of, by, said in (
                ("before", [leaf(1000), leaf(2500)], None, "10.00 is less than 25.00"),
                ("before", [leaf(2500), leaf(2500)], None, "25.00 is at least 25.00"),
                ("at_least", [early, late], None, "2024-03-07 is before 2024-03-10"),
                ("at_least", [late, early], None, "2024-03-10 is 2024-03-07 or later"),
                ("at_least", [leaf(1021, "minutes")], 1021, "17:01 is after 17:00"),
                ("at_least", [leaf(1020, "minutes")], 1021, "17:00 is 17:00 or earlier"),
                ("before", [leaf(1020, "minutes")], 1021, "17:00 is 17:00 or earlier"),
                ("at_least", [leaf(24, "days")], 21, "24 days are at least 21"),
                ("equal", [leaf(0, "count")], 0, "there is none")):
            with self.subTest(said):
                self.assertEqual(how_text(make(how, of, "a truth", by=by)), said)


class Said(ExplainCase):
    def document(self, lines: str, k: int) -> Document:
        _, _, cycles = next(self.accounts(lines))
        return cycles.issued(k)

    def test_not_taken(self) -> None:
        """At the first amount the repeat one is marked, and the other way round."""
        for lines, k, taken, other in ((RETURNED, 2, "first", "repeat"),
                                       (LATE_TWICE, 5, "repeat", "first")):
            with self.subTest(taken):
                text = " ".join(text_of(self.document(lines, k), "fee").split())
                self.assertIn(f"(not taken: {other} amount of the fee table on ", text)
                self.assertNotIn(f"(not taken: {taken} amount", text)
                self.assertIn("before it?", text)

    def test_minimum_part(self) -> None:
        """The regulation's order is cited for what is above the minimum part alone, and the choice
        that it leaves is said."""
        nodes = {node["what"]: node for node in self.document(PART_PAID, 2).json()["nodes"]}
        name = "payment, post 4 (key p, entered 2024-02-20)"
        part = nodes[f"minimum part of the {name}"]
        self.assertNotIn("section", part)
        self.assertIn("the issuer may choose", part["said"])
        self.assertIn("sets the order only for what is above it (.53(a), ", part["said"])
        self.assertIn("the lowest rate first", part["said"])
        for what in (f"rest of the {name}, above its minimum part",
                     f"the whole {name}, for purchase:2", f"{name} on purchase:2"):
            self.assertEqual(nodes[what]["section"], "12 CFR 1026.53(a)", what)

    def test_merchants_credit(self) -> None:
        """What of a merchant's credit its own place doesn't take goes as the excess of a payment
        does, by the ledger's choice: no section is cited."""
        lines = RETURNED.split("roll 2024-02-06")[0] + """charge a d 2024-01-10 cash 20000
charge a e 2024-01-10 transfer 30000
credit a k 2024-01-10 purchase 110000
roll 2024-02-06
bill a b1 1
"""
        _, _, cycles = next(self.accounts(lines))
        parts = [node for node in cycles.issued(1).json()["nodes"]
                 if "credit, post 5" in node["what"] and node["how"] == "least"]
        self.assertEqual([(node["value"], node["what"].split("for ")[1].split(",")[0])
                          for node in parts], [(100_000, "purchase:2"), (10_000, "cash:3")])
        for node in parts:
            self.assertEqual((node["rule"], node.get("section")),
                             ("Allocation / A merchant's credit", None))

    def test_amounts_of_fees(self) -> None:
        """The first amount has a section of its own; the question which one applies has that of the
        repeat amount, which decides it."""
        of_first, of_repeat = (f"12 CFR 1026.52(b)(1)(ii)({letter})" for letter in "AB")
        for lines, k, amount, section in ((RETURNED, 2, "first", of_first),
                                          (LATE_TWICE, 5, "repeat", of_repeat)):
            with self.subTest(amount):
                nodes = {node["what"]: node for node in self.document(lines, k).json()["nodes"]}
                taken = nodes[f"the fee table's {amount} amount"]
                self.assertEqual(taken["section"], section)
                question, = (node for node in nodes.values() if node["id"] == taken["of"][0])
                self.assertEqual(question["section"], of_repeat)

    def test_reason_first(self) -> None:
        """The missed payment stands before the days, with both numbers."""
        text = " ".join(text_of(self.document(PART_PAID, 2), "interest").replace("|", "").split())
        self.assertLess(text.index("because statement 1 wasn't paid in full"),
                        text.index("FROM TO DAYS"))
        self.assertIn("400.00 came in by then, which is less than 1000.00.", text)

    def test_differences(self) -> None:
        """A rule on returned payments is told where one was returned, and on repeat amounts where
        one was charged."""
        rules = {"A payment that is returned after", "A fee at the repeat amount"}
        for lines, k, told in ((RETURNED, 2, {"A payment that is returned after"}),
                               (PART_PAID, 2, set[str]()),
                               (LATE_TWICE, 5, {"A fee at the repeat amount"})):
            text = " ".join(text_of(self.document(lines, k)).split())
            self.assertEqual({words for words in rules if words in text}, told)

    def test_held(self) -> None:
        """A held number is marked, with what it would be; the balance isn't held."""
        lines = (EXAMPLES / "two-years.txt").read_bytes() + CORRECTION
        _, machine, cycles = next(self.accounts(lines))
        text = Changes(machine, cycles.rows, 2).text()
        lines_of = [line.split() for line in text.splitlines()]
        self.assertIn(["0.32", "0.32", "0.45", "interest", "of", "purchase:2,", "held"], lines_of)
        self.assertIn(["30.32", "40.32", "-", "new", "balance"], lines_of)
        self.assertIn("No correction raises", text)
        self.assertIn("No correction raises", text_of(cycles.recomputed(2), "interest"))
        self.assertNotIn("No correction raises", text_of(cycles.issued(2), "interest"))

    def test_interest_of_a_correction(self) -> None:
        """What a correction adds bears interest in the cycles that are issued after it alone, and
        what it takes off lowers that of all; by hand, 10.00 for 31 days bear 0.17."""
        lines = (EXAMPLES / "two-years.txt").read_bytes()
        shown = {}
        for cents in (1000, 2000, 500):
            change = CORRECTION.replace(b"2000", b"%d" % cents) + b"roll 2026-02-06\n"
            _, machine, cycles = next(self.accounts(lines + change))
            shown[cents] = [(view(machine, "restate", "anna", k) or "").splitlines()
                            for k in (2, 24, 25)]
            text = " ".join(Changes(machine, cycles.rows, 2).text().split())
            self.assertEqual("no balance is charged more interest than that statement charged. In "
                             "every other cycle the 10.00 is part of its balance" in text,
                             cents == 2000)
            self.assertEqual("By this post 5.07 less is owed." in text, cents == 500)
            self.assertEqual("Interest is computed anew from this" in text, cents == 500)
        interest = {cents: [line.split()[-1] for cycle in cycles for line in cycle
                            if line.startswith("INTEREST THIS PERIOD")]
                    for cents, cycles in shown.items()}
        self.assertEqual(interest, {1000: ["0.32", "21.74", "22.97"],
                                    2000: ["0.32", "21.74", "23.14"],
                                    500: ["0.25", "21.50", "22.73"]})
