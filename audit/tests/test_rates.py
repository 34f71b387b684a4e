"""Worked rates: notices, lowered rates, penalty rates, plans, variable rates."""

import unittest

from audit import days
from audit.days import Anchor, day_of, day_text
from audit.machine import Machine

from .session import Session, billed, request_of, started


class Notices(unittest.TestCase):
    def begun(self) -> Session:
        p = started()
        self.assertEqual(p.apply("roll 2025-01-11", "roll 2025-01-10", "roll 2025-03-16"),
                         ["no 28 RollTooFar", "ok", "ok"])
        self.assertEqual(p.last("notice a n0 2025-03-01 purchase 2499 2025-04-14"),
                         "no 15 NoticeTooShort 2025-04-15")
        self.assertEqual(p.last("notice a n1 2025-03-01 purchase 2499 2025-04-15"), "ok 2")
        return p

    def test_15_days(self) -> None:
        p = self.begun()
        self.assertEqual(p.last("notice a n2 2025-03-10 purchase 2599 2025-05-01"),
                         "no 17 NoticePending 2025-04-15")
        p.apply("charge a c1 2025-03-15 purchase 100", "charge a c2 2025-03-16 purchase 200")
        self.assertEqual(p.text("export", "a"),
                         "day,segment,kind,post,cents\n"
                         "2025-03-15,purchase:2,charge,3,100\n"
                         "2025-03-16,purchase:5,charge,4,200\n")
        self.assertEqual(p.rate("a", 5, "2025-03-16"), 1999)
        self.assertEqual(p.rate("a", 5, "2025-04-14"), 1999)
        self.assertEqual(p.rate("a", 5, "2025-04-15"), 2499)

    def test_first_year(self) -> None:
        self.assertEqual(started().last("notice a f1 2024-01-10 purchase 2499 2024-03-01"),
                         "no 16 FirstYear 2025-01-06")

    def test_lowered(self) -> None:
        p = self.begun()
        self.assertEqual(p.last("charge a c1 2025-03-15 purchase 100",
                                "charge a c2 2025-03-16 purchase 200",
                                "lower a l1 2025-03-16 purchase 1599"), "ok 5")
        self.assertEqual([p.rate("a", s, "2025-03-16") for s in (2, 5)], [1599, 1599])
        self.assertEqual([p.rate("a", s, "2025-04-15") for s in (2, 5)], [1599, 2499])
        self.assertEqual(p.last("review a v1 2025-03-16 keep"), "no 24 NothingToReview")


class Penalties(unittest.TestCase):
    def begun(self) -> Session:
        p = billed(None)
        p.apply("roll 2024-03-02")
        self.assertEqual(p.last("roll 2024-04-30", "penalty a q1"), "no 18 NotDelinquent")
        self.assertEqual(p.last("roll 2024-05-01", "penalty a q1"), "ok 4")
        return p

    def test_begins_and_is_undone(self) -> None:
        p = self.begun()
        p.apply("roll 2024-07-01")
        self.assertEqual(p.rate("a", 2, "2024-06-14"), 1999)
        self.assertEqual(p.rate("a", 2, "2024-06-15"), 2999)
        self.assertEqual(p.last("payment a p1 2024-04-25 600 online 2500"), "ok 5")
        for day in ("2024-06-15", "2024-07-01"):
            self.assertEqual(p.rate("a", 2, day), 1999)

    def cured(self, missed: int | None) -> Session:
        """All due dates from 2024-07-01 to 2024-12-01 are met, but for the missed one."""
        p = self.begun()
        a = Anchor(day_of("2024-01-06"), 5)
        for k in range(5, 12):
            p.apply(f"roll {day_text(days.closing_day(a, k) + 1)}", f"bill a b{k} {k}")
            day = day_text(days.closing_day(a, k) + 3)
            if days.due(a, k) != missed:
                minimum = p.cycles("a")[k - 1].minimum
                p.apply(f"roll {day}", f"payment a p{k} {day} 600 online {minimum}")
        p.apply("roll 2025-01-10")
        return p

    def test_ends(self) -> None:
        p = self.cured(None)
        self.assertEqual([p.rate("a", 2, d) for d in ("2024-12-01", "2024-12-02")], [2999, 1999])

    def test_stays(self) -> None:
        p = self.cured(day_of("2024-11-01"))
        self.assertEqual([p.rate("a", 2, d) for d in ("2024-12-02", "2025-01-10")], [2999, 2999])


class Plans(unittest.TestCase):
    PLAN = "plan a pl 2024-01-10 deferred 2499 2024-08-05 2499"

    def test_deferred_interest(self) -> None:
        p = started()
        self.assertEqual(p.last("plan a p0 2024-01-10 deferred 2499 2024-08-04 2499"),
                         "no 10 PlanEndNotClosing 2024-08-05")
        self.assertEqual(p.last("plan a p0 2024-01-10 deferred 2499 2024-07-05 2499"),
                         "no 11 PlanTooShort")
        self.assertEqual(p.apply(self.PLAN, "charge a c1 2024-01-10 plan:2 100000",
                                 "roll 2024-07-20", "payment a p1 2024-07-20 600 online 99999",
                                 "roll 2024-08-06", "show a"),
                         ["ok 2", "ok 3", "ok", "ok 4", "ok",
                          "show a 2024-08-06 owed 13146 credit 0 held 0"])
        self.assertIn("2024-08-05,deferred:5,interest,0,13145\n", p.text("export", "a"))
        self.assertEqual(p.apply("amend a m1 4 2024-07-20 100000", "show a"),
                         ["ok 5", "show a 2024-08-06 owed 0 credit 0 held 0"])

    def test_outside_plan(self) -> None:
        p = started()
        p.apply(self.PLAN)
        self.assertEqual(p.last("charge a c2 2024-01-09 plan:2 100"), "no 9 OutsidePlan")
        self.assertEqual(p.last("charge a c3 2024-01-10 plan:9 100"), "no 8 UnknownPlan")

    def test_segments_full(self) -> None:
        p = started()
        replies = p.apply(*(f"plan a pl{i} 2024-01-10 deferred 2499 2024-08-05 2499"
                            for i in range(60)))
        self.assertEqual(replies, [f"ok {n}" for n in range(2, 61)] + ["no 12 SegmentsFull"])

    def test_excess_in_the_last_two_cycles(self) -> None:
        for day, parts in (("2024-06-05", [("cash:3", -20000)]),
                           ("2024-06-06", [("deferred:5", -20000)])):
            p = started()
            p.apply(self.PLAN, "charge a c1 2024-01-10 plan:2 100000",
                    "charge a c2 2024-01-10 cash 50000", "roll 2024-06-06")
            self.assertEqual(p.last(f"payment a p1 {day} 600 online 20000"), "ok 5")
            reached = [line.split(",") for line in p.text("export", "a").splitlines()]
            self.assertEqual([(f[1], int(f[4])) for f in reached if f[2] == "payment"], parts)


class VariableRates(unittest.TestCase):
    """Index rows and the accounts whose rates follow them."""

    def carried_out(self, *lines: str) -> tuple[Machine, list]:
        machine = Machine()
        return machine, [machine.apply(request_of(line)) for line in lines]

    def test_margins_over_the_index(self) -> None:
        machine, replies = self.carried_out(
            "index 2024-01-01 550", "roll 2024-01-10",
            "openvar v o 2024-01-06 5 1449 1949 1649 2999 2500 100",
            "charge v c1 2024-01-10 cash 100000",
            "openvar w o 2023-12-31 5 1449 1949 1649 2999 2500 100",
            "index 2024-01-21 575", "roll 2024-02-06")
        self.assertEqual([(r.number, r.refused and r.refused.name) for r in replies],
                         [(None, None), (None, None), (1, None), (2, None), (None, "NoIndex"),
                          (None, None), (None, None)])
        self.assertEqual(machine.show("v"), (day_of("2024-02-06"), 101860, 0, 0))

    def test_greatest_rate(self) -> None:
        machine, _ = self.carried_out("index 2024-01-01 9000", "roll 2024-01-10",
                                      "openvar v o 2024-01-06 5 1449 1949 1649 2999 2500 100")
        book = machine.book(machine.accounts["v"])
        self.assertEqual(book.rates.rate_on(2, day_of("2024-01-10")), 9999)


if __name__ == "__main__":
    unittest.main()
