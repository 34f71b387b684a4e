"""Worked payments, fees, interest and grace periods."""

import unittest

from audit import allocation, days
from audit.allocation import Rank
from audit.days import Anchor, day_of, day_text

from .session import Session, billed, started


class MailPayments(unittest.TestCase):
    def begun(self, *more: str) -> Session:
        p = Session()
        p.apply("feerow 2011-01-02 3000 4100", "roll 2024-10-28",
                "open m o 2024-10-01 28 1999 2499 2199 2999 2500 100",
                "charge m c1 2024-10-05 purchase 50000", "roll 2024-10-29", "bill m b1 1", *more)
        return p

    def test_fee_and_mail(self) -> None:
        p = self.begun("roll 2024-11-25")
        self.assertEqual(p.owed("m"), 52500)
        self.assertEqual(p.last("payment m p1 2024-11-25 600 mail 2500"), "ok 4")
        self.assertEqual(p.owed("m"), 47500)

    def test_online(self) -> None:
        p = self.begun("roll 2024-11-25", "payment m p1 2024-11-25 600 online 2500")
        self.assertEqual(p.owed("m"), 50000)

    def test_holiday(self) -> None:
        p = self.begun("holiday 2024-11-25", "roll 2024-11-25", "roll 2024-11-26",
                       "payment m p1 2024-11-26 600 mail 2500")
        self.assertEqual(p.owed("m"), 47500)


class Parts(unittest.TestCase):
    # segments 2 Purchase, 3 Cash, 4 Transfer, 5 Promo, 6 Deferred
    def parts(self, balances: list[int], last_two: int | None) -> list[tuple[int, int]]:
        ranks = [Rank(r, None) for r in (0, 0, 1999, 2499, 2199, 0)]
        if len(balances) > 6:
            ranks.append(Rank(0, last_two))
        whole = allocation.allocate(balances, ranks, 3500, 40000)
        self.assertEqual(whole, allocation.allocate_by_cents(balances, ranks, 3500, 40000))
        return whole

    def test_least_and_greatest_rate(self) -> None:
        self.assertEqual(self.parts([0, 0, 50000, 30000, 0, 20000], None),
                         [(2, 6500), (3, 30000), (5, 3500)])

    def test_deferred_in_its_last_two_cycles(self) -> None:
        balances = [0, 0, 50000, 30000, 0, 20000, 40000]
        self.assertEqual(self.parts(balances, 1), [(5, 3500), (6, 36500)])
        self.assertEqual(self.parts(balances, None), [(2, 6500), (3, 30000), (5, 3500)])

    def test_minimum_part_begins_after_the_issue(self) -> None:
        for day, parts in (("2024-02-07", [(2, -2500), (3, -7500)]),
                           ("2024-02-06", [(3, -10000)])):
            p = started()
            p.apply("charge a c1 2024-01-10 purchase 50000", "charge a c2 2024-01-10 cash 30000",
                    "roll 2024-02-06", "bill a b1 1", "roll 2024-02-07")
            cycle = p.cycles("a")[0]
            self.assertEqual((cycle.interest, cycle.new_balance, cycle.minimum),
                             ({3: 555}, 80555, 2500))
            self.assertEqual(p.last(f"payment a p1 {day} 600 online 10000"), "ok 5")
            self.assertEqual(p.owed("a"), 70555)
            self.assertEqual([(e.segment, e.cents) for e in p.book("a").entries
                              if e.kind == "payment"], parts)


class CreditBalance(unittest.TestCase):
    def test_over_paid(self) -> None:
        p = started()
        self.assertEqual(
            p.last("charge a c1 2024-01-10 purchase 5000",
                   "payment a p1 2024-01-10 600 online 7000", "show a"),
            "show a 2024-01-10 owed -2000 credit 2000 held 0")
        self.assertEqual(p.apply("charge a c2 2024-01-10 purchase 1500")[0], "ok 4")
        self.assertEqual(p.owed("a"), -500)
        self.assertEqual(p.last("refund a f1 501"), "no 23 RefundTooLarge 500")
        self.assertEqual(p.last("refund a f1 500"), "ok 5")
        self.assertEqual(p.owed("a"), 0)


class Grace(unittest.TestCase):
    def test_part_paid(self) -> None:
        for payment, owed, interest in ((99999, 1, 0), (50000, 50794, 794)):
            p = billed(payment)
            self.assertEqual(p.last("roll 2024-03-06", "show a"),
                             f"show a 2024-03-06 owed {owed} credit 0 held 0")
            self.assertEqual(sum(p.cycles("a")[1].interest.values()), interest)

    def test_paid_in_full(self) -> None:
        p = billed(100000)
        self.assertEqual(p.last("roll 2024-03-06", "show a"),
                         "show a 2024-03-06 owed 0 credit 0 held 0")


class Fees(unittest.TestCase):
    def test_fee_is_at_most_the_minimum(self) -> None:
        p = billed(None)
        self.assertEqual(p.last("roll 2024-03-02", "show a"),
                         "show a 2024-03-02 owed 102500 credit 0 held 0")

    def test_first_amount(self) -> None:
        p = billed(None, "1999 2499 2199 2999 5000 100")
        p.apply("roll 2024-03-06")
        fees = p.cycles("a")[1].fees
        self.assertEqual([(f.cents, f.repeat, f.cycle) for f in fees], [(3000, False, 2)])

    def issued(self, missed: tuple[int, ...]) -> Session:
        """Each statement is billed on the day after its closing, and each later minimum is paid
        exactly but for the missed due dates."""
        p = billed(None, "1999 2499 2199 2999 5000 100")
        a = Anchor(day_of("2024-01-06"), 5)
        for k in range(2, 11):
            p.apply(f"roll {day_text(days.closing_day(a, k) + 1)}", f"bill a b{k} {k}")
            minimum = p.cycles("a")[k - 1].minimum
            if k not in missed:
                day = days.closing_day(a, k) + 5
                p.apply(f"roll {day_text(day)}",
                        f"payment a p{k} {day_text(day)} 600 online {minimum}")
        return p

    def test_repeat_amount(self) -> None:
        fees = {c.number: [f.cents for f in c.fees] for c in self.issued((7,)).cycles("a")}
        self.assertEqual(fees[8], [4100])

    def test_first_amount_again(self) -> None:
        fees = {c.number: [f.cents for f in c.fees] for c in self.issued((8,)).cycles("a")}
        self.assertEqual((fees[8], fees[9]), ([], [3000]))

    def test_returned_payment(self) -> None:
        p = billed(1000)
        self.assertEqual(p.last("roll 2024-03-04", "return a r1 2024-03-04 4"), "ok 5")
        self.assertEqual(p.last("return a r2 2024-03-04 4"), "no 14 AlreadyReturned 5")
        self.assertEqual(p.last("return a r3 2024-03-04 2"), "no 13 WrongEntry 2")
        self.assertEqual(p.last("roll 2024-03-06", "show a"),
                         "show a 2024-03-06 owed 104087 credit 0 held 0")
        cycle = p.cycles("a")[1]
        self.assertEqual(sum(cycle.interest.values()), 1587)
        self.assertEqual([(f.day, f.cents) for f in cycle.fees], [(day_of("2024-03-02"), 2500)])


class Corrections(unittest.TestCase):
    def test_issued_interest_stays(self) -> None:
        p = started()
        p.apply("charge a c1 2024-01-10 cash 100000", "roll 2024-02-06", "bill a b1 1")
        self.assertEqual(p.owed("a"), 101849)
        self.assertEqual(p.last("amend a m1 2 2024-01-10 200000"), "ok 4")
        self.assertEqual(p.owed("a"), 201849)
        self.assertEqual(p.last("amend a m2 2 2024-01-10 50000"), "ok 5")
        self.assertEqual(p.owed("a"), 50924)


if __name__ == "__main__":
    unittest.main()
