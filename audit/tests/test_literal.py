"""The model's shortcuts against the literal definitions, on random small inputs."""

import datetime
import random
import unittest

from audit import allocation, days, repay
from audit.allocation import Rank
from audit.book import Book, Cycle, Entry
from audit.csv_text import read_records
from audit.days import Anchor, day_of
from audit.generate import generate
from audit.lines import Bad, line_text, read_line
from audit.money import daily, half_up, interest, money_text
from audit.payments import counted, has_due_payment, met, paid
from audit.repay import Owing
from audit.rows import decode, encode
from audit.segments import Segment
from audit.words import Request

from .session import EVERY_WORD, Session, machine_of


class Allocation(unittest.TestCase):
    def test_whole_parts_are_the_next_cent_rule(self) -> None:
        draw = random.Random(1)
        for _ in range(2_000):
            n = draw.randint(3, 8)
            balances = [-draw.choice((0, 0, 5)), draw.randint(0, 9)]
            balances += [draw.choice((0, draw.randint(0, 12))) for _ in range(n - 2)]
            ranks = [Rank(draw.choice((0, 100, 200)), draw.choice((None, None, 7, 8)))
                     for _ in range(n)]
            amount = draw.randint(0, 50)
            part = draw.randint(0, amount)
            self.assertEqual(allocation.allocate(balances, ranks, part, amount),
                             allocation.allocate_by_cents(balances, ranks, part, amount))
            first = sorted(draw.sample(range(2, n), draw.randint(0, n - 2)))
            self.assertEqual(allocation.place_credit(balances, ranks, first, amount),
                             allocation.place_credit_by_cents(balances, ranks, first, amount))


class Calendar(unittest.TestCase):
    def test_cycles_are_counted_day_by_day(self) -> None:
        for close in (1, 2, 4, 5, 15, 27, 28):
            for opened in ("2023-12-01", "2024-01-28", "2024-02-29", "2024-03-05"):
                a = Anchor(day_of(opened), close)
                found: list[int] = []
                for day in range(a.opened, a.opened + 800):
                    self.assertEqual(days.cycle_of(a, day), len(found) + 1)
                    if days.ymd(day)[2] == close:
                        found.append(day)
                        k = len(found)
                        self.assertEqual(days.closing(a, k), day)
                        y, m, _ = days.ymd(day)
                        date = (datetime.date(y, m, close + 24) if close <= 4 else
                                datetime.date(y + m // 12, m % 12 + 1, close - 4))
                        self.assertEqual(days.due(a, k), day_of(date.isoformat()))
                        self.assertIn(days.due_day(a, k) - day, range(24, 28))
                        self.assertEqual(days.ymd(days.due(a, k))[2], days.ymd(days.due(a, 1))[2])

    def test_six_months_and_year(self) -> None:
        for day, half, year in (("2024-08-31", "2025-02-28", "2025-08-31"),
                                ("2024-02-29", "2024-08-29", "2025-03-01"),
                                ("2023-08-30", "2024-02-29", "2024-08-30")):
            self.assertEqual(days.six_months_after(day_of(day)), day_of(half))
            self.assertEqual(days.year_after(day_of(day)), day_of(year))

    def test_last_day(self) -> None:
        a = Anchor(day_of("2099-12-01"), 28)
        self.assertEqual(days.closing(a, 37), day_of("2102-12-28"))
        self.assertIsNone(days.due(a, 37))
        self.assertIsNone(days.closing(a, 38))
        self.assertIsNone(days.closing(a, 0))


class Repayment(unittest.TestCase):
    def test_whole_parts_are_the_next_cent_rule(self) -> None:
        draw = random.Random(2)
        for _ in range(40):
            owing = [Owing(draw.randint(1, 400), draw.choice((0, 1999, 9999)))
                     for _ in range(draw.randint(0, 4))]
            floor, pct = draw.choice((0, 5, 50)), draw.choice((0, 100, 10_000))
            self.assertEqual(repay.at_minimum(owing, floor, pct),
                             repay.at_minimum(owing, floor, pct, repay.pay_by_cents))
            plan = repay.in_36(owing)
            payments = range(plan.payment + 1)
            self.assertEqual([repay.clears(owing, p) for p in payments],
                             [False] * plan.payment + [True])
            self.assertEqual(repay.after_months(owing, plan.payment, 36, repay.pay_by_cents),
                             ([0] * len(owing), plan.total))


class Texts(unittest.TestCase):
    def test_money(self) -> None:
        self.assertEqual([money_text(c) for c in (0, -5, 100, -12345)],
                         ["0.00", "-0.05", "1.00", "-123.45"])
        self.assertEqual([half_up(t, 2) for t in (0, 1, 2, 3)], [0, 1, 1, 2])

    def test_bad_fields(self) -> None:
        for line, field in ((b"", 1), (b"rolls 2024-01-01", 1), (b"roll", 2), (b"roll ", 2),
                            (b"roll 2024-1-01", 2), (b"roll 2023-02-29", 2),
                            (b"roll 2100-01-01", 2), (b"roll 2010-12-31", 2),
                            (b"roll 2024-01-01 ", 3), (b"roll  2024-01-01", 2),
                            (b"charge a k 2024-01-01 plan: 5", 5),
                            (b"charge a k 2024-01-01 plan:01 5", 5),
                            (b"charge a k 2024-01-01 cash 05", 6), (b"show", 2), (b"show a b", 3),
                            (b"show -a", 2), (b"show " + b"a" * 33, 2), (b"x" * 513, 0),
                            (b"x" * 512, 1)):
            self.assertEqual(read_line(line), Bad(field), line)

    def test_lines_end(self) -> None:
        long = b"show " + b"a" * 508
        p = Session()
        out = p.text("apply", data=b"show a\r\n\r\nshow a\r\r\n" + long + b"\nshow a\r")
        self.assertEqual(out.splitlines(), ["no 1 UnknownAccount", "bad 2 1", "bad 3 2", "bad 4 0",
                                            "bad 5 2"])

    def test_csv_reader(self) -> None:
        self.assertEqual(read_records(b'a,"b,""c"\r\n\r\n\n"x"y,z"\rq,'),
                         [[b"a", b'b,"c'], [b"xy", b'z"'], [b"q", b""]])
        self.assertEqual(read_records(b""), [])
        self.assertEqual(read_records(b'"open\n'), [[b"open\n"]])


class Spellings(unittest.TestCase):
    def test_rows_and_lines_come_back(self) -> None:
        seen = set()
        for line in generate(5, 250, unknown=EVERY_WORD):
            request = read_line(line.encode(), EVERY_WORD)
            if not isinstance(request, Request):
                continue
            seen.add(request.word)
            self.assertEqual(line_text(request), line)
            for row_format in (1, 2):
                if row_format == 1 and request.word in ("index", "openvar"):
                    continue
                body = encode(request, row_format)
                self.assertEqual(decode(body), request)
                self.assertIsNone(decode(body[:-1]))
                self.assertIsNone(decode(body + b"\0"))
        self.assertGreaterEqual(len(seen), 18)


class Fold(unittest.TestCase):
    """Random histories: the fold against the literal sums of the definitions."""

    def test_sums(self) -> None:
        for seed in range(4):
            machine = machine_of(seed, 120)
            for account in machine.accounts.values():
                book = machine.book(account)
                self.rows(book)
                self.identity(book)
                self.interest(book)
                self.credit_run(book)
                self.fees(book)
                self.payments(book)

    def rows(self, book: Book) -> None:
        """A row is the sum of the entries dated before the day and those of the day but
        interest."""
        last = book.day
        for segment in book.segments[2:]:
            entries = [e for e in book.entries if e.segment == segment.number]
            for x in range(book.anchor.opened, last + 1):
                row = sum(e.cents for e in entries
                          if e.day < x or e.day == x and e.kind != "interest")
                self.assertGreaterEqual(row, 0)
                kept = book.rows[segment.number].get(x, (0, None))
                self.assertEqual(kept[0], row)
                if row:
                    self.assertEqual(kept[1], book.rates.rate_on(segment.number, x))

    def interest(self, book: Book) -> None:
        """Interest of a cycle by the sum over its days, without the kept rows."""
        for c in book.cycles:
            for segment in book.segments[2:]:
                entries = [e for e in book.entries if e.segment == segment.number]
                total = accrual = 0
                for x in range(c.first, c.closing + 1):
                    balance = sum(e.cents for e in entries
                                  if e.day < x or e.day == x and e.kind != "interest")
                    total += self.charged(book, c, segment, entries, x, balance) \
                        * daily(book.rates.rate_on(segment.number, x))
                want = interest(total)
                if segment.sort == "deferred" and segment.ends == c.closing:
                    for x in range(segment.begins, segment.ends + 1):
                        balance = sum(e.cents for e in entries
                                      if e.day < x or e.day == x and e.kind != "interest")
                        accrual += balance * daily(book.posts[segment.post - 1].post.rate)
                    last = sum(e.cents for e in entries if e.day < c.closing
                               or e.day == c.closing and e.kind != "interest")
                    want += interest(accrual) if last > 0 else 0
                row = book.issued.get(c.number)
                if row:
                    want = min(want, row.statement.cycle.interest.get(segment.number, 0))
                self.assertEqual(c.interest.get(segment.number, 0), want)
                self.assertEqual(want, self.posted(book, c, segment))

    def posted(self, book: Book, c: Cycle, segment: Segment) -> int:
        """The interest entries of a closing that belong to a segment; those on Credit are added
        where they stand directly before."""
        if any(e.day == c.closing and e.kind == "interest" and e.segment == 0
               for e in book.entries):
            return c.interest.get(segment.number, 0)
        return sum(e.cents for e in book.entries if e.day == c.closing and e.kind == "interest"
                   and e.segment == segment.number)

    def charged(self, book: Book, c: Cycle, segment: Segment, entries: list[Entry], x: int,
                balance: int) -> int:
        if segment.sort == "deferred" and segment.begins <= x <= segment.end_day:
            return 0
        if segment.sort != "purchase":
            return balance
        k = c.number - 1
        if k == 0:
            return 0
        if not paid(book, k - 1):
            return balance
        if paid(book, k):
            return 0
        due_day = days.due_day(book.anchor, k)
        returned = {p.post.target for p in book.posts if p.post.word == "return"
                    and book.corrected.effective[p.number] <= c.closing}
        brought = -sum(e.cents for e in entries if e.kind in ("payment", "credit")
                       and x < e.day <= due_day and e.post not in returned)
        return max(0, balance - brought)

    def fees(self, book: Book) -> None:
        """Penalty fees by their rules: when, how much, and at most one per due date."""
        fees = [f for c in book.cycles for f in c.fees]
        fees += [f for f in book.fees if f.cycle > len(book.cycles)]
        self.assertEqual(fees, book.fees)
        self.assertEqual(len({f.due_cycle for f in fees}), len(fees))
        for place, f in enumerate(fees):
            k = f.due_cycle
            first = not any(g.kind == f.kind and not g.repeat and 0 <= f.cycle - g.cycle <= 6
                            for g in fees[:place])
            self.assertEqual(f.repeat, not first)
            rows = [r for r in book.shared.fees if r.day <= f.day]
            row = max(enumerate(rows), key=lambda pair: (pair[1].day, pair[0]))[1]
            dues = [c for c in book.cycles if days.due_day(book.anchor, c.number) < f.day]
            last = dues[-1].minimum if has_due_payment(book, dues[-1].number) else 0
            want = min(row.first if first else row.repeat, book.cycle(k).minimum, last)
            issued = book.issued.get(f.cycle)
            if issued:
                want = min(want, sum(g.cents for g in issued.statement.cycle.fees
                                     if g.due_cycle == k))
            self.assertEqual(f.cents, want)
            if f.kind == "late":
                self.assertEqual(f.day, days.due_day(book.anchor, k) + 1)
                self.assertFalse(met(book, k))
            entries = [e for e in book.entries if e.kind == "fee" and e.day == f.day
                       and e.post == f.post]
            self.assertGreaterEqual(sum(e.cents for e in entries), f.cents)

    def payments(self, book: Book) -> None:
        """The parts of payments by the next-cent rule over the entries before them."""
        for p in book.corrected.payments:
            if p.effective > book.day or not 0 < p.cents <= 30_000:
                continue
            places = [i for i, e in enumerate(book.entries)
                      if e.kind == "payment" and e.post == p.number]
            before = book.entries[:places[0]]
            balances = [sum(e.cents for e in before if e.segment == s.number)
                        for s in book.segments]
            k = days.cycle_of(book.anchor, p.effective)
            two = (days.closing(book.anchor, k), days.closing(book.anchor, k + 1))
            ranks = [Rank(book.rates.rate_on(s.number, p.effective),
                          s.ends if s.sort == "deferred" and s.ends in two else None)
                     for s in book.segments]
            left, row = 0, book.issued.get(k - 1)
            if row and days.due_day(book.anchor, k - 1) - row.day >= 21 and row.day < p.effective:
                done = sum(q.cents for q in book.corrected.payments
                           if q.effective > days.closing_day(book.anchor, k - 1)
                           and (q.effective, q.number) < (p.effective, p.number)
                           and not (q.return_number and q.return_effective is not None and
                                    (q.return_effective, q.return_number)
                                    < (p.effective, p.number)))
                left = max(0, book.cycle(k - 1).minimum - done)
            parts = allocation.allocate_by_cents(balances, ranks, min(left, p.cents), p.cents)
            self.assertEqual([(book.entries[i].segment, -book.entries[i].cents) for i in places],
                             parts)

    def credit_run(self, book: Book) -> None:
        """The first day of the present run of days that end with Credit."""
        since = None
        for x in range(book.anchor.opened, book.day + 1):
            if book.balance_at(0, x) == 0:
                since = None
            elif since is None:
                since = x
        self.assertEqual(book.credit_since(), since)

    def identity(self, book: Book) -> None:
        """Owed is charges, interest, fees, refunds and returns less payments and credits; a
        Credit that isn't 0 leaves no balance but Held."""
        size: dict[str, int] = {}
        for e in book.entries:
            size[e.kind] = size.get(e.kind, 0) + e.cents
        self.assertEqual(size.get("hold", 0), 0)
        self.assertEqual(book.owed(), sum(size.values()))
        for kind in ("charge", "interest", "fee", "refund", "return"):
            self.assertTrue(all(e.cents > 0 for e in book.entries if e.kind == kind))
        for kind in ("payment", "credit"):
            self.assertTrue(all(e.cents < 0 for e in book.entries if e.kind == kind))
        if book.balance(0):
            self.assertTrue(all(book.balance(s.number) == 0 for s in book.segments[2:]))
        for c in book.cycles:
            row = book.issued.get(c.number)
            if row:
                issued = row.statement.cycle
                self.assertLessEqual(c.minimum, issued.minimum)
                self.assertLessEqual(c.grace_amount, issued.grace_amount)
                for segment, cents in c.interest.items():
                    self.assertLessEqual(cents, issued.interest.get(segment, 0))

    def test_daily_and_interest(self) -> None:
        self.assertEqual([daily(r) for r in (1999, 2499, 2524)], [547671, 684657, 691506])
        self.assertEqual(interest(1_643_013_000_000), 1643)
        self.assertEqual(interest(499_999_999), 0)
        self.assertEqual(interest(500_000_000), 1)

    def test_counted_leaves_out_returned_payments(self) -> None:
        p = Session()
        p.apply("roll 2024-01-10", "open a o 2024-01-06 5 1999 2499 2199 2999 2500 100",
                "payment a p 2024-01-10 600 online 70", "roll 2024-01-12",
                "return a r 2024-01-12 2")
        machine = p.machine
        corrected = machine.book(machine.accounts["a"]).corrected
        day = day_of("2024-01-11")
        self.assertEqual([counted(corrected, day - 3, d) for d in (day, day + 1)], [70, 0])


if __name__ == "__main__":
    unittest.main()
