"""Laws that the definitions promise, tried on random histories."""

import random
import unittest

from audit.book import Book, Cycle, Entry, SharedRows
from audit.days import Anchor
from audit.fold import advance, break_days
from audit.generate import generate
from audit.history import corrected as corrected_list
from audit.machine import Machine
from audit.rates import Penalty
from audit.trial import totals
from audit.words import Kept, Request

from .session import Session, machine_of

SEEDS = range(100, 106)
LINES = 260


def machines() -> list[tuple[int, Machine]]:
    """Each seed with its ledger."""
    return [(seed, machine_of(seed, LINES)) for seed in SEEDS]


def shared_of(machine: Machine, until: int | None = None) -> SharedRows:
    """The shared rows, or those for days up to a day."""
    def keep(day: int) -> bool:
        return until is None or day <= until
    return SharedRows(frozenset(h for h in machine.holidays if keep(h)),
                      [r for r in machine.fee_rows if keep(r.day)],
                      [r for r in machine.index_rows if keep(r[0])])


def value(book: Book) -> tuple[list[Entry], list[Cycle], list[Penalty]]:
    return book.entries, book.cycles, book.penalties


def slots(anchor: Anchor, posts: list[Kept],
          shared: SharedRows) -> dict[int, list[tuple[int, int]]]:
    """The corrected list as (number, cents) per day."""
    corrected = corrected_list(anchor, posts, shared.holidays)
    return {day: [(n, corrected.cents[n]) for n in numbers]
            for day, numbers in corrected.by_day.items()}


class Laws(unittest.TestCase):
    def test_past_is_enough(self) -> None:
        """One more post changes no day before the first day on which the lists differ, and rows
        for later days change no day before."""
        compared = 0
        for seed, machine in machines():
            draw = random.Random(seed)
            for account in machine.accounts.values():
                for _ in range(12):
                    n = draw.randint(1, len(account.posts))
                    before, after = account.posts[:n], account.posts[:n + 1]
                    shared = shared_of(machine)
                    a = slots(account.anchor, before, shared)
                    b = slots(account.anchor, after, shared)
                    differ = [d for d in set(a) | set(b) if a.get(d) != b.get(d)]
                    d = min(differ) - 1 if differ else machine.today
                    d = min(d, machine.today)
                    if d < account.anchor.opened:
                        continue
                    issued = {k: r for k, r in account.issued.items() if r.bill <= n}
                    first = advance(Book(account.anchor, before, issued, shared), d)
                    second = advance(Book(account.anchor, after, issued, shared_of(machine, d)), d)
                    self.assertEqual(value(first), value(second))
                    compared += 1
        self.assertGreater(compared, 60)

    def test_issuing_changes_no_past_day(self) -> None:
        """A bill changes no day up to its own."""
        for seed, machine in machines():
            for account in machine.accounts.values():
                bills = [k for k in account.posts if k.post.word == "bill"]
                for bill in random.Random(seed).sample(bills, min(6, len(bills))):
                    shared = shared_of(machine)
                    old = {k: r for k, r in account.issued.items() if r.bill < bill.number}
                    new = {k: r for k, r in account.issued.items() if r.bill <= bill.number}
                    posts = account.posts[:bill.number]
                    first = Book(account.anchor, posts[:-1], old, shared)
                    second = Book(account.anchor, posts, new, shared)
                    self.assertEqual(value(advance(first, bill.accepted)),
                                     value(advance(second, bill.accepted)))

    def test_correction_back(self) -> None:
        """An amendment and one back give every day as before, for the same issued rows."""
        for seed, machine in machines():
            draw = random.Random(seed)
            shared = shared_of(machine)
            for account in machine.accounts.values():
                targets = [k for k in account.posts
                           if k.post.word in ("charge", "credit", "payment")]
                for kept in draw.sample(targets, min(4, len(targets))):
                    day, cents = kept.post.day, kept.post.cents
                    for k in account.posts:
                        if k.post.word == "amend" and k.post.target == kept.number:
                            day, cents = k.post.day, k.post.cents
                    posts, n = account.posts, len(account.posts)
                    there = Request("amend", "x", "1", target=kept.number,
                                    cents=draw.randint(0, 9999),
                                    day=draw.randint(account.anchor.opened, machine.today))
                    back = Request("amend", "x", "2", target=kept.number, cents=cents, day=day)
                    longer = posts + [Kept(n + 1, machine.today, there),
                                      Kept(n + 2, machine.today, back)]
                    books = [advance(Book(account.anchor, p, account.issued, shared),
                                     machine.today) for p in (posts, longer)]
                    self.assertEqual(value(books[0]), value(books[1]))

    def test_issued_caps(self) -> None:
        """Interest of a segment, fee of a due date, minimum and grace amount never rise above the
        issued ones."""
        for seed, machine in machines():
            for account in machine.accounts.values():
                book = machine.book(account)
                for k, row in account.issued.items():
                    now, then = book.cycle(k), row.statement.cycle
                    self.assertLessEqual(now.minimum, then.minimum)
                    self.assertLessEqual(now.grace_amount, then.grace_amount)
                    for s, cents in now.interest.items():
                        self.assertLessEqual(cents, then.interest.get(s, 0))
                    issued_fees = {f.due_cycle: f.cents for f in then.fees}
                    for fee in now.fees:
                        self.assertLessEqual(fee.cents, issued_fees.get(fee.due_cycle, 0))

    def test_statements_add_up(self) -> None:
        """Previous balance, corrections, transactions and interest are the new balance."""
        for seed, machine in machines():
            for name, account in machine.accounts.items():
                cycles = len(machine.book(account).cycles)
                shown = [machine.restated_statement(name, k) for k in range(1, cycles + 1)]
                shown += [row.statement for row in account.issued.values()]
                for s in [statement for statement in shown if statement is not None]:
                    interest = sum(s.cycle.interest.values())
                    self.assertEqual(s.previous + s.corrections + sum(m.cents for m in s.moves)
                                     + interest, s.cycle.new_balance)
                    self.assertEqual(sum(m.cents for m in s.moves if m.kind.startswith("FEE")),
                                     sum(f.cents for f in s.cycle.fees))
                    self.assertTrue(set(s.closing) <= {line.segment for line in s.rates})
                    self.assertEqual(interest, sum(line.interest for line in s.rates))

    def test_trial_balance(self) -> None:
        """Debits less credits up to a day are what was owed at its end; holds even out daily."""
        for seed, machine in machines():
            first = min(a.anchor.opened for a in machine.accounts.values())
            for day in range(first, machine.today + 1, 23):
                sums = totals(machine, first, day)
                owed = sum(machine.book(a).owed_at(day) for a in machine.accounts.values())
                self.assertEqual(sum(d - c for d, c in sums.values()), owed)
                debits, credits = totals(machine, day, day)["hold"]
                self.assertEqual(debits, credits)

    def test_break_days(self) -> None:
        """Entries come on break days alone, and a rate changes on a break day or the day after."""
        for seed, machine in machines():
            for account in machine.accounts.values():
                book = machine.book(account)
                a = account.anchor
                breaks = break_days(book, a.opened, machine.today)
                self.assertTrue({e.day for e in book.entries} <= breaks)
                for s in book.segments:
                    for x in range(a.opened + 1, machine.today + 1):
                        if x not in breaks and x - 1 not in breaks:
                            self.assertEqual(book.rates.rate_on(s.number, x),
                                             book.rates.rate_on(s.number, x - 1))

    def test_loading_gives_the_state_again(self) -> None:
        """Replies are the same from a loaded machine, and a kept row is one new request."""
        lines = generate(77, 300, accounts=2)
        whole = Session()
        kept: list[tuple[int, bytes]] = []
        first = whole.apply(*lines)
        second = []
        for start in range(0, 300, 100):
            part = Session(kept)
            second += part.apply(*lines[start:start + 100])
            kept = list(part.keeper.rows)
        self.assertEqual(["bad" if r.startswith("bad") else r for r in first],
                         ["bad" if r.startswith("bad") else r for r in second])
        self.assertEqual(whole.keeper.rows, kept)

    def test_entries_stay_within_the_limit(self) -> None:
        """At most 65 entries per post and per closing, a late fee counted with its closing."""
        for seed, machine in machines():
            for account in machine.accounts.values():
                book = machine.book(account)
                self.assertLessEqual(len(book.entries),
                                     65 * (len(account.posts) + len(book.cycles)))


if __name__ == "__main__":
    unittest.main()
