"""The statement of a closed cycle: the cycle with its sheet."""

from typing import NamedTuple

from .book import Book, Cycle
from .days import cycle_start, due_day, ymd
from .fees import fees_sum, row_in_force
from .interest import deferred_interest
from .payments import has_due_payment

_MOVES = {"charge": "CHARGE", "credit": "CREDIT", "payment": "PAYMENT", "return": "RETURN",
          "refund": "REFUND"}


class Move(NamedTuple):
    """A transaction: one post, or one fee."""
    day: int
    kind: str
    post: int
    cents: int


class RateLine(NamedTuple):
    segment: int
    name: str
    rate: int
    average: int
    interest: int


class DeferredLine(NamedTuple):
    segment: int
    name: str
    balance: int
    accrued: int
    ends: int


class Statement(NamedTuple):
    """Every number, day and name that the text shows, and what `repay` reads."""
    cycle: Cycle
    issue: int
    due_payment: bool
    previous: int
    corrections: int
    moves: list[Move]
    fees_year: int
    interest_year: int
    rates: list[RateLine]
    deferred: list[DeferredLine]
    late_up_to: int
    penalty: int
    closing: dict[int, int]
    floor: int
    pct: int


def moves_of(book: Book, cycle: Cycle) -> list[Move]:
    """The transactions of a cycle in the order of the fold.

    A transaction's sum is that of the post's entries of its kind.  Interest
    and holds are no transactions.
    """
    sums: dict[tuple[int, str, int], int] = {}
    for entry in book.entries:
        if cycle.first <= entry.day <= cycle.closing:
            if entry.kind == "fee":
                kind = "FEE-LATE" if entry.post == 0 else "FEE-RETURN"
            elif entry.kind in _MOVES:
                kind = _MOVES[entry.kind]
            else:
                continue
            place = (entry.day, kind, entry.post)
            sums[place] = sums.get(place, 0) + entry.cents
    return [Move(day, kind, post, cents) for (day, kind, post), cents in sums.items() if cents]


def rate_lines(book: Book, cycle: Cycle) -> list[RateLine]:
    """One line per segment with a balance above 0 at the end of some day of the cycle."""
    lines = []
    for segment in book.segments[2:]:
        if any(book.balance_at(segment.number, day) > 0
               for day in range(cycle.first, cycle.closing + 1)):
            lines.append(RateLine(segment.number, segment.name,
                                  book.rates.rate_on(segment.number, cycle.closing),
                                  cycle.average.get(segment.number, 0),
                                  cycle.interest.get(segment.number, 0)))
    return lines


def deferred_lines(book: Book, cycle: Cycle) -> list[DeferredLine]:
    """One line per deferred balance above 0 that is in its period at the closing."""
    lines = []
    for segment in book.segments[2:]:
        s, day = segment.number, cycle.closing
        balance = book.balance_at(s, day)
        if segment.sort == "deferred" and segment.in_period(day) and balance > 0:
            lines.append(DeferredLine(s, segment.name, balance, deferred_interest(book, s, day),
                                      segment.end_day))
    return lines


def previous_balance(book: Book, k: int, owed_before: int) -> int:
    """The new balance of the issued statement before; without one, what was owed at that
    closing."""
    row = book.issued.get(k - 1)
    return owed_before if row is None else row.statement.cycle.new_balance


def closing_amounts(book: Book, cycle: Cycle) -> dict[int, int]:
    """What is owed on each segment at the closing."""
    found = {s.number: book.balance_at(s.number, cycle.closing) for s in book.segments[2:]}
    return {s: cents for s, cents in found.items() if cents > 0}


def late_up_to(book: Book, issue: int) -> int:
    """The repeat amount of the fee row in force on the day of issue, 0 without one."""
    row = row_in_force(book.shared.fees, issue)
    return row.repeat if row else 0


def statement_of(book: Book, k: int, issue: int, due_payment: bool) -> Statement:
    """The statement of cycle k, closed in the book, issued on a day."""
    cycle = book.cycle(k)
    owed_before = book.owed_at(cycle_start(book.anchor, k) - 1)
    previous = previous_balance(book, k, owed_before)
    year = ymd(cycle.closing)[0]
    same_year = [c for c in book.cycles[:k] if ymd(c.closing)[0] == year]
    return Statement(
        cycle=cycle, issue=issue, due_payment=due_payment, previous=previous,
        corrections=owed_before - previous, moves=moves_of(book, cycle),
        fees_year=sum(fees_sum(c.fees) for c in same_year),
        interest_year=sum(sum(c.interest.values()) for c in same_year),
        rates=rate_lines(book, cycle), deferred=deferred_lines(book, cycle),
        late_up_to=late_up_to(book, issue), penalty=book.terms.penalty,
        closing=closing_amounts(book, cycle), floor=book.terms.floor, pct=book.terms.pct)


def restated(book: Book, k: int) -> Statement:
    """Cycle k as recomputed now, with the day on which its bill issued it.

    Without a bill that is the due date, so it asks for no payment.
    """
    row = book.issued.get(k)
    issue = row.day if row else due_day(book.anchor, k)
    return statement_of(book, k, issue, has_due_payment(book, k))
