"""The closing of a cycle: interest, the minimum payment, the grace amount, the cycle's record."""

from .book import Book, Cycle
from .days import closing_day, cycle_start, due_day
from .fees import fees_sum
from .interest import charged, deferred_interest, interest_sum
from .money import CENTS_LIMIT, half_up, portion
from .payments import past_due
from .segments import HELD


def issued_interest(cap: Cycle | None, segment: int, cents: int) -> int:
    """Interest of a segment, taken down to what the issued statement has for it."""
    return cents if cap is None else min(cents, cap.interest.get(segment, 0))


def within_limit(book: Book, segment: int, cents: int) -> int:
    """Interest that takes no balance past its limit."""
    return min(cents, max(0, CENTS_LIMIT - book.balance(segment)))


def post_interest(book: Book, x: int, segment: int, cents: int, cap: Cycle | None) -> int:
    """Enters interest, lowered by both limits, and tells what was entered."""
    cents = issued_interest(cap, segment, within_limit(book, segment, cents))
    book.debit(x, segment, "interest", 0, cents)
    return cents


def closing_interest(book: Book, k: int, x: int, cap: Cycle | None) -> dict[int, int]:
    """The interest of each segment: of the cycle, and what a plan deferred that ends today and
    isn't paid off."""
    posted = {}
    for segment in book.segments[2:]:
        s = segment.number
        posted[s] = post_interest(book, x, s, interest_sum(charged(book, s, k)), cap)
    for segment in book.segments[2:]:
        s = segment.number
        if segment.sort == "deferred" and segment.ends == x and book.balance(s) > 0:
            posted[s] += post_interest(book, x, s, deferred_interest(book, s, x), cap)
    return {s: cents for s, cents in posted.items() if cents}


def average_balances(book: Book, k: int) -> dict[int, int]:
    """Of each segment the balances that bore interest over all days of the cycle, rounded half
    up."""
    days = closing_day(book.anchor, k) - cycle_start(book.anchor, k) + 1
    found = {s.number: half_up(sum(balance for balance, _ in charged(book, s.number, k)), days)
             for s in book.segments[2:]}
    return {s: cents for s, cents in found.items() if cents}


def minimum_of(balance: int, floor: int, pct: int, charges: int, late: int) -> int:
    """A part of the balance with the cycle's interest and fees, at least the floor, and what is
    past due on top; never above the balance."""
    if balance <= 0:
        return 0
    return min(balance, max(floor, portion(balance, pct) + charges) + late)


def later_deferred(book: Book, k: int) -> int:
    """The deferred balances whose period ends after the next closing."""
    return sum(book.balance(s.number) for s in book.segments
               if s.sort == "deferred" and s.end_day > closing_day(book.anchor, k + 1))


def grace_amount(book: Book, k: int) -> int:
    """What has to be paid to keep the grace period: what is owed, without what is in dispute and
    what is deferred for longer."""
    return max(0, book.owed() - book.balance(HELD) - later_deferred(book, k))


def close(book: Book, k: int, x: int) -> None:
    """The end of day x, closing k."""
    cap = book.issued_cycle(k)
    average = average_balances(book, k)
    posted = closing_interest(book, k, x, cap)
    fees = [f for f in book.fees if f.cycle == k]
    new_balance, held = book.owed(), book.balance(HELD)
    minimum = minimum_of(new_balance - held, book.terms.floor, book.terms.pct,
                         sum(posted.values()) + fees_sum(fees), past_due(book, k))
    grace = grace_amount(book, k)
    if cap is not None:
        minimum, grace = min(minimum, cap.minimum), min(grace, cap.grace_amount)
    first = cycle_start(book.anchor, k)
    book.cycles.append(Cycle(
        number=k, first=first, closing=x, due=due_day(book.anchor, k),
        previous=book.owed_at(first - 1), new_balance=new_balance, held=held, interest=posted,
        average=average, fees=fees, minimum=minimum, grace_amount=grace, entries=len(book.entries)))
