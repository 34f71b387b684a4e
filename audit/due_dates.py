"""The day after a due date: the late fee, and the end of a penalty rate."""

from .book import Book
from .days import cycle_of, due_day
from .fees import Fee, fees_sum, is_charged_for, is_repeat, tier_amount
from .payments import asked, met
from .rates import Penalty
from .segments import newest

CURE = 6  # met due dates in turn that end a penalty rate


def last_asked(book: Book, day: int) -> int:
    """What the last due date before a day asks for."""
    before = [c.number for c in book.cycles if due_day(book.anchor, c.number) < day]
    return asked(book, before[-1]) if before else 0


def issued_fee(book: Book, cycle: int, k: int, cents: int) -> int:
    """A fee for due date k, taken down to what the issued statement of its own cycle has for it."""
    cap = book.issued_cycle(cycle)
    if cap is None:
        return cents
    return min(cents, fees_sum([f for f in cap.fees if f.due_cycle == k]))


def penalty_fee(book: Book, k: int, kind: str, day: int, post: int) -> Fee | None:
    """The fee for due date k: the least of the table's amount, the minimum payment of k and what
    the last due date before the day asks for; None where it is 0 or k has one already."""
    if is_charged_for(book.fees, k):
        return None
    cycle = cycle_of(book.anchor, day)
    repeat = is_repeat(book.fees, kind, cycle)
    amount = min(tier_amount(book.shared.fees, day, repeat), book.cycle(k).minimum,
                 last_asked(book, day))
    cents = issued_fee(book, cycle, k, amount)
    return Fee(k, kind, repeat, cycle, day, cents, post) if cents > 0 else None


def charge_fee(book: Book, fee: Fee | None) -> None:
    """A fee goes to the newest vintage of purchases."""
    if fee is not None:
        book.fees.append(fee)
        book.debit(fee.day, newest(book.segments, "purchase", fee.day), "fee", fee.post, fee.cents)


def late_fee(book: Book, k: int, x: int) -> Fee | None:
    """On the day x after due date k: the fee, where the minimum payment wasn't met."""
    return None if met(book, k) else penalty_fee(book, k, "late", x, 0)


def cured_by(book: Book, penalty: Penalty, k: int, x: int) -> bool:
    """Due date k, the day before x, is the sixth after the penalty began, and all six were met."""
    after = [c.number for c in book.cycles
             if penalty.begins < due_day(book.anchor, c.number) < x]
    return len(after) == CURE and after[-1] == k and all(met(book, j) for j in after)


def after_due(book: Book, k: int, x: int) -> None:
    """The morning of day x after due date k."""
    charge_fee(book, late_fee(book, k, x))
    for place, penalty in enumerate(book.penalties):
        if cured_by(book, penalty, k, x):
            book.penalties[place] = Penalty(penalty.begins, due_day(book.anchor, k))
