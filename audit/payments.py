"""Sums over payments: what a due date asks for, and whether it was met."""

from .book import Book
from .days import closing_day, cycle_of, due_day, is_timely
from .history import Corrected

LATE_DAYS = 60  # after a due date, before an account may bear the penalty rate


def counted(corrected: Corrected, first: int, last: int) -> int:
    """Payments credited on the days from `first` to `last`, less those returned by `last`."""
    return sum(p.cents for p in corrected.payments
               if first <= p.effective <= last
               and not (p.return_effective is not None and p.return_effective <= last))


def counted_since(book: Book, k: int, last: int) -> int:
    """The payments credited after closing k and up to a day."""
    return counted(book.corrected, closing_day(book.anchor, k) + 1, last)


def has_due_payment(book: Book, k: int) -> bool:
    """Statement k was issued, and at least 21 days before its due date."""
    row = book.issued.get(k)
    return row is not None and is_timely(book.anchor, k, row.day)


def asked(book: Book, k: int) -> int:
    """What due date k asks for: the minimum payment, 0 where no payment is due."""
    return book.cycle(k).minimum if has_due_payment(book, k) else 0


def met(book: Book, k: int) -> bool:
    """The payments credited after the closing and up to the due date reach the minimum payment."""
    return counted_since(book, k, due_day(book.anchor, k)) >= asked(book, k)


def paid(book: Book, k: int) -> bool:
    """Payments and merchants' credits up to the due date reach the grace amount.

    Statement 0, and one that asks for no payment, count as paid.
    """
    if k == 0 or not has_due_payment(book, k):
        return True
    first, last = closing_day(book.anchor, k) + 1, due_day(book.anchor, k)
    credits = sum(book.corrected.cents[kept.number] for kept in book.posts
                  if kept.post.word == "credit"
                  and first <= book.corrected.effective[kept.number] <= last)
    return counted(book.corrected, first, last) + credits >= book.cycle(k).grace_amount


def past_due(book: Book, k: int) -> int:
    """At closing k: the minimum payment before less the payments credited since that closing."""
    if k == 1 or not has_due_payment(book, k - 1):
        return 0
    left = book.cycle(k - 1).minimum - counted_since(book, k - 1, closing_day(book.anchor, k))
    return max(0, left)


def minimum_left(book: Book, number: int, x: int) -> int:
    """What is left of the last statement's minimum payment, for the payment `number` of day x.

    Nothing is left on the day of issue.  Of one day, the posts before the
    payment count by their numbers.
    """
    k = cycle_of(book.anchor, x) - 1
    if k == 0 or not has_due_payment(book, k) or not book.issued[k].day < x:
        return 0
    place = (x, number)
    before = sum(p.cents for p in book.corrected.payments
                 if closing_day(book.anchor, k) < p.effective
                 and (p.effective, p.number) < place
                 and not (p.return_number is not None and p.return_effective is not None
                          and (p.return_effective, p.return_number) < place))
    return max(0, book.cycle(k).minimum - before)


def sixty_days_late(book: Book, day: int) -> bool:
    """For some statement with a due payment more than 60 days have passed since its due date, and
    the payments credited since its closing are below its minimum payment."""
    return any(due_day(book.anchor, c.number) + LATE_DAYS < day
               and has_due_payment(book, c.number)
               and counted_since(book, c.number, day) < c.minimum
               for c in book.cycles)
