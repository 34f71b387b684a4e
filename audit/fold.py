"""The fold of an account over its days."""

from .book import Book
from .closing import close
from .days import closing, closing_day, cycle_of, due, due_day
from .due_dates import after_due
from .effects import effect
from .interest import make_rows


def day_after(book: Book, x: int) -> None:
    """Day x, in this order: the morning after a due date; the day's posts; its rows; a closing."""
    k = cycle_of(book.anchor, x)
    if k > 1 and due(book.anchor, k - 1) == x - 1:  # a due date is before the next closing
        after_due(book, k - 1, x)
    for number in book.corrected.by_day.get(x, ()):
        effect(book, number, x)
    make_rows(book, x)
    if closing(book.anchor, k) == x:
        close(book, k, x)


def advance(book: Book, to: int) -> Book:
    """Folds day by day to the end of a day."""
    while book.day < to:
        book.day += 1
        day_after(book, book.day)
    return book


def break_days(book: Book, first: int, last: int) -> set[int]:
    """The days from `first` to `last` on which something may happen or a rate begins."""
    anchor = book.anchor
    cycles = range(1, cycle_of(anchor, max(last, anchor.opened)) + 1)
    found = set(book.corrected.by_day)
    found |= {closing_day(anchor, k) for k in cycles}
    found |= {due_day(anchor, k) + 1 for k in cycles}
    found |= {row.day for row in book.issued.values()}
    found |= {s.end_day for s in book.segments if s.is_plan}
    for kept in book.posts:
        if kept.post.word == "notice":
            found |= {kept.post.day + 15, kept.post.effective}
    for penalty in book.penalties:
        found |= {penalty.begins} | ({penalty.last + 1} if penalty.last is not None else set())
    if book.terms.word == "openvar":
        found |= {day for day, _ in book.shared.index if day > anchor.opened}
    return {day for day in found if first <= day <= last}
