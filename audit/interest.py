"""Interest of a cycle: the rows of its days, and which balances bear it."""

from .book import Book
from .days import closing_day, cycle_start, due
from .money import daily, interest
from .payments import paid

Row = tuple[int, int, int]  # day, balance, rate


def make_rows(book: Book, x: int) -> None:
    """One row per segment with its balance and rate; a deferred balance in its period has an
    accrual beside it.  Segments with a balance of 0 are left out."""
    for segment in book.segments[2:]:
        s = segment.number
        balance = book.balance(s)
        if balance:
            book.rows[s][x] = (balance, book.rates.rate_on(s, x))
            rate = book.rates.accrual_on(s, x)
            if rate is not None:
                book.accruals[s][x] = (balance, rate)


def purchase_case(book: Book, k: int) -> tuple[str, int | None]:
    """How purchases bear interest in cycle k, as the two statements before say: none, each day's
    balance less what later days repaid up to a due date, or each day's balance."""
    if k == 1:
        return "none", None
    if not paid(book, k - 2):
        return "plain", None
    if paid(book, k - 1):
        return "none", None
    return "less", due(book.anchor, k - 1)


def case_of(book: Book, segment: int, k: int) -> tuple[str, int | None]:
    """How a segment bears interest in cycle k."""
    found = book.segments[segment]
    if found.sort == "deferred" and found.in_period(closing_day(book.anchor, k)):
        return "none", None
    if found.sort == "purchase":
        return purchase_case(book, k)
    return "plain", None


def repaid(book: Book, segment: int, first: int, last: int, end: int) -> list[tuple[int, int]]:
    """Day and cents of what payments and merchants' credits brought on the days from `first` to
    `last`, without payments that were returned by the closing `end`."""
    back = {p.number for p in book.corrected.payments
            if p.return_effective is not None and p.return_effective <= end}
    return [(e.day, -e.cents) for e in book.of_segment[segment]
            if first <= e.day <= last and e.kind in ("payment", "credit") and e.post not in back]


def charged(book: Book, segment: int, k: int) -> list[tuple[int, int]]:
    """Per day of cycle k with a row, the balance that bears interest and the day's rate."""
    start, end = cycle_start(book.anchor, k), closing_day(book.anchor, k)
    kept = book.rows[segment]
    rows = [(x, *kept[x]) for x in range(start, end + 1) if x in kept]
    case, last = case_of(book, segment, k)
    if case == "none":
        return []
    if case == "plain" or last is None:
        return [(balance, rate) for _, balance, rate in rows]
    brought = repaid(book, segment, start, last, end)
    return [(max(0, balance - sum(cents for day, cents in brought if day > x)), rate)
            for x, balance, rate in rows]


def interest_sum(rows: list[tuple[int, int]]) -> int:
    """The sum of the days' balances times their daily rates, rounded once."""
    return interest(sum(balance * daily(rate) for balance, rate in rows))


def deferred_interest(book: Book, segment: int, day: int) -> int:
    """The interest that a deferred balance has accrued up to a day."""
    return interest_sum([row for x, row in book.accruals[segment].items() if x <= day])
