"""What each balance of a cycle bore: every rate with its days and its interest."""

from itertools import groupby
from typing import NamedTuple

from ..book import Book
from ..days import closing, cycle_start, day_text
from ..interest import case_of, charged
from ..money import daily, interest
from ..rates import index_on
from ..segments import OPENING_VINTAGE, Segment, newest
from ..words import CATEGORIES
from .issued import Bill, Data


class Rate(NamedTuple):
    """The rate of a balance on a day, and where it comes from."""

    rate: int
    source: str
    index_rate: int | None
    margin: int | None


class Day(NamedTuple):
    """A day with the balance that bears interest on it, and its rate."""

    day: int
    balance: int
    rate: Rate


def own_source(book: Book, segment: Segment, day: int) -> Rate:
    """The rate of a vintage, or of a plan past its end, before it is lowered or a penalty's."""
    own, began = book.rates.own(segment, day)
    if segment.is_plan:
        return Rate(own, "after_plan", None, None)
    if began != book.anchor.opened:
        return Rate(own, "notice", None, None)
    if book.terms.word == "openvar":
        margin: int = getattr(book.terms, segment.category or "purchase")
        return Rate(own, "index", index_on(book.shared.index, day), margin)
    return Rate(own, "terms", None, None)


def rate_of(book: Book, segment: Segment, day: int) -> Rate:
    """The rate of a day with its source."""
    found: int = book.rates.rate_on(segment.number, day)
    if segment.ends is not None and day <= segment.ends:
        source = "promotion" if segment.sort == "promo" else "deferred"
        return Rate(found, source, None, None)
    own = own_source(book, segment, day)
    if found == own.rate:
        return own
    return Rate(found, "penalty" if found > own.rate or _is_penalty(book, segment, day, found)
                else "lowered", None, None)


def _is_penalty(book: Book, segment: Segment, day: int, found: int) -> bool:
    """A penalty rate holds the rate above the lowered one."""
    own, began = book.rates.own(segment, day)
    return bool(found != book.rates.capped(own, segment.category or "purchase", began, day))


def runs_of(days: list[Day]) -> list[Data]:
    """Days in a row with one rate. The interest of all runs is rounded once, as one sum."""
    runs: list[Data] = []
    before = exact = 0
    for rate, group in groupby(days, key=lambda one: one.rate):
        run = list(group)
        balance_days = sum(one.balance for one in run)
        exact += balance_days * daily(rate.rate)
        runs.append({
            "first": day_text(run[0].day), "last": day_text(run[-1].day), "days": len(run),
            "rate": rate.rate, "daily_rate_billionths": daily(rate.rate), "source": rate.source,
            "index": rate.index_rate, "margin": rate.margin, "balance_days": balance_days,
            "interest_billionths": balance_days * daily(rate.rate),
            "interest": interest(exact) - before})
        before = interest(exact)
    return runs


def days_of(book: Book, segment: Segment, k: int) -> list[Day]:
    """The days of a cycle from the beginning of a segment on."""
    start, end = cycle_start(book.anchor, k), closing(book.anchor, k) or 0
    kept = [x for x in range(start, end + 1) if x in book.rows[segment.number]]
    bearing = dict(zip(kept, charged(book, segment.number, k)))
    return [Day(x, bearing.get(x, (0, 0))[0], rate_of(book, segment, x))
            for x in range(max(start, segment.begins), end + 1)]


def deferred_part(book: Book, segment: Segment, end: int) -> list[Data] | None:
    """The interest that a plan deferred and that this closing charges; None where there is none."""
    s = segment.number
    if segment.sort != "deferred" or segment.ends != end or book.balance_at(s, end) <= 0:
        return None
    days = [Day(x, balance, Rate(rate, "deferred", None, None))
            for x, (balance, rate) in sorted(book.accruals[s].items()) if x <= end]
    return runs_of(days)


def promotion_of(book: Book, segment: Segment, end: int) -> Data | None:
    """Until when a plan's rate lasts, and the rate behind it."""
    if segment.ends is None or not segment.in_period(end):
        return None
    post = book.posts[segment.post - 1].post
    return {"kind": segment.sort, "rate": post.rate, "first": day_text(segment.begins),
            "last": day_text(segment.ends), "rate_after": post.after}


def balance_of(bill: Bill, segment: Segment, is_printed: bool) -> Data:
    """All of a balance in the cycle."""
    book, cycle = bill.book, bill.statement.cycle
    s, end = segment.number, cycle.closing
    rates = runs_of(days_of(book, segment, bill.cycle))
    deferred = deferred_part(book, segment, end)
    posted = cycle.interest.get(s, 0)
    counted = sum(run["interest"] for run in rates + (deferred or []))
    now = rate_of(book, segment, end)
    return {"segment": segment.name, "category": segment.category or "purchase",
            "kind": segment.sort if segment.is_plan else "vintage", "on_text": is_printed,
            "balance": book.balance_at(s, end), "rate": now.rate, "source": now.source,
            "index": now.index_rate, "margin": now.margin,
            "daily_rate_billionths": daily(now.rate),
            "bears_interest": case_of(book, s, bill.cycle)[0],
            "average_daily_balance": cycle.average.get(s, 0), "interest": posted,
            "rates": rates, "deferred_interest": deferred, "interest_not_charged": counted - posted,
            "promotion": promotion_of(book, segment, end)}


def balances_of(bill: Bill) -> list[Data]:
    """The balances that the text has, and the newest one of each category beside them."""
    book, end = bill.book, bill.statement.cycle.closing
    printed = {line.segment for line in bill.statement.rates}
    shown = printed | {newest(book.segments, category, end) for category in CATEGORIES}
    assert set(OPENING_VINTAGE) == set(CATEGORIES)
    return [balance_of(bill, book.segments[s], s in printed) for s in sorted(shown)]


def deferred_of(bill: Bill) -> list[Data]:
    """The plans whose interest is deferred: what to pay, by when, and what it saves."""
    return [{"segment": line.name, "balance": line.balance, "accrued": line.accrued,
             "pay_in_full_by": day_text(line.ends)} for line in bill.statement.deferred]
