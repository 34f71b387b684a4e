"""The rate of a segment on a day."""

from typing import NamedTuple

from .days import Anchor, day_text
from .segments import CREDIT, HELD, OPENING_VINTAGE, Segment, segments_of
from .words import Kept, Request

RATE_LIMIT = 9_999


class Penalty(NamedTuple):
    """A penalty rate: its first day and its last, None while it has no end."""
    begins: int
    last: int | None

    def in_force(self, day: int) -> bool:
        return self.begins <= day and (self.last is None or day <= self.last)


def index_on(index_rows: list[tuple[int, int]], day: int) -> int | None:
    """The rate of the index row with the greatest day up to `day`, the later of equals."""
    best = None
    for row_day, rate in index_rows:
        if row_day <= day and (best is None or row_day >= best[0]):
            best = (row_day, rate)
    return best[1] if best else None


class RateBook:
    """Rates over the accepted posts, the index rows and the penalties begun so far."""

    def __init__(self, anchor: Anchor, posts: list[Kept], index_rows: list[tuple[int, int]]):
        self.anchor = anchor
        self.posts = posts
        self.terms = posts[0].post
        self.index_rows = index_rows
        self.segments = segments_of(anchor, posts)
        self.lowers = [kept.post for kept in posts if kept.post.word == "lower"]
        self.penalties: list[Penalty] = []

    def _post(self, segment: Segment) -> Request:
        return self.posts[segment.post - 1].post

    def _opening_rate(self, category: str, day: int) -> int:
        rate: int = getattr(self.terms, category)
        if self.terms.word == "openvar":
            index = index_on(self.index_rows, day)
            if index is None:
                raise ValueError(f"no index row counts on {day_text(day)}: load one before it")
            rate = min(RATE_LIMIT, rate + index)
        return rate

    def own(self, segment: Segment, day: int) -> tuple[int, int]:
        """The own rate of a vintage, or of a plan past its end, and the day it began.

        The vintage of a notice bears what the one before it bears until its
        rate takes effect.
        """
        if segment.is_plan:
            return self._post(segment).after, segment.end_day + 1
        if segment.number == OPENING_VINTAGE[segment.sort]:
            return self._opening_rate(segment.sort, day), self.anchor.opened
        notice = self._post(segment)
        if day >= notice.effective:
            return notice.rate, notice.effective
        before = max(s.number for s in self.segments
                     if s.sort == segment.sort and s.number < segment.number)
        return self.own(self.segments[before], day)

    def capped(self, rate: int, category: str | None, began: int, day: int) -> int:
        """The least of a rate and the lowered rates of its category on days from `began` to
        `day`."""
        for lower in self.lowers:
            if lower.category == category and began <= lower.day <= day:
                rate = min(rate, lower.rate)
        return rate

    def with_penalty(self, rate: int, category: str | None, day: int) -> int:
        """The greatest of a rate and the penalty rates in force, each held down from its
        beginning on."""
        for penalty in self.penalties:
            if penalty.in_force(day):
                rate = max(rate, self.capped(self.terms.penalty, category, penalty.begins, day))
        return rate

    def period_rate(self, segment: Segment, day: int) -> int:
        """What a plan bears up to its end: a promotional one its rate, a deferred one none."""
        if segment.sort == "promo" and day >= segment.begins:
            return self._post(segment).rate
        return 0

    def rate_on(self, number: int, day: int) -> int:
        """The rate of a segment on a day."""
        segment = self.segments[number]
        if number in (CREDIT, HELD):
            return 0
        if segment.is_plan and day <= segment.end_day:
            return self.period_rate(segment, day)
        own, began = self.own(segment, day)
        rate = self.capped(own, segment.category, began, day)
        return self.with_penalty(rate, segment.category, day)

    def accrual_on(self, number: int, day: int) -> int | None:
        """The plan's rate of a deferred balance in its period, else None."""
        segment = self.segments[number]
        if segment.sort == "deferred" and segment.in_period(day):
            return self._post(segment).rate
        return None
