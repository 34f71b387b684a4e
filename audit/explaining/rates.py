"""The rate of a segment on a day."""

from bisect import bisect_right
from typing import TYPE_CHECKING

from ..days import day_text
from ..due_dates import CURE
from ..effects import NOTICE_DAYS
from ..payments import sixty_days_late
from ..rates import RATE_LIMIT, Penalty
from ..segments import OPENING_VINTAGE, Segment
from .nodes import Node, value_text

if TYPE_CHECKING:
    from .derivation import Derivation


class Rates:
    """Rates by segment and span of days in which nothing changes them."""

    def __init__(self, derivation: "Derivation") -> None:
        self.all, self.book = derivation, derivation.book
        self.nodes, self.facts = derivation.nodes, derivation.facts
        self.segments = self.book.segments
        self.lowers = [k.number for k in self.book.posts if k.post.word == "lower"]
        self._days = sorted(self._changes())
        self._known: dict[tuple[int, int], Node] = {}
        self._daily: dict[int, Node] = {}
        self._penalty_posts: list[int] | None = None

    def _changes(self) -> set[int]:
        """The days from which some rate may differ from the day before."""
        found = {self.book.anchor.opened}
        for kept in self.book.posts:
            post = kept.post
            if post.word == "notice" and post.effective is not None:
                found.add(post.effective)
            elif post.word == "lower" and post.day is not None:
                found.add(post.day)
        for segment in self.segments:
            found.add(segment.begins)
            if segment.ends is not None:
                found.add(segment.ends + 1)
        for penalty in self.book.penalties:
            found.add(penalty.begins)
            if penalty.last is not None:
                found.add(penalty.last + 1)
        if self.book.terms.word == "openvar":
            found |= {day for day, _ in self.book.shared.index}
        return found

    def span(self, day: int) -> int:
        """The place of the span of days that holds a day."""
        return bisect_right(self._days, day)

    def next_change(self, day: int) -> int | None:
        """The first day after a day on which a rate may change."""
        place = bisect_right(self._days, day)
        return self._days[place] if place < len(self._days) else None

    def on(self, s: int, day: int) -> Node:
        """The rate of a segment on a day."""
        place = (s, self.span(day))
        if place not in self._known:
            node = self._make(self.segments[s], day)
            assert node.value == self.book.rates.rate_on(s, day), (s, day_text(day), node.value)
            self._known[place] = node
        return self._known[place]

    def daily(self, rate: Node) -> Node:
        """The daily rate of a yearly rate."""
        if id(rate) not in self._daily:
            scaled = self.nodes.make("product", [rate], f"{value_text(rate.value, rate.unit)} as a "
                                     "fraction", "daily", "billionths", by=100_000)
            self._daily[id(rate)] = self.nodes.make(
                "floor_divide", [scaled], f"daily rate of {value_text(rate.value, rate.unit)}: a "
                "365th of it, in leap years too", "daily", "billionths", by=365)
        return self._daily[id(rate)]

    # -- how it is made ---------------------------------------------------------------------

    def _make(self, segment: Segment, day: int) -> Node:
        if segment.ends is not None and day <= segment.ends:
            return self._period(segment, day)
        own, began = self._own(segment, day)
        category = segment.category or "purchase"
        held = self._lowered(own, category, began, day)
        return self._with_penalty(held, category, day, segment)

    def _period(self, segment: Segment, day: int) -> Node:
        if segment.sort == "promo" and day >= segment.begins:
            return self.facts.post(segment.post, "rate", f"rate of {segment.name} in its period, "
                                   f"{self.facts.post_name(segment.post)}", "plan")
        return self.nodes.none(f"{segment.name} bears no rate in its period", "basis points",
                               "deferred")

    def accrual(self, segment: Segment) -> Node:
        """The rate at which a plan with deferred interest accrues it."""
        return self.facts.post(segment.post, "rate", f"rate at which {segment.name} accrues, "
                               f"{self.facts.post_name(segment.post)}", "deferred")

    def _own(self, segment: Segment, day: int) -> tuple[Node, int]:
        if segment.ends is not None:
            return self.facts.post(segment.post, "after", f"rate of {segment.name} after its end, "
                                   f"{self.facts.post_name(segment.post)}", "plan"), \
                segment.ends + 1
        if segment.number == OPENING_VINTAGE[segment.sort]:
            return self._opening(segment.sort, day), self.book.anchor.opened
        effective = self.book.posts[segment.post - 1].post.effective or 0
        if day >= effective:
            return self.facts.post(segment.post, "rate", f"rate from {day_text(effective)} on, "
                                   f"{self.facts.post_name(segment.post)}", "notice"), effective
        before = max(s.number for s in self.segments
                     if s.sort == segment.sort and s.number < segment.number)
        return self._own(self.segments[before], day)

    def _opening(self, category: str, day: int) -> Node:
        if self.book.terms.word != "openvar":
            return self.facts.term(category, f"{category} rate of the opening")
        margin = self.facts.term(category, f"margin on {category} of the opening")
        since = max([d for d, _ in self.book.shared.index if d <= day])
        index = self.all.index_row(since)
        both = self.nodes.make("sum", [index, margin], "index and margin", "index")
        return self.nodes.make("least", [both], "index and margin, at most 99.99%", "index",
                               by=RATE_LIMIT)

    def _lowered(self, rate: Node, category: str, began: int, day: int) -> Node:
        of = [rate]
        for n in self.lowers:
            post = self.book.posts[n - 1].post
            if post.category == category and began <= (post.day or 0) <= day:
                of.append(self.facts.post(n, "rate", f"lowered rate from {day_text(post.day or 0)} "
                                          f"on, {self.facts.post_name(n)}", "lowered"))
        if len(of) == 1:
            return rate
        return self.nodes.make("least", of, "rate as lowered", "lowered")

    def _with_penalty(self, rate: Node, category: str, day: int, segment: Segment) -> Node:
        of, why = [rate], []
        for place, penalty in enumerate(self.book.penalties):
            if penalty.in_force(day):
                own = self.facts.term("penalty", "penalty rate of the opening")
                of.append(self._lowered(own, category, penalty.begins, day))
                why.append(self._penalty_begins(place, penalty))
        if len(of) > 1:
            return self.nodes.make("greatest", of, f"rate of {segment.name} with the penalty rate",
                                   "penalty", why=why)
        ended = [p for p in self.book.penalties if p.last is not None and p.last < day]
        if not ended:
            return rate
        return self.nodes.make("first_of", of, f"rate of {segment.name}; the penalty rate ended "
                               f"with the due date of {day_text(ended[-1].last or 0)}",
                               "penalty end", why=self._ended(ended[-1]))

    # -- penalties --------------------------------------------------------------------------

    def penalty_posts(self) -> list[int]:
        """The posts behind the penalty rates, in their order."""
        if self._penalty_posts is None:
            effective = self.book.corrected.effective
            posts = sorted((effective[k.number], k.number) for k in self.book.posts
                           if k.post.word == "penalty")
            self._penalty_posts = [n for day, n in posts if day <= self.book.day
                                   and sixty_days_late(self.book, day)]
        return self._penalty_posts

    def _penalty_begins(self, place: int, penalty: Penalty) -> Node:
        n = self.penalty_posts()[place]
        accepted = self.facts.accepted(n)
        late = self.all.payments.sixty_days_late(accepted)
        begins = self.nodes.make("day_plus", [accepted], "first day of the penalty rate, 45 days "
                                 f"after the {self.facts.post_name(n)}", "penalty notice",
                                 by=NOTICE_DAYS)
        assert begins.value == penalty.begins and late is not None
        return self.nodes.make("equal", [begins], "the penalty rate is in force from "
                               f"{day_text(begins.value)} on, {self.facts.post_name(n)}",
                               "penalty", by=penalty.begins, why=[late])

    def _ended(self, penalty: Penalty) -> list[Node]:
        """The six due dates that ended a penalty rate, each a truth."""
        after = [c.number for c in self.book.cycles
                 if penalty.begins < c.due <= (penalty.last or 0)]
        assert len(after) == CURE
        return [self.all.payments.met(k) for k in after]
