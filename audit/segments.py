"""The segments of an account: where what is owed is kept."""

from typing import NamedTuple

from .days import Anchor
from .words import CATEGORIES, Kept, Place

CREDIT, HELD = 0, 1
OPENING_VINTAGE = {"purchase": 2, "cash": 3, "transfer": 4}
SEGMENT_LIMIT = 64
VINTAGE_DAYS = 15  # a notice's vintage begins so many days after it


class Segment(NamedTuple):
    """A segment: its sort, the number of its post, and its days.

    A vintage begins on the opening day or 15 days after its notice; a plan
    lasts from its day to its end.  `category` is that of a vintage, and
    purchase for a plan (it counts once the plan is past its end).
    """
    number: int
    sort: str
    post: int
    begins: int
    ends: int | None
    category: str | None

    @property
    def name(self) -> str:
        return self.sort if self.number < 2 else f"{self.sort}:{self.number}"

    @property
    def end_day(self) -> int:
        """The day on which a plan ends."""
        if self.ends is None:
            raise ValueError(f"segment {self.number} is no plan: only a plan ends")
        return self.ends

    @property
    def is_plan(self) -> bool:
        return self.ends is not None

    def in_period(self, day: int) -> bool:
        return self.ends is not None and self.begins <= day <= self.ends


def segments_of(anchor: Anchor, posts: list[Kept]) -> list[Segment]:
    """The credit balance, what is in dispute, the opening vintages, then one per notice or plan in
    order of acceptance."""
    out = [Segment(CREDIT, "credit", 0, anchor.opened, None, None),
           Segment(HELD, "held", 0, anchor.opened, None, None)]
    for category in CATEGORIES:
        out.append(Segment(len(out), category, 1, anchor.opened, None, category))
    for kept in posts:
        post = kept.post
        if post.word == "plan":
            out.append(Segment(len(out), post.plan, kept.number, post.day, post.end, "purchase"))
        elif post.word == "notice":
            out.append(Segment(len(out), post.category, kept.number, post.day + VINTAGE_DAYS, None,
                               post.category))
    return out


def newest(segments: list[Segment], category: str | None, day: int) -> int:
    """The newest vintage of a category that has begun by a day."""
    return max(s.number for s in segments if s.sort == category and s.begins <= day)


def plan_segment(segments: list[Segment], post: int) -> int:
    """The segment of the plan with a post number."""
    return next(s.number for s in segments if s.is_plan and s.post == post)


def segment_at(segments: list[Segment], place: Place, day: int) -> int:
    """Where a charge goes: to the newest vintage of its category, or to its plan."""
    if place.plan is not None:
        return plan_segment(segments, place.plan)
    return newest(segments, place.category, day)


def segments_at(segments: list[Segment], place: Place) -> list[int]:
    """The segments of a place in ascending order: all vintages, or the plan's segment."""
    if place.plan is not None:
        return [plan_segment(segments, place.plan)]
    return [s.number for s in segments if s.sort == place.category]
