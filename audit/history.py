"""The corrected list of an account, with the day from which each post counts."""

from dataclasses import dataclass, field
from typing import NamedTuple

from .days import Anchor, credit_day
from .words import AMENDABLE, Kept


class PaymentFact(NamedTuple):
    """A payment of the corrected list with the return that names it, if any."""
    number: int
    effective: int
    cents: int
    return_effective: int | None
    return_number: int | None


@dataclass
class Corrected:
    """`day[n]` and `cents[n]` are the corrected day and cents of post n, `effective[n]` its
    effective day, and `by_day[d]` the numbers of the posts of day d in ascending order."""
    day: dict[int, int] = field(default_factory=dict)
    cents: dict[int, int] = field(default_factory=dict)
    effective: dict[int, int] = field(default_factory=dict)
    by_day: dict[int, list[int]] = field(default_factory=dict)
    payments: list[PaymentFact] = field(default_factory=list)


def confirmed(posts: list[Kept]) -> dict[int, int]:
    """Per charge, what the resolutions of its disputes found to be an error."""
    found: dict[int, int] = {}
    for kept in posts:
        if kept.post.word == "resolve":
            charge = posts[kept.post.target - 1].post.target
            found[charge] = found.get(charge, 0) + kept.post.cents
    return found


def effective_day(anchor: Anchor, kept: Kept, out: Corrected, holidays: frozenset[int]) -> int:
    """The day from which a post counts; the posts before it stand in `out`, and its own day.

    The target of a return, a dispute or a resolution has a smaller number.
    """
    post, day = kept.post, out.day[kept.number]
    if post.word == "payment":
        return credit_day(anchor, day, post.minute, post.channel, holidays)
    if post.word in ("return", "dispute", "resolve"):
        return max(day, out.effective[post.target])
    if post.word in ("penalty", "refund", "bill"):
        return kept.accepted
    return day


def _payments(posts: list[Kept], out: Corrected) -> list[PaymentFact]:
    return_of = {k.post.target: k.number for k in posts if k.post.word == "return"}
    facts = []
    for kept in posts:
        if kept.post.word == "payment":
            back = return_of.get(kept.number)
            facts.append(PaymentFact(kept.number, out.effective[kept.number],
                                     out.cents[kept.number],
                                     None if back is None else out.effective[back], back))
    return facts


def corrected(anchor: Anchor, posts: list[Kept], holidays: frozenset[int]) -> Corrected:
    """The corrected list of accepted posts (number n stands at place n-1).

    A charge, credit or payment has the day and cents of the last amendment
    that names it, else its own; a charge has these cents less what was found
    to be an error in it, not below 0.
    """
    out = Corrected()
    amended = {k.post.target: k.post for k in posts if k.post.word == "amend"}
    errors = confirmed(posts)
    for kept in posts:
        number, post = kept.number, kept.post
        day, cents = post.day, post.cents or 0
        if post.word in AMENDABLE and number in amended:
            day, cents = amended[number].day, amended[number].cents
        if post.word == "charge":
            cents = max(0, cents - errors.get(number, 0))
        out.day[number], out.cents[number] = day, cents
        out.effective[number] = effective_day(anchor, kept, out, holidays)
        out.by_day.setdefault(out.effective[number], []).append(number)
    out.payments = _payments(posts, out)
    return out
