"""Allocation of payments and merchants' credits to segments.

The rules say where the next cent goes.  `allocate` and `place_credit` move
whole amounts; `allocate_by_cents` and `place_credit_by_cents` repeat the
rules cent by cent, and a test compares them.  All take the balances and the
ranks of the day, both by segment number.
"""

from collections.abc import Sequence
from typing import NamedTuple


class Rank(NamedTuple):
    """The rate of the day, and the end of a deferred balance in the last two cycles of its
    period."""
    rate: int
    last_two: int | None


Parts = list[tuple[int, int]]


def _unpaid(balances: list[int]) -> list[int]:
    """Segments other than the credit balance and what is in dispute with a balance above 0."""
    return [s for s in range(2, len(balances)) if balances[s] > 0]


def minimum_rule(unpaid: list[int], ranks: list[Rank]) -> int:
    """The least rate, and among equals the oldest segment."""
    return min(unpaid, key=lambda s: (ranks[s].rate, s))


def rate_rule(unpaid: list[int], ranks: list[Rank]) -> int:
    """The greatest rate, and among equals the oldest segment."""
    return min(unpaid, key=lambda s: (-ranks[s].rate, s))


def excess_rule(unpaid: list[int], ranks: list[Rank]) -> int:
    """A deferred balance in its last two cycles, the soonest end first, then by rate."""
    ending = [s for s in unpaid if ranks[s].last_two is not None]
    return min(ending, key=lambda s: (ranks[s].last_two, s)) if ending else rate_rule(unpaid, ranks)


def place_rule(unpaid: list[int], ranks: list[Rank], first: Sequence[int]) -> int:
    """A merchant's credit: the segments of its place, the oldest before others, then as the
    excess."""
    placed = [s for s in unpaid if s in first]
    return min(placed) if placed else excess_rule(unpaid, ranks)


def next_cent(balances: list[int], ranks: list[Rank], kind: str, first: Sequence[int] = ()) -> int:
    """The segment that the next cent goes to: the credit balance (0) where nothing is unpaid."""
    unpaid = _unpaid(balances)
    if not unpaid:
        return 0
    if kind == "minimum":
        return minimum_rule(unpaid, ranks)
    return excess_rule(unpaid, ranks) if kind == "excess" else place_rule(unpaid, ranks, first)


def _parts(reached: dict[int, int]) -> Parts:
    return sorted((s, cents) for s, cents in reached.items() if cents)


def _by_cents(balances: list[int], ranks: list[Rank], kinds: list[str],
              first: Sequence[int] = ()) -> Parts:
    left = list(balances)
    reached: dict[int, int] = {}
    for kind in kinds:
        s = next_cent(left, ranks, kind, first)
        left[s] -= 1
        reached[s] = reached.get(s, 0) + 1
    return _parts(reached)


def allocate_by_cents(balances: list[int], ranks: list[Rank], minimum_part: int,
                      amount: int) -> Parts:
    kinds = ["minimum"] * minimum_part + ["excess"] * (amount - minimum_part)
    return _by_cents(balances, ranks, kinds)


def place_credit_by_cents(balances: list[int], ranks: list[Rank], first: list[int],
                          amount: int) -> Parts:
    return _by_cents(balances, ranks, ["place"] * amount, first)


def _whole(balances: list[int], ranks: list[Rank], amounts: list[tuple[str, int]],
           first: Sequence[int] = ()) -> Parts:
    """Gives each run of equal cents to the rule's segment until it is paid or the run ends."""
    left = list(balances)
    reached: dict[int, int] = {}
    for kind, amount in amounts:
        while amount > 0:
            s = next_cent(left, ranks, kind, first)
            cents = min(amount, left[s]) if s else amount
            left[s] -= cents
            reached[s] = reached.get(s, 0) + cents
            amount -= cents
    return _parts(reached)


def allocate(balances: list[int], ranks: list[Rank], minimum_part: int, amount: int) -> Parts:
    """The parts of a payment: first the minimum part, then the excess, ascending by segment."""
    return _whole(balances, ranks, [("minimum", minimum_part), ("excess", amount - minimum_part)])


def place_credit(balances: list[int], ranks: list[Rank], first: list[int], amount: int) -> Parts:
    """The parts of a merchant's credit whose place has the segments `first`."""
    return _whole(balances, ranks, [("place", amount)], first)
