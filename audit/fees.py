"""The fee table and the amount of a penalty fee."""

from typing import NamedTuple

WINDOW = 6  # cycles before the present one in which a fee at the first amount counts


class FeeRow(NamedTuple):
    day: int
    first: int
    repeat: int


class Fee(NamedTuple):
    """A penalty fee for a due date.  `repeat` tells the tier, `cycle` holds its day."""
    due_cycle: int
    kind: str
    repeat: bool
    cycle: int
    day: int
    cents: int
    post: int


def row_in_force(table: list[FeeRow], day: int) -> FeeRow | None:
    """The row with the latest day up to a day, the later of two for one day."""
    best = None
    for row in table:
        if row.day <= day and (best is None or row.day >= best.day):
            best = row
    return best


def is_charged_for(fees: list[Fee], k: int) -> bool:
    """Due date k has a penalty fee."""
    return any(f.due_cycle == k for f in fees)


def is_repeat(fees: list[Fee], kind: str, cycle: int) -> bool:
    """A fee of the kind at the first amount was charged in the cycle or in one of the six
    before."""
    return any(f.kind == kind and not f.repeat and cycle - WINDOW <= f.cycle <= cycle for f in fees)


def tier_amount(table: list[FeeRow], day: int, repeat: bool) -> int:
    """The amount of the row in force, 0 without one."""
    row = row_in_force(table, day)
    if row is None:
        return 0
    return row.repeat if repeat else row.first


def fees_sum(fees: list[Fee]) -> int:
    return sum(f.cents for f in fees)
