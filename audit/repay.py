"""What a statement's balances come to where they are repaid.

A month has 30 days, rates are fixed, and nothing new is charged.  The
functions ending in `_by_cents` pay one cent at a time, as the rule says; the
others move whole amounts, and a self-test compares them.
"""

from collections.abc import Callable, Sequence
from typing import NamedTuple

from .money import daily, interest, money_text, portion
from .statement import Statement

MONTH_LIMIT = 1_200
PLAN_MONTHS = 36


class Owing(NamedTuple):
    cents: int
    rate: int


class AtMinimum(NamedTuple):
    months: int
    total: int


class In36(NamedTuple):
    payment: int
    total: int


# The item that the next cent goes to, from the cents and the rates of all items.
Choice = Callable[[list[int], list[int]], int]
# Pays an amount: the cents that are left.
Payer = Callable[[list[int], list[int], int, Choice], list[int]]


def _down(cents: list[int], rates: list[int]) -> int:
    """The item above 0 with the least rate, then the first."""
    return min((i for i in range(len(cents)) if cents[i] > 0), key=lambda i: (rates[i], i))


def _up(cents: list[int], rates: list[int]) -> int:
    """The item above 0 with the greatest rate, then the first."""
    return min((i for i in range(len(cents)) if cents[i] > 0), key=lambda i: (-rates[i], i))


def pay_by_cents(owed: Sequence[int], rates: list[int], amount: int, choose: Choice) -> list[int]:
    """Pays an amount of at most the total one cent at a time."""
    cents = list(owed)
    for _ in range(amount):
        cents[choose(cents, rates)] -= 1
    return cents


def pay(owed: Sequence[int], rates: list[int], amount: int, choose: Choice) -> list[int]:
    """Pays an amount of at most the total in whole parts."""
    cents = list(owed)
    while amount > 0:
        i = choose(cents, rates)
        part = min(amount, cents[i])
        cents[i] -= part
        amount -= part
    return cents


def _month_interest(cents: list[int], rates: list[int]) -> list[int]:
    return [interest(30 * c * daily(r)) for c, r in zip(cents, rates)]


def at_minimum(owing: list[Owing], floor: int, pct: int, payer: Payer = pay) -> AtMinimum | None:
    """The least number of months at minimum after which the total is 0, and what was paid;
    None where the total is above 0 after 1,200 months."""
    cents, rates = [o.cents for o in owing], [o.rate for o in owing]
    paid = 0
    for months in range(MONTH_LIMIT + 1):
        if sum(cents) == 0:
            return AtMinimum(months, paid)
        added = _month_interest(cents, rates)
        cents = [c + i for c, i in zip(cents, added)]
        total = sum(cents)
        amount = min(total, max(floor, portion(total, pct) + sum(added)))
        cents = payer(cents, rates, amount, _down)
        paid += amount
    return None


def after_months(owing: list[Owing], payment: int, months: int,
                 payer: Payer = pay) -> tuple[list[int], int]:
    """The items after some months at a payment, and the sum of what was paid."""
    cents, rates = [o.cents for o in owing], [o.rate for o in owing]
    paid = 0
    for _ in range(months):
        cents = [c + i for c, i in zip(cents, _month_interest(cents, rates))]
        amount = min(payment, sum(cents))
        cents = payer(cents, rates, amount, _up)
        paid += amount
    return cents, paid


def clears(owing: list[Owing], payment: int) -> bool:
    return payment >= 0 and sum(after_months(owing, payment, PLAN_MONTHS)[0]) == 0


def in_36(owing: list[Owing]) -> In36:
    """The least payment that clears, found by halves since a greater payment clears sooner."""
    low, high = 0, 2 * sum(o.cents for o in owing) + 1  # a month's interest is far below the total
    while low < high:
        middle = (low + high) // 2
        if clears(owing, middle):
            high = middle
        else:
            low = middle + 1
    return In36(low, after_months(owing, low, PLAN_MONTHS)[1])


def repay_text(s: Statement) -> str:
    """The two lines of an issued statement."""
    rates = {line.segment: line.rate for line in s.rates}
    owing = [Owing(cents, rates[segment]) for segment, cents in sorted(s.closing.items())]
    least = at_minimum(owing, s.floor, s.pct)
    plan = in_36(owing)
    first = ("MINIMUM ONLY NEVER" if least is None else
             f"MINIMUM ONLY MONTHS {least.months} TOTAL {money_text(least.total)}")
    return (f"{first}\nTHIRTY-SIX MONTHS PAYMENT {money_text(plan.payment)} "
            f"TOTAL {money_text(plan.total)}\n")
