"""The interest of a cycle by the balances of its own days."""

import collections

from .days import DAY, Date, day_of, days_between
from .papers import Account, Broken, Papers
from .rates import (announced, changes_in, fixed_changes, has_one_rate, is_opening, opening_rate,
                    parts, plan_of)

Count = collections.Counter[str]
BILLION = 10 ** 9  # daily rates are whole billionths
DAYS_OF_YEAR = 365


def daily(basis_points: int) -> int:
    """The daily rate in billionths, rounded down."""
    return basis_points * (BILLION // 10_000) // DAYS_OF_YEAR


def balances(account: Account, segment: str, first: Date, last: Date) -> dict[Date, int]:
    """The balance of each day, without the interest that the last day's closing posts."""
    owed, found = 0, {}
    entries = sorted(entry for entry in account.entries if entry.segment == segment
                     and not (entry.day == last and entry.kind == "interest"))
    place = 0
    for day in days_between(first, last):
        while place < len(entries) and entries[place].day <= day:
            owed += entries[place].cents
            place += 1
        found[day] = max(0, owed)
    return found


def rates_of_days(account: Account, papers: Papers, segment: str, cycle: int,
                  days: list[Date]) -> dict[Date, int] | None:
    """The rate of each day of a cycle, or one above it; None where these papers don't say it."""
    rate = account.cycles[cycle].rates[segment].basis_points
    if has_one_rate(account, papers, cycle):
        return dict.fromkeys(days, rate)
    has_margins = account.follows_index and is_opening(segment)
    if not has_margins or announced(account, days[-1]):
        return None
    if changes_in(account, cycle, fixed_changes(account)):
        return None
    sort, _ = parts(segment)
    return {day: opening_rate(account, papers, sort, day) for day in days}


def ends_with(account: Account, segment: str, closing: Date) -> bool:
    """Whether a balance is of a plan with deferred interest whose period ends with a closing."""
    plan = plan_of(account, segment)
    return (plan is not None and plan.fields[1] == "deferred"
            and day_of(plan.fields[3]) == closing)


def check_segment(account: Account, papers: Papers, cycle: int, segment: str,
                  count: Count) -> None:
    closing = account.closing(cycle)
    first = max(account.opened, account.closing(cycle - 1) + DAY)
    owed = balances(account, segment, first, closing)
    rates = rates_of_days(account, papers, segment, cycle, list(owed))
    sort, _ = parts(segment)
    if rates is None or ends_with(account, segment, closing):
        count["own-days, passed over"] += 1
        return
    interest = account.cycles[cycle].rates[segment].interest
    count["own-days"] += interest > 0
    count[f"own-days, {sort}"] += interest > 0
    total = sum(cents * daily(rates[day]) for day, cents in owed.items())
    most = (2 * total + BILLION) // (2 * BILLION)
    if interest > most:
        raise Broken(f"own-days: {account.name}: cycle {cycle} charges {segment} {interest} cents, "
                     f"and its own days' balances bear {most}")


def check_own_days(account: Account, papers: Papers, count: Count) -> None:
    """What a closed cycle charges a balance of any kind is at most the interest, rounded once, on
    the balances of that cycle's own days; a plan of deferred interest whose period ends with the
    closing aside (12 CFR 1026.54(a)(1)(i)).  The entries of interest are those of the
    statement."""
    for cycle, closed in account.cycles.items():
        for segment in closed.rates:
            check_segment(account, papers, cycle, segment, count)
        posted = sum(entry.cents for entry in account.entries
                     if entry.kind == "interest" and entry.day == account.closing(cycle))
        told = sum(rate.interest for rate in closed.rates.values())
        if posted != told:
            raise Broken(f"own-days: {account.name}: cycle {cycle} has {told} cents of interest, "
                         f"and {posted} are entered")


def check_grace(account: Account, papers: Papers, count: Count) -> None:
    """Purchases bear no interest in the first cycle; nor where each of the two statements before,
    as far as there are two, was issued less than 21 days before its due date, or never, whatever
    was paid (12 CFR 1026.5(b)(2)(ii)(B))."""
    for cycle, closed in account.cycles.items():
        before = [number for number in (cycle - 1, cycle - 2) if number > 0]
        if any(account.is_due(number) for number in before):
            continue
        for segment, rate in closed.rates.items():
            if parts(segment)[0] != "purchase":
                continue
            count["grace"] += 1
            if rate.interest > 0:
                raise Broken(f"grace: {account.name}: cycle {cycle} charges {segment} "
                             f"{rate.interest} cents, and no statement before it was due")
