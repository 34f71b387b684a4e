"""Rates that rise: by the index, after notice, and after sixty days' delinquency."""

import collections
import datetime

from .days import Date
from .papers import Account, Broken, Papers, Post
from .payments import paid_between, payments_of
from .rates import announced, is_opening, own_rate, penalty_rate

Count = collections.Counter[str]
LATE = datetime.timedelta(days=60)


def follows(account: Account, segment: str) -> bool:
    """Whether the rate of a balance is that of a margin on the index."""
    return account.follows_index and is_opening(segment)


def check_index(account: Account, papers: Papers, count: Count) -> None:
    """A balance whose rate follows the index bears at most its margin and the index of the day,
    just that where no rate was ever lowered, and more at a later closing only where the index is
    higher; as long as no penalty rate may have begun (12 CFR 1026.55(b)(2))."""
    was_lowered = bool(account.of("lower"))
    before: dict[str, tuple[int, int]] = {}
    for cycle, closed in sorted(account.cycles.items()):
        closing = account.closing(cycle)
        for segment, rate in closed.rates.items():
            if not follows(account, segment) or announced(account, closing):
                continue
            count["index"] += 1
            most, index = own_rate(account, papers, segment, closing), papers.index_on(closing)
            bears = rate.basis_points
            where = f"index: {account.name}: {segment} bears {bears} on {closing}"
            if bears > most or (bears < most and not was_lowered):
                raise Broken(f"{where}, and its margin and the index are {most}")
            rate_before, index_before = before.get(segment, (bears, index))
            count["index, raised"] += bears > rate_before
            if bears > rate_before and index <= index_before:
                raise Broken(f"{where}, {rate_before} at an earlier closing, and the index is no "
                             "higher")
            before[segment] = bears, index


def check_raises(account: Account, papers: Papers, count: Count) -> None:
    """A balance bears at most its own rate: that of the opening, of its plan, or of the notice that
    made its vintage, from its effective day on; or the penalty rate of the terms, where a penalty
    was accepted at least 45 days before (12 CFR 1026.55(a), .9(c)(2), (g))."""
    for cycle, closed in account.cycles.items():
        closing = account.closing(cycle)
        penalties = announced(account, closing)
        for segment, rate in closed.rates.items():
            if follows(account, segment) and not penalties:
                continue
            own = own_rate(account, papers, segment, closing)
            count["raises"] += 1
            most = max(own, penalty_rate(account)) if penalties else own
            if rate.basis_points > most:
                raise Broken(f"raises: {account.name}: {segment} bears {rate.basis_points} on "
                             f"{closing}, and {most} is its own rate or the penalty rate")


def is_sixty_days_late(account: Account, day: Date) -> bool:
    """Whether a due date is more than 60 days back whose statement was issued at least 21 days
    before it, and the payments since its closing fell short of its minimum payment."""
    payments = payments_of(account)
    return any(paid_between(account, payments, account.closing(number), day)
               < account.cycles[number].minimum
               for number, due in account.dues_before(day - LATE) if account.is_due(number))


def check_sixty_days(account: Account, papers: Papers, count: Count) -> None:
    """Where a balance bears more than its own rate, some penalty was accepted at least 45 days
    before, on a day on which the account was more than 60 days late (12 CFR 1026.55(b)(4),
    .9(g)(2))."""
    proper: dict[int, bool] = {}

    def is_proper(penalty: Post) -> bool:
        if penalty.number not in proper:
            proper[penalty.number] = is_sixty_days_late(account, penalty.accepted)
        return proper[penalty.number]

    for cycle, closed in account.cycles.items():
        closing = account.closing(cycle)
        penalties = announced(account, closing)
        for segment, rate in closed.rates.items():
            own = own_rate(account, papers, segment, closing)
            if not penalties or rate.basis_points <= own:
                continue
            count["sixty-days"] += 1
            if not any(is_proper(penalty) for penalty in penalties):
                raise Broken(f"sixty-days: {account.name}: {segment} bears a penalty rate on "
                             f"{closing}, and the account wasn't sixty days late when it was "
                             "announced")
