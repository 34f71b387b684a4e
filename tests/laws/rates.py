"""The rates of balances, as requests say them and as statements show them."""

import itertools
from collections.abc import Iterator

from .days import DAY, Date, day_of
from .papers import NOTICE, Account, Papers, Post

RATE_LIMIT = 9999  # basis points
CATEGORIES = ("purchase", "cash", "transfer")
PLANS = ("promo", "deferred")
MET_TO_END = 6  # due dates that end a penalty rate


def parts(segment: str) -> tuple[str, int]:
    """The sort and the number of a segment."""
    sort, _, number = segment.partition(":")
    return sort, int(number)


def is_opening(segment: str) -> bool:
    """Whether a balance bears what the opening says of its category."""
    return parts(segment)[1] < 5


def plan_of(account: Account, segment: str) -> Post | None:
    sort, number = parts(segment)
    return account.added()[number] if sort in PLANS else None


def opening_rate(account: Account, papers: Papers, category: str, day: Date) -> int:
    """The rate of the opening, or its margin and the index of a day."""
    rate = int(account.opening.fields[2 + CATEGORIES.index(category)])
    return min(RATE_LIMIT, rate + papers.index_on(day)) if account.follows_index else rate


def own_rate(account: Account, papers: Papers, segment: str, day: Date) -> int:
    """The rate of a balance on a day by its opening, its plan or its notice, before any rate was
    lowered and any penalty rate began."""
    sort, number = parts(segment)
    plan = plan_of(account, segment)
    if plan is not None:
        _, _, rate, end, after = plan.fields
        if day > day_of(end):
            return int(after)
        return 0 if sort == "deferred" else int(rate)
    older = {place: post for place, post in account.added().items()
             if place <= number and post.word == "notice" and post.fields[1] == sort}
    for place in sorted(older, reverse=True):
        _, _, rate, effective = older[place].fields
        if day_of(effective) <= day:
            return int(rate)
    return opening_rate(account, papers, sort, day)


def penalty_rate(account: Account) -> int:
    return int(account.opening.fields[5])


def announced(account: Account, day: Date) -> list[Post]:
    """The penalties that were accepted at least 45 days before a day."""
    return [post for post in account.of("penalty") if post.accepted + NOTICE <= day]


def fixed_changes(account: Account) -> Iterator[Date]:
    """The days on which some rate may change, except by the index or after the end of a plan, which
    is a closing."""
    for post in account.posts.values():
        if post.word == "notice":
            yield day_of(post.fields[3])
        elif post.word in ("lower", "plan"):
            yield day_of(post.fields[0])
        elif post.word == "penalty":
            begin = post.accepted + NOTICE
            yield begin
            later = (account.due(number) for number in itertools.count(1))
            after = (due for due in later if due > begin)
            yield next(itertools.islice(after, MET_TO_END - 1, None)) + DAY


def changes_in(account: Account, cycle: int, days: Iterator[Date]) -> bool:
    """Whether one of these days is in a cycle, behind its first day."""
    first = account.closing(cycle - 1) + DAY
    return any(first < day <= account.closing(cycle) for day in days)


def has_one_rate(account: Account, papers: Papers, cycle: int) -> bool:
    """Whether all rates of a cycle are those of its closing day."""
    index = (day for day, _ in papers.index_rows) if account.follows_index else iter(())
    return not changes_in(account, cycle, itertools.chain(fixed_changes(account), index))
