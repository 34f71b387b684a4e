"""Records that lie in a billed cycle, and notices whose day is past: taken only if they are meant.

A charge with a day up to a billed closing is on no statement as a transaction: the next one has it
as an earlier correction alone (12 CFR 1026.8). A notice counts from its day on, so one that is
dated back raises rates of days that are past (12 CFR 1026.9(c)(2), .55(a)).
"""

from dataclasses import dataclass
from datetime import date, timedelta

from companion.days import closing, day_of
from companion.inputs import Input, Numbers
from companion.requests import COLUMNS, KINDS
from companion.state import Account, State

# So many items are named.
NAMED = 20


@dataclass(frozen=True)
class Dated:
    """An item that may not be meant: its place, its account and key, and what is to be said."""

    place: int
    account: str
    key: str
    text: str


def cycle_of(account: Account, day: date) -> int:
    """The cycle of an account in which a day lies."""
    months = (day.year - account.opened.year) * 12 + day.month - account.opened.month
    cycle = max(1, months)
    while closing(account.opened, account.close, cycle) < day:
        cycle += 1
    return cycle


def last_billed(account: Account) -> date:
    """The closing of the last cycle that was billed."""
    if not account.bills:
        return date.min
    return closing(account.opened, account.close, max(account.bills))


def late_text(account: Account, day: date) -> str:
    """Where a day lies in a cycle whose statement, or a later one, was issued."""
    cycle = cycle_of(account, day)
    later = min(number for number in account.bills if number >= cycle)
    told = "billed" if later == cycle else f"before cycle {later}, billed"
    return f"{day} lies in cycle {cycle}, {told} on {account.bills[later]}"


def late_in(given: Input, state: State) -> list[Dated]:
    """The charges, credits and payments of an input whose day lies in a billed cycle."""
    found = []
    closings: dict[str, date] = {}
    for place, request in enumerate(given.requests()):
        if request is None or request.word not in KINDS:
            continue
        name = request.fields["account"]
        account, day = state.accounts.get(name), day_of(request.fields["day"])
        if account is None or day is None:
            continue
        if name not in closings:
            closings[name] = last_billed(account)
        if account.opened <= day <= closings[name]:
            text = late_text(account, day)
            found.append(Dated(place, name, request.fields["key"], text))
    return found


def back_in(given: Input, today: date) -> list[Dated]:
    """The notices of an input whose day is before the day before today; rolls are followed."""
    found = []
    for place, request in enumerate(given.requests()):
        if request is None:
            continue
        day = day_of(request.fields.get("day", ""))
        if request.word == "roll" and day is not None:
            today = max(today, day)
        if request.word == "notice" and day is not None and day < today - timedelta(days=1):
            found.append(Dated(place, request.fields["account"], request.fields["key"],
                               f"its notice is of {day}, and today is {today}"))
    return found


def wanted_keys(given: Input, dated: list[Dated]) -> set[tuple[str, str]]:
    """The accounts and keys to be looked up: of dated items, and those that records name."""
    wanted = {(one.account, one.key) for one in dated}
    if given.keyed:
        for record in given.records:
            if len(record) == len(COLUMNS) + 1 and record[-1]:
                wanted.add((record[0], record[-1]))
    return wanted


def named(given: Input, dated: list[Dated], known: Numbers) -> list[str]:
    """Each item that isn't a repeat, in words; of many the first ones."""
    texts = [f"{given.shown(one.place).split(':')[0]}: {one.text}"
             for one in dated if (one.account, one.key) not in known]
    more = len(texts) - NAMED
    return texts[:NAMED] + ([f"and {more} more"] if more > 0 else [])


def late_refusal(texts: list[str]) -> str:
    return ("; ".join(texts) + ". Such a record is on no statement as a transaction, only in the "
            "corrections of the next one (12 CFR 1026.8); give it a day after the closing, or "
            "--late takes it as it is")


def back_refusal(texts: list[str]) -> str:
    return ("; ".join(texts) + ". A notice that is dated back raises rates of days past "
            "(12 CFR 1026.9(c)(2), .55(a)); give the day on which it was sent if that is today or "
            "yesterday, else --dated-back takes it as it is")
