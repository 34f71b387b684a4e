"""Who is late: statements whose minimum payment wasn't credited (12 CFR 1026.52(b), .55(b)(4)).

What a statement asks, and what was credited, is billctl's: its restated statements and its entries.
Here the two are compared alone.
"""

import os
from collections.abc import Iterator
from dataclasses import dataclass
from datetime import date, timedelta
from typing import Protocol

from companion.days import TIMELY, closing, due
from companion.home import LEDGER, require_home
from companion.opening import copied
from companion.server import Server
from companion.state import Account, read_state
from companion.texts import Entry, entries_of, money, owed_at, printed_of
from companion.trouble import DONE, counted, say

# The penalty rate may be given where so many days passed since a due date (12 CFR 1026.55(b)(4)).
PENALTY_DAYS = 60
ONE_DAY = timedelta(days=1)
HEADER = "account,owed,statement,due,asked,credited,missing,days,fee,penalty_rate"


class Asked(Protocol):
    """What answers questions: a server, or a call for each."""

    def entries(self, account: str) -> str: ...

    def statement(self, account: str, cycle: int) -> str | None: ...

    def restated(self, account: str, cycle: int) -> str | None: ...


@dataclass(frozen=True)
class Late:
    """A statement whose payment is late, and by how much."""

    account: str
    cycle: int
    due: date
    asked: int
    credited: int
    fee: int

    @property
    def missing(self) -> int:
        return self.asked - self.credited


def days_of(entries: list[Entry], kind: str) -> dict[int, tuple[date, int]]:
    """Of each post with entries of a kind, their day and their sum."""
    found: dict[int, tuple[date, int]] = {}
    for entry in entries:
        if entry.kind == kind:
            before = found.get(entry.post, (entry.day, 0))[1]
            found[entry.post] = (entry.day, before + entry.cents)
    return found


def credited(entries: list[Entry], returns: dict[int, int], first: date, last: date) -> int:
    """The payments credited from one day to another, without those returned by then."""
    backs = days_of(entries, "return")
    gone = {target for number, target in returns.items()
            if number in backs and backs[number][0] <= last}
    return sum(-cents for number, (day, cents) in days_of(entries, "payment").items()
               if first <= day <= last and number not in gone)


def has_due_payment(account: Account, cycle: int) -> bool:
    """Whether the statement of a cycle was issued in time to ask for a payment."""
    issued = account.bills.get(cycle)
    day = due(closing(account.opened, account.close, cycle))
    return issued is not None and (day - issued).days >= TIMELY


def fee_of(entries: list[Entry], day: date) -> int:
    """The late fee that a due date brought: it is charged on the day after."""
    return sum(entry.cents for entry in entries
               if entry.kind == "fee" and entry.post == 0 and entry.day == day + ONE_DAY)


def late_on(asked: Asked, account: Account, entries: list[Entry], cycle: int,
            until: date) -> Late | None:
    """Whether what a statement asked wasn't credited by a day; None where it was."""
    closed = closing(account.opened, account.close, cycle)
    if not has_due_payment(account, cycle):
        return None
    paid = credited(entries, account.returns, closed + ONE_DAY, until)
    if paid >= owed_at(entries, closed):
        return None
    text = asked.restated(account.name, cycle)
    minimum = printed_of(text).minimum if text else 0
    if paid >= minimum:
        return None
    day = due(closed)
    return Late(account.name, cycle, day, minimum, paid, fee_of(entries, day))


def late_statements(asked: Asked, account: Account, today: date,
                    entries: list[Entry]) -> Iterator[Late]:
    """The statements of an account that are late today, the newest first."""
    for cycle in range(account.closed(today), 0, -1):
        if due(closing(account.opened, account.close, cycle)) < today:
            found = late_on(asked, account, entries, cycle, today)
            if found is not None:
                yield found


def is_long(found: list[Late], today: date) -> bool:
    """Whether one of them is so late that the penalty rate may be given."""
    return any((today - one.due).days > PENALTY_DAYS for one in found)


def newly_late(asked: Asked, account: Account, entries: list[Entry], since: date,
               today: date) -> Iterator[Late]:
    """The statements of an account whose due date passed unmet from a day on, up to yesterday."""
    for cycle in range(account.closed(today), 0, -1):
        day = due(closing(account.opened, account.close, cycle))
        if day < since:
            return
        found = late_on(asked, account, entries, cycle, day) if day < today else None
        if found is not None:
            yield found


def late(program: str, home: str, wait: int) -> int:
    """The word `late`: a record for each account that is late today."""
    require_home(home)
    path = os.path.join(home, LEDGER)
    state = read_state(path, wait)
    number = long = 0
    print(HEADER)
    with copied(path, wait) as copy, Server(program, copy) as server:
        for account in state.accounts.values():
            entries = entries_of(server.entries(account.name))
            found = list(late_statements(server, account, state.today, entries))
            if not found:
                continue
            one, rate = found[0], is_long(found, state.today)
            number, long = number + 1, long + rate
            print(account.name, money(owed_at(entries, state.today)), one.cycle, one.due,
                  money(one.asked), money(one.credited), money(one.missing),
                  (state.today - one.due).days, money(one.fee), "allowed" if rate else "",
                  sep=",")
    say(f"late: {number} of {counted(len(state.accounts), 'account')} on {state.today}; on {long} "
        "of them the penalty rate may be given (12 CFR 1026.55(b)(4))")
    return DONE
