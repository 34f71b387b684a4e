"""The day's close: the ten lines of `trial` by the accounts' entries, and what came since the last.

A day that was booked may change later, so what is to be booked is the difference of the totals.
"""

import csv
import os
import re
from dataclasses import dataclass, field
from datetime import date

from companion.days import FIRST_DAY, day_of
from companion.files import make_folder, names_in, put_text
from companion.texts import Entry, cents_of, money
from companion.trouble import OWN_FILES, Trouble

KINDS = ("charge", "credit", "payment", "return", "refund", "fee", "interest", "hold")
COLUMNS = ("kind", "debits", "credits", "debits_before", "credits_before", "debits_new",
           "credits_new")
POSTED = ("late_fees", "returned_payment_fees", "interest")
ACCOUNTS = ("account", "owed", *(name + end for name in POSTED for end in ("", "_new")))
NAME = re.compile(r"([0-9]{4}-[0-9]{2}-[0-9]{2})\.csv")
ACCOUNTS_END = "-accounts.csv"

# Debits and credits of a kind; and of an account its late fees, returned-payment fees and interest.
Sums = dict[str, tuple[int, int]]
Posted = dict[str, tuple[int, int, int]]


@dataclass
class Close:
    """What the entries of all accounts give at the end of a day, and what the last close gave."""

    day: date
    since: date = FIRST_DAY
    before: Sums = field(default_factory=lambda: dict.fromkeys(KINDS, (0, 0)))
    posted_before: Posted = field(default_factory=dict)
    sums: Sums = field(default_factory=lambda: dict.fromkeys(KINDS, (0, 0)))
    posted: Posted = field(default_factory=dict)
    owed: dict[str, int] = field(default_factory=dict)
    at_closings: dict[tuple[str, int], int] = field(default_factory=dict)

    def add(self, account: str, entries: list[Entry]) -> None:
        """Takes in the entries of an account."""
        owed = late = returned = interest = 0
        for entry in entries:
            debits, credits = self.sums[entry.kind]
            self.sums[entry.kind] = (debits + max(entry.cents, 0), credits + max(-entry.cents, 0))
            owed += entry.cents
            if entry.kind == "interest":
                interest += entry.cents
            elif entry.kind == "fee" and entry.post:
                returned += entry.cents
            elif entry.kind == "fee":
                late += entry.cents
        self.posted[account] = late, returned, interest
        self.owed[account] = owed

    def new(self, what: int) -> dict[str, int]:
        """What is new of the late fees (0), returned-payment fees (1) or interest (2), by account.

        A correction of a day that is past may lower it.
        """
        found = {name: amounts[what] - self.posted_before.get(name, (0, 0, 0))[what]
                 for name, amounts in self.posted.items()}
        return {name: cents for name, cents in found.items() if cents}


def total(sums: Sums) -> tuple[int, int]:
    return (sum(debits for debits, _ in sums.values()),
            sum(credits for _, credits in sums.values()))


def begun_close(home: str, day: date) -> Close:
    """A close of a day with what the last one before it gave; of none, nothing."""
    folder = os.path.join(home, "books")
    for name in reversed(names_in(folder)):
        found = NAME.fullmatch(name)
        closed = day_of(found.group(1)) if found else None
        if closed is not None and closed < day:
            accounts = os.path.join(folder, f"{closed}{ACCOUNTS_END}")
            return Close(day, closed, sums_in(os.path.join(folder, name)), posted_in(accounts))
    return Close(day)


def read_records(path: str) -> list[dict[str, str]]:
    try:
        with open(path, encoding="ascii", newline="") as file:
            return list(csv.DictReader(file))
    except (OSError, UnicodeDecodeError) as error:
        raise Trouble(f"{path} can't be read: {error}; put back the one of that night",
                      OWN_FILES) from error


def changed(path: str, error: Exception) -> Trouble:
    return Trouble(f"{path} isn't a close as it was written: {error!r}; put back the one of that "
                   "night", OWN_FILES)


def sums_in(path: str) -> Sums:
    """The sums that a close was written with."""
    try:
        found = {record["kind"]: (cents_of(record["debits"]), cents_of(record["credits"]))
                 for record in read_records(path)}
        return {kind: found[kind] for kind in KINDS}
    except (KeyError, ValueError, AttributeError) as error:
        raise changed(path, error) from error


def posted_in(path: str) -> Posted:
    """The fees and interest of each account that a close was written with."""
    try:
        return {record["account"]: (cents_of(record[POSTED[0]]), cents_of(record[POSTED[1]]),
                                    cents_of(record[POSTED[2]])) for record in read_records(path)}
    except (KeyError, ValueError, AttributeError) as error:
        raise changed(path, error) from error


def records_of(close: Close) -> list[list[str]]:
    """The records of a close: each kind, and all of them."""
    records = []
    for kind in (*KINDS, "total"):
        now = total(close.sums) if kind == "total" else close.sums[kind]
        was = total(close.before) if kind == "total" else close.before[kind]
        records.append([kind, *(money(cents) for cents in (
            *now, *was, now[0] - was[0], now[1] - was[1]))])
    return records


def account_records(close: Close) -> list[list[str]]:
    """The records of the accounts: what is owed, and fees and interest in all and what is new."""
    new = [close.new(what) for what in range(len(POSTED))]
    records = []
    for name, amounts in close.posted.items():
        cells = [name, money(close.owed[name])]
        for what, cents in enumerate(amounts):
            cells += [money(cents), money(new[what].get(name, 0))]
        records.append(cells)
    return records


def put_close(home: str, close: Close) -> tuple[str, str]:
    """Writes a close, with what is to be booked and by account. Gives both paths in the home."""
    folder = os.path.join(home, "books")
    make_folder(folder)
    names = (f"{close.day}{ACCOUNTS_END}", f"{close.day}.csv")
    for name, records in ((names[0], [list(ACCOUNTS), *account_records(close)]),
                          (names[1], [list(COLUMNS), *records_of(close)])):
        put_text(os.path.join(folder, name), "".join(",".join(one) + "\n" for one in records))
    return os.path.join("books", names[1]), os.path.join("books", names[0])


def posted_line(close: Close) -> str:
    """The fees and interest since the last close, in all."""
    told = []
    for what, name in enumerate(("late fees", "returned-payment fees", "interest")):
        new = close.new(what)
        told.append(f"{name} {money(sum(new.values()))} on {len(new)}")
    since = "the beginning" if close.since == FIRST_DAY else f"the close of {close.since}"
    return f"posted since {since}: {', '.join(told)} (accounts)"


def trial_lines(close: Close) -> list[str]:
    """The ten lines of `trial` up to the day, each with what came since the last close."""
    lines = [f"{' '.join(record[:3])} (new: {' '.join(record[5:])})"
             for record in records_of(close)]
    now, was = (debits - credits for debits, credits in (total(close.sums), total(close.before)))
    lines.append(f"change {money(now)} (new: {money(now - was)})")
    return lines
