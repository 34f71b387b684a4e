"""`move`: accounts of another system, with balances, plans and disputes, as request lines of a day.

FOLDER has `accounts.csv`, and where there are some `plans.csv` and `disputes.csv`. Amounts are
units with a point and two digits, rates percentages with two. docs/MOVING.md has the columns.
"""

import csv
import os
import re
from dataclasses import dataclass, field
from datetime import date

from companion.days import closing, day_of
from companion.requests import CATEGORIES, NAME
from companion.texts import cents_of, grouped
from companion.trouble import DONE, GUARDED, OWN_FILES, Trouble, counted, say

RATES = ("purchase_rate", "cash_rate", "transfer_rate", "penalty_rate")
BALANCES = ("purchases", "cash", "transfers")
ACCOUNTS = ("account", "close", *RATES, "floor", "part", *BALANCES, "credit_balance")
PLANS = ("account", "plan", "rate", "end", "rate_after", "balance")
DISPUTES = ("account", "category", "cents", "resolve_by")
AMOUNT = re.compile(r"[0-9]{1,9}\.[0-9]{2}")


def wrong(path: str, number: int, column: str, text: str, wanted: str) -> Trouble:
    return Trouble(f"nothing was written: {path}: record {number}: {column} is {text!r}, wanted "
                   f"{wanted}", GUARDED)


@dataclass(frozen=True)
class Record:
    """A record of a table, which names its place where a field isn't as it should be."""

    path: str
    number: int
    fields: dict[str, str]

    def amount(self, column: str) -> int:
        """Cents, or hundredths of a percent."""
        text = self.fields[column]
        if AMOUNT.fullmatch(text) is None:
            raise wrong(self.path, self.number, column, text, "units, a point and two digits")
        return cents_of(text)

    def name(self, column: str) -> str:
        text = self.fields[column]
        if NAME.fullmatch(text) is None:
            raise wrong(self.path, self.number, column, text, "a name of the ledger")
        return text

    def day(self, column: str) -> date:
        found = day_of(self.fields[column])
        if found is None:
            raise wrong(self.path, self.number, column, self.fields[column], "a day YYYY-MM-DD")
        return found

    def one_of(self, column: str, words: tuple[str, ...]) -> str:
        if self.fields[column] not in words:
            raise wrong(self.path, self.number, column, self.fields[column], " or ".join(words))
        return self.fields[column]


def table(folder: str, name: str, columns: tuple[str, ...], wanted: bool) -> list[Record]:
    """The records of a table, whose header is exactly so."""
    path = os.path.join(folder, name)
    if not wanted and not os.path.exists(path):
        return []
    try:
        with open(path, encoding="utf-8", newline="") as file:
            rows = [row for row in csv.reader(file) if row]
    except (OSError, UnicodeDecodeError, csv.Error) as error:
        raise Trouble(f"{path} can't be read: {error}", OWN_FILES) from error
    if not rows or tuple(rows[0]) != columns:
        raise Trouble(f"nothing was written: the header of {path} is {','.join(columns)}", GUARDED)
    for number, row in enumerate(rows[1:], start=2):
        if len(row) != len(columns):
            raise Trouble(f"nothing was written: {path}: record {number} has {len(row)} fields",
                          GUARDED)
    return [Record(path, number, dict(zip(columns, row)))
            for number, row in enumerate(rows[1:], start=2)]


@dataclass
class Moved:
    """The lines so far, the posts of each account, and the sums by what they are."""

    day: date
    lines: list[str] = field(default_factory=list)
    posts: dict[str, int] = field(default_factory=dict)
    closes: dict[str, int] = field(default_factory=dict)
    sums: dict[str, int] = field(default_factory=dict)
    notes: list[str] = field(default_factory=list)

    def post(self, word: str, account: str, rest: str) -> int:
        """Adds a line of an account, and gives the number that its post gets."""
        self.lines.append(f"{word} {account} {rest}")
        self.posts[account] = self.posts.get(account, 0) + 1
        return self.posts[account]

    def add(self, what: str, cents: int) -> None:
        self.sums[what] = self.sums.get(what, 0) + cents

    def known(self, record: Record) -> str:
        name = record.name("account")
        if name not in self.posts:
            raise wrong(record.path, record.number, "account", name, "one of accounts.csv")
        return name


def six_months_after(day: date) -> date:
    """The same day of the sixth month after, or that month's last day."""
    months = day.year * 12 + day.month + 5
    for last in range(day.day, 27, -1):
        try:
            return date(months // 12, months % 12 + 1, last)
        except ValueError:
            continue
    return date(months // 12, months % 12 + 1, day.day)


def add_account(moved: Moved, record: Record) -> None:
    """An account with its balances: it opens on the day of the move."""
    name = record.name("account")
    if name in moved.posts:
        raise wrong(record.path, record.number, "account", name, "each account once")
    close = record.fields["close"]
    if not close.isdigit() or not 1 <= int(close) <= 28:
        raise wrong(record.path, record.number, "close", close, "1 to 28")
    moved.closes[name] = int(close)
    rates = " ".join(str(record.amount(column)) for column in RATES)
    moved.post("open", name, f"moved {moved.day} {int(close)} {rates} {record.amount('floor')} "
                             f"{record.amount('part')}")
    credit = record.amount("credit_balance")
    for column, place in zip(BALANCES, CATEGORIES):
        cents = record.amount(column)
        if cents and credit:
            raise wrong(record.path, record.number, column, record.fields[column],
                        "0.00 beside a credit balance")
        if cents:
            moved.post("charge", name, f"moved-{place} {moved.day} {place} {cents}")
        moved.add(column, cents)
    if credit:
        moved.post("payment", name, f"moved-credit {moved.day} 0 online {credit}")
    moved.add("credit balances", -credit)


def add_plan(moved: Moved, record: Record) -> None:
    """A plan with its balance. One that is over in less than six months is given that long."""
    name, kind = moved.known(record), record.one_of("plan", ("promo", "deferred"))
    wanted = max(record.day("end"), six_months_after(moved.day))
    cycle = 1
    while closing(moved.day, moved.closes[name], cycle) < wanted:
        cycle += 1
    end = closing(moved.day, moved.closes[name], cycle)
    if end != record.day("end"):
        moved.notes.append(f"{name}: the plan up to {record.day('end')} ends on {end}, the first "
                           "closing that the ledger takes")
    key = f"moved-plan-{record.number - 1}"
    number = moved.post("plan", name, f"{key} {moved.day} {kind} {record.amount('rate')} {end} "
                                      f"{record.amount('rate_after')}")
    moved.post("charge", name, f"{key}-balance {moved.day} plan:{number} "
                               f"{record.amount('balance')}")
    moved.add("plans", record.amount("balance"))


def add_dispute(moved: Moved, record: Record) -> None:
    """What is in dispute, as a charge of its own that is disputed."""
    name, place = moved.known(record), record.one_of("category", CATEGORIES)
    key, cents = f"moved-dispute-{record.number - 1}", record.amount("cents")
    number = moved.post("charge", name, f"{key}-charge {moved.day} {place} {cents}")
    moved.post("dispute", name, f"{key} {moved.day} {number} {cents}")
    moved.add("in dispute", cents)
    moved.notes.append(f"{name}: the dispute of {grouped(cents)} has to be resolved by "
                       f"{record.day('resolve_by')}, as before; the ledger's task says later")


def move(folder: str, day: date) -> int:
    """The word `move`. The lines go to standard output, the control sums to standard error."""
    moved = Moved(day)
    for record in table(folder, "accounts.csv", ACCOUNTS, True):
        add_account(moved, record)
    for record in table(folder, "plans.csv", PLANS, False):
        add_plan(moved, record)
    for record in table(folder, "disputes.csv", DISPUTES, False):
        add_dispute(moved, record)
    for line in moved.lines:
        print(line)
    for note in moved.notes:
        say(f"move: {note}")
    for what, cents in moved.sums.items():
        say(f"move: {what} {grouped(cents)}")
    say(f"move: {counted(len(moved.posts), 'account')}, owed {grouped(sum(moved.sums.values()))}")
    return DONE
