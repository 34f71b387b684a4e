"""Issued statements of a ledger, each with the book that it was made of."""

from collections.abc import Iterator
from dataclasses import dataclass
from typing import Any

from ..book import Book
from ..commands import Damaged
from ..days import FIRST_DAY
from ..explaining.account import rows_of_account
from ..lines import read_name
from ..rows import decode
from ..statement import Statement
from ..words import SHARED_WORDS, WORDS
from .quick import Quick, State

Kept = list[tuple[int, bytes]]
Data = dict[str, Any]

_SHARED_CODES = {WORDS[word][0] for word in SHARED_WORDS}
_ROLL, _BILL = WORDS["roll"][0], WORDS["bill"][0]


@dataclass
class Bill:
    """A statement as it was issued, the account's book of that day, and its state at closings."""

    account: str
    cycle: int
    number: int
    day: int
    book: Book
    statement: Statement
    states: list[State]


@dataclass
class Wanted:
    """The rows of an account up to its last bill of the day, and the cycles that are billed."""

    account: str
    rows: Kept
    cycles: list[int]


def is_shared(body: bytes) -> bool:
    return body[1] in _SHARED_CODES


def account_of(place: int, body: bytes) -> str:
    name = read_name(body[3:3 + body[2]])
    if name is None:
        raise Damaged(place)
    return name


class Reading:
    """One pass over the rows: those of each account, and the bills of the day."""

    def __init__(self, day: int) -> None:
        self.day, self.today = day, FIRST_DAY
        self.shared: Kept = []
        self.accounts: dict[str, Kept] = {}
        self.ends: dict[str, int] = {}
        self.cycles: dict[str, list[int]] = {}

    def take(self, place: int, seq: int, body: bytes) -> None:
        if seq != place or len(body) < 3:
            raise Damaged(place)
        if is_shared(body):
            self.shared.append((seq, body))
            if body[1] == _ROLL:
                self.today = self.request(place, body).day or 0
            return
        name = account_of(place, body)
        self.accounts.setdefault(name, []).append((seq, body))
        if body[1] == _BILL and self.today == self.day:
            self.cycles.setdefault(name, []).append(self.request(place, body).cycle or 0)
            self.ends[name] = seq

    def request(self, place: int, body: bytes) -> Any:
        found = decode(body)
        if found is None:
            raise Damaged(place)
        return found

    def wanted(self, name: str) -> Wanted:
        """The rows that decide the account's statements of the day."""
        end = self.ends[name]
        rows = [row for row in self.shared + self.accounts[name] if row[0] <= end]
        return Wanted(name, sorted(rows), self.cycles[name])


def wanted_on(kept: Kept, day: int) -> Iterator[Wanted]:
    """Each account that has statements of the day, in the order of their first bills."""
    reading = Reading(day)
    for place, (seq, body) in enumerate(kept, start=1):
        reading.take(place, seq, body)
    for name in reading.cycles:
        yield reading.wanted(name)


def bills_of(wanted: Wanted) -> list[Bill]:
    """The statements that are wanted, by the independent model."""
    machine = Quick()
    for seq, _, request in rows_of_account(wanted.rows, wanted.account, whole=False).kept:
        if not machine.apply(request).new:
            raise Damaged(seq)
    account = machine.accounts[wanted.account]
    found = []
    for k in wanted.cycles:
        row = account.issued[k]
        assert isinstance(row.statement, Statement)
        which = wanted.account, k
        found.append(Bill(wanted.account, k, row.bill, row.day, machine.books[which],
                          row.statement, machine.at_bills[which]))
    return found
