"""The year of one shard: its months, its trial balance, and what was noted of it."""

import os
import re
import sys
import time
from collections.abc import Iterator
from dataclasses import dataclass, field
from pathlib import Path

from tests.support.program import PROGRAM
from tests.support.rows import count_of

from ..measure import stop
from .accounts import Account
from .load import Shard
from .results import Result, Setup
from .runs import Lines, Meter, Server
from .sample import audited, sampled

FIRST_DAY = "2011-01-01"
AMOUNT = rb"\s+(-?[0-9]+\.[0-9]{2})$"
NEW_BALANCE = re.compile(rb"^NEW BALANCE" + AMOUNT, re.M)
MINIMUM = re.compile(rb"^MINIMUM PAYMENT" + AMOUNT, re.M)
CHANGE = re.compile(rb"^change" + AMOUNT, re.M)


def say(text: str) -> None:
    print(f"year: {text}", file=sys.stderr, flush=True)


def cents(pattern: re.Pattern[bytes], text: bytes, what: str) -> int:
    """The cents of the line that the pattern finds."""
    found = pattern.search(text)
    if found is None:
        stop(f"year: {what} has no line {pattern.pattern.decode()}: is it another program's?")
    return int(found[1].replace(b".", b""))


@dataclass
class Year:
    """A shard's year as it goes on, in a folder of its own."""

    shard: Shard
    setup: Setup
    room: Path
    meter: Meter = field(default_factory=Meter)
    rows: int = 0
    statements: int = 0
    begun: float = field(default_factory=time.monotonic)

    @property
    def file(self) -> str:
        return str(self.room / "rows.db")

    @property
    def sent(self) -> Path:
        return self.room / "sent"

    def lines(self, *words: str) -> Lines:
        return Lines(self.meter, [PROGRAM, self.file, *words])

    def nights(self, month: int) -> None:
        """The nights of a month, in one run: rolls and records, and at the end the bills."""
        with self.lines("apply") as run:
            if month == 1:
                self.rows += run.send("imports", self.shard.opening())
            for night in self.shard.nights(month):
                self.rows += run.send("nights", night.shared)
                self.rows += run.send("imports", night.records)
            self.rows += run.send("nights", self.shard.bills(month))
            run.end()

    def statement(self, server: Server, account: Account, month: int) -> bytes:
        """A statement as it was issued. What it asks for is what the next payment rests on."""
        text = server.ask(f"/accounts/{account.name}/statements/{month}")
        what = f"statement {month} of {account.name}"
        account.owed, account.minimum = cents(NEW_BALANCE, text, what), cents(MINIMUM, text, what)
        return text

    def print_all(self, month: int, kept: frozenset[str]) -> int:
        """The statements and the open tasks, by a server. Those of some accounts are kept as files.
        The sum of the new balances."""
        with Server(self.meter, PROGRAM, self.file, 1 + len(self.shard.accounts)) as server:
            with server.phase("nights"):
                server.ask("/work")
                for account in self.shard.accounts:
                    text = self.statement(server, account, month)
                    if account.name in kept:
                        (self.sent / f"{account.name}-{month}.txt").write_bytes(text)
            server.end()
        self.statements += len(self.shard.accounts)
        return sum(account.owed for account in self.shard.accounts)

    def months(self, kept: frozenset[str]) -> int:
        """All months; the sum of the new balances of the last one."""
        self.sent.mkdir()
        balances = 0
        for month in range(1, self.setup.months + 1):
            self.nights(month)
            balances = self.print_all(month, kept)
            say(f"shard {self.shard.number}, month {month} of {self.setup.months}: "
                f"{self.rows:,} rows, {time.monotonic() - self.begun:.0f} s")
        return balances

    def trial(self) -> int:
        """What all accounts owe at the last closing, by the trial balance of all days."""
        closing = self.shard.calendar.closing(self.setup.months)
        with self.lines("trial", FIRST_DAY, str(closing)) as run:
            return cents(CHANGE, run.end().encode(), f"the trial balance of {self.file}")

    def size(self) -> int:
        return sum(os.path.getsize(path) for path in files_of(self.file))


def files_of(file: str) -> Iterator[str]:
    yield from (file + end for end in ("", "-wal") if os.path.exists(file + end))


def require_rows(year: Year) -> None:
    """A stock SQLite counts as many rows as lines were accepted."""
    found = count_of(year.file)
    if found != year.rows:
        stop(f"year: {year.file} has {found:,} rows, and {year.rows:,} lines were accepted: rows "
             "were lost or put in. Keep the file, and compare its rows with the lines")


def carried_out(number: int, setup: Setup, room: Path) -> Result:
    """The year of a shard, from nothing to its trial balance and, where it is to be, its audit."""
    year = Year(Shard(number, setup.accounts, setup.seed), setup, room)
    names = [account.name for account in year.shard.accounts]
    kept = sampled(number, names, setup)
    balances = year.months(kept)
    require_rows(year)
    trial = year.trial()
    audit = audited(year.file, year.sent, kept) if kept else None
    return Result(setup, number, year.rows, year.statements, year.size(), year.meter.starts,
                  year.meter.seconds, year.meter.memory, trial, balances, audit)
