"""Runs of the model over rows in memory."""

from functools import lru_cache

from audit.book import Book, Cycle
from audit.commands import Keeper, run
from audit.days import day_of
from audit.generate import generate
from audit.lines import read_line
from audit.machine import Machine
from audit.product import COMMANDS_TO_COME
from audit.words import Request

# No word is left out, nor those that the program doesn't know yet.
EVERY_WORD: frozenset[str] = frozenset()

START = ["feerow 2011-01-02 3000 4100", "roll 2024-01-10",
         "open a o 2024-01-06 5 1999 2499 2199 2999 2500 100"]


class Session:
    """Several runs over the same rows."""

    def __init__(self, kept: list[tuple[int, bytes]] | None = None,
                 unknown: frozenset[str] = COMMANDS_TO_COME) -> None:
        self.keeper, self.unknown = Keeper(kept), unknown

    @property
    def machine(self) -> Machine:
        return self.keeper.machine()

    def run(self, *words: str, data: bytes = b"") -> tuple[bytes, int]:
        return run(list(words), self.keeper, data, self.unknown)

    def text(self, *words: str, data: bytes = b"") -> str:
        return self.run(*words, data=data)[0].decode()

    def apply(self, *lines: str) -> list[str]:
        """The reply lines."""
        return self.text("apply", data="".join(line + "\n" for line in lines).encode()).splitlines()

    def last(self, *lines: str) -> str:
        """The last reply line."""
        return self.apply(*lines)[-1]

    def status(self, *lines: str) -> int:
        return self.run("apply", data="".join(line + "\n" for line in lines).encode())[1]

    def answer(self, data: bytes) -> bytes:
        return self.run("answer", data=data)[0]

    def owed(self, account: str) -> int:
        return int(self.last(f"show {account}").split(" owed ")[1].split()[0])

    def book(self, account: str) -> Book:
        """The book of an account at the end of today."""
        return self.machine.book(self.machine.accounts[account])

    def cycles(self, account: str) -> list[Cycle]:
        return self.book(account).cycles

    def rate(self, account: str, segment: int, day: str) -> int:
        """The rate of a segment on a day, by the book of today."""
        return self.book(account).rates.rate_on(segment, day_of(day))


def started() -> Session:
    """An account `a` on its fifth day."""
    session = Session()
    assert session.apply(*START) == ["ok", "ok", "ok 1"]
    return session


def request_of(line: str) -> Request:
    """The request of a line, also of a word that the program doesn't know yet."""
    item = read_line(line.encode(), EVERY_WORD)
    assert isinstance(item, Request), f"no request line: {line}"
    return item


@lru_cache(maxsize=None)
def machine_of(seed: int, lines: int, accounts: int = 2) -> Machine:
    """The ledger of a random history of all words."""
    machine = Machine()
    for line in generate(seed, lines, accounts, EVERY_WORD):
        item = read_line(line.encode(), EVERY_WORD)
        if isinstance(item, Request):
            machine.apply(item)
    return machine


def billed(payment: int | None, terms: str = "1999 2499 2199 2999 2500 100") -> Session:
    """1,000.00 are charged in the first cycle, its statement is issued, and some of it is paid."""
    session = Session()
    session.apply(*START[:2], f"open a o 2024-01-06 5 {terms}",
                  "charge a c1 2024-01-10 purchase 100000", "roll 2024-02-06", "bill a b1 1")
    if payment is not None:
        session.apply("roll 2024-02-20", f"payment a p1 2024-02-20 600 online {payment}")
    return session
