"""The book of an account at the end of a day: its entries, closed cycles, fees and penalty
rates."""

from dataclasses import dataclass, field
from typing import TYPE_CHECKING, NamedTuple

from .days import Anchor
from .fees import Fee, FeeRow
from .history import Corrected, corrected
from .rates import Penalty, RateBook
from .segments import CREDIT
from .words import Kept

if TYPE_CHECKING:
    from .statement import Statement

ENTRY_KINDS = ("charge", "credit", "payment", "return", "refund", "fee", "interest", "hold")


class Entry(NamedTuple):
    """A movement on a segment.  A plus raises what is owed."""
    day: int
    segment: int
    kind: str
    post: int
    cents: int


@dataclass
class Cycle:
    """A closed cycle.  `interest` and `average` have no cents of 0."""
    number: int
    first: int
    closing: int
    due: int
    previous: int
    new_balance: int
    held: int
    interest: dict[int, int]
    average: dict[int, int]
    fees: list[Fee]
    minimum: int
    grace_amount: int
    entries: int


class Issued(NamedTuple):
    """An issued row: cycle, number of its bill, issue day, and the statement of that moment."""
    cycle: int
    bill: int
    day: int
    statement: "Statement"


@dataclass(frozen=True)
class SharedRows:
    """What all accounts share, as the fold reads it."""
    holidays: frozenset[int]
    fees: list[FeeRow]
    index: list[tuple[int, int]]


@dataclass
class Book:
    """The book of the end of `day`; `fold.advance` takes it on."""
    anchor: Anchor
    posts: list[Kept]
    issued: dict[int, Issued]
    shared: SharedRows
    entries: list[Entry] = field(default_factory=list)
    cycles: list[Cycle] = field(default_factory=list)
    fees: list[Fee] = field(default_factory=list)

    def __post_init__(self) -> None:
        self.terms = self.posts[0].post
        self.corrected: Corrected = corrected(self.anchor, self.posts, self.shared.holidays)
        self.rates = RateBook(self.anchor, self.posts, self.shared.index)
        self.segments = self.rates.segments
        self.day = self.anchor.opened - 1
        self.of_segment: list[list[Entry]] = [[] for _ in self.segments]
        self._sums: list[tuple[int, int]] = [(0, 0) for _ in self.segments]
        self.holds: dict[int, tuple[int, int]] = {}  # dispute -> segment and cents set aside
        # per segment: day -> balance and rate of the day's row, and of its accrual
        self.rows: list[dict[int, tuple[int, int]]] = [{} for _ in self.segments]
        self.accruals: list[dict[int, tuple[int, int]]] = [{} for _ in self.segments]

    @property
    def penalties(self) -> list[Penalty]:
        return self.rates.penalties

    def cycle(self, k: int) -> Cycle:
        return self.cycles[k - 1]

    def issued_cycle(self, k: int) -> Cycle | None:
        """The cycle of the issued row of k, above whose numbers no correction goes."""
        row = self.issued.get(k)
        return row.statement.cycle if row is not None else None

    def balance(self, segment: int) -> int:
        """The sum of a segment's entries (kept until its list grows)."""
        entries = self.of_segment[segment]
        length, total = self._sums[segment]
        if length != len(entries):
            total = sum(e.cents for e in entries)
            self._sums[segment] = (len(entries), total)
        return total

    def balances(self) -> list[int]:
        return [self.balance(s.number) for s in self.segments]

    def owed(self) -> int:
        """The sum of all balances."""
        return sum(self.balances())

    def owed_at(self, day: int) -> int:
        """What is owed at the end of a day: the sum of all entries dated up to it."""
        return sum(e.cents for e in self.entries if e.day <= day)

    def balance_at(self, segment: int, day: int) -> int:
        """The balance of a segment at the end of a day."""
        return sum(e.cents for e in self.of_segment[segment] if e.day <= day)

    def credit(self) -> int:
        """The credit balance, as a number that isn't negative."""
        return -self.balance(CREDIT)

    def credit_since(self) -> int | None:
        """The first day of the present run of days that end with a credit balance, None without
        one."""
        if self.balance(CREDIT) == 0:
            return None
        entries = self.of_segment[CREDIT]
        since = None
        for day in sorted({e.day for e in entries}, reverse=True):
            if sum(e.cents for e in entries if e.day <= day) == 0:
                break
            since = day
        return since

    def enter(self, day: int, segment: int, kind: str, post: int, cents: int) -> None:
        """One entry more, none for 0 cents."""
        if cents:
            entry = Entry(day, segment, kind, post, cents)
            self.entries.append(entry)
            self.of_segment[segment].append(entry)

    def debit(self, day: int, segment: int, kind: str, post: int, cents: int) -> None:
        """What raises a balance uses up the credit balance first; the rest goes to the segment."""
        to_credit = min(cents, -self.balance(CREDIT))
        self.enter(day, CREDIT, kind, post, to_credit)
        self.enter(day, segment, kind, post, cents - to_credit)
