"""The ledger: the step that a request makes of it, and what it tells."""

from dataclasses import dataclass, field
from typing import NamedTuple

from . import product
from .book import Book, Entry, Issued, SharedRows
from .days import FIRST_DAY, Anchor, closing, is_timely
from .fees import FeeRow
from .fold import advance
from .history import Corrected, corrected
from .refusals import Refused, post_reason, reason_to_open, shared_reason
from .segments import Segment
from .statement import Statement, restated, statement_of
from .tasks import Task, open_tasks, task_order
from .words import OPENINGS, Kept, Request

LAST_CYCLE = 2_000  # no account closes so often


class Reply(NamedTuple):
    """Done (`number` None), accepted under a number, or refused.  `new` tells an accepted request
    that isn't a repeat."""
    number: int | None = None
    refused: Refused | None = None
    new: bool = False


@dataclass
class Account:
    """The two lists of an account, and what was derived from them last."""
    anchor: Anchor
    posts: list[Kept] = field(default_factory=list)
    issued: dict[int, Issued] = field(default_factory=dict)
    keys: dict[str, int] = field(default_factory=dict)
    known: tuple[int, ...] | None = None
    book: Book | None = None
    corrected_known: tuple[int, ...] | None = None
    corrected: Corrected | None = None


class Machine:
    """The state: today, the shared rows, and the accounts."""

    def __init__(self, post_limit: int = product.POST_LIMIT):
        self.post_limit = post_limit
        self.today = FIRST_DAY
        self.holidays: frozenset[int] = frozenset()
        self.fee_rows: list[FeeRow] = []
        self.index_rows: list[tuple[int, int]] = []
        self.holiday_rows = 0
        self.accounts: dict[str, Account] = {}

    # -- derived values ----------------------------------------------------------------

    def _lists_key(self, account: Account) -> tuple[int, ...]:
        """All lists only grow at their ends, so their lengths name their contents."""
        return (len(account.posts), len(account.issued), self.holiday_rows, len(self.fee_rows),
                len(self.index_rows))

    def book(self, account: Account, day: int | None = None) -> Book:
        """The fold of an account to the end of a day, today if none is given.

        The last book is kept as long as the lists are the same; it is folded
        on for a later day and anew for an earlier one.
        """
        day = self.today if day is None else day
        key = self._lists_key(account)
        book = account.book
        if book is None or account.known != key or book.day > day:
            shared = SharedRows(self.holidays, list(self.fee_rows), list(self.index_rows))
            book = Book(account.anchor, list(account.posts), dict(account.issued), shared)
            account.book, account.known = book, key
        return advance(book, day)

    def corrected(self, account: Account) -> Corrected:
        key = (len(account.posts), self.holiday_rows)
        found = account.corrected
        if found is None or account.corrected_known != key:
            found = corrected(account.anchor, account.posts, self.holidays)
            account.corrected, account.corrected_known = found, key
        return found

    # -- the step ----------------------------------------------------------------------

    def outcome(self, r: Request) -> Refused | int | None:
        """The first refusal that holds, the old number of a repeat, or None."""
        if r.is_shared:
            return shared_reason(self, r)
        account = self.accounts.get(r.account)
        opening = r.word in OPENINGS
        if account is None:
            return reason_to_open(self, r) if opening else Refused(1)
        known = account.keys.get(r.key)
        if known is None:
            return Refused(2) if opening else post_reason(self, account, r)
        return known if account.posts[known - 1].post == r else Refused(3, known)

    def apply(self, r: Request) -> Reply:
        """One step of the ledger."""
        found = self.outcome(r)
        if isinstance(found, Refused):
            return Reply(refused=found)
        if found is not None:
            return Reply(number=found)
        if r.is_shared:
            self._share(r)
            return Reply(new=True)
        if r.word in OPENINGS:
            self.accounts[r.account] = Account(Anchor(r.day, r.close))
        account = self.accounts[r.account]
        number = len(account.posts) + 1
        account.posts.append(Kept(number, self.today, r))
        account.keys[r.key] = number
        if r.word == "bill":
            self.issue(account, r.cycle, number)
        return Reply(number=number, new=True)

    def issue(self, account: Account, k: int, bill: int) -> None:
        """The statement of a cycle is issued as it stands today."""
        timely = is_timely(account.anchor, k, self.today)
        statement = statement_of(self.book(account), k, self.today, timely)
        account.issued[k] = Issued(k, bill, self.today, statement)

    def _share(self, r: Request) -> None:
        if r.word == "roll":
            self.today = r.day
        elif r.word == "holiday":
            self.holidays = self.holidays | {r.day}
            self.holiday_rows += 1
        elif r.word == "feerow":
            self.fee_rows.append(FeeRow(r.day, r.first, r.repeat))
        else:
            self.index_rows.append((r.day, r.rate))

    # -- what it tells -------------------------------------------------------------------

    def show(self, name: str) -> tuple[int, int, int, int] | None:
        """Today, owed, credit and held; None where the account isn't there."""
        account = self.accounts.get(name)
        if account is None:
            return None
        book = self.book(account)
        return self.today, book.owed(), book.credit(), book.balance(1)

    def closed_cycles(self, account: Account) -> int:
        """How many cycles are closed before today."""
        count = 0
        while (day := closing(account.anchor, count + 1)) is not None and day < self.today:
            count += 1
        return count

    def issued_statement(self, name: str, k: int) -> Statement | None:
        account = self.accounts.get(name)
        row = account.issued.get(k) if account else None
        return row.statement if row else None

    def restated_statement(self, name: str, k: int) -> Statement | None:
        """The cycle as recomputed now; None where it isn't closed before today."""
        account = self.accounts.get(name)
        day = closing(account.anchor, k) if account is not None and k <= LAST_CYCLE else None
        if account is None or day is None or not day < self.today:
            return None
        return restated(self.book(account), k)

    def entries(self, name: str) -> tuple[list[Entry], list[Segment]] | None:
        """The entries and the segments of an account."""
        account = self.accounts.get(name)
        if account is None:
            return None
        book = self.book(account)
        return book.entries, book.segments

    def entries_of(self, name: str) -> list[Entry]:
        """The entries of an account that is there."""
        return self.book(self.accounts[name]).entries

    def tasks(self, name: str) -> list[Task]:
        """The open tasks of an account that is there."""
        account = self.accounts[name]
        book = self.book(account)
        return open_tasks(name, account.anchor, account.posts, book.credit(), book.credit_since(),
                          self.holidays, self.today)

    def work(self) -> list[Task]:
        """The open tasks of all accounts."""
        return sorted((task for name in self.accounts for task in self.tasks(name)),
                      key=task_order)
