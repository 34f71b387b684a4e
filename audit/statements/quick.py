"""The model over one account, that folds a day again only where something changed it.

The plain model folds an account from its opening at every bill.  Here the state at each closing is
kept, and the fold goes on from the last closing before the first day that a new post may change.
"""

from typing import Any

from ..book import Book, SharedRows
from ..days import closing, cycle_of
from ..explaining.account import Watching
from ..fold import advance
from ..machine import Account

_COPIED = ("entries", "cycles", "fees", "holds")
_BY_SEGMENT = ("of_segment", "rows", "accruals")
State = dict[str, Any]


def state_of(book: Book) -> State:
    """What the fold has made up to the day of a book."""
    found: State = {name: type(getattr(book, name))(getattr(book, name)) for name in _COPIED}
    for name in _BY_SEGMENT:
        found[name] = [type(one)(one) for one in getattr(book, name)]
    return found | {"day": book.day, "penalties": list(book.rates.penalties)}


def set_state(book: Book, state: State) -> None:
    """A new book, whose days up to that of the state are done.

    A balance that the book doesn't know was begun by a later post, and has nothing yet.
    """
    for name in _COPIED:
        setattr(book, name, type(state[name])(state[name]))
    for name in _BY_SEGMENT:
        ours = getattr(book, name)
        for s, one in enumerate(state[name][:len(ours)]):
            ours[s] = type(one)(one)
    book.day, book.rates.penalties = state["day"], list(state["penalties"])


def set_known(book: Book, states: list[State], before: int, to: int) -> None:
    """A new book, whose days are done as far as a state is known before a day, and up to a day."""
    known = [state for state in states if state["day"] < before and state["day"] <= to]
    if known:
        set_state(book, known[-1])


def first_changed(old: Book, new: Book) -> int:
    """No day before this one differs, by what came between two books of an account.

    Shared rows are for days to come alone, and issuing changes no day up to that of issue.
    """
    ours, theirs = new.corrected, old.corrected
    days = [row.day for k, row in new.issued.items() if k not in old.issued]
    for kept in new.posts[len(old.posts):]:
        own = kept.accepted if kept.post.day is None else kept.post.day
        days.append(min(own, ours.effective[kept.number]))
    for kept in old.posts:
        n = kept.number
        if ((ours.effective[n], ours.cents[n], ours.day[n])
                != (theirs.effective[n], theirs.cents[n], theirs.day[n])):
            days += [ours.effective[n], theirs.effective[n], ours.day[n], theirs.day[n]]
    return min(days, default=new.day + 1)


class Quick(Watching):
    """A machine for one account."""

    def __init__(self) -> None:
        super().__init__()
        self.states: list[State] = []
        self.at_bills: dict[tuple[str, int], list[State]] = {}

    def issue(self, account: Account, k: int, bill: int) -> None:
        super().issue(account, k, bill)
        self.at_bills[account.posts[0].post.account or "", k] = list(self.states)

    def book(self, account: Account, day: int | None = None) -> Book:
        to = self.today if day is None else day
        key = self._lists_key(account)
        if account.known != key or account.book is None or account.book.day > to:
            account.book = self._renewed(account, to)
            account.known = key
        return self._advanced(account.book, to)

    def _renewed(self, account: Account, to: int) -> Book:
        """A book of the lists of now, as far as it is known."""
        shared = SharedRows(self.holidays, list(self.fee_rows), list(self.index_rows))
        new = Book(account.anchor, list(account.posts), dict(account.issued), shared)
        if account.book is not None and account.known != self._lists_key(account):
            first = first_changed(account.book, new)
            self.states = [state for state in self.states if state["day"] < first]
        set_known(new, self.states, to + 1, to)
        return new

    def _advanced(self, book: Book, to: int) -> Book:
        """Folds on, and keeps the state at each closing."""
        while book.day < to:
            k = cycle_of(book.anchor, max(book.day + 1, book.anchor.opened))
            end = closing(book.anchor, k)
            advance(book, to if end is None else min(to, end))
            if book.day == end and all(state["day"] < book.day for state in self.states):
                self.states.append(state_of(book))
        return book
