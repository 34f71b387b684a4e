"""One account of a ledger's file: its own rows and the shared ones, carried out by the model."""

from ..book import Book
from ..commands import Damaged
from ..machine import Account, Machine
from ..rows import decode
from ..words import SHARED_WORDS, WORDS
from .facts import Rows

_SHARED_CODES = {WORDS[word][0] for word in SHARED_WORDS}


class NotThere(Exception):
    """The account or its cycle isn't there."""


class Watching(Machine):
    """A machine that keeps the book of each bill."""

    def __init__(self) -> None:
        super().__init__()
        self.books: dict[tuple[str, int], Book] = {}

    def issue(self, account: Account, k: int, bill: int) -> None:
        super().issue(account, k, bill)
        assert account.book is not None
        name = account.posts[0].post.account or ""
        self.books[name, k] = account.book


def concerns(body: bytes, name: bytes) -> bool:
    """A row is shared, or names the account; by its first bytes alone."""
    return body[1] in _SHARED_CODES or body[3:3 + body[2]] == name


def rows_of_account(kept: list[tuple[int, bytes]], account: str, whole: bool = True) -> Rows:
    """The rows that decide an account, of all rows of a file or of some of them."""
    name, found = account.encode(), []
    for place, (seq, body) in enumerate(kept, start=1):
        if whole and (seq != place or len(body) < 3):
            raise Damaged(place)
        if concerns(body, name):
            request = decode(body)
            if request is None:
                raise Damaged(place)
            found.append((seq, body, request))
    return Rows(account, found)


def carried_out(rows: Rows) -> Watching:
    """The machine after these rows."""
    machine = Watching()
    for seq, _, request in rows.kept:
        if not machine.apply(request).new:
            raise Damaged(seq)
    return machine
