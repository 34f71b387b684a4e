"""All closed cycles of all accounts of a file, each held against what the program tells.

One server tells the statements and the entries.  The trees of repayments, and the entries of
issued statements, belong to the explanation of one cycle alone.
"""

from dataclasses import dataclass

from ..commands import Damaged
from ..lines import read_name
from ..program import Server
from ..words import SHARED_WORDS, WORDS
from .account import carried_out, rows_of_account
from .asking import export_part, held
from .cycle import Cycles
from .document import Document

_SHARED_CODES = {WORDS[word][0] for word in SHARED_WORDS}
Kept = list[tuple[int, bytes]]


@dataclass
class Counted:
    """What was explained."""
    accounts: int = 0
    issued: int = 0
    recomputed: int = 0
    numbers: int = 0

    def text(self) -> str:
        return (f"accounts {self.accounts}, statements issued {self.issued}, recomputed "
                f"{self.recomputed}, numbers {self.numbers}")


def by_account(kept: Kept) -> dict[str, Kept]:
    """The rows of each account with the shared ones, in order; accounts as they were opened."""
    shared: Kept = []
    found: dict[str, Kept] = {}
    for place, (seq, body) in enumerate(kept, start=1):
        if seq != place or len(body) < 3:
            raise Damaged(place)
        if body[1] in _SHARED_CODES:
            shared.append((seq, body))
            continue
        name = read_name(body[3:3 + body[2]])
        if name is None:
            raise Damaged(place)
        found.setdefault(name, []).append((seq, body))
    return {name: sorted(shared + rows) for name, rows in found.items()}


class Everything:
    """Goes through the accounts one after the other."""

    def __init__(self, kept: Kept, server: Server) -> None:
        self.accounts, self.server = by_account(kept), server
        self.counted = Counted()

    def all(self) -> Counted:
        for name, kept in self.accounts.items():
            self._account(name, kept)
        return self.counted

    def _told(self, path: str) -> str:
        body = self.server.get(path)
        return "none\n" if body is None else body.decode("utf-8", "replace")

    def _account(self, name: str, kept: Kept) -> None:
        rows = rows_of_account(kept, name, whole=False)
        machine = carried_out(rows)
        cycles = Cycles(machine, rows)
        export = self._told(f"/accounts/{name}/entries")
        for k in range(1, machine.closed_cycles(machine.accounts[name]) + 1):
            if k in machine.accounts[name].issued:
                document = cycles.issued(k, whole=False)
                self._hold(document, "statement", f"/accounts/{name}/statements/{k}")
                self.counted.issued += 1
            document = cycles.recomputed(k, whole=False)
            self._hold(document, "restate", f"/accounts/{name}/cycles/{k}")
            held(f"account {name}, export", document.texts["export"],
                 export_part(export, *document.entries))
            self.counted.recomputed += 1
        self.counted.accounts += 1

    def _hold(self, document: Document, word: str, path: str) -> None:
        held(path, document.texts[word], self._told(path))
        self.counted.numbers += len(document.numbers)
