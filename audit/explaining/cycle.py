"""The explanation of a closed cycle, as issued or as recomputed."""

from typing import Any

from ..days import day_text
from ..statement import Statement, restated
from .account import NotThere, Watching
from .derivation import Derivation
from .differences import same_here
from .document import Document
from .facts import Rows
from .numbers import StatementNumbers, export_numbers
from .picture import Day, days_of
from .repayment import Repayment


class Cycles:
    """The explanations of an account's cycles; the nodes of a book are made once."""

    def __init__(self, machine: Watching, rows: Rows) -> None:
        self.machine, self.rows = machine, rows
        if rows.account not in machine.accounts:
            raise NotThere(f"no account is named {rows.account}")
        self.account = machine.accounts[rows.account]
        self._today: Derivation | None = None
        self.last: Derivation | None = None

    def _head(self, k: int, kind: str, rows: Rows, today: int) -> dict[str, Any]:
        return {"account": rows.account, "cycle": k, "as": kind, "today": day_text(today),
                "rows_up_to": rows.kept[-1][0]}

    def issued(self, k: int, whole: bool = True) -> Document:
        """Statement k as its bill issued it, from the rows up to that bill."""
        row = self.account.issued.get(k)
        if row is None:
            raise NotThere(f"statement {k} of {self.rows.account} wasn't issued")
        book = self.machine.books[self.rows.account, k]
        rows = self.rows.upto(self.rows.posts[row.bill - 1])
        derivation = Derivation(self.rows.account, rows, book).upto(k)
        statement = row.statement
        assert isinstance(statement, Statement)
        document = Document(rows, self._head(k, "issued", rows, row.day))
        self._fill(document, StatementNumbers(derivation, k, statement, row.bill), "statement",
                   whole)
        return document

    def recomputed(self, k: int, whole: bool = True) -> Document:
        """Cycle k by all kept rows."""
        if not 1 <= k <= self.machine.closed_cycles(self.account):
            raise NotThere(f"cycle {k} of {self.rows.account} isn't closed before "
                           f"{day_text(self.machine.today)}")
        book = self.machine.book(self.account)
        if self._today is None:
            self._today = Derivation(self.rows.account, self.rows, book)
        derivation = self._today.upto(k)
        row = book.issued.get(k)
        document = Document(self.rows, self._head(k, "recomputed", self.rows, self.machine.today))
        numbers = StatementNumbers(derivation, k, restated(book, k), row.bill if row else None)
        self._fill(document, numbers, "restate", whole)
        return document

    def days(self, k: int) -> list[Day]:
        """The days of the cycle that was explained last."""
        assert self.last is not None
        return days_of(self.last, k)

    def _fill(self, document: Document, numbers: StatementNumbers, name: str,
              whole: bool) -> None:
        """The texts and their numbers; repayment, ids and rows left out only where `whole`."""
        derivation = self.last = numbers.all
        document.add(numbers.printed(name))
        document.numbers += numbers.others()
        if name == "statement" and whole:
            document.add(Repayment(numbers).printed())
        document.entries = numbers.cycle.entries
        if name == "restate" or whole:
            document.add(export_numbers(derivation, "export", *document.entries))
        if not whole:
            return
        document.same = same_here(derivation, numbers.k)
        document.close(derivation.facts.closing(numbers.k).value,
                       derivation.book.corrected.effective, derivation.issued.texts)
