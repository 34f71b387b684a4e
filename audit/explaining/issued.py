"""Numbers that an issued statement shows, by the line of its text."""

from typing import TYPE_CHECKING

from ..days import closing
from ..fees import Fee
from ..statement import Statement
from ..statement_text import statement_text
from .nodes import Node

if TYPE_CHECKING:
    from .derivation import Derivation


class IssuedTexts:
    """The texts of issued statements that a derivation names, and leaves of their numbers."""

    def __init__(self, derivation: "Derivation") -> None:
        self.all, self.book, self.nodes = derivation, derivation.book, derivation.nodes
        self.texts: dict[str, str] = {}
        self._lines: dict[int, list[list[str]]] = {}
        self._known: dict[tuple[int, int, int], Node] = {}

    def statement(self, k: int) -> Statement:
        found = self.book.issued[k].statement
        assert isinstance(found, Statement)
        return found

    def _of(self, k: int) -> list[list[str]]:
        """The fields of the lines of statement k."""
        if k not in self._lines:
            text = statement_text(self.all.account, self.statement(k))
            self.texts[f"issued {k}"] = text
            self._lines[k] = [line.split() for line in text.splitlines()]
        return self._lines[k]

    def _shown(self, k: int, line: int, place: int, value: int, what: str) -> Node:
        known = (k, line, place)
        if known not in self._known:
            self._known[known] = self.nodes.leaf(
                "shown", value, "cents", f"{what} on statement {k} as issued", "issued",
                text=f"issued {k}", line=line, place=place)
        return self._known[known]

    def labelled(self, k: int, label: str, value: int) -> Node:
        """A number behind its label."""
        for line, fields in enumerate(self._of(k)):
            if " ".join(fields[:-1]) == label:
                return self._shown(k, line, len(fields) - 1, value, label.lower())
        raise LookupError(label)

    def new_balance(self, k: int) -> Node:
        return self.labelled(k, "NEW BALANCE", self.statement(k).cycle.new_balance)

    def minimum(self, k: int) -> Node:
        return self.labelled(k, "MINIMUM PAYMENT", self.statement(k).cycle.minimum)

    def interest(self, k: int, s: int) -> Node:
        """The interest of a segment."""
        name = self.book.segments[s].name
        for line, fields in enumerate(self._of(k)):
            if fields[:2] == ["RATE", name]:
                value = self.statement(k).cycle.interest.get(s, 0)
                return self._shown(k, line, 5, value, f"interest of {name}")
        return self.nodes.none(f"statement {k} as issued has no line of {name}", rule="caps")

    def fee(self, k: int, fee: Fee) -> Node:
        """A fee of statement k."""
        kind, said = (("FEE-LATE", "late fee") if fee.kind == "late" else
                      ("FEE-RETURN", "returned-payment fee"))
        for line, fields in enumerate(self._of(k)):
            if fields[1:3] == [kind, str(fee.post)] and fields[0] == self.all.day_text(fee.day):
                return self._shown(k, line, 3, fee.cents, said)
        raise LookupError(str(fee))

    def grace(self, k: int) -> Node:
        """The grace amount of statement k, which isn't printed, from the numbers that are."""
        issued = self.statement(k)
        of = [self.new_balance(k), self.labelled(k, "IN DISPUTE", issued.cycle.held)]
        following = closing(self.book.anchor, k + 1) or 0
        for line, fields in enumerate(self._of(k)):
            if fields[0] == "DEFERRED":
                plan = next(d for d in issued.deferred if d.name == fields[1])
                if plan.ends > following:
                    of.append(self._shown(k, line, 2, plan.balance, f"deferred on {plan.name}"))
        left = self.nodes.make("difference", of, f"new balance of statement {k} as issued without "
                               "what is in dispute and what is deferred for longer",
                               "grace amount")
        return self.nodes.make("at_least_zero", [left], f"grace amount of statement {k} as issued",
                               "grace amount")
