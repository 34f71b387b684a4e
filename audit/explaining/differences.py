"""Which of the differences between the ledger's rules and the regulation can matter here."""

from collections.abc import Iterable
from typing import TYPE_CHECKING

from ..segments import CREDIT
from .nodes import Node
from .rules import PARTS

if TYPE_CHECKING:
    from .derivation import Derivation

HEADING = "Where the ledger's rules differ from the regulation"
ONLY = ("Of the rules above, those by which a number could differ. A rule is left out where "
        "nothing by which its two readings differ has happened on the account. All are in "
        "docs/RULES.md.")


def same_here(derivation: "Derivation", k: int) -> set[str]:
    """The rules whose two readings give the same numbers for this account, as nothing has happened
    by which they differ."""
    book, found = derivation.book, set[str]()
    returned = derivation.facts.return_of
    if not returned:
        found |= {"paid", "one fee"}  # a late payment is the one event of a due date
    if not any(s == CREDIT for n in returned for s, _ in derivation.balances.parts.get(n or 0, [])):
        found.add("put back")
    if not any(fee.repeat for fee in book.fees):
        found.add("tier")
    if not derivation.balances.holds:
        found.add("held")
    following = derivation.rates.next_change(derivation.facts.first(k).value)
    if following is None or following > derivation.facts.closing(k).value:
        found.add("average")
    return found


def _held_down(node: Node) -> bool:
    """An issued statement's number is less than the one that the rows give."""
    return bool(node.of) and node.of[0].value > node.value


def differing(nodes: Iterable[Node], same: set[str]) -> list[str]:
    """The rules of these nodes whose two readings may give other numbers, each once."""
    return list(dict.fromkeys(
        node.rule for node in nodes if node.rule in PARTS and node.rule not in same
        and (node.rule != "caps" or _held_down(node))))
