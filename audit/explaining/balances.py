"""Entries and balances: what each post and fee moves, and what is owed behind it."""

from typing import TYPE_CHECKING

from ..book import Book, Entry
from ..days import day_text
from ..fees import Fee
from ..segments import CREDIT, HELD, Segment, newest, segments_at
from ..words import Place
from .allocation import Allocation
from .facts import Facts
from .nodes import Node, Nodes

if TYPE_CHECKING:
    from .derivation import Derivation

# the two balances that aren't of purchases, cash or transfers, and what is said of them at first
_CALLED = {CREDIT: "credit balance", HELD: "amount in dispute"}
_NOTHING = {CREDIT: "there was no credit balance so far", HELD: "nothing was in dispute so far"}


class Balances:
    """Goes through the entries of a book in their order.

    `running` has the balance of each segment as it stands, `entries` the node
    of each entry, and `changes` of each segment the days at whose end another
    balance stands, with that balance.
    """

    def __init__(self, derivation: "Derivation") -> None:
        self.all: Derivation = derivation
        self.book: Book = derivation.book
        self.nodes: Nodes = derivation.nodes
        self.facts: Facts = derivation.facts
        self.segments: list[Segment] = self.book.segments
        self.entries: list[Node] = []
        self.running: list[Node] = []
        self.changes: list[list[tuple[int, Node]]] = []
        self.parts: dict[int, list[tuple[int, Node]]] = {}  # of a payment
        self.holds: dict[int, tuple[int, Node]] = {}  # of a dispute
        for segment in self.segments:
            nothing = self.nodes.none(_NOTHING.get(segment.number, f"nothing was owed on "
                                                   f"{segment.name} so far"), rule="entries")
            self.running.append(nothing)
            self.changes.append([(self.book.anchor.opened, nothing)])
        self.allocation = Allocation(self)

    def upto(self, count: int) -> None:
        """The entries up to a place that aren't interest."""
        while len(self.entries) < count:
            entry = self.book.entries[len(self.entries)]
            if entry.kind == "interest":
                return
            self._group(entry)

    # -- entries ----------------------------------------------------------------------------

    def enter(self, segment: int, cents: Node, what: str, rule: str, on: Node) -> None:
        """The next entry, which has to be the book's; nothing for 0 cents."""
        if cents.value == 0:
            return
        found: Entry = self.book.entries[len(self.entries)]
        assert (found.segment, found.cents, found.day) == (segment, cents.value, on.value), (
            found, segment, cents.value, day_text(on.value))
        cents.on = cents.on or on
        self.entries.append(cents)
        name = _CALLED.get(segment, self.segments[segment].name)
        owed = self.nodes.make("sum", [self.running[segment], cents],
                               f"{name} after {what}", rule, on=on)
        owed.brief = True
        self.running[segment] = owed
        changes = self.changes[segment]
        if changes[-1][0] == on.value:
            changes[-1] = (on.value, owed)
        else:
            changes.append((on.value, owed))

    def debit(self, segment: int, cents: Node, what: str, rule: str, on: Node) -> None:
        """What raises a balance uses up the credit balance first."""
        credit = self.running[CREDIT]
        if credit.value == 0 or cents.value == 0:
            self.enter(segment, self._same(cents, what, rule), what, rule, on)
            return
        there = self.nodes.make("product", [credit], "credit balance before", "debits", by=-1)
        used = self.nodes.make("least", [cents, there], f"{what}: used up of the credit balance",
                               "debits")
        rest = self.nodes.make("difference", [cents, used],
                               f"{what}: what the credit balance doesn't cover", "debits")
        self.enter(CREDIT, used, what, "debits", on)
        self.enter(segment, rest, what, rule, on)

    def _same(self, cents: Node, what: str, rule: str) -> Node:
        """A node of the entry's own, so that its day is its own."""
        return self.nodes.make("first_of", [cents], what, rule)

    def lower(self, segment: int, cents: Node, what: str, rule: str, on: Node) -> None:
        """An entry that takes cents off."""
        self.enter(segment, self.nodes.make("product", [cents], what, rule, by=-1), what, rule, on)

    # -- what makes them --------------------------------------------------------------------

    def _group(self, entry: Entry) -> None:
        if entry.kind == "fee":
            self._fee(next(f for f in self.book.fees
                           if (f.day, f.post) == (entry.day, entry.post)))
            return
        on = self.facts.effective(entry.post)
        if entry.kind == "charge":
            segment = self.all.charged_segment(entry.post)
            self.debit(segment, self.facts.cents(entry.post), self.facts.post_name(entry.post),
                       "charge place", on)
        elif entry.kind == "payment":
            self.parts[entry.post] = self.allocation.payment(entry.post, on)
        elif entry.kind == "credit":
            first = segments_at(self.segments, self._place(entry.post))
            self.allocation.credit(entry.post, first, on)
        elif entry.kind == "return":
            self._put_back(entry.post, on)
        elif entry.kind == "hold":
            self._hold(entry.post, on)
        else:
            segment = newest(self.segments, "purchase", entry.day)
            self.debit(segment, self.facts.cents(entry.post), self.facts.post_name(entry.post),
                       "credit", on)

    def _place(self, n: int) -> Place:
        place = self.book.posts[n - 1].post.place
        assert place is not None
        return place

    def _fee(self, fee: Fee) -> None:
        node = self.all.fees.fee(fee)
        segment = newest(self.segments, "purchase", fee.day)
        assert node.on is not None
        self.debit(segment, node, node.what, "fee when", node.on)

    def _put_back(self, n: int, on: Node) -> None:
        """The parts of a returned payment, the credit balance first."""
        paid = self.book.posts[n - 1].post.target or 0
        for segment, part in self.parts.get(paid, []):
            to = newest(self.segments, "purchase", on.value) if segment == CREDIT else segment
            back = self.nodes.make("product", [part], f"put back by the {self.facts.post_name(n)}",
                                   "put back", by=-1)
            self.debit(to, back, self.facts.post_name(n), "put back", on)

    def _hold(self, n: int, on: Node) -> None:
        """What a dispute sets aside, or its resolution brings back."""
        post = self.book.posts[n - 1].post
        name = self.facts.post_name(n)
        if post.word == "resolve":
            segment, held = self.holds[post.target or 0]
            self.lower(HELD, held, name, "resolved", on)
            self.debit(segment, held, name, "resolved", on)
            return
        target = post.target or 0
        segment = self.all.charged_segment(target)
        claim = self.facts.post(n, "cents", f"claimed by the {name}")
        held = self.nodes.make(
            "least", [claim, self.facts.cents(target), self.running[segment]],
            f"set aside by the {name}: at most the charge and what its segment owes", "held")
        self.holds[n] = (segment, held)
        self.lower(segment, held, name, "held", on)
        self.enter(HELD, self._same(held, name, "held"), name, "held", on)
