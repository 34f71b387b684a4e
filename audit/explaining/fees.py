"""Penalty fees: for which due date, how much, and whether first or repeated."""

from typing import TYPE_CHECKING

from ..days import cycle_of, day_text, due
from ..fees import WINDOW, Fee
from ..money import money_text
from ..payments import has_due_payment
from .nodes import Node
from .sentences import amount, fee_of, held_down

if TYPE_CHECKING:
    from .derivation import Derivation

NAMES = {"late": "late fee", "returned": "returned-payment fee"}


class Fees:
    """The fees of a book, each made once."""

    def __init__(self, derivation: "Derivation") -> None:
        self.all, self.book = derivation, derivation.book
        self.nodes, self.facts = derivation.nodes, derivation.facts
        self._known: dict[tuple[int, int], Node] = {}

    def fee(self, fee: Fee) -> Node:
        place = (fee.day, fee.post)
        if place not in self._known:
            node = self._make(fee)
            assert node.value == fee.cents, (fee, node.value)
            self._known[place] = node
        return self._known[place]

    def of_cycle(self, k: int) -> list[Node]:
        return [self.fee(f) for f in self.book.fees if f.cycle == k]

    def _make(self, fee: Fee) -> Node:
        k, name = fee.due_cycle, NAMES[fee.kind]
        day, why = (self._late if fee.kind == "late" else self._returned)(fee)
        of = [self._tier(fee, day), self.all.minimum(k)]
        if fee.kind != "late":
            of.append(self._last_asked(fee.day))
        why.append(self._only(fee))
        what = f"{name} for due date {day_text(self.all.payments.due_day(k))}"
        node = least = self.nodes.make("least", of, f"amount of the {what}", "fee amount")
        cap = self.book.issued_cycle(fee.cycle)
        if cap is not None:
            of = [node] + [self.all.issued.fee(fee.cycle, f) for f in cap.fees if f.due_cycle == k]
            node = self.nodes.make("least", of, f"{what}, at most that of statement {fee.cycle} "
                                   "when it was issued", "caps",
                                   said=held_down(fee.cycle, node, of[-1]))
        said = fee_of(name, self._missed(fee), least.of[0], (fee.repeat, self._window(fee)), least,
                      least.value)
        said += f" {node.said}" if node.said else ""
        return self.nodes.make("first_of", [node], what, "fee when", on=day, why=why, said=said)

    def _window(self, fee: Fee) -> str:
        """The cycles whose fees decide between the first and the repeat amount, in words."""
        cycle = cycle_of(self.book.anchor, fee.day)
        if cycle > WINDOW:
            return "this cycle or the six before it"
        return f"cycles 1 to {cycle}, all there were" if cycle > 1 else "this first cycle"

    def _missed(self, fee: Fee) -> str:
        """What happened, in words."""
        k = fee.due_cycle
        due_day, asked = day_text(self.all.payments.due_day(k)), self.all.payments.asked(k)
        if fee.kind == "late":
            counted = self.all.payments.counted_since(k, self.facts.due(k), "met")
            return (f"Statement {k} asked for {money_text(asked.value)} by {due_day}, and "
                    f"{amount(counted.value)} came in by then.")
        paid = self.book.posts[fee.post - 1].post.target or 0
        return (f"A payment was returned: {self.facts.post_name(paid)}. It had been credited after "
                f"the closing of statement {k}, whose due date is {due_day}.")

    def _late(self, fee: Fee) -> tuple[Node, list[Node]]:
        k = fee.due_cycle
        day = self.facts.day_after(self.facts.due(k), f"day after the due date of statement {k}")
        counted = self.all.payments.counted_since(k, self.facts.due(k), "met")
        missed = self.nodes.make("before", [counted, self.all.payments.asked(k)],
                                 f"the minimum payment of statement {k} wasn't met by "
                                 f"{day_text(self.facts.due(k).value)}", "met")
        return day, [missed]

    def _returned(self, fee: Fee) -> tuple[Node, list[Node]]:
        paid = self.book.posts[fee.post - 1].post.target or 0
        before = self.nodes.make("before", [self.facts.closing(fee.due_cycle),
                                            self.facts.effective(paid)],
                                 f"statement {fee.due_cycle} had closed when the "
                                 f"{self.facts.post_name(paid)} was credited", "fee when")
        return self.facts.effective(fee.post), [before]

    def _last_asked(self, day: int) -> Node:
        """What the last due date before a day asks for."""
        before = [c.number for c in self.book.cycles
                  if (due(self.book.anchor, c.number) or 0) < day]
        assert before and has_due_payment(self.book, before[-1])
        return self.all.payments.asked(before[-1])

    def _only(self, fee: Fee) -> Node:
        """The truth that no other fee was charged for the due date."""
        others = [f for f in self.book.fees if f.due_cycle == fee.due_cycle
                  and (f.day, f.post) != (fee.day, fee.post)]
        count = self.nodes.make("count", [self.fee(f) for f in others], "other fees for the due "
                                f"date of statement {fee.due_cycle}", "one fee")
        return self.nodes.make("equal", [count], "no other fee was charged for this due date",
                               "one fee", by=0)

    def _tier(self, fee: Fee, day: Node) -> Node:
        """The table's amount: the repeated one after a first one of its kind in seven cycles."""
        cycle = cycle_of(self.book.anchor, fee.day)
        first_cycle = max(1, cycle - WINDOW)
        place = self.book.fees.index(fee)
        earlier = [self.fee(f) for f in self.book.fees[:place]
                   if f.kind == fee.kind and not f.repeat and first_cycle <= f.cycle <= cycle]
        count = self.nodes.make("count", earlier, f"{NAMES[fee.kind]}s at the first amount in "
                                f"cycles {first_cycle} to {cycle}, before this one", "tier",
                                start=self.facts.first(first_cycle), end=day)
        repeat = self.nodes.make("at_least", [count], f"a {NAMES[fee.kind]} at the first amount "
                                 "came before it", "tier", by=1)
        amounts = [self.facts.in_force("feerow", field, day, f"{said} amount of the fee table on "
                                       f"{day_text(day.value)}", "table")
                   for field, said in (("repeat", "repeat"), ("first", "first"))]
        taken, rule = ("repeat", "tier") if fee.repeat else ("first", "first amount")
        return self.nodes.make("choose", [repeat, *amounts], f"the fee table's {taken} amount",
                               rule)
