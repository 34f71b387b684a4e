"""What a due date asks for, what was counted for it, and what follows from that."""

from typing import TYPE_CHECKING, Any

from ..days import TIMELY_DAYS, closing, cycle_of, day_text, due
from ..payments import LATE_DAYS, has_due_payment
from .facts import Facts
from .nodes import Node, Nodes

if TYPE_CHECKING:
    from .derivation import Derivation


class Payments:
    """Sums over payments, each made once."""

    def __init__(self, derivation: "Derivation") -> None:
        self.all, self.book = derivation, derivation.book
        self.nodes: Nodes = derivation.nodes
        self.facts: Facts = derivation.facts
        self._known: dict[tuple[Any, ...], Node] = {}
        self.payments = {p.number: p for p in self.book.corrected.payments}
        self.credits = [k.number for k in self.book.posts if k.post.word == "credit"]

    # -- what counts ------------------------------------------------------------------------

    def _payment(self, n: int, last: Node) -> Node:
        """A payment's cents, nothing where it was returned by the last day."""
        cents = self.facts.cents(n)
        back = self.facts.return_of.get(n)
        on = self.facts.effective(n)
        if back is None:
            return self.nodes.make("first_of", [cents], f"{self.facts.post_name(n)}, credited "
                                   f"{day_text(on.value)}", "met", on=on)
        gone = self.facts.effective(back)
        returned = self.nodes.make("at_least", [last, gone],
                                   f"returned up to {day_text(last.value)}, by the "
                                   f"{self.facts.post_name(back)}", "met")
        nothing = self.nodes.none("a returned payment counts for nothing", rule="met")
        end = f"the {last.what}" if last.how == "calendar" else day_text(last.value)
        said = ("up to {}, so it counts for nothing" if returned.value else
                "after {}, so it still counts here").format(end)
        return self.nodes.make("choose", [returned, nothing, cents],
                               f"{self.facts.post_name(n)}, credited {day_text(on.value)}; "
                               f"returned {day_text(gone.value)}, {said}", "met", on=on)

    def counted(self, first: Node, last: Node, rule: str) -> Node:
        """Payments credited on the days from first to last, less those returned by the last."""
        place = ("counted", first.value, last.value, rule)
        if place not in self._known:
            of = [self._payment(n, last) for n, p in self.payments.items()
                  if first.value <= p.effective <= last.value and p.cents]
            self._known[place] = self.nodes.make(
                "sum", of, f"payments credited from {day_text(first.value)} to "
                f"{day_text(last.value)}", rule, "cents", start=first, end=last)
        return self._known[place]

    def counted_since(self, k: int, last: Node, rule: str) -> Node:
        """The payments credited after closing k and up to a day."""
        return self.counted(self.facts.first(k + 1), last, rule)

    # -- due payments -----------------------------------------------------------------------

    def timely(self, k: int) -> Node:
        """Whether statement k was issued at least 21 days before its due date."""
        place = ("timely", k)
        if place not in self._known:
            issued = self.facts.accepted(self.book.issued[k].bill)
            between = self.nodes.make("days_between", [issued, self.facts.due(k)],
                                      f"from the issue of statement {k} to its due date",
                                      "timely")
            self._known[place] = self.nodes.make(
                "at_least", [between], f"statement {k} was issued at least 21 days before its due "
                "date", "timely", by=TIMELY_DAYS)
        return self._known[place]

    def no_due_payment(self, k: int) -> Node:
        """A truth and its sentence: statement k asks for nothing."""
        if k not in self.book.issued:
            return self.nodes.none(f"statement {k} wasn't issued, so it asks for nothing", "truth",
                                   "due payment")
        late = self.timely(k)
        return self.nodes.make("before", [late.of[0]], f"statement {k} was issued less than 21 days"
                               " before its due date, so it asks for nothing", "due payment",
                               by=TIMELY_DAYS)

    def asked(self, k: int) -> Node:
        """What due date k asks for."""
        place = ("asked", k)
        if place not in self._known:
            if has_due_payment(self.book, k):
                self._known[place] = self.nodes.make(
                    "first_of", [self.all.minimum(k)], "asked for by "
                    f"{day_text(self.due_day(k))}: the minimum payment of statement {k}",
                    "due payment",
                    why=[self.timely(k)])
            else:
                self._known[place] = self.nodes.none(
                    f"nothing is asked for by {day_text(self.due_day(k))}", rule="due payment",
                    why=[w for w in [self.no_due_payment(k)] if w.how != "none"])
        return self._known[place]

    def due_day(self, k: int) -> int:
        found = due(self.book.anchor, k)
        assert found is not None
        return found

    def met(self, k: int) -> Node:
        """Whether the minimum payment of statement k was met."""
        place = ("met", k)
        if place not in self._known:
            counted = self.counted_since(k, self.facts.due(k), "met")
            self._known[place] = self.nodes.make(
                "at_least", [counted, self.asked(k)],
                f"the minimum payment of statement {k} was met by its due date", "met")
        return self._known[place]

    def paid(self, k: int) -> Node:
        """Whether statement k counts as paid, for the grace period."""
        place = ("paid", k)
        if place not in self._known:
            self._known[place] = self._paid(k)
        return self._known[place]

    def _paid(self, k: int) -> Node:
        if k <= 0:
            return self.nodes.none("before the first statement: counts as paid", "truth", "paid")
        if not has_due_payment(self.book, k):
            return self.no_due_payment(k)
        first, last = self.facts.first(k + 1), self.facts.due(k)
        credits = [self.nodes.make("first_of", [self.facts.cents(n)], f"{self.facts.post_name(n)}, "
                                   f"of {day_text(self.book.corrected.effective[n])}", "paid",
                                   on=self.facts.effective(n))
                   for n in self.credits
                   if first.value <= self.book.corrected.effective[n] <= last.value]
        of = [self.counted(first, last, "paid")]
        if credits:
            of.append(self.nodes.make("sum", credits, f"merchants' credits from "
                                      f"{day_text(first.value)} to {day_text(last.value)}", "paid",
                                      start=first, end=last))
        came = self.nodes.make("sum", of, f"paid and credited from {day_text(first.value)} to the "
                               f"due date {day_text(last.value)}", "paid")
        return self.nodes.make("at_least", [came, self.all.grace(k)],
                               f"statement {k} was paid in full by its due date", "paid")

    def is_paid(self, k: int) -> bool:
        node = self.paid(k)
        return node.how == "none" or node.by == TIMELY_DAYS or bool(node.value)

    def unpaid(self, k: int) -> Node:
        """The truth that statement k wasn't paid."""
        node = self.paid(k)
        return self.nodes.make("before", list(node.of), f"statement {k} wasn't paid in full by its "
                               f"due date {day_text(self.due_day(k))}", "paid")

    # -- what follows -----------------------------------------------------------------------

    def past_due(self, k: int) -> Node | None:
        """At closing k: what is left of the minimum payment before; None where it asked nothing."""
        if k == 1 or not has_due_payment(self.book, k - 1):
            return None
        counted = self.counted_since(k - 1, self.facts.closing(k), "past due")
        left = self.nodes.make("difference", [self.all.minimum(k - 1), counted],
                               f"minimum payment of statement {k - 1} less what was paid since",
                               "past due")
        return self.nodes.make("at_least_zero", [left], f"past due of statement {k - 1}",
                               "past due")

    def minimum_left(self, n: int, x: int) -> Node | None:
        """What is left of the last minimum payment for payment n of day x; None for nothing."""
        k = cycle_of(self.book.anchor, x) - 1
        if k == 0 or not has_due_payment(self.book, k) or not self.book.issued[k].day < x:
            return None
        place, after = (x, n), closing(self.book.anchor, k) or 0
        before = [self.facts.cents(m) for m, p in self.payments.items()
                  if after < p.effective and (p.effective, m) < place and p.cents
                  and not (p.return_number is not None and p.return_effective is not None
                           and (p.return_effective, p.return_number) < place)]
        asked = self.all.minimum(k)
        if not before:
            return asked
        left = self.nodes.make("difference", [asked, *before], f"minimum payment of statement {k} "
                               "less the payments before this one", "minimum part")
        return self.nodes.make("at_least_zero", [left],
                               f"left of the minimum payment of statement {k}", "minimum part")

    def sixty_days_late(self, day: Node) -> Node | None:
        """The first statement that makes the account sixty days late on a day, as a truth."""
        for cycle in self.book.cycles:
            k = cycle.number
            if cycle.due + LATE_DAYS < day.value and has_due_payment(self.book, k):
                counted = self.counted_since(k, day, "sixty")
                if counted.value < self.all.minimum(k).value:
                    between = self.nodes.make("days_between", [self.facts.due(k), day],
                                              f"since due date {k}", "sixty")
                    over = self.nodes.make("at_least", [between], "more than 60 days have passed "
                                           f"since due date {k}", "sixty", by=LATE_DAYS + 1)
                    return self.nodes.make("before", [counted, self.all.minimum(k)],
                                           f"the minimum payment of statement {k} is still unpaid "
                                           f"on {day_text(day.value)}", "sixty", why=[over])
        return None
