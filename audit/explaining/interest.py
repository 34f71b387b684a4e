"""Interest of a cycle: which balances bear it, day by day, and the one rounding."""

from dataclasses import dataclass, field
from typing import TYPE_CHECKING

from ..days import day_text, due
from ..interest import case_of, repaid
from ..money import CENTS_LIMIT
from ..segments import Segment
from .nodes import Node
from .sentences import held_down, interest_of_days, returned_since

if TYPE_CHECKING:
    from .derivation import Derivation

BILLION = 10 ** 9


@dataclass
class Run:
    """Days in a row with one balance and one rate."""
    first: int
    last: int
    balance: Node  # what bears interest
    rate: Node
    days: Node  # days x balance
    product: Node  # and the daily rate


@dataclass
class Borne:
    """What a segment bears in a cycle."""
    posted: Node | None = None
    average: Node | None = None
    runs: list[Run] = field(default_factory=list)


class Interest:
    """The interest of the segments of a book, cycle by cycle."""

    def __init__(self, derivation: "Derivation") -> None:
        self.all, self.book = derivation, derivation.book
        self.nodes, self.facts = derivation.nodes, derivation.facts

    # -- runs -------------------------------------------------------------------------------

    def _spans(self, s: int, first: int, last: int, breaks: set[int],
               with_rates: bool = True) -> list[tuple[int, int, Node]]:
        """The days from first to last in runs of one balance, cut at the breaks too."""
        changes = self.all.balances.changes[s]
        starts = {first} | {d for d in breaks if first < d <= last}
        starts |= {d for d, _ in changes if first < d <= last}
        if with_rates:
            day = self.all.rates.next_change(first)
            while day is not None and day <= last:
                starts.add(day)
                day = self.all.rates.next_change(day)
        days = sorted(starts)
        place, found = 0, []
        for here, following in zip(days, [*days[1:], last + 1]):
            while place + 1 < len(changes) and changes[place + 1][0] <= here:
                place += 1
            found.append((here, following - 1, changes[place][1]))
        return found

    def _run(self, first: int, last: int, balance: Node, rate: Node) -> Run:
        days = self.nodes.make("product", [balance], f"{day_text(first)} to {day_text(last)}: days "
                               "x balance", "day row", "cents x days", by=last - first + 1,
                               start=first, end=last)
        product = self.nodes.make("product", [days, self.all.rates.daily(rate)],
                                  f"{day_text(first)} to {day_text(last)}: days x balance x daily "
                                  "rate", "day row", "cents x billionths", start=first, end=last)
        return Run(first, last, balance, rate, days, product)

    def _joined(self, spans: list[tuple[int, int, Node]],
                s: int) -> list[tuple[int, int, Node, Node]]:
        """Spans with their rates; neighbours with the same of both are one."""
        found: list[tuple[int, int, Node, Node]] = []
        for first, last, balance in spans:
            rate = self.all.rates.on(s, first)
            if found and found[-1][2] is balance and found[-1][3].value == rate.value:
                found[-1] = (found[-1][0], last, balance, found[-1][3])
            else:
                found.append((first, last, balance, rate))
        return found

    # -- a cycle ----------------------------------------------------------------------------

    def of_cycle(self, segment: Segment, k: int) -> Borne:
        """What a segment bears in cycle k, before its limits; `posted` is rounded."""
        s = segment.number
        first, last = self.facts.first(k), self.facts.closing(k)
        if not any(balance.value for _, _, balance in
                   self._spans(s, first.value, last.value, set(), False)):
            return Borne()
        case, until = case_of(self.book, s, k)
        why = self._why(segment, k)
        if case == "none":
            said = (f"{segment.name} bears none in its period" if segment.sort == "deferred" else
                    "purchases bear none in the first cycle" if k == 1 else
                    f"{segment.name} bears none: the two statements before were paid")
            rule = "deferred" if segment.sort == "deferred" else "purchases"
            return Borne(posted=self.nodes.none(f"no interest: {said}", rule=rule, why=why))
        later = self._later(s, first.value, until or 0, last.value) if case == "less" else {}
        breaks = set(later)
        spans = [(a, b, self._less(balance, a, later))
                 for a, b, balance in self._spans(s, first.value, last.value, breaks)]
        runs = [self._run(*run) for run in self._joined(spans, s)]
        rule = "purchases" if segment.sort == "purchase" else "bearing"
        total = self.nodes.make("sum", [run.product for run in runs],
                                f"days x balance x daily rate of {segment.name}", rule,
                                start=first, end=last, why=why)
        rounded = self.nodes.make("round_half_up", [total], f"interest of {segment.name} in cycle "
                                  f"{k}", "rounding", "cents", by=BILLION,
                                  said=self._said(segment, k, case == "less", why))
        return Borne(rounded, self._average(segment, k, runs, first, last), runs)

    def _said(self, segment: Segment, k: int, less: bool, why: list[Node]) -> str:
        """Why a segment bears interest in cycle k; the last truth is about statement k-1 or k-2."""
        j = k - 1 if less else k - 2
        until = due(self.book.anchor, j) or 0
        back = self._returned(segment.number, k, until) if less else ""
        return interest_of_days(segment.sort == "purchase", why[-1] if why else None, j, until,
                                less, back)

    def _returned(self, s: int, k: int, until: int) -> str:
        """The payments of a balance up to the due date that were returned by the closing."""
        first, closing = self.facts.first(k).value, self.facts.closing(k).value
        on = {e.post for e in self.book.of_segment[s] if first <= e.day <= until}
        return "".join(returned_since(self.facts.post_name(p.number), p.return_effective, closing)
                       for p in self.book.corrected.payments if p.number in on
                       and p.return_effective is not None and p.return_effective <= closing)

    def _average(self, segment: Segment, k: int, runs: list[Run], first: Node,
                 last: Node) -> Node:
        total = self.nodes.make("sum", [run.days for run in runs], f"days x balance of "
                                f"{segment.name}", "average", start=first, end=last)
        days = self.nodes.make("days_between", [first, last], f"length of cycle {k}", "cycles",
                               by=1)
        return self.nodes.make("round_half_up", [total, days], f"average daily balance of "
                               f"{segment.name}", "average", "cents")

    def _why(self, segment: Segment, k: int) -> list[Node]:
        """The statements before, which say how purchases bear interest."""
        if segment.sort != "purchase" or k == 1:
            return []
        why = []
        for j in (k - 2, k - 1):
            if j < 1:
                continue
            node = self.all.payments.paid(j)
            if node.how == "none":
                why.append(self._sentence(node))
            elif self.all.payments.is_paid(j):
                why.append(node)
            else:
                why.append(self.all.payments.unpaid(j))
            if j == k - 2 and not self.all.payments.is_paid(j):
                break
        return why

    def _sentence(self, node: Node) -> Node:
        """A truth with a sentence alone."""
        return self.nodes.make("equal", [node], node.what, node.rule, by=0)

    def _later(self, s: int, first: int, until: int, closing: int) -> dict[int, Node]:
        """By each day on which something was repaid, the sum of what that day and later ones
        repaid."""
        back = {p.number for p in self.book.corrected.payments
                if p.return_effective is not None and p.return_effective <= closing}
        parts = [(e.day, node) for e, node in zip(self.book.entries, self.all.balances.entries)
                 if e.segment == s and first <= e.day <= until
                 and e.kind in ("payment", "credit") and e.post not in back]
        assert [(d, n.value * -1) for d, n in parts] == repaid(self.book, s, first, until, closing)
        found, following = {}, None
        for day in sorted({d for d, _ in parts}, reverse=True):
            of = [n for d, n in parts if d == day]
            if following is not None:
                of.append(following)
            following = self.nodes.make("sum", of, f"repaid from {day_text(day)} to "
                                        f"{day_text(until)}", "purchases", "cents")
            found[day] = following
        return found

    def _less(self, balance: Node, day: int, later: dict[int, Node]) -> Node:
        """A day's balance less what later days repaid."""
        coming = [d for d in later if d > day]
        if not coming:
            return balance
        left = self.nodes.make("sum", [balance, later[min(coming)]],
                               f"balance from {day_text(day)} on less what was repaid "
                               "after that day, up to the due date",
                               "purchases")
        return self.nodes.make("at_least_zero", [left], "what of the balance from "
                               f"{day_text(day)} on bears interest",
                               "purchases")

    # -- limits -----------------------------------------------------------------------------

    def limited(self, s: int, k: int, node: Node) -> Node:
        """Interest within the limit of a balance and what the issued statement has."""
        balance = self.all.balances.running[s]
        if node.value > CENTS_LIMIT - balance.value:
            most = self.nodes.leaf("none", CENTS_LIMIT, "cents", "the most that a balance may be",
                                   "interest")
            room = self.nodes.make("at_least_zero", [self.nodes.make(
                "difference", [most, balance], "what the limit leaves", "interest")],
                "room up to the limit of a balance", "interest")
            node = self.nodes.make("least", [node, room], "interest within the limit of a balance",
                                   "interest")
        if self.book.issued_cycle(k) is not None and node.value > 0:
            shown = self.all.issued.interest(k, s)
            node = self.nodes.make("least", [node, shown], f"interest of "
                                   f"{self.book.segments[s].name}, at most what statement {k} "
                                   "charged when it was issued", "caps",
                                   said=held_down(k, node, shown))
        return node

    # -- deferred interest ------------------------------------------------------------------

    def deferred(self, segment: Segment, last: Node) -> tuple[Node, list[Run]]:
        """What a plan has accrued up to a day, with its runs."""
        s, rate = segment.number, self.all.rates.accrual(segment)
        first = self.facts.post(segment.post, "day", f"first day of {segment.name}")
        spans = self._spans(s, first.value, last.value, set(), False)
        runs = [self._run(a, b, balance, rate) for a, b, balance in spans]
        total = self.nodes.make("sum", [run.product for run in runs], f"accrued on {segment.name} "
                                "from its first day on", "deferred", start=first, end=last)
        rounded = self.nodes.make("round_half_up", [total], f"interest accrued on "
                                  f"{segment.name}", "deferred", "cents", by=BILLION)
        return rounded, runs
