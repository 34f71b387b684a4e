"""What the balances of an issued statement amount to where they are repaid, month by month."""

from typing import TYPE_CHECKING

from ..repay import MONTH_LIMIT, PLAN_MONTHS, AtMinimum, In36, Owing, at_minimum, in_36
from .interest import BILLION
from .nodes import Node
from .numbers import Printed, StatementNumbers

if TYPE_CHECKING:
    from .derivation import Derivation

DAYS = 30


class Month:
    """The balances at the end of a month, and what was paid in it."""

    def __init__(self, balances: list[Node], amount: Node | None) -> None:
        self.balances, self.amount = balances, amount


class Repayment:
    """The two lines of `repay` as nodes."""

    def __init__(self, numbers: StatementNumbers) -> None:
        derivation: Derivation = numbers.all
        self.nodes, self.facts = numbers.nodes, derivation.facts
        self.statement = numbers.statement
        closing = numbers.facts.closing(numbers.k).value
        self.segments = sorted(self.statement.closing)
        self.balances = [numbers.cycle.balances[s] for s in self.segments]
        rates = [derivation.rates.on(s, closing) for s in self.segments]
        self.daily = [derivation.rates.daily(rate) for rate in rates]
        self.rates = [rate.value for rate in rates]
        self.names = [derivation.book.segments[s].name for s in self.segments]

    def printed(self) -> Printed:
        """The text, line by line."""
        out = Printed("repay")
        owing = [Owing(b.value, r) for b, r in zip(self.balances, self.rates)]
        least = at_minimum(owing, self.statement.floor, self.statement.pct)
        if least is None:
            out.add("MINIMUM ONLY NEVER")
        else:
            months, total = self._at_minimum(least)
            out.add("MINIMUM ONLY MONTHS {} TOTAL {}", ("repay", months), ("repay", total))
        payment, total = self._in_36(in_36(owing))
        out.add("THIRTY-SIX MONTHS PAYMENT {} TOTAL {}", ("repay", payment), ("repay", total))
        return out

    # -- a month ----------------------------------------------------------------------------

    def _interest(self, balance: Node, place: int, month: int) -> Node:
        product = self.nodes.make("product", [balance, self.daily[place]],
                                  f"30 days x balance x daily rate, month {month}", "repayment",
                                  "cents x billionths", by=DAYS)
        return self.nodes.make("round_half_up", [product], f"interest of month {month} on "
                               f"{self.names[place]}", "repayment", "cents", by=BILLION)

    def _owed(self, balances: list[Node], month: int) -> tuple[list[Node], list[Node], Node]:
        """With the month's interest: of each balance, the interest itself, and the sum."""
        added = [self._interest(b, i, month) for i, b in enumerate(balances)]
        grown = [self.nodes.make("sum", [b, i], f"with the interest of month {month}",
                                 "repayment") for b, i in zip(balances, added)]
        owed = grown[0] if len(grown) == 1 else self.nodes.make(
            "sum", grown, f"owed in month {month}", "repayment")
        return grown, added, owed

    def _pay(self, grown: list[Node], amount: Node, order: list[int], month: int) -> Month:
        """Pays an amount in an order of the balances."""
        left, rest = list(grown), amount
        for i in order:
            part = rest if len(grown) == 1 else self.nodes.make(
                "least", [rest, grown[i]], f"of it to {self.names[i]}", "repayment")
            left[i] = self.nodes.make("difference", [grown[i], part],
                                      f"{self.names[i]} after month {month}", "repayment")
            left[i].brief = True
            if len(grown) > 1:
                rest = self.nodes.make("difference", [rest, part], "left of it", "repayment")
        return Month(left, amount)

    def _total(self, balances: list[Node]) -> Node:
        return self.nodes.make("sum", balances, "owed after the last month", "repayment", "cents")

    # -- at the minimum payment alone -------------------------------------------------------

    def _at_minimum(self, least: AtMinimum) -> tuple[Node, Node]:
        order = sorted(range(len(self.rates)), key=lambda i: (self.rates[i], i))
        pct = self.facts.term("pct", "percentage of the terms")
        floor = self.facts.term("floor", "floor of the terms")
        balances, amounts, before = self.balances, [], self._total(self.balances)
        for month in range(1, least.months + 1):
            before = self._total(balances)
            grown, added, owed = self._owed(balances, month)
            share = self.nodes.make("floor_divide", [self.nodes.make(
                "product", [owed, pct], "owed x percentage", "portion", "cents x basis points")],
                "the percentage of what is owed", "portion", "cents", by=10_000)
            charges = self.nodes.make("sum", [share, *added], "with the interest", "repayment")
            least_asked = self.nodes.make("greatest", [charges, floor], "at least the floor",
                                          "repayment")
            amount = self.nodes.make("least", [owed, least_asked], f"minimum payment of month "
                                     f"{month}", "repayment")
            amounts.append(amount)
            balances = self._pay(grown, amount, order, month).balances
        return self._told(least, amounts, balances, before)

    def _told(self, least: AtMinimum, amounts: list[Node], balances: list[Node],
              before: Node) -> tuple[Node, Node]:
        why = [self.nodes.make("equal", [self._total(balances)], "nothing is left after the last "
                               "month", "repayment", by=0)]
        if amounts:
            why.append(self.nodes.make("at_least", [before], "something was left a month before",
                                       "repayment", by=1))
        months = self.nodes.make("count", amounts, f"months at the minimum payment, of at most "
                                 f"{MONTH_LIMIT}", "repayment", why=why)
        total = self.nodes.make("sum", amounts, "paid at the minimum payment", "repayment",
                                "cents")
        assert (months.value, total.value) == (least.months, least.total)
        return months, total

    # -- in 36 months -----------------------------------------------------------------------

    def _after(self, payment: Node) -> tuple[Node, list[Node]]:
        """What is owed after 36 months at a payment, and what was paid."""
        order = sorted(range(len(self.rates)), key=lambda i: (-self.rates[i], i))
        balances, amounts = self.balances, []
        for month in range(1, PLAN_MONTHS + 1):
            grown, _, owed = self._owed(balances, month)
            amount = self.nodes.make("least", [owed, payment], f"payment of month {month}",
                                     "repayment")
            amounts.append(amount)
            balances = self._pay(grown, amount, order, month).balances
        return self._total(balances), amounts

    def _in_36(self, plan: In36) -> tuple[Node, Node]:
        if not self.balances:
            nothing = self.nodes.none("nothing is owed", rule="repayment")
            return nothing, nothing
        tried = self.nodes.leaf("none", plan.payment, "cents", "the payment that was found by "
                                "trial", "repayment")
        left, amounts = self._after(tried)
        clears = self.nodes.make("equal", [left], "it repays all in 36 months", "repayment", by=0)
        less = self.nodes.make("sum", [tried], "a cent less a month", "repayment", by=-1)
        short = self.nodes.make("at_least", [self._after(less)[0]], "a cent less doesn't repay all",
                                "repayment", by=1)
        payment = self.nodes.make("first_of", [tried], "least payment that repays all in 36 months",
                                  "repayment", why=[clears, short])
        total = self.nodes.make("sum", amounts, "paid in these 36 months", "repayment", "cents")
        assert total.value == plan.total
        return payment, total
