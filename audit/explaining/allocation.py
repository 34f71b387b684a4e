"""Where the cents of a payment and of a merchant's credit go, and why."""

from typing import TYPE_CHECKING

from ..allocation import next_cent
from ..effects import ranks
from ..segments import CREDIT
from .nodes import Node
from .sentences import MINIMUM_PART

if TYPE_CHECKING:
    from .balances import Balances

Parts = list[tuple[int, Node]]
# a part of a payment or credit -> its rule: Regulation Z sets an order for the excess alone
RULE_OF = {"minimum": "minimum part", "excess": "excess", "place": "merchant"}


class Allocation:
    """Steps of one payment or credit: each gives to one balance until it or the amount ends."""

    def __init__(self, balances: "Balances") -> None:
        self.balances = balances

    def payment(self, n: int, on: Node) -> Parts:
        """The parts of a payment by segment, which are entered."""
        b = self.balances
        cents, name = b.facts.cents(n), b.facts.post_name(n)
        left = b.all.payments.minimum_left(n, on.value)
        amounts: list[tuple[str, Node]] = []
        rest = cents
        if left is not None and left.value > 0:
            first = b.nodes.make("least", [cents, left], f"minimum part of the {name}",
                                 "minimum part", said=MINIMUM_PART)
            rest = b.nodes.make("difference", [cents, first], f"rest of the {name}, above its "
                                "minimum part", "excess")
            amounts.append(("minimum", first))
        amounts.append(("excess", rest))
        return self._enter(self._steps(amounts, [], on, name), name, on)

    def credit(self, n: int, first: list[int], on: Node) -> Parts:
        """The parts of a merchant's credit, which are entered."""
        b = self.balances
        name = b.facts.post_name(n)
        return self._enter(self._steps([("place", b.facts.cents(n))], first, on, name), name, on)

    def _enter(self, steps: Parts, name: str, on: Node) -> Parts:
        """One entry a segment, in the order of the segments."""
        b, found = self.balances, []
        for s in sorted({segment for segment, _ in steps}):
            of = [part for segment, part in steps if segment == s]
            alone = len({segment for segment, _ in steps}) == 1
            whole = "the whole" if alone else "all parts of the"
            part = of[0] if len(of) == 1 else b.nodes.make(
                "sum", of, f"{whole} {name}, for {b.segments[s].name}", of[-1].rule)
            entry = b.nodes.make("product", [part], f"{name} on {b.segments[s].name}", part.rule,
                                 by=-1, on=on)
            b.enter(s, entry, f"the {name}", part.rule, on)
            found.append((s, entry))
        return found

    def _steps(self, amounts: list[tuple[str, Node]], first: list[int], on: Node,
               name: str) -> Parts:
        b = self.balances
        left = list(b.running)
        day_ranks = ranks(b.book, on.value)
        steps: Parts = []
        for kind, rest in amounts:
            of = ("the" if len(amounts) == 1 else "minimum part of the" if kind == "minimum" else
                  "rest of the")
            while rest.value > 0:
                s = next_cent([n.value for n in left], day_ranks, kind, first)
                if s == CREDIT:
                    part = b.nodes.make("first_of", [rest], f"{of} {name}, for the credit balance, "
                                        "as nothing else is owed", "no balance")
                else:
                    rule, why, said = self._why(kind, s, left, first, on)
                    part = b.nodes.make("least", [rest, left[s]], f"{of} {name}, for "
                                        f"{b.segments[s].name}, {said}", rule, why=why)
                    left[s] = b.nodes.make("difference", [left[s], part],
                                           f"left on {b.segments[s].name}", rule)
                steps.append((s, part))
                if part.value == rest.value:
                    break
                rest = b.nodes.make("difference", [rest, part], f"left of the {name}", part.rule)
        return steps

    def _why(self, kind: str, s: int, left: list[Node], first: list[int],
             on: Node) -> tuple[str, list[Node], str]:
        """The rule that sends the next cent to a segment, its truths, and a short sentence."""
        b = self.balances
        unpaid = [n for n in range(2, len(left)) if left[n].value > 0]
        if kind == "place" and s in first:
            return "merchant", [], "its own place, the oldest balance first"
        rule = RULE_OF[kind]
        if len(unpaid) == 1:
            return rule, [], "the one balance that is owed"
        rank = ranks(b.book, on.value)[s]
        if kind != "minimum" and rank.last_two is not None:
            k = b.all.cycle_of(on.value)
            end = b.facts.post(b.segments[s].post, "end", f"end of {b.segments[s].name}")
            last = k if b.facts.closing(k).value == rank.last_two else k + 1
            rule = "ending plan" if kind == "excess" else rule
            why = b.nodes.make("equal", [end, b.facts.closing(last)],
                               f"{b.segments[s].name} is in the last two cycles of its period",
                               rule)
            return rule, [why], "a plan in its last two cycles"
        rates = [b.all.rates.on(n, on.value) for n in unpaid]
        how, said = ("least", "lowest") if kind == "minimum" else ("greatest", "highest")
        extreme = b.nodes.make(how, rates, f"the {said} rate of the balances that are owed", rule)
        mine = b.all.rates.on(s, on.value)
        why = b.nodes.make("equal", [mine, extreme],
                           f"{b.segments[s].name} bears the {said} rate", rule)
        return rule, [why], f"the {said} rate"
