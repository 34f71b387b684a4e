"""The numbers of a text, each with its node: of a statement, of exported entries."""

import re
from collections.abc import Iterable
from dataclasses import dataclass, field
from typing import TYPE_CHECKING

from ..days import ymd
from ..statement import Move, Statement
from .nodes import Node, value_text

if TYPE_CHECKING:
    from .derivation import CycleNodes, Derivation

NUMBER = re.compile(r"-?\d+(\.\d+)?%?|\d{4}-\d\d-\d\d")


@dataclass
class Number:
    """A number of a text, by its line and the place of its field; `text` is empty for one that no
    text prints."""
    word: str
    node: Node
    text: str = ""
    line: int = 0
    place: int = 0


@dataclass
class Printed:
    """A text that is made of nodes: the same as the program's, if all is right."""
    name: str
    lines: list[str] = field(default_factory=list)
    numbers: list[Number] = field(default_factory=list)

    def add(self, form: str, *given: tuple[str, Node]) -> None:
        """A line whose numbers are these nodes; `form` has a place for the text of each."""
        line = form.format(*(value_text(node.value, node.unit) for _, node in given))
        fields = re.split(r"[ ,]+", line)
        places = [p for p, text in enumerate(fields) if NUMBER.fullmatch(text)]
        if fields[0] == "STATEMENT":
            places = [3]
        assert len(places) == len(given), (line, places)
        for place, (word, node) in zip(places, given):
            self.numbers.append(Number(word, node, self.name, len(self.lines), place))
        self.lines.append(line)

    def text(self) -> str:
        return "".join(line + "\n" for line in self.lines)


def _labelled(label: str) -> str:
    return f"{label:<28} {{:>14}}"


class StatementNumbers:
    """The statement of a cycle as nodes: `issued` on the day of its bill, or as recomputed."""

    def __init__(self, derivation: "Derivation", k: int, statement: Statement,
                 bill: int | None) -> None:
        self.all, self.k, self.statement, self.bill = derivation, k, statement, bill
        self.nodes, self.facts = derivation.nodes, derivation.facts
        self.cycle: CycleNodes = derivation.cycles[k - 1]
        self.nodes.cycle = k

    def printed(self, name: str) -> Printed:
        """The text of the statement, line by line."""
        s, out = self.statement, Printed(name)
        first, last = self.facts.first(self.k), self.facts.closing(self.k)
        out.add(f"STATEMENT {self.all.account} CYCLE {{}}",
                ("cycle", self.facts.cycle_number(last)))
        out.add("PERIOD {} TO {}", ("first", first), ("closing", last))
        previous, moves = self._previous(), [(m, self._move(m)) for m in s.moves]
        corrections = self._corrections(previous)
        out.add(_labelled("PREVIOUS BALANCE"), ("previous", previous))
        out.add(_labelled("EARLIER CORRECTIONS"), ("corrections", corrections))
        for move, (day, number, cents) in moves:
            word = ("fee " if move.kind.startswith("FEE") else "post ") + value_text(
                day.value if move.kind.startswith("FEE") else move.post,
                "day" if move.kind.startswith("FEE") else "count")
            out.add(f"{{}} {move.kind:<10} {{:>6}} {{:>14}}", (word, day), (word, number),
                    (word, cents))
        self._sums(out, self._balance(previous, corrections, [n[2] for _, n in moves]))
        for r in s.rates:
            rate = self.all.rates.on(r.segment, last.value)
            out.add(f"RATE {r.name:<12} {{:>7}} {{:>12}} {{:>14}} {{:>14}}",
                    (f"rate {r.name}", rate), (f"rate {r.name}", self.all.rates.daily(rate)),
                    (f"average {r.name}", self._average(r.segment)),
                    (f"interest {r.name}", self._posted(r.segment)))
        self._deferred(out)
        if s.due_payment and s.cycle.minimum > 0:
            issue = self.facts.accepted(self.bill or 0)
            fee = self.facts.in_force("feerow", "repeat", issue, "repeat amount of the fee table "
                                      "on the day of issue", "warning")
            out.add("LATE PAYMENT FEE UP TO {} AND RATE UP TO {}", ("warning", fee),
                    ("warning", self.facts.term("penalty", "penalty rate of the opening")))
        return out

    def _sums(self, out: Printed, balance: Node) -> None:
        """The labelled lines behind the transactions."""
        assert self.cycle.fees and self.cycle.interest and self.cycle.held and self.cycle.minimum
        out.add(_labelled("FEES THIS PERIOD"), ("fees", self.cycle.fees))
        out.add(_labelled("INTEREST THIS PERIOD"), ("interest", self.cycle.interest))
        out.add(_labelled("FEES THIS YEAR"), ("year-fees", self._year("fees")))
        out.add(_labelled("INTEREST THIS YEAR"), ("year-interest", self._year("interest")))
        out.add(_labelled("NEW BALANCE"), ("balance", balance))
        out.add(_labelled("IN DISPUTE"), ("dispute", self.cycle.held))
        out.add(_labelled("MINIMUM PAYMENT"), ("minimum", self.cycle.minimum))
        if self.statement.due_payment:
            out.add(_labelled("PAYMENT DUE DATE"), ("due-date", self._due_date()))
        else:
            out.add(_labelled("PAYMENT DUE DATE").format("-"))

    # -- its numbers ------------------------------------------------------------------------

    def others(self) -> list[Number]:
        """What the cycle has and no text prints."""
        assert self.cycle.grace
        found = [Number("grace", self.cycle.grace)]
        if self.bill is not None:
            found.append(Number("due-date", self._timely()))
        return found

    def _timely(self) -> Node:
        issued = self.facts.accepted(self.bill or 0)
        between = self.nodes.make("days_between", [issued, self.facts.due(self.k)],
                                  f"from the issue of statement {self.k} to its due date",
                                  "timely")
        return self.nodes.make("at_least", [between], "issued at least 21 days before its due "
                               "date, so a payment is due", "timely", by=21)

    def _due_date(self) -> Node:
        return self.nodes.make("first_of", [self.facts.due(self.k)], "payment due date",
                               "due payment", why=[self._timely()])

    def _previous(self) -> Node:
        """The new balance of the statement before, else what was owed at that closing."""
        if self.k == 1:
            return self.nodes.none("nothing was owed before the first cycle", rule="previous")
        if self.k - 1 in self.all.book.issued:
            return self.all.issued.new_balance(self.k - 1)
        return self._owed_before()

    def _owed_before(self) -> Node:
        before = self.all.cycles[self.k - 2].owed
        assert before is not None
        return before

    def _corrections(self, previous: Node) -> Node:
        if self.k == 1:
            return self.nodes.none("no cycle came before", rule="previous")
        return self.nodes.make("difference", [self._owed_before(), previous], "owed at the closing "
                               "before by these rows, less the previous balance", "previous",
                               "cents")

    def _entries(self) -> Iterable[tuple[int, int, str, Node]]:
        begun, ended = self.cycle.entries
        book = self.all.book.entries
        for place in range(begun, ended):
            yield (book[place].day, book[place].post, book[place].kind,
                   self.all.balances.entries[place])

    def _move(self, move: Move) -> tuple[Node, Node, Node]:
        """Day, number and cents of a transaction."""
        kind = "fee" if move.kind.startswith("FEE") else move.kind.lower()
        of = [node for day, post, word, node in self._entries()
              if (day, post, word) == (move.day, move.post, kind)]
        day = of[0].on
        assert day is not None
        if kind == "fee":
            said = "late fee" if move.post == 0 else "returned-payment fee"
            what = f"{said} of {value_text(move.day, 'day')}"
        else:
            what = self.facts.post_name(move.post)
        number = (self.facts.number(move.post) if move.post else
                  self.nodes.none("in place of a post's number: a late fee is entered by nobody",
                                  "count", "fee when"))
        cents = self.nodes.make("sum", of, what, "moves", on=day)
        return day, number, cents

    def _balance(self, previous: Node, corrections: Node, moves: list[Node]) -> Node:
        """Previous balance, corrections, transactions and interest."""
        assert self.cycle.interest and self.cycle.owed
        node = self.nodes.make("sum", [previous, corrections, *moves, self.cycle.interest],
                               "previous balance, corrections, transactions and interest",
                               "balance")
        node.why = (self.nodes.make("equal", [node_copy(node), self.cycle.owed],
                                    "the same is owed over all balances", "entries"),)
        return node

    def _year(self, name: str) -> Node:
        year = ymd(self.facts.closing(self.k).value)[0]
        of: list[Node] = []
        for j in range(self.k, 0, -1):
            if ymd(self.facts.closing(j).value)[0] != year:
                break
            of.insert(0, getattr(self.all.cycles[j - 1], name))
        return self.nodes.make("sum", of, f"{name} of the cycles that closed in {year}, up to "
                               "this one", "sums")

    def _average(self, s: int) -> Node:
        borne = self.cycle.borne[s]
        if borne.average is not None:
            return borne.average
        why = borne.posted.why if borne.posted is not None else ()
        return self.nodes.none("no balance bore interest", rule="average", why=why)

    def _posted(self, s: int) -> Node:
        found = self.cycle.posted.get(s)
        return found or self.nodes.none("nothing was on it", rule="interest")

    def _deferred(self, out: Printed) -> None:
        for d in self.statement.deferred:
            segment = self.all.book.segments[d.segment]
            accrued = self.cycle.accrued.get(d.segment)
            if accrued is None:
                accrued, _ = self.all.interest.deferred(segment, self.facts.closing(self.k))
            end = self.facts.post(segment.post, "end", f"last day of {d.name}")
            word = f"deferred {d.name}"
            out.add(f"DEFERRED {d.name} {{}} {{}} PAY IN FULL BY {{}}",
                    (word, self.cycle.balances[d.segment]), (word, accrued), (word, end))


def node_copy(node: Node) -> Node:
    """The same sum as a node of its own, for a truth about it."""
    copy = Node(node.how, node.value, node.unit, node.what, node.of)
    copy.rule, copy.cycle, copy.brief = node.rule, node.cycle, True
    return copy


def export_numbers(derivation: "Derivation", name: str, begun: int, ended: int) -> Printed:
    """The exported entries from a place to another, each with its node."""
    out = Printed(name)
    segments = derivation.book.segments
    for place in range(begun, ended):
        entry, node = derivation.book.entries[place], derivation.balances.entries[place]
        assert node.on is not None
        number = (derivation.facts.number(entry.post) if entry.post else
                  derivation.nodes.none(f"an entry of {entry.kind} that has no post", "count",
                                        "entries"))
        cents = derivation.nodes.make("product", [node], f"{node.what}, in cents", "entries",
                                      "count", by=1)
        out.add(f"{{}},{segments[entry.segment].name},{entry.kind},{{}},{{}}",
                ("entries", node.on), ("entries", number), ("entries", cents))
    return out
