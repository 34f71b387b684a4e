"""The derivation of all numbers of a book, cycle by cycle."""

from dataclasses import dataclass, field

from ..book import Book, Cycle
from ..days import cycle_of, day_text
from ..fees import fees_sum
from ..segments import CREDIT, HELD, segment_at
from .balances import Balances
from .facts import Facts, Rows
from .fees import Fees
from .interest import Borne, Interest
from .issued import IssuedTexts
from .nodes import Node, Nodes
from .payments import Payments
from .rates import Rates
from .sentences import held_down, minimum_of


@dataclass
class CycleNodes:
    """The nodes of a closed cycle."""
    number: int
    borne: dict[int, Borne] = field(default_factory=dict)
    posted: dict[int, Node] = field(default_factory=dict)
    accrued: dict[int, Node] = field(default_factory=dict)
    interest: Node | None = None
    fees: Node | None = None
    minimum: Node | None = None
    grace: Node | None = None
    owed: Node | None = None
    held: Node | None = None
    balances: list[Node] = field(default_factory=list)
    entries: tuple[int, int] = (0, 0)


class Derivation:
    """All nodes of a book, up to a cycle."""

    def __init__(self, account: str, rows: Rows, book: Book) -> None:
        self.account, self.book = account, book
        self.nodes = Nodes()
        self.facts = Facts(self.nodes, rows, book)
        self.payments = Payments(self)
        self.rates = Rates(self)
        self.issued = IssuedTexts(self)
        self.fees = Fees(self)
        self.balances = Balances(self)
        self.interest = Interest(self)
        self.cycles: list[CycleNodes] = []

    day_text = staticmethod(day_text)

    def upto(self, k: int) -> "Derivation":
        """Derives the cycles up to k."""
        while len(self.cycles) < k:
            self.nodes.cycle = len(self.cycles) + 1
            self._close(self.book.cycle(self.nodes.cycle))
        return self

    def rest(self) -> None:
        """The entries behind the last closed cycle."""
        self.nodes.cycle = len(self.cycles) + 1
        self.balances.upto(len(self.book.entries))

    def cycle_of(self, day: int) -> int:
        return cycle_of(self.book.anchor, day)

    def charged_segment(self, n: int) -> int:
        """The segment of a charge by its corrected day."""
        place = self.book.posts[n - 1].post.place
        assert place is not None
        return segment_at(self.book.segments, place, self.book.corrected.day[n])

    def index_row(self, since: int) -> Node:
        """The index row in force on a day that is a row's own."""
        kept = self.facts.rows.kept
        seq = max(s for s, _, r in kept if r.word == "index" and r.day == since)
        day = self.facts.row(seq, "day", f"day of the index row of {day_text(since)}", "index")
        return self.facts.in_force("index", "rate", day, f"index from {day_text(since)} on",
                                   "index")

    def minimum(self, k: int) -> Node:
        found = self.cycles[k - 1].minimum
        assert found is not None
        return found

    def grace(self, k: int) -> Node:
        found = self.cycles[k - 1].grace
        assert found is not None
        return found

    # -- a closing --------------------------------------------------------------------------

    def _close(self, cycle: Cycle) -> None:
        k, begun = cycle.number, len(self.balances.entries)
        self.balances.upto(cycle.entries)
        found = CycleNodes(k)
        self._interest(found, cycle)
        assert len(self.balances.entries) == cycle.entries
        found.balances = list(self.balances.running)
        found.entries = (begun, cycle.entries)
        found.held = found.balances[HELD]
        found.owed = self.nodes.make(
            "sum", [n for n in found.balances if n.value],
            f"owed at the closing {day_text(cycle.closing)}, over all balances", "balance", "cents")
        assert found.owed.value == cycle.new_balance
        found.interest = self.nodes.make("sum", [n for n in found.posted.values()],
                                         f"interest of cycle {k}", "sums", "cents")
        found.fees = self.nodes.make("sum", self.fees.of_cycle(k), f"penalty fees of cycle {k}",
                                     "sums", "cents")
        assert found.fees.value == fees_sum(cycle.fees)
        found.minimum = self._minimum(found, cycle)
        found.grace = self._grace(found, cycle)
        self.cycles.append(found)

    def _interest(self, found: CycleNodes, cycle: Cycle) -> None:
        k, closing = cycle.number, self.facts.closing(cycle.number)
        computed: dict[int, list[Node]] = {}
        for segment in self.book.segments[2:]:
            borne = self.interest.of_cycle(segment, k)
            found.borne[segment.number] = borne
            if borne.posted is not None:
                computed[segment.number] = [borne.posted]
        for segment in self.book.segments[2:]:
            s = segment.number
            if s in computed:
                node = self.interest.limited(s, k, computed[s][0])
                computed[s] = [self._post_interest(s, k, node, closing)]
        for segment in self.book.segments[2:]:
            s = segment.number
            if (segment.sort == "deferred" and segment.ends == cycle.closing
                    and self.balances.running[s].value > 0):
                accrued, _ = self.interest.deferred(segment, closing)
                found.accrued[s] = accrued
                node = self.interest.limited(s, k, accrued)
                computed.setdefault(s, []).append(self._post_interest(s, k, node, closing))
        for s, of in computed.items():
            name = self.book.segments[s].name
            found.posted[s] = of[0] if len(of) == 1 else self.nodes.make(
                "sum", of, f"interest of {name} in cycle {k}", "interest")
            assert found.posted[s].value == cycle.interest.get(s, 0), (s, k)
            average = found.borne[s].average
            assert (average.value if average else 0) == cycle.average.get(s, 0)

    def _post_interest(self, s: int, k: int, node: Node, closing: Node) -> Node:
        name = self.book.segments[s].name
        posted = self.nodes.make("first_of", [node], f"interest of {name} in cycle {k}", "interest")
        self.balances.debit(s, posted, f"interest of cycle {k}", "interest", closing)
        return posted

    def _minimum(self, found: CycleNodes, cycle: Cycle) -> Node:
        k, make = cycle.number, self.nodes.make
        assert found.owed and found.held and found.interest and found.fees
        apart = make("difference", [found.owed, found.held], "new balance without what is in "
                     "dispute", "minimum")
        balance = make("at_least_zero", [apart], "balance that the minimum payment is made of",
                       "minimum")
        pct = self.facts.term("pct", "percentage of the terms")
        share = make("floor_divide", [make("product", [balance, pct], "balance x percentage",
                                           "portion", "cents x basis points")],
                     "the percentage of the balance", "portion", "cents", by=10_000)
        charges = make("sum", [share, found.interest, found.fees],
                       "with the interest and the fees of the cycle", "minimum")
        floor = self.facts.term("floor", "floor of the terms")
        least = make("greatest", [charges, floor], "at least the floor", "minimum")
        late = self.payments.past_due(k)
        if late is not None:
            least = make("sum", [least, late], "with what is past due", "minimum")
        node = make("least", [balance, least], f"minimum payment of cycle {k}, at most the balance",
                    "minimum")
        node.said = minimum_of(balance, share, pct, charges, floor, late, node.value)
        if self.book.issued_cycle(k) is not None:
            shown = self.issued.minimum(k)
            node = make("least", [node, shown], f"minimum payment of cycle {k}, at most what "
                        f"statement {k} asked for when it was issued", "caps",
                        said=held_down(k, node, shown))
        assert node.value == cycle.minimum, (k, node.value, cycle.minimum)
        return node

    def _grace(self, found: CycleNodes, cycle: Cycle) -> Node:
        k = cycle.number
        assert found.owed and found.held
        of = [found.owed, found.held]
        following = self.facts.closing(k + 1).value
        for segment in self.book.segments:
            if segment.sort == "deferred" and (segment.ends or 0) > following:
                balance = found.balances[segment.number]
                of += [balance] if balance.value else []
        left = self.nodes.make("difference", of, "new balance without what is in dispute and what "
                               "is deferred for longer", "grace amount")
        node = self.nodes.make("at_least_zero", [left], f"grace amount of cycle {k}",
                               "grace amount")
        if self.book.issued_cycle(k) is not None:
            shown = self.issued.grace(k)
            node = self.nodes.make("least", [node, shown], f"grace amount of cycle {k} (it "
                                   "pays the statement in full), at most that of statement "
                                   f"{k} when it was issued", "caps",
                                   said=held_down(k, node, shown))
        assert node.value == cycle.grace_amount, (k, node.value, cycle.grace_amount)
        return node

    def credit(self) -> Node:
        return self.balances.running[CREDIT]
