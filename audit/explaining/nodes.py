"""Nodes of a derivation: a value, what it is, and how it follows from other nodes."""

from collections.abc import Callable, Iterable, Sequence
from typing import Any

from ..days import day_text
from ..money import money_text
from .rules import RULES


def half_up(total: int, by: int) -> int:
    """A quotient rounded half up."""
    return (2 * total + by) // (2 * by)


# how -> the value that children and a constant give
OPERATIONS: dict[str, Callable[[list[Any], Any], Any]] = {
    "sum": lambda of, by: sum(of) + (by or 0),
    "difference": lambda of, by: of[0] - sum(of[1:]),
    "product": lambda of, by: (of[0] * of[1] if len(of) > 1 else of[0]) * (1 if by is None else by),
    "least": lambda of, by: min(of if by is None else [*of, by]),
    "greatest": lambda of, by: max(of if by is None else [*of, by]),
    "at_least_zero": lambda of, by: max(0, of[0]),
    "floor_divide": lambda of, by: of[0] // (of[1] if by is None else by),
    "round_half_up": lambda of, by: half_up(of[0], of[1] if by is None else by),
    "equal": lambda of, by: of[0] == (of[1] if by is None else by),
    "at_least": lambda of, by: of[0] >= (of[1] if by is None else by),
    "before": lambda of, by: of[0] < (of[1] if by is None else by),
    "days_between": lambda of, by: of[1] - of[0] + (by or 0),
    "day_plus": lambda of, by: of[0] + by,
    "choose": lambda of, by: of[1] if of[0] else of[2],
    "first_of": lambda of, by: of[0],
    "last_of": lambda of, by: of[-1],
    "count": lambda of, by: len(of),
}
TRUTHS = ("equal", "at_least", "before")
_NOTHING: dict[str, Any] = {}
LEAVES = ("row", "in_force", "calendar", "shown", "none")


class Node:
    """A node.  `more` holds what only some kinds have: the row of a leaf, the days of a run."""

    __slots__ = ("value", "what", "unit", "how", "of", "by", "rule", "why", "on", "start", "end",
                 "cycle", "more", "id", "brief", "said")

    def __init__(self, how: str, value: Any, unit: str, what: str, of: tuple["Node", ...],
                 rule: str = "", by: int | None = None, why: tuple["Node", ...] = (),
                 cycle: int = 0) -> None:
        self.how, self.value, self.unit, self.what, self.of = how, value, unit, what, of
        self.rule, self.by, self.why = rule, by, why
        self.cycle = cycle  # the cycle that it belongs to, 0 for none
        self.on: Node | None = None  # the day on which it counts
        self.start: Node | int | None = None  # of a sum over days; of a run the day itself
        self.end: Node | int | None = None
        self.more: dict[str, Any] = _NOTHING
        self.id = ""
        self.brief = False  # the text shows it in one line
        self.said = ""  # why, in words

    def links(self) -> list["Node"]:
        """All nodes that this one names."""
        found = [*self.of, *self.why]
        if self.on is not None:
            found.append(self.on)
        if isinstance(self.start, Node) and isinstance(self.end, Node):
            found += [self.start, self.end]
        return found


def unit_of(how: str, of: Sequence[Node]) -> str:
    """The unit where none is given: that of the first child, or of the operation."""
    if how in TRUTHS:
        return "truth"
    if how in ("count", "days_between"):
        return "count" if how == "count" else "days"
    return of[1].unit if how == "choose" else of[0].unit if of else "cents"


class Nodes:
    """Makes nodes.  `cycle` is the one that is being explained."""

    def __init__(self) -> None:
        self.cycle = 0

    def make(self, how: str, of: Sequence[Node], what: str, rule: str = "", unit: str = "",
             by: int | None = None, why: Iterable[Node] = (), on: Node | None = None,
             start: Node | int | None = None, end: Node | int | None = None,
             said: str = "") -> Node:
        """A node whose value its children give; `said` is why, in words."""
        value = OPERATIONS[how]([n.value for n in of], by)
        node = Node(how, value, unit or unit_of(how, of), what, tuple(of), rule, by, tuple(why),
                    self.cycle)
        node.on, node.start, node.end, node.said = on, start, end, said
        return node

    def leaf(self, how: str, value: Any, unit: str, what: str, rule: str = "",
             of: Sequence[Node] = (), why: Iterable[Node] = (), **more: Any) -> Node:
        """A fact, or a sentence why there is nothing."""
        node = Node(how, value, unit, what, tuple(of), rule, None, tuple(why), self.cycle)
        node.more = more
        return node

    def none(self, what: str, unit: str = "cents", rule: str = "",
             why: Iterable[Node] = ()) -> Node:
        """Nothing, with the sentence that says why."""
        return self.leaf("none", 0, unit, what, rule, why=why)


def value_json(value: Any, unit: str) -> Any:
    """A value as JSON has it: days as texts."""
    return day_text(value) if unit == "day" else value


def value_text(value: Any, unit: str) -> str:
    """A value as the program prints it."""
    if unit == "cents":
        return money_text(value)
    if unit == "basis points":
        return f"{value // 100}.{value % 100:02d}%"
    if unit == "billionths":
        return f"0.{value:09d}"
    if unit == "cents x billionths":
        sign = "-" if value < 0 else ""
        return f"{sign}{abs(value) // 10 ** 11}.{abs(value) % 10 ** 11:011d}"
    if unit == "cents x basis points":
        return f"{value // 10 ** 6}.{value % 10 ** 6:06d}"
    if unit == "cents x days":
        return money_text(value)
    if unit == "day":
        return day_text(value)
    if unit == "minutes":
        return f"{value // 60:02d}:{value % 60:02d}"
    if unit == "truth":
        return "yes" if value else "no"
    return str(value)


def node_json(node: Node) -> dict[str, Any]:
    """A node as JSON; the ids are given before."""
    rule, section = RULES[node.rule] if node.rule else ("", "")
    out: dict[str, Any] = {"id": node.id, "what": node.what, "unit": node.unit, "how": node.how,
                           "value": value_json(node.value, node.unit)}
    if node.said:
        out["said"] = node.said
    if rule:
        out["rule"] = rule
    if section:
        out["section"] = section
    if node.of:
        out["of"] = [n.id for n in node.of]
    if node.by is not None:
        out["by"] = node.by
    if node.why:
        out["why"] = [n.id for n in node.why]
    if node.on is not None:
        out["on"] = node.on.id
    for name, place in (("from", node.start), ("to", node.end)):
        if place is not None:
            out[name] = place.id if isinstance(place, Node) else day_text(place)
    return out | node.more


def numbered(roots: Iterable[Node]) -> list[Node]:
    """All nodes below the roots, children first, with their ids."""
    order: list[Node] = []
    seen: set[Node] = set()
    for root in roots:
        stack: list[tuple[Node, bool]] = [(root, False)]
        while stack:
            node, done = stack.pop()
            if done:
                order.append(node)
            elif node not in seen:
                seen.add(node)
                stack.append((node, True))
                stack += [(child, False) for child in reversed(node.links()) if child not in seen]
    for place, node in enumerate(order, start=1):
        node.id = f"n{place}"
    return order
