"""Wrong explanations: in each one thing isn't so, and the checker finds it."""

import copy
import json
from collections.abc import Callable
from typing import Any

from audit.explaining.document import Document
from tests.explain.common import LATE_TWICE, PART_PAID, RETURNED, ExplainCase, faults_of

Doc = dict[str, Any]
Change = Callable[[Doc], None]


def first(doc: Doc, **want: Any) -> dict[str, Any]:
    """The first node that has these members, `what` as the beginning of its words."""
    for node in doc["nodes"]:
        if all(str(node.get(name)).startswith(str(value)) if name == "what" else
               node.get(name) == value for name, value in want.items()):
            found: dict[str, Any] = node
            return found
    raise LookupError(str(want))


def with_children(doc: Doc, how: str, count: int = 2) -> dict[str, Any]:
    """The first node of an operation with so many children, and different ones."""
    values = {n["id"]: n["value"] for n in doc["nodes"]}
    for node in doc["nodes"]:
        of = node.get("of", [])
        if node["how"] == how and len(of) >= count and values[of[0]] != values[of[1]]:
            found: dict[str, Any] = node
            return found
    raise LookupError(how)


def more(how: str, **want: Any) -> Change:
    """A value of an operation is one more, or the next day."""
    def change(doc: Doc) -> None:
        node = first(doc, how=how, **want)
        if node["unit"] == "day":
            node["value"] = "2024-02-28" if node["value"] != "2024-02-28" else "2024-02-27"
        elif node["unit"] == "truth":
            node["value"] = not node["value"]
        else:
            node["value"] += 1
    return change


def swapped(how: str) -> Change:
    """Two children have each other's place."""
    def change(doc: Doc) -> None:
        of = with_children(doc, how)["of"]
        of[0], of[1] = of[1], of[0]
    return change


def put(name: str, value: Any, **want: Any) -> Change:
    """A member of a node has another value."""
    def change(doc: Doc) -> None:
        node = first(doc, **want)
        assert node[name] != value
        node[name] = value
    return change


def dropped(**want: Any) -> Change:
    """A node's last child is cut off."""
    def change(doc: Doc) -> None:
        first(doc, **want)["of"].pop()
    return change


def cut_out(**want: Any) -> Change:
    """A node is cut out of the document."""
    def change(doc: Doc) -> None:
        doc["nodes"].remove(first(doc, **want))
    return change


def longer(days: int, by: int, how: str = "product") -> Change:
    """A run of days has more of them."""
    def change(doc: Doc) -> None:
        node = next(n for n in doc["nodes"] if n["how"] == how and n["unit"] == "cents x days"
                    and "from" in n)
        year, month, day = map(int, node["to"].split("-"))
        node["to"] = f"{year}-{month:02d}-{day + days:02d}"
        node["by"] += by
    return change


def number(line: str, place: int, text: str) -> Change:
    """A number of the statement is printed otherwise."""
    def change(doc: Doc) -> None:
        lines = doc["texts"]["statement"].splitlines()
        at = next(i for i, words in enumerate(lines) if words.startswith(line))
        fields = lines[at].split()
        lines[at] = lines[at].replace(fields[place], text)
        doc["texts"]["statement"] = "".join(words + "\n" for words in lines)
    return change


def without_number(word: str) -> Change:
    """A number of the statement has no node."""
    def change(doc: Doc) -> None:
        doc["numbers"] = [n for n in doc["numbers"] if n["word"] != word]
    return change


def changed(path: str, does: Callable[[Any], Any]) -> Change:
    """A part of the document is what a function makes of it."""
    def change(doc: Doc) -> None:
        doc[path] = does(doc[path])
    return change


def other_node(doc: Doc) -> None:
    """A number of the statement names the node of another one."""
    found = {n["word"]: n for n in doc["numbers"]}
    found["minimum"]["node"] = found["balance"]["node"]


def stray(doc: Doc) -> None:
    """A node more that no number uses."""
    doc["nodes"].append(dict(first(doc, how="none"), id="n99999"))


def twice(doc: Doc) -> None:
    """A node is there twice."""
    doc["nodes"].append(copy.deepcopy(doc["nodes"][0]))


def later_child(doc: Doc) -> None:
    """A node is made of one that comes behind it."""
    first(doc, how="sum")["of"] = [doc["nodes"][-1]["id"]]


def without_reason(doc: Doc) -> None:
    """A reason names a node that isn't there."""
    next(n for n in doc["nodes"] if "why" in n)["why"] = ["n99999"]


def untrue_reason(doc: Doc) -> None:
    """A reason is no truth."""
    node = next(n for n in doc["nodes"] if "why" in n)
    node["why"] = [next(n["id"] for n in doc["nodes"] if n["unit"] == "cents")]


def outside(doc: Doc) -> None:
    """A payment is counted on a day outside the days of its sum."""
    early = first(doc, how="row", field="day", what="opening day")["id"]
    sums = [n for n in doc["nodes"] if n["how"] == "sum" and n["what"].startswith("payments")]
    child = sums[-1]["of"][0]
    next(n for n in doc["nodes"] if n["id"] == child)["on"] = early


def other_row(doc: Doc) -> None:
    """A leaf names another row of the account, with that row's bytes."""
    node = first(doc, how="row", field="cents")
    bodies = dict(doc["rows"])
    node["seq"], node["bytes"] = doc["rows"][2][0], bodies[doc["rows"][2][0]]


def in_force_later(doc: Doc) -> None:
    """A row of the fee table with a later day would be in force."""
    doc["rows"].insert(1, [0, "0203" + "0100" + "02" + "0bb8" + "02" + "1004"])


# what isn't so -> the change, in the statement of RETURNED
OF_RETURNED: dict[str, Change] = {
    "a sum is a cent more": more("sum", unit="cents"),
    "a difference is a cent more": more("difference"),
    "a product is one more": more("product", unit="cents x days"),
    "the least is a cent more": more("least"),
    "the greatest is a cent more": more("greatest", unit="cents"),
    "what isn't below 0 is a cent more": more("at_least_zero"),
    "a quotient is one more": more("floor_divide"),
    "the rounded interest is a cent more": more("round_half_up", unit="cents"),
    "a truth is turned": more("at_least"),
    "a truth is turned (less than)": more("before"),
    "a truth is turned (equal)": more("equal"),
    "days between are one more": more("days_between"),
    "the day after is another": more("day_plus"),
    "a choice has the other value": more("choose"),
    "a count is one more": more("count"),
    "a closing is another day": more("calendar", calendar="closing"),
    "a due date is another day": more("calendar", calendar="due"),
    "a cycle has another number": more("calendar", calendar="cycle"),
    "a row's amount is a cent more": more("row", field="cents"),
    "a day of acceptance is another": more("row", field="accepted"),
    "a post has another number": more("row", field="number"),
    "an amount of the fee table is a cent more": more("in_force"),
    "a number of the statement before is a cent more": more("shown"),
    "children of a difference are swapped": swapped("difference"),
    "children of days between are swapped": swapped("days_between"),
    "children of a quotient are swapped": swapped("round_half_up"),
    "a leaf has other bytes": put("bytes", "0205016101630cb300030186a1", how="row", field="cents"),
    "a leaf has another field": put("field", "minute", how="row", field="cents"),
    "a leaf names another row": other_row,
    "a leaf names no row": put("seq", 77, how="row", field="cents"),
    "a rule doesn't exist": put("rule", "Interest / Twice a cycle", how="round_half_up"),
    "a rule is that of another heading": put("rule", "Calendar / Once a cycle",
                                             rule="Interest / Once a cycle"),
    "a run is a day longer": longer(1, 0),
    "a run is a day longer, and counts it": longer(1, 1),
    "a run counts a day more": longer(0, 1),
    "a sum lacks a child": dropped(how="sum", unit="cents x billionths"),
    "the minimum payment lacks the floor": dropped(how="greatest", what="at least the floor"),
    "a returned payment is counted": dropped(how="choose", what="payment"),
    "a node is cut out": cut_out(how="choose", what="payment"),
    "the missed due date is cut out": cut_out(how="before", what="the minimum payment of"),
    "an operation is another": put("how", "greatest", how="least", what="amount of the late fee"),
    "an operation isn't known": put("how", "average", how="round_half_up"),
    "a constant is another": put("by", 364, how="floor_divide", by=365),
    "cents are shown as a rate": put("unit", "basis points", what="minimum payment of cycle 2"),
    "a closing is that of another cycle": put("k", 9, how="calendar", calendar="closing"),
    "a node is there twice": twice,
    "a node no number uses": stray,
    "a node is made of a later one": later_child,
    "a reason isn't there": without_reason,
    "a reason is no truth": untrue_reason,
    "a payment is counted outside its days": outside,
    "the statement has another new balance": number("NEW BALANCE", 2, "1040.88"),
    "the statement has another due date": number("PAYMENT DUE DATE", 3, "2024-04-02"),
    "the statement has another average": number("RATE", 4, "998.96"),
    "the statement has another daily rate": number("RATE", 3, "0.000547672"),
    "the minimum payment has no node": without_number("minimum"),
    "the late warning has no node": without_number("warning"),
    "the minimum payment has the balance's node": other_node,
    "a row of the account is lacking": changed("rows", lambda rows: [
        row for row in rows if row[0] != 10]),
    "a roll is lacking": changed("rows", lambda rows: [row for row in rows if row[0] != 5]),
    "another row of the fee table was in force": in_force_later,
    "a row is left out and used": changed("left_out", lambda out: [*out, [8, "changes nothing"]]),
    "the text of the statement before is another": changed("texts", lambda texts: texts | {
        "issued 1": texts["issued 1"].replace("1000.00", "1000.01")}),
}


def forgotten_fee(doc: Doc) -> None:
    """The earlier fee that makes this one a repeat isn't counted any more."""
    node = next(n for n in doc["nodes"] if n["how"] == "count" and n.get("of")
                and n["what"].startswith("late fees"))
    node["of"] = []
    node["value"] = 0


def repeat_is_first(doc: Doc) -> None:
    """The repeat amount was taken, and no fee came before."""
    node = next(n for n in doc["nodes"] if n["how"] == "choose" and n["value"] == 4100)
    truth = next(n for n in doc["nodes"] if n["id"] == node["of"][0])
    truth["value"] = False


def unpaid_is_paid(doc: Doc) -> None:
    """What was paid by the due date is the grace amount."""
    node = first(doc, how="before", what="statement 1 wasn't paid")
    node["how"], node["what"] = "at_least", "statement 1 was paid"


def not_repaid(doc: Doc) -> None:
    """What was repaid later isn't taken off a day's balance."""
    node = first(doc, how="at_least_zero", what="what of the balance from")
    node["value"] = 100_000


# the same of other statements
OF_LATE_TWICE: dict[str, Change] = {"a repeat without its earlier fee": forgotten_fee,
                                    "a repeat that is called a first one": repeat_is_first}
OF_PART_PAID: dict[str, Change] = {"an unpaid statement counts as paid": unpaid_is_paid,
                                   "what was repaid in time bears interest": not_repaid}


class Wrong(ExplainCase):
    """Each wrong explanation is found, and the right one isn't."""

    def document(self, lines: str, k: int) -> Doc:
        for _, _, cycles in self.accounts(lines):
            found: Document = cycles.issued(k)
            made: Doc = json.loads(json.dumps(found.json()))
            self.assertEqual(faults_of(made), [])
            return made
        raise AssertionError("no account")

    def found(self, lines: str, k: int, changes: dict[str, Change]) -> None:
        right = self.document(lines, k)
        for what, change in changes.items():
            with self.subTest(what):
                wrong = copy.deepcopy(right)
                change(wrong)
                self.assertNotEqual(json.dumps(wrong), json.dumps(right), "nothing was changed")
                self.assertNotEqual(faults_of(wrong), [], "the checker finds nothing")

    def test_returned_payment(self) -> None:
        self.assertGreaterEqual(len(OF_RETURNED), 40)
        self.found(RETURNED, 2, OF_RETURNED)

    def test_repeated_fee(self) -> None:
        self.found(LATE_TWICE, 5, OF_LATE_TWICE)

    def test_part_paid(self) -> None:
        self.found(PART_PAID, 2, OF_PART_PAID)
