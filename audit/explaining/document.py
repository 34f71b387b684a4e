"""An explanation as one document: texts, numbers, nodes and rows."""

from typing import Any

from ..days import day_text
from .facts import Rows
from .nodes import Node, node_json, numbered
from .numbers import Number, Printed
from .rules import PARTS

FORMAT = 1
_IDLE = {"ack": "an acknowledgement changes no number", "bill": "the bill of another cycle",
         "review": "a review changes no number",
         "askrefund": "a request for a refund changes no number"}


class Document:
    """What is explained, with all that the checker needs."""

    def __init__(self, rows: Rows, head: dict[str, Any]) -> None:
        self.rows, self.head = rows, head
        self.texts: dict[str, str] = {}
        self.numbers: list[Number] = []
        self.nodes: list[Node] = []
        self.left_out: list[tuple[int, str]] = []
        self.same = set[str]()  # rules whose reading by the regulation gives the same here
        self.entries = (0, 0)  # of the exported ones, from a place to another

    def add(self, printed: Printed) -> None:
        self.texts[printed.name] = printed.text()
        self.numbers += printed.numbers

    def close(self, last_day: int, effective: dict[int, int],
              issued: dict[str, str]) -> "Document":
        """Numbers the nodes, adds the issued statements that a leaf names, and says of each own row
        without a leaf why it has none."""
        self.nodes = numbered(n.node for n in self.numbers)
        named = {node.more["text"] for node in self.nodes if node.how == "shown"}
        self.texts |= {name: issued[name] for name in sorted(named)}
        used = {node.more["seq"] for node in self.nodes if "seq" in node.more}
        for n, seq in enumerate(self.rows.posts, start=1):
            if seq not in used:
                self.left_out.append((seq, self._why(n, seq, last_day, effective)))
        return self

    def _why(self, n: int, seq: int, last_day: int, effective: dict[int, int]) -> str:
        word = self.rows.requests[seq].word
        if word in _IDLE:
            return _IDLE[word]
        if effective.get(n, 0) > last_day:
            return f"counts from {day_text(effective[n])}, after {day_text(last_day)}"
        return "moves nothing that these numbers are made of"

    def json(self, word: str = "") -> dict[str, Any]:
        """The document as JSON has it, or the trees of one number alone."""
        if word:
            return self._one(word)
        numbers = [{"word": n.word, "node": n.node.id} | (
            {"text": n.text, "line": n.line, "place": n.place} if n.text else {})
            for n in self.numbers]
        return self.head | {
            "format": FORMAT, "texts": self.texts, "numbers": numbers,
            "explained": sorted({n.text for n in self.numbers if n.text}),
            "nodes": [with_parts(node) for node in self.nodes],
            "rows": [[seq, body.hex()] for seq, body, _ in self.rows.kept],
            "left_out": [[seq, why] for seq, why in self.left_out]}

    def _one(self, word: str) -> dict[str, Any]:
        """The trees of one number, with their nodes alone."""
        wanted = [n for n in self.numbers if is_asked(word, n)]
        below, left = set(), [n.node for n in wanted]
        while left:
            node = left.pop()
            if node.id not in below:
                below.add(node.id)
                left += node.links()
        return self.head | {
            "format": FORMAT, "numbers": [{"word": n.word, "node": n.node.id} for n in wanted],
            "nodes": [with_parts(node) for node in self.nodes if node.id in below]}


def is_asked(word: str, number: Number) -> bool:
    """A number's word, or its first part, is the word asked for."""
    return word in (number.word, number.word.split()[0])


def with_parts(node: Node) -> dict[str, Any]:
    """A node with RULES' two sentences where the ledger's rule and the regulation part."""
    out = node_json(node)
    return out | {"parts": list(PARTS[node.rule])} if node.rule in PARTS else out
