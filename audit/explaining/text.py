"""An explanation as text: each line of the statement, and below it how its numbers came about."""

import re
import textwrap
from collections.abc import Iterator

from ..days import day_text
from .differences import HEADING, ONLY, differing
from .document import Document, is_asked
from .how import brief_text, how_text, is_runs, shown_value
from .nodes import Node, value_text
from .numbers import Number
from .rules import PARTS, RULES

WIDTH = 100
VALUE = 14
TABLE = 70  # the columns of a table of days
AS = {"issued": "as issued on", "recomputed": "as recomputed on"}
NAMES = ("A row is an accepted line, by its number in the file. A post is an entry of the account, "
         "by its number there, and its key is the name that it was entered with. "
         "purchase:2 is one of its balances (a segment): number 2, which is of purchases. How a "
         "number is rounded is the ledger's own choice.")
RATE_HEADS = f"{'':17} {'YEARLY':>7} {'DAILY':>12} {'AVERAGE DAILY':>14} {'INTEREST':>14}\n" \
             f"{'':17} {'RATE':>7} {'RATE':>12} {'BALANCE':>14}"
# the heading of a number that no text prints
UNPRINTED = {"grace": "grace amount (on no line): pays the statement in full",
             "due-date": "due date (on no line): whether a payment is due by it"}
MANY = 6  # months that are all shown
_POST = re.compile(r"(post \d+) \(key [^ ,)]+, entered \d{4}-\d\d-\d\d\)")
_QUIET = ("cycle", "entries")


def row_line(value: str, depth: int, what: str, section: str) -> list[str]:
    """A line of a node, wrapped: the number first, right-aligned, the section at the end."""
    indent = " " * (VALUE + 2 + 2 * depth)
    room = WIDTH - (len(section) + 2 if section else 0)
    lines = textwrap.wrap(what, room - len(indent), break_on_hyphens=False,
                          break_long_words=False) or [""]
    first = f"{value:>{VALUE}}  {'  ' * depth}{lines[0]}"
    if section:
        first = f"{first:<{WIDTH - len(section)}}{section}"
    return [first.rstrip()] + [indent + line for line in lines[1:]]


def paragraph(said: str, depth: int) -> list[str]:
    """A sentence of its own, between bars."""
    indent = " " * (VALUE + 2 + 2 * depth)
    return [f"{indent}| {line}" for line in textwrap.wrap(said, WIDTH - len(indent) - 2)]


def is_same(node: Node) -> bool:
    """A step that only names the value of its one child again."""
    return (node.how in ("first_of", "sum") and len(node.of) == 1 and not node.why
            and node.by is None and not is_runs(node))


def is_named(node: Node) -> bool:
    """A field of a row under a better name: what it is for."""
    return is_same(node) and node.of[0].how == "row"


def is_no_post(node: Node) -> bool:
    """The 0 in the place of a post's number, which no section speaks of."""
    return node.how == "none" and node.unit == "count"


def plain(node: Node) -> Node:
    """Without steps that only name the same value again."""
    while is_same(node) and not is_named(node):
        node = node.of[0]
    return node


class Names:
    """Names of posts: with the key and the day where a post is named first."""

    def __init__(self) -> None:
        self.posts: set[str] = set()

    def short(self, said: str) -> str:
        return _POST.sub(self._post, said)

    def _post(self, name: re.Match[str]) -> str:
        if name[1] in self.posts:
            return name[1]
        self.posts.add(name[1])
        return name[0]


class Text:
    """Writes the trees of a document.  What was shown in full is named again in one line."""

    def __init__(self, cycle: int) -> None:
        self.cycle = cycle
        self.seen: set[int] = set()
        self.in_tables: set[int] = set()  # balances that were named below a table
        self.names = Names()

    # -- a tree -----------------------------------------------------------------------------

    def tree(self, node: Node, depth: int = 0, because: bool = False,
             question: bool = False) -> Iterator[str]:
        """A node and what is below it: first what had to be so, then what it is made of."""
        node = plain(node)
        children = self._children(node, depth)
        said = ("because " if because else "") + self.names.short(node.what)
        again = id(node) in self.seen and bool(node.of or node.why)
        self.seen.add(id(node))
        elsewhere = bool(node.of or node.why) and not children and not node.brief and (
            node.how not in ("calendar", "in_force") and 0 < node.cycle < self.cycle)
        how = "" if elsewhere else (brief_text(node) if node.brief else
                                    how_text(node.of[0] if is_named(node) else node))
        said += "?" if question else ""
        if how and not again:
            said += (f" ({how})" if not node.of or not children else f" {how}" if question else
                     f": {how}")
        if again and not node.brief:
            said += " (above)"
        elif elsewhere:
            said += f" (explained with cycle {node.cycle})"
        section = RULES[node.rule][1] if node.rule and not is_no_post(node) else ""
        yield from row_line(self._value(node, because), depth, said,
                            section.removeprefix("12 CFR 1026"))
        if again or not children:
            return
        if node.said:
            yield from paragraph(node.said, depth + 1)
        for why in node.why:
            yield from self.tree(why, depth + 1, True)
        if is_runs(node):
            yield from self._table(node, depth + 1)
        elif node.how == "choose":
            yield from self._choice(node, depth + 1)
        else:
            yield from self._below(node, depth + 1)

    def _choice(self, node: Node, depth: int) -> Iterator[str]:
        """The question, what was taken, and in one line what wasn't."""
        question, *both = node.of
        taken, other = both if question.value else reversed(both)
        yield from self.tree(question, depth, question=True)
        yield from self.tree(taken, depth)
        yield from row_line(self._value(other, False), depth,
                            f"(not taken: {self.names.short(plain(other).what)})", "")

    def _below(self, node: Node, depth: int) -> Iterator[str]:
        """The children; of many months the first three and the last."""
        many = len(node.of) > MANY and node.rule == "repayment"
        for child in node.of[:3] if many else node.of:
            yield from self.tree(child, depth)
        if many:
            yield from row_line("..", depth, f"{len(node.of) - 4} months more", "")
            last = plain(node.of[-1])
            self.seen.add(id(last))
            yield from row_line(value_text(last.value, last.unit), depth, last.what, "")

    def _value(self, node: Node, because: bool) -> str:
        if node.unit == "truth":
            return "" if because else value_text(node.value, node.unit)
        return shown_value(node)

    def _children(self, node: Node, depth: int) -> bool:
        """Whether what is below is shown."""
        if not node.of and not node.why:
            return False
        if node.how in ("calendar", "in_force") or is_named(node):
            return False
        return depth == 0 or not (node.brief or 0 < node.cycle < self.cycle)

    # -- days -------------------------------------------------------------------------------

    def _table(self, node: Node, depth: int) -> Iterator[str]:
        """The runs of days of a sum."""
        if isinstance(node.start, Node) and isinstance(node.end, Node):
            yield from self._span(node.start, node.end, depth)
        indent = " " * min(VALUE + 2 + 2 * depth, WIDTH - TABLE)
        with_rate = node.of[0].unit == "cents x billionths"
        head = f"{'FROM':10} {'TO':10} {'DAYS':>4} {'BALANCE':>13}"
        yield indent + head + (f" {'DAILY RATE':>11} {'THEIR PRODUCT':>17}" if with_rate else
                               f" {'DAYS x BALANCE':>15}")
        rates: list[Node] = []
        for run in node.of:
            assert isinstance(run.start, int) and isinstance(run.end, int)
            days = run.of[0] if with_rate else run
            line = (f"{day_text(run.start)} {day_text(run.end)} {run.end - run.start + 1:>4} "
                    f"{value_text(days.of[0].value, 'cents'):>13} ")
            if with_rate:
                daily = run.of[1]
                rates += [] if daily in rates else [daily]
                line += f"{value_text(daily.value, 'billionths'):>11} "
                line += f"{value_text(run.value, run.unit):>17}"
            else:
                line += f"{value_text(run.value, run.unit):>15}"
            yield indent + line
        for run in node.of:
            yield from self._less(run, run.of[0].of[0] if with_rate else run.of[0], depth)
        for daily in rates:
            yield from self.tree(daily, depth)

    def _span(self, first: Node, last: Node, depth: int) -> Iterator[str]:
        """The first and the last of the days that a table is of."""
        days = f"{last.value - first.value + 1} days"
        yield from row_line(days, depth, f"from {day_text(first.value)}, {first.what}, to "
                            f"{day_text(last.value)}, {last.what} ({how_text(last)})", "")

    def _less(self, run: Node, balance: Node, depth: int) -> Iterator[str]:
        """What was repaid later, where a run's balance is less by it; else the balance's name."""
        if balance.how == "at_least_zero" and id(balance) not in self.seen:
            yield from self.tree(balance, depth)
        elif balance.brief and id(balance) not in self.in_tables:
            assert isinstance(run.start, int)
            self.seen.add(id(balance))
            self.in_tables.add(id(balance))
            how = brief_text(balance)
            yield from row_line(value_text(balance.value, balance.unit), depth, "from "
                                f"{day_text(run.start)}: {self.names.short(balance.what)}"
                                + (f" ({how})" if how else ""), "")

    # -- the whole --------------------------------------------------------------------------

    def lines(self, document: Document, word: str = "") -> Iterator[str]:
        """Each line of the texts, with the trees of its numbers."""
        for name, text in document.texts.items():
            if name.startswith("issued") or name == "export":
                continue
            for place, line in enumerate(text.splitlines()):
                here = [n for n in document.numbers if (n.text, n.line) == (name, place)]
                wanted = [n for n in here if not word or is_asked(word, n)]
                if word and not wanted:
                    continue
                if line.startswith("RATE "):
                    yield RATE_HEADS
                yield line
                for number in wanted:
                    if number.word not in _QUIET and number.node.more.get("field") != "number":
                        yield from self.tree(number.node)
                yield from self._beside([n for n in here if n not in wanted])
                yield ""
        for number in document.numbers:
            if not number.text and (not word or is_asked(word, number)):
                yield UNPRINTED[number.word].upper()
                yield from self.tree(number.node)
                yield ""

    def _beside(self, numbers: list[Number]) -> Iterator[str]:
        """The other numbers of a line, each in one line, with the word that shows its tree."""
        for number in numbers:
            node = plain(number.node)
            if node.unit == "cents":
                yield from row_line(self._value(node, False), 0, f"{self.names.short(node.what)} "
                                    f"(explained with --number \"{number.word}\")", "")

    def parts(self, document: Document, shown: bool) -> Iterator[str]:
        """RULES' sentences on the rules of all nodes, or of those that were shown, where the
        regulation reads otherwise and that can matter here."""
        rules = differing((n for n in document.nodes if not shown or id(n) in self.seen),
                          document.same)
        if rules:
            yield HEADING.upper()
            yield from textwrap.wrap(ONLY, WIDTH)
            for rule in rules:
                ledger, regulation = PARTS[rule]
                section = RULES[rule][1].removeprefix("12 CFR 1026")
                yield from row_line("the ledger", 0, ledger, section)
                yield from row_line("the regulation", 0, regulation or "has no rule on this.", "")
            yield ""

    def rows_left_out(self, document: Document) -> Iterator[str]:
        if document.left_out:
            yield "ROWS OF THE ACCOUNT THAT NO NUMBER IS MADE OF"
            for seq, why in document.left_out:
                yield from row_line(f"row {seq}", 0, why, "")


def text_of(document: Document, word: str = "") -> str:
    """The text of an explanation, of one number or of all."""
    head = document.head
    text = Text(head["cycle"])
    out = [f"WHERE THE NUMBERS OF CYCLE {head['cycle']} OF ACCOUNT {head['account']} COME FROM, "
           f"{AS[head['as']]} {head['today']}", *textwrap.wrap(
               f"Made from rows 1 to {head['rows_up_to']} of the file. Below each line of the "
               "statement are its numbers, each with what it is and how it follows; what it is "
               "made of (\"this\", \"these\") is set in below it. At the right is the section of "
               f"12 CFR 1026 (Regulation Z) for the amount. {NAMES}", WIDTH), ""]
    out += text.lines(document, word)
    out += text.parts(document, bool(word))
    if not word:
        out += text.rows_left_out(document)
    return "\n".join(line.rstrip() for line in out).rstrip("\n") + "\n"
