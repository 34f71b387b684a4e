"""What later posts did to an issued cycle."""

import textwrap
from dataclasses import dataclass, field
from typing import Any, NamedTuple

from ..book import Book
from ..days import closing, day_text, due
from ..fold import advance
from ..money import money_text
from ..statement import Statement, statement_of
from ..statement_text import statement_text
from .account import NotThere, Watching
from .derivation import Derivation
from .facts import Rows
from .nodes import Node, Nodes, node_json, numbered
from .rules import PARTS

_LABELS = {"PREVIOUS BALANCE": "previous", "EARLIER CORRECTIONS": "corrections",
           "FEES THIS PERIOD": "fees", "INTEREST THIS PERIOD": "interest",
           "FEES THIS YEAR": "year-fees", "INTEREST THIS YEAR": "year-interest",
           "NEW BALANCE": "balance", "IN DISPUTE": "dispute", "MINIMUM PAYMENT": "minimum"}
_QUIET = ("ack", "review", "askrefund")
_BY_EFFECT = ("charge", "credit", "payment", "return", "refund", "dispute", "penalty")


class Cell(NamedTuple):
    """A number of a statement's text, with its place; none where the line isn't there."""
    value: int
    unit: str
    line: int
    place: int


@dataclass
class Change:
    """A number that a post changed."""
    word: str
    unit: str
    before: int
    after: int
    would: int | None = None  # what it would be, were it not held down by the issued statement

    def line(self, due_day: int) -> str:
        """The number before and after, what it would be without its limit, and what it is."""
        would = "-" if self.would is None else _shown(self.would, self.unit)
        return (f"{_shown(self.before, self.unit):>14} {_shown(self.after, self.unit):>14} "
                f"{would:>14}  {named(self.word, due_day)}{'' if self.would is None else ', held'}")


@dataclass
class Step:
    """A post that changed something."""
    seq: int
    post: int
    key: str
    entered: int
    name: str
    does: str
    changes: list[Change] = field(default_factory=list)


_NAMES = {"previous": "previous balance", "corrections": "earlier corrections",
          "fees": "fees this period", "interest": "interest this period",
          "year-fees": "fees this year", "year-interest": "interest this year",
          "balance": "new balance", "dispute": "in dispute", "minimum": "minimum payment",
          "grace": "grace amount: pays it in full by {}"}
_OF = {"interest": "interest of", "average": "average balance of", "rate": "rate of",
       "accrued": "interest accrued on"}


def named(word: str, due_day: int) -> str:
    """A number's word as a text has it: `average purchase:2` is the average balance of that."""
    first, _, rest = word.partition(" ")
    if not rest:
        return _NAMES[word].format(day_text(due_day))
    if first in _OF:
        return f"{_OF[first]} {rest}"
    post, _, day = rest.partition(" of ")
    if first == "fee-late":
        return f"late fee of {day}"
    kind = "returned-payment fee" if first == "fee-return" else first
    return f"{kind}, post {post}, of {day}"


def does(book: Book, n: int) -> str:
    """What a post does, in a sentence."""
    post = book.posts[n - 1].post
    day = day_text(book.corrected.effective.get(n, post.day or 0))
    cents = money_text(post.cents or 0)
    of = book.posts[post.target - 1].post.word if post.target else ""
    target = f"the {of}, post {post.target}"
    if post.word == "amend":
        before = book.posts[(post.target or 1) - 1].post
        return (f"It corrects {target}. That was entered as {money_text(before.cents or 0)} of "
                f"{day_text(before.day or 0)}; it is {cents} of {day_text(post.day or 0)}.")
    if post.word == "dispute":
        return f"It disputes {cents} of {target}."
    if post.word == "resolve":
        return f"It resolves {target}: {cents} are found to be an error."
    if post.word == "return":
        return f"It returns {target}. The return counts from {day}."
    if post.word == "bill":
        return f"It issues the statement of cycle {post.cycle}."
    amount = f" of {cents}" if post.cents else ""
    return f"It is a {post.word}{amount} that counts from {day}."


def _wrapped(said: str) -> list[str]:
    return textwrap.wrap(said, 100)


def _cents(text: str) -> int:
    return int(text.replace(".", "").replace("%", ""))


def cells(text: str) -> dict[str, Cell]:
    """The amounts and rates of a statement's text, by words."""
    found: dict[str, Cell] = {}
    for line, fields in enumerate(words.split() for words in text.splitlines()):
        label = " ".join(fields[:-1])
        if label in _LABELS:
            found[_LABELS[label]] = Cell(_cents(fields[-1]), "cents", line, len(fields) - 1)
        elif fields[0] == "RATE":
            found[f"rate {fields[1]}"] = Cell(_cents(fields[2]), "basis points", line, 2)
            found[f"average {fields[1]}"] = Cell(_cents(fields[4]), "cents", line, 4)
            found[f"interest {fields[1]}"] = Cell(_cents(fields[5]), "cents", line, 5)
        elif fields[0] == "DEFERRED":
            found[f"accrued {fields[1]}"] = Cell(_cents(fields[3]), "cents", line, 3)
        elif len(fields) == 4 and fields[0][0].isdigit():
            word = f"{fields[1].lower()} {fields[2]} of {fields[0]}"
            found[word] = Cell(_cents(fields[3]), "cents", line, 3)
    return found


class Changes:
    """The posts accepted after a bill that changed a number of its cycle, in their order."""

    def __init__(self, machine: Watching, rows: Rows, k: int) -> None:
        account = machine.accounts.get(rows.account)
        if account is None or k not in account.issued:
            raise NotThere(f"statement {k} of {rows.account} wasn't issued")
        self.rows, self.k, self.account = rows, k, account
        self.row = account.issued[k]
        self.shared = machine.book(account).shared
        self.steps: list[Step] = []
        assert isinstance(self.row.statement, Statement)
        self.texts = {"issued": statement_text(rows.account, self.row.statement)}
        self._go()

    def _book(self, n: int) -> Book:
        """The account by its first n posts, at the end of the closing."""
        issued = {k: row for k, row in self.account.issued.items() if row.bill <= n}
        book = Book(self.account.anchor, self.account.posts[:n], issued, self.shared)
        return advance(book, closing(self.account.anchor, self.k) or 0)

    def _statement(self, book: Book) -> Statement:
        issued = self.row.statement
        assert isinstance(issued, Statement)
        return statement_of(book, self.k, self.row.day, issued.due_payment)

    def _may_change(self, n: int) -> bool:
        """Whether post n can reach the cycle at all."""
        post, end = self.account.posts[n - 1].post, closing(self.account.anchor, self.k) or 0
        if post.word in _QUIET:
            return False
        if post.word == "bill":
            return (post.cycle or 0) <= self.k
        book = Book(self.account.anchor, self.account.posts[:n], {}, self.shared)
        return not (post.word in _BY_EFFECT and book.corrected.effective[n] > end)

    def _numbers(self, book: Book) -> tuple[str, dict[str, Cell]]:
        statement = self._statement(book)
        text = statement_text(self.rows.account, statement)
        grace = Cell(statement.cycle.grace_amount, "cents", -1, -1)
        return text, cells(text) | {"grace": grace}

    def _go(self) -> None:
        book = self._book(self.row.bill)
        text, before = self._numbers(book)
        for n in range(self.row.bill + 1, len(self.account.posts) + 1):
            if not self._may_change(n):
                continue
            book = self._book(n)
            text, after = self._numbers(book)
            if after != before:
                self._step(n, before, after, book)
            before = after
        self.texts["restated"] = text

    def _step(self, n: int, before: dict[str, Cell], after: dict[str, Cell], book: Book) -> None:
        kept, seq = self.account.posts[n - 1], self.rows.posts[n - 1]
        step = Step(seq, n, kept.post.key or "", kept.accepted, kept.post.word,
                    does(book, n))
        caps = self._caps(book, n)
        for word in dict.fromkeys([*after, *before]):
            old, new = before.get(word), after.get(word)
            unit = (new or old or Cell(0, "cents", 0, 0)).unit
            pair = (old.value if old else 0, new.value if new else 0)
            if pair[0] != pair[1] or word in caps:
                step.changes.append(Change(word, unit, *pair, caps.get(word)))
        if any(c.before != c.after or c.would is not None for c in step.changes):
            self.steps.append(step)

    def _caps(self, book: Book, n: int) -> dict[str, int]:
        """The numbers that the issued statement holds down, each with what it would be."""
        derivation = Derivation(self.rows.account, self.rows.upto(self.rows.posts[n - 1]),
                                book).upto(self.k)
        cycle, found = derivation.cycles[self.k - 1], {}
        named = {"minimum": cycle.minimum, "grace": cycle.grace}
        named |= {f"interest {book.segments[s].name}": node.of[0] if node.of else node
                  for s, node in cycle.posted.items()}
        for word, node in named.items():
            if node is not None and node.rule == "caps" and node.of[0].value > node.value:
                found[word] = node.of[0].value
        return found

    # -- forms ------------------------------------------------------------------------------

    def text(self) -> str:
        """Each post with the numbers that it changed."""
        out = [f"WHAT LATER POSTS DID TO CYCLE {self.k} OF ACCOUNT {self.rows.account}, issued on "
               f"{day_text(self.row.day)}"]
        if not self.steps:
            return f"{out[0]}\n\nNo later post changed a number of it.\n"
        out += [*_wrapped(
            f"Statement {self.k} itself, as it was sent, stays as it was issued. By all rows of "
            f"the file, up to row {self.rows.kept[-1][0]}, the cycle now has other numbers than "
            "that statement; what is owed and later statements are made with these. Each post that "
            "changed one is named below, with the number BEFORE it and AFTER it."), "",
            *self._held()]
        due_day = due(self.account.anchor, self.k) or 0
        for s in self.steps:
            out += [f"{s.name.upper()}, POST {s.post} (key {s.key}, entered {day_text(s.entered)}, "
                    f"row {s.seq} of the file)", *_wrapped(s.does), "",
                    f"{'BEFORE':>14} {'AFTER':>14} {'IF NOT HELD':>14}  NUMBER",
                    *(c.line(due_day).rstrip() for c in s.changes), "", *self._owed(s)]
        where = f"python3 -m audit explain FILE {self.rows.account} {self.k}"
        out += ["To see how each number follows:", f"    now        {where}",
                f"    as issued  {where} --issued"]
        return "\n".join(out) + "\n"

    def _held(self) -> list[str]:
        """Why numbers stay."""
        if not any(c.would is not None for s in self.steps for c in s.changes):
            return []
        return _wrapped(
            f"{PARTS['caps'][0]} So a number that would rise above statement {self.k} is held at "
            "what it was there: its line ends with \"held\". IF NOT HELD is what that number alone "
            "would be, with the others as they are under AFTER; where a number isn't held it has "
            "\"-\". This is the ledger's own rule (docs/RULES.md, \"No correction raises what was "
            "issued\"); Regulation Z has no rule on it.") + [""]

    def _owed(self, step: Step) -> list[str]:
        """When what the new balance rose or fell by is asked for, and whether it bears interest."""
        more = sum(c.after - c.before for c in step.changes if c.word == "balance")
        if not more:
            return []
        if more < 0:
            begin = f"By this post {money_text(-more)} less is owed."
            interest = (
                "Interest is computed anew from this, in this cycle and in every later one. What "
                "issued statements charged above it is taken back with those corrections.")
        else:
            held = any(c.would is not None for c in step.changes)
            begin = (f"{'The new balance is not held: ' if held else 'By this post '}"
                     f"{money_text(more)} more is owed.")
            interest = (
                "Does it bear interest? In a cycle whose statement was issued before this post, no "
                "balance is charged more interest than that statement charged. In every other "
                f"cycle the {money_text(more)} is part of its balance from the day on which it "
                "counts, and bears interest as the rest of that balance does.")
        return [*_wrapped(
            f"{begin} The next statement that is issued after this post shows what the post "
            "changed under EARLIER CORRECTIONS, and its new balance and minimum payment are made "
            "with it."), *_wrapped(interest), ""]

    def json(self) -> dict[str, Any]:
        """The steps, with nodes from each issued number to the one of now."""
        nodes, roots = Nodes(), []
        texts = {"issued": cells(self.texts["issued"]), "restated": cells(self.texts["restated"])}
        for word in sorted({c.word for s in self.steps for c in s.changes} - {"grace"}):
            roots.append((word, self._chain(nodes, word, texts)))
        made = numbered(node for _, node in roots)
        return {"format": 1, "account": self.rows.account, "cycle": self.k, "as": "changes",
                "rows_up_to": self.rows.kept[-1][0], "texts": self.texts, "explained": [],
                "rows": [[seq, body.hex()] for seq, body, _ in self.rows.kept],
                "numbers": [{"word": word, "node": node.id} for word, node in roots],
                "nodes": [node_json(node) for node in made],
                "left_out": [[seq, "changed no number of this cycle"] for seq in self._idle()],
                "steps": [{"row": s.seq, "post": s.post, "key": s.key,
                           "entered": day_text(s.entered), "does": s.does,
                           "changes": [vars(c) for c in s.changes]} for s in self.steps]}

    def _idle(self) -> list[int]:
        changed = {s.seq for s in self.steps
                   if any(c.before != c.after and c.word != "grace" for c in s.changes)}
        return [seq for seq in self.rows.posts if seq not in changed]

    def _shown_leaf(self, nodes: Nodes, name: str, word: str, unit: str,
                    texts: dict[str, dict[str, Cell]]) -> Node:
        cell = texts[name].get(word)
        if cell is None:
            return nodes.none(f"the {name} statement has no {word}", unit, "issued")
        return nodes.leaf("shown", cell.value, cell.unit, f"{word}, {name}", "issued", text=name,
                          line=cell.line, place=cell.place)

    def _chain(self, nodes: Nodes, word: str, texts: dict[str, dict[str, Cell]]) -> Node:
        """The truth that the issued number and all changes give the one of now."""
        steps = [(s, c) for s in self.steps for c in s.changes
                 if c.word == word and c.before != c.after]
        unit = steps[0][1].unit if steps else "cents"
        node = self._shown_leaf(nodes, "issued", word, unit, texts)
        for s, c in steps:
            number = nodes.leaf("row", s.post, "count", f"{s.name}, post {s.post} (key {s.key})",
                                "corrected", seq=s.seq, field="number",
                                bytes=self.rows.bodies[s.seq].hex())
            happened = nodes.make("at_least", [number], f"after {s.name}, post {s.post}",
                                  "corrected", by=1)
            node = nodes.make("sum", [node], f"{word} after {s.name}, post {s.post}", "corrected",
                              by=c.after - c.before, why=[happened])
        last = self._shown_leaf(nodes, "restated", word, unit, texts)
        return nodes.make("equal", [node, last], f"{word} as recomputed now", "corrected")


def _shown(value: int, unit: str) -> str:
    return money_text(value) if unit == "cents" else f"{value // 100}.{value % 100:02d}%"
