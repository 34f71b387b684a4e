"""Leaves: fields of kept rows, days of acceptance, and what the corrected list makes of posts."""

from functools import cached_property
from typing import Any

from .. import rows
from ..book import Book
from ..days import CUTOFF_MINUTE, FIRST_DAY, closing, cycle_of, day_text, due, is_business
from ..words import AMENDABLE, WORDS, Request
from .nodes import Node, Nodes

_UNITS = {"cents": "cents", "floor": "cents", "first": "cents", "repeat": "cents",
          "rate": "basis points", "after": "basis points", "purchase": "basis points",
          "cash": "basis points", "transfer": "basis points", "penalty": "basis points",
          "pct": "basis points", "minute": "minutes", "target": "count", "cycle": "count",
          "close": "count"}
_FORMS = {(word, name): form for word, (_, fields) in WORDS.items() for name, form in fields}


class Rows:
    """The rows that decide an account: its own and those that all share, up to a horizon."""

    def __init__(self, account: str, kept: list[tuple[int, bytes, Request]]) -> None:
        self.account = account
        self.kept = kept
        self.posts = [seq for seq, _, r in kept if r.account == account]  # of post n at n-1
        self.bodies = {seq: body for seq, body, _ in kept}
        self.requests = {seq: r for seq, _, r in kept}

    @cached_property
    def accepted(self) -> dict[int, int]:
        """The day on which each row was accepted: that of the last roll before it."""
        today, found = FIRST_DAY, {}
        for seq, _, r in self.kept:
            found[seq] = today
            if r.word == "roll" and r.day is not None:
                today = r.day
        return found

    def upto(self, seq: int) -> "Rows":
        return Rows(self.account, [row for row in self.kept if row[0] <= seq])


def decoded(kept: list[tuple[int, bytes]]) -> list[tuple[int, bytes, Request]]:
    """Rows with their requests; they were carried out before, so each has one."""
    return [(seq, body, r) for seq, body in kept if (r := rows.decode(body)) is not None]


class Facts:
    """The leaves of one book, each made once."""

    def __init__(self, nodes: Nodes, kept: Rows, book: Book) -> None:
        self.nodes, self.rows, self.book = nodes, kept, book
        self._known: dict[tuple[Any, ...], Node] = {}
        self.anchor = book.anchor
        self.amends: dict[int, list[int]] = {}
        self.errors: dict[int, list[int]] = {}
        for kept_post in book.posts:
            post = kept_post.post
            if post.word == "amend":
                self.amends.setdefault(post.target or 0, []).append(kept_post.number)
            elif post.word == "resolve":
                charge = book.posts[(post.target or 0) - 1].post.target or 0
                self.errors.setdefault(charge, []).append(kept_post.number)
        self.return_of = {k.post.target: k.number for k in book.posts if k.post.word == "return"}

    # -- rows -------------------------------------------------------------------------------

    def post_name(self, n: int) -> str:
        """`payment, post 4 (key p, entered 2024-02-20)`."""
        kept = self.book.posts[n - 1]
        return (f"{kept.post.word}, post {n} (key {kept.post.key}, "
                f"entered {day_text(kept.accepted)})")

    def row(self, seq: int, field: str, what: str, rule: str = "") -> Node:
        """A field of a row, or its day of acceptance, or the number of its post."""
        place = ("row", seq, field)
        if place not in self._known:
            request = self.rows.requests[seq]
            if field == "accepted":
                value, unit = self.rows.accepted[seq], "day"
            elif field == "number":
                value, unit = self.rows.posts.index(seq) + 1, "count"
            else:
                value = getattr(request, field)
                unit = ("day" if _FORMS[request.word, field] == "day" else _UNITS[field])
            self._known[place] = self.nodes.leaf("row", value, unit, what, rule, seq=seq,
                                                 field=field, bytes=self.rows.bodies[seq].hex())
        return self._known[place]

    def post(self, n: int, field: str, what: str, rule: str = "") -> Node:
        """A field of the account's post n."""
        return self.row(self.rows.posts[n - 1], field, what, rule)

    def number(self, n: int) -> Node:
        return self.post(n, "number", f"number of the {self.post_name(n)}")

    def accepted(self, n: int) -> Node:
        return self.post(n, "accepted", f"day of acceptance of {self.post_name(n)}")

    def term(self, field: str, what: str) -> Node:
        """A term of the opening."""
        return self.post(1, field, what)

    def in_force(self, word: str, field: str, day: Node, what: str, rule: str) -> Node:
        """A field of the row of a word with the greatest day up to a day, the later of equals."""
        place = ("in_force", word, field, day.value)
        if place not in self._known:
            best = None
            for seq, _, r in self.rows.kept:
                if (r.word == word and r.day is not None and r.day <= day.value
                        and (best is None or r.day >= (self.rows.requests[best].day or 0))):
                    best = seq
            if best is None:
                self._known[place] = self.nodes.leaf("in_force", 0, _UNITS[field], what, rule,
                                                     of=[day], word=word, field=field)
            else:
                value = getattr(self.rows.requests[best], field)
                self._known[place] = self.nodes.leaf(
                    "in_force", value, _UNITS[field], what, rule, of=[day], word=word,
                    field=field, seq=best, bytes=self.rows.bodies[best].hex())
        return self._known[place]

    # -- calendar ---------------------------------------------------------------------------

    def _of_anchor(self, kind: str, k: int, value: int | None, what: str, rule: str) -> Node:
        place = (kind, k)
        if place not in self._known:
            assert value is not None
            of = [self.term("day", "opening day"), self.term("close", "closing day of the month")]
            self._known[place] = self.nodes.leaf("calendar", value, "day", what, rule, of=of,
                                                 calendar=kind, k=k)
        return self._known[place]

    def closing(self, k: int) -> Node:
        return self._of_anchor("closing", k, closing(self.anchor, k), f"closing of cycle {k}",
                               "cycles")

    def due(self, k: int) -> Node:
        return self._of_anchor("due", k, due(self.anchor, k), f"due date of statement {k}",
                               "due date")

    def first(self, k: int) -> Node:
        """The first day of a cycle."""
        if k == 1:
            return self.term("day", "opening day")
        place = ("first", k)
        if place not in self._known:
            self._known[place] = self.nodes.make(
                "day_plus", [self.closing(k - 1)], f"first day of cycle {k}, the day after a "
                "closing", "cycles", by=1)
        return self._known[place]

    def cycle_number(self, day: Node) -> Node:
        """The number of the cycle that holds a day."""
        place = ("cycle", day.value)
        if place not in self._known:
            of = [self.term("day", "opening day"),
                  self.term("close", "closing day of the month"), day]
            self._known[place] = self.nodes.leaf(
                "calendar", cycle_of(self.anchor, day.value), "count",
                f"number of the cycle that {day_text(day.value)} lies in", "cycles", of=of,
                calendar="cycle")
        return self._known[place]

    def day_after(self, day: Node, what: str) -> Node:
        place = ("day after", day.value)
        if place not in self._known:
            self._known[place] = self.nodes.make("day_plus", [day], what, by=1)
        return self._known[place]

    def open_on(self, day: Node) -> Node:
        """A day if it is a business day, else the next business day."""
        place = ("open on", day.value)
        if place not in self._known:
            value = day.value
            while not is_business(value, self.book.shared.holidays):
                value += 1
            self._known[place] = self.nodes.leaf(
                "calendar", value, "day", f"first business day from {day_text(day.value)} on",
                "business", of=[day], calendar="business")
        return self._known[place]

    # -- the corrected list -----------------------------------------------------------------

    def _latest(self, n: int, field: str, what: str) -> Node:
        """A field as the last amendment that names the post has it, else its own."""
        own = self.post(n, field, f"{what} as entered, {self.post_name(n)}")
        amends = self.amends.get(n, []) if self.book.posts[n - 1].post.word in AMENDABLE else []
        if not amends:
            return own
        of = [own] + [self.post(a, field, f"{what} by {self.post_name(a)}", "corrected")
                      for a in amends]
        return self.nodes.make("last_of", of, f"{what} of post {n} as corrected last", "corrected")

    def cents(self, n: int) -> Node:
        """The corrected cents of a post."""
        place = ("cents", n)
        if place not in self._known:
            node = self._latest(n, "cents", "amount")
            errors = self.errors.get(n, [])
            if self.book.posts[n - 1].post.word == "charge" and errors:
                of = [node] + [self.post(e, "cents", f"found to be an error, {self.post_name(e)}",
                                         "resolved") for e in errors]
                left = self.nodes.make("difference", of, f"post {n} without what was an error",
                                       "corrected")
                node = self.nodes.make("at_least_zero", [left],
                                       f"amount of post {n} as corrected", "corrected")
            self._known[place] = node
        return self._known[place]

    def entered_day(self, n: int) -> Node:
        """The corrected day of a post."""
        place = ("day", n)
        if place not in self._known:
            self._known[place] = self._latest(n, "day", "day")
        return self._known[place]

    def effective(self, n: int) -> Node:
        """The day from which a post counts."""
        place = ("effective", n)
        if place not in self._known:
            self._known[place] = self._effective(n)
        node = self._known[place]
        assert node.value == self.book.corrected.effective[n], (n, node.value)
        return node

    def _effective(self, n: int) -> Node:
        post = self.book.posts[n - 1].post
        if post.word == "payment":
            return self._credit_day(n)
        if post.word in ("return", "dispute", "resolve"):
            target = post.target or 0
            earlier = self.effective(target)
            return self.nodes.make("greatest", [self.post(n, "day", f"day of {self.post_name(n)}"),
                                                earlier],
                                   f"day from which the {self.post_name(n)} counts", "effective")
        if post.word in ("penalty", "refund", "bill"):
            return self.accepted(n)
        return self.entered_day(n)

    def _credit_day(self, n: int) -> Node:
        """The day of credit of a payment."""
        day, post = self.entered_day(n), self.book.posts[n - 1].post
        minute = self.post(n, "minute", f"minute of receipt, {self.post_name(n)}")
        late = self.nodes.make("at_least", [minute], "received after 17:00", "credit day",
                               by=CUTOFF_MINUTE + 1)
        what = f"day on which the {self.post_name(n)} is credited"
        if late.value:
            return self.nodes.make("day_plus", [day], what, "credit day", by=1, why=[late])
        intime = self.nodes.make("before", [minute], "received by 17:00", "credit day",
                                 by=CUTOFF_MINUTE + 1)
        if post.channel == "mail":
            k = self._due_before(n, day.value)
            if k is not None:
                open_on = self.open_on(self.due(k))
                same = self.nodes.make("equal", [open_on, day], "mail of the first business day "
                                       f"after the closed due date {k}", "credit day")
                return self.nodes.make("choose", [same, self.due(k), day], what, "credit day",
                                       why=[intime])
        return self.nodes.make("first_of", [day], what, "credit day", why=[intime])

    def _due_before(self, n: int, receipt: int) -> int | None:
        """The due date for which mail of a day may make up: the one that it does, else the last."""
        found = None
        for k in range(cycle_of(self.anchor, receipt), 0, -1):
            date = due(self.anchor, k)
            if date is not None and date < receipt:
                if self.book.corrected.effective[n] == date:
                    return k
                found = k if found is None else found
        return found
