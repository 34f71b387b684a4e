"""Checks an explanation of `python3 -m audit explain .. --form json`, and knows no rule.

It knows arithmetic, the calendar and the form of kept rows, and imports nothing of this
repository.  Status 0: nothing was found; 1: each line says what isn't so; 2: nothing was checked.
"""

import argparse
import datetime
import json
import re
import sqlite3
import sys
from pathlib import Path
from typing import Any

EPOCH, FIRST = 719163, 14975  # the ordinal of 1970-01-01; 2011-01-01 since then
OWN, TERMS = "account:s key:s ", "day:d close purchase cash transfer penalty floor pct"
FORMS = [form.replace("OWN ", OWN).replace("TERMS", TERMS) for form in (  # by the code of a row
    "|day:d|day:d|day:d first repeat|OWN TERMS|OWN day:d place:p cents|OWN day:d place:p cents|"
    "OWN day:d minute channel:t cents|OWN day:d target|OWN day:d plan:t rate end:d after|"
    "OWN day:d category:t rate effective:d|OWN day:d category:t rate|OWN |OWN day:d finding:t|"
    "OWN day:d target cents|OWN day:d target|OWN day:d target cents|OWN day:d|OWN cents|"
    "OWN target day:d cents|OWN cycle|day:d rate|OWN TERMS").split("|")]
CODES = {"roll": 1, "holiday": 2, "feerow": 3, "index": 21}
BOLD = re.compile(r"^(?:- )?\*\*(.+?)\.?\*\*", re.M)
NUMBER = re.compile(r"-?\d+(\.\d+)?%?|\d{4}-\d\d-\d\d")
# how -> the value that the children, and behind them the constant, give
GIVES: dict[str, Any] = {
    "sum": sum, "difference": lambda v: v[0] - sum(v[1:]), "least": min, "greatest": max,
    "product": lambda v: v[0] * v[1] * (v[2] if len(v) > 2 else 1),
    "at_least_zero": lambda v: max(0, v[0]), "floor_divide": lambda v: v[0] // v[1],
    "round_half_up": lambda v: (2 * v[0] + v[1]) // (2 * v[1]), "equal": lambda v: v[0] == v[1],
    "at_least": lambda v: v[0] >= v[1], "before": lambda v: v[0] < v[1],
    "days_between": lambda v: v[1] - v[0] + sum(v[2:]), "day_plus": sum, "count": len,
    "choose": lambda v: v[2 - v[0]], "first_of": lambda v: v[0], "last_of": lambda v: v[-1]}


def read(body: bytes) -> dict[str, Any]:
    """The fields of a row, with its code."""
    place, found, old = 2, {"code": body[1]}, body[0] == 1
    for name, _, form in (field.partition(":") for field in FORMS[body[1]].split()):
        size = {"d": 4 if old else 2, "t": 1, "p": 1}.get(form, 8 if old and form != "s" else -1)
        if size < 0:
            size, place = body[place], place + 1
        raw, place = body[place:place + size], place + size
        value: Any = raw.decode() if form == "s" else int.from_bytes(raw, "big")
        place += (8 if old else 1 + body[place]) if form == "p" and value == 3 else 0
        found[name] = value + FIRST if form == "d" and not old else value
    if place != len(body):
        raise ValueError("a row has bytes left over")
    return found


def month_day(of: list[int], k: int, more: int, day: int) -> int:
    date = datetime.date.fromordinal(of[0] + EPOCH)
    months = 12 * date.year + date.month - 1 + (date.day > of[1]) + k - 1 + more
    return datetime.date(months // 12, months % 12 + 1, day).toordinal() - EPOCH


def shown(value: Any, unit: str) -> str:
    if unit == "day":
        return datetime.date.fromordinal(value + EPOCH).isoformat()
    sign, whole, part = "-" if value < 0 else "", abs(value) // 100, abs(value) % 100
    return {"cents": f"{sign}{whole}.{part:02d}", "basis points": f"{whole}.{part:02d}%",
            "billionths": f"0.{value:09d}"}.get(unit, str(value))


def day_of(text: str) -> int:
    return datetime.date.fromisoformat(text).toordinal() - EPOCH


def rules_of(text: str) -> set[str]:
    """The names of the rules: the headings, and the bold names below each."""
    parts = [(part.split("\n")[0].split(" (")[0], part) for part in text.split("\n## ")[1:]]
    return {heading for heading, _ in parts} | {f"{heading} / {name}" for heading, part in parts
                                                for name in BOLD.findall(part)}


class Check:
    """A document, and what isn't so in it."""
    def __init__(self, document: dict[str, Any], rules: set[str]) -> None:
        self.doc, self.faults, self.bytes = document, list[str](), dict(document["rows"])
        self.rows = {seq: read(bytes.fromhex(body)) for seq, body in document["rows"]}
        self.own = [s for s, r in self.rows.items() if r.get("account") == document["account"]]
        self.nodes: dict[str, dict[str, Any]] = {}
        self.rules, self.values = rules, dict[str, Any]()  # of the nodes, days as numbers

    def leaf(self, n: dict[str, Any], of: list[Any]) -> Any:
        how, seq, kind = n["how"], n.get("seq"), n.get("calendar")
        if seq is not None and n["bytes"] != self.bytes.get(seq):
            raise ValueError(f"row {seq} has other bytes")
        if how == "row" and n["field"] == "accepted":
            return max([FIRST] + [r["day"] for s, r in self.rows.items()
                                  if s < seq and r["code"] == 1])
        if how == "row":
            return self.own.index(seq) + 1 if n["field"] == "number" else self.rows[seq][n["field"]]
        if how == "in_force":
            found = [(r["day"], s) for s, r in self.rows.items()
                     if r["code"] == CODES[n["word"]] and r["day"] <= of[0]]
            if max(found, default=(0, None))[1] != seq:
                raise ValueError("another row is in force on this day")
            return self.rows[seq][n["field"]] if seq else 0
        if how == "shown":
            words = re.split(r"[ ,]+", self.doc["texts"][n["text"]].splitlines()[n["line"]])
            return n["value"] if words[n["place"]] == shown(n["value"], n["unit"]) else words
        if kind == "business":
            closed = {r["day"] for r in self.rows.values() if r["code"] == CODES["holiday"]}
            return next(d for d in range(of[0], of[0] + 999) if (d + 3) % 7 < 5 and d not in closed)
        if kind == "cycle":
            return next(k for k in range(1, 2000) if month_day(of, k, 0, of[1]) >= of[2])
        more = (0, 0) if kind == "closing" else (0, 24) if of[1] <= 4 else (1, -4)
        return month_day(of, n["k"], more[0], of[1] + more[1])

    def node(self, n: dict[str, Any]) -> None:
        if n["id"] in self.nodes:
            raise ValueError("its id is another node's too")
        of = [self.values[c] for c in n.get("of", ())]
        given = of if n.get("by") is None else [*of, n["by"]]
        value, how = day_of(n["value"]) if n["unit"] == "day" else n["value"], n["how"]
        found = GIVES[how](given) if how in GIVES else self.leaf(n, of) if how != "none" else value
        self.nodes[n["id"]], self.values[n["id"]] = n, value
        if found != value or type(found) is not type(value):
            raise ValueError(f"{n['value']} isn't what its children give: {found}")
        if n.get("from") in self.nodes:
            first, last = self.values[n["from"]], self.values[n["to"]]
            children = [self.nodes[c] for c in n.get("of", ())]
            on = [self.values[c["on"]] for c in children if "on" in c]
            runs = [(day_of(c["from"]), day_of(c["to"])) for c in children
                    if "from" in c and c["from"] not in self.nodes]
            if any(not first <= day <= last for day in on) or (runs and [
                    *(a for a, _ in runs), last + 1] != [first, *(b + 1 for _, b in runs)]):
                raise ValueError("what counts isn't in its days, or its runs aren't all of them")
        elif "from" in n and n.get("by") not in (None, day_of(n["to"]) - day_of(n["from"]) + 1):
            raise ValueError("its days are others")
        if any(self.values[w] is not True for w in n.get("why", ())):
            raise ValueError("a reason isn't true")
        if "rule" in n and n["rule"] not in self.rules:
            raise ValueError(f"the rules have no {n['rule']!r}")

    def file(self, path: str) -> list[str]:
        base = sqlite3.connect(f"{Path(path).resolve().as_uri()}?mode=ro", uri=True)
        kept = {seq: body.hex() for seq, body in base.execute("SELECT seq, body FROM kept")
                if seq <= self.doc["rows_up_to"]
                and read(body).get("account", self.doc["account"]) == self.doc["account"]}
        return [f"row {seq} isn't the file's" for seq in sorted({*kept, *self.bytes})
                if kept.get(seq) != self.bytes.get(seq)]

    def all(self) -> list[str]:
        """What isn't so in a node, a text, or a row of the account."""
        for n in self.doc["nodes"]:
            try:
                self.node(n)
            except (ValueError, KeyError, IndexError, TypeError, StopIteration) as error:
                self.faults.append(f"{n.get('id')} ({n.get('what')}): {error!r}")
        named = {(n["text"], n["line"], n["place"]): n["node"] for n in self.doc["numbers"]
                 if "text" in n}
        for name in self.doc["explained"]:
            for line, text in enumerate(self.doc["texts"][name].splitlines()):
                for place, word in enumerate(words := re.split(r"[ ,]+", text)):
                    if NUMBER.fullmatch(word) and (words[0], place) != ("STATEMENT", 1):
                        n = self.nodes.get(named.pop((name, line, place), ""))
                        if n is None or shown(self.values[n["id"]], n["unit"]) != word:
                            self.faults.append(f"{name}, line {line + 1}: {word} has no such node")
        self.faults += [f"{place} names no number" for place in named]
        found, left = set(), [number["node"] for number in self.doc["numbers"]]
        while left:
            if (name := left.pop()) in self.nodes and name not in found:
                n = self.nodes[name]
                found.add(name)
                left += [*n.get("of", ()), *n.get("why", ())]
                left += [n[link] for link in ("on", "from", "to") if link in n]
        self.faults += [f"{name}: no number uses it" for name in self.nodes if name not in found]
        rows, out = {n.get("seq") for n in self.nodes.values()}, dict(self.doc["left_out"])
        self.faults += [f"row {seq}: a leaf or left out, one of both" for seq in self.own
                        if (seq in rows) == (seq in out)]
        return self.faults


def main() -> int:
    parser = argparse.ArgumentParser(description=__doc__)
    parser.add_argument("explanation", metavar="EXPLANATION.json")
    parser.add_argument("--file", help="the ledger's file: are the rows its own?")
    parser.add_argument("--statement", help="the statement as it was printed: is it this one?")
    given, rules = parser.parse_args(), Path(__file__).resolve().parent.parent / "docs/RULES.md"
    try:
        check = Check(json.loads(Path(given.explanation).read_text()), rules_of(rules.read_text()))
        faults = check.all()
        faults += check.file(given.file) if given.file else []
        if given.statement and Path(given.statement).read_text() not in [
                check.doc["texts"][name] for name in check.doc["explained"]]:
            faults.append(f"{given.statement} isn't the statement that is explained")
    except (OSError, ValueError, KeyError, sqlite3.Error) as error:
        print(f"recheck: {given.explanation}: {error!r}", file=sys.stderr)
        return 2
    print("\n".join(faults) or f"nothing was found in {len(check.nodes)} nodes")
    return 1 if faults else 0


if __name__ == "__main__":
    sys.exit(main())
