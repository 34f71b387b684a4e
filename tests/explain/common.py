"""Ledgers whose cycles are explained, and the checker over them."""

import contextlib
import json
from collections.abc import Iterator
from pathlib import Path
from typing import Any

from audit.explaining.account import Watching, carried_out, rows_of_account
from audit.explaining.asking import hold_texts, over
from audit.explaining.cycle import Cycles
from audit.explaining.document import Document
from audit.explaining.everything import by_account
from audit.ledger_file import copied, rows_of
from audit.program import Program, Server
from audit.recheck import Check, rules_of
from tests.support.case import Case
from tests.support.program import PROGRAM, TOP, run

RULES = rules_of((TOP / "docs" / "RULES.md").read_text(encoding="utf-8"))
# the texts of each kind of explanation: each number of them has to have its node
PRINTED = {"issued": ("statement", "repay", "export"), "recomputed": ("restate", "export")}
FIRST, LAST = 3, 2  # cycles of an account that the shortened set explains

# a statement with a payment that is returned, a late fee, interest and something past due
RETURNED = """feerow 2011-01-02 3000 4100
roll 2024-01-10
open a o 2024-01-06 5 1999 2499 2199 2999 2500 100
charge a c 2024-01-10 purchase 100000
roll 2024-02-06
bill a b1 1
roll 2024-02-20
payment a p 2024-02-20 600 online 1000
roll 2024-03-04
return a r 2024-03-04 4
roll 2024-03-06
bill a b2 2
"""
# interest on the half that wasn't paid in time
PART_PAID = RETURNED.split("roll 2024-02-20")[0] + """roll 2024-02-20
payment a p 2024-02-20 600 online 40000
roll 2024-03-06
bill a b2 2
"""
# a late fee at the minimum payment's amount, and a second one half a year later
LATE_TWICE = RETURNED.split("roll 2024-02-20")[0] + """roll 2024-03-06
bill a b2 2
payment a p2 2024-03-06 600 online 20000
roll 2024-04-06
bill a b3 3
payment a p3 2024-04-06 600 online 20000
roll 2024-05-06
bill a b4 4
roll 2024-06-06
bill a b5 5
"""


def remove(path: str) -> None:
    """A file and its log, if they are there."""
    for end in ("", "-wal", "-shm"):
        Path(path + end).unlink(missing_ok=True)


def told(server: Server, then: Program | None, words: list[str]) -> str:
    """What the program tells by the words of a command: entries and repayments by the rows up to a
    bill, where `then` has them, and all else by the server over all rows."""
    word, account, *cycle = words
    if then is not None and word in ("export", "repay"):
        return then.run(words)[0].decode()
    path = {"export": "entries", "restate": "cycles", "statement": "statements"}[word]
    return (server.get("/".join(["/accounts", account, path, *cycle])) or b"none\n").decode()


def missing(document: dict[str, Any]) -> list[str]:
    """The numbers of the texts that a kind of explanation prints, as far as they have no node."""
    nodes = {node["id"] for node in document["nodes"]}
    named = {(n.get("text"), n.get("line"), n.get("place")) for n in document["numbers"]
             if n["node"] in nodes}
    found = []
    for name in PRINTED[document["as"]]:
        found += [f"there is no {name}"] if name not in document["texts"] else []
        for line, text in enumerate(document["texts"].get(name, "").splitlines()):
            fields = text.replace(",", " ").split()
            name_at = 1 if fields[0] == "STATEMENT" else -1  # of the account
            found += [f"{name}, line {line + 1}: {field}" for place, field in enumerate(fields)
                      if field.strip("-%.0123456789") == "" and field != "-" and place != name_at
                      and (name, line, place) not in named]
    return found


def faults_of(document: dict[str, Any]) -> list[str]:
    """What the checker finds in a document as JSON has it."""
    return Check(json.loads(json.dumps(document, sort_keys=True)), RULES).all()


class ExplainCase(Case):
    """Ledgers of request lines, with the program's rows."""

    def ledger(self, lines: str | bytes, name: str = "rows.db") -> str:
        """A file that the program wrote for these lines."""
        path = self.at(name)
        remove(path)
        run([path, "apply"], lines if isinstance(lines, bytes) else lines.encode())
        return path

    def accounts(self, lines: str | bytes) -> Iterator[tuple[str, Watching, Cycles]]:
        """Each account of a ledger with its cycles."""
        with copied(self.ledger(lines)) as copy:
            kept = rows_of(copy)
        for name, own in by_account(kept).items():
            rows = rows_of_account(own, name, whole=False)
            machine = carried_out(rows)
            yield name, machine, Cycles(machine, rows)

    def sound(self, lines: str | bytes, whole: bool) -> int:
        """The checker finds nothing in any explanation, every number has its node, and the program
        tells the same texts: of all cycles, or of the first and the last of each account."""
        count = 0
        for name, machine, cycles in self.accounts(lines):
            last = machine.closed_cycles(machine.accounts[name])
            chosen = [k for k in range(1, last + 1) if whole or k <= FIRST or k > last - LAST]
            with over(cycles.rows, PROGRAM) as program, Server(program) as server:
                for k in chosen:
                    count += self.one(cycles.recomputed(k), server)
                    if k in machine.accounts[name].issued:
                        count += self.one(cycles.issued(k), server)
        return count

    def one(self, document: Document, server: Server) -> int:
        """One explanation, beside the program's server over all rows of the account."""
        head = document.head
        what = f"{head['account']}, cycle {head['cycle']}, {head['as']}"
        with contextlib.ExitStack() as stack:
            then = (stack.enter_context(over(document.rows, PROGRAM))
                    if head["as"] == "issued" else None)
            hold_texts(document, lambda words: told(server, then, words))
        made = json.loads(json.dumps(document.json()))
        self.assertEqual(Check(made, RULES).all(), [], what)
        self.assertEqual(missing(made), [], what)
        return len(document.numbers)
