"""Explains the numbers of a cycle: where each comes from, down to the kept rows.

    python3 -m audit explain FILE ACCOUNT CYCLE [--issued] [--form text|json|html] [--number WORD]
    python3 -m audit explain FILE ACCOUNT CYCLE --changes [--form text|json]
    python3 -m audit explain FILE ACCOUNT --balance [DAY] [--form text|json]
    python3 -m audit explain FILE

The cycle is explained as recomputed now, or with --issued as its bill issued it.  The file is
copied and never written.  Before anything is printed the program is asked for the same texts over
the account's rows.  Status 0: all texts are the program's.  1: one isn't, and both are shown, or
the account or the cycle isn't there.  2: nothing can be explained, and why.
"""

import argparse
import json
import shutil
import sys
from pathlib import Path
from typing import Any

from ..commands import Damaged
from ..days import day_of
from ..ledger_file import Unreadable, copied, rows_of
from ..lines import read_day
from ..program import Failed, Program, Server
from .account import NotThere, carried_out, rows_of_account
from .asking import Parted, hold, hold_changes
from .changes import Changes
from .cycle import Cycles
from .document import is_asked
from .everything import Everything
from .owed import Owed
from .page import page_of
from .text import text_of

BUILT = Path(__file__).resolve().parents[2] / "crates" / "billctl" / "out" / "billctl"


def day_text_of(text: str) -> str:
    """A day as it is written in request lines."""
    if read_day(text.encode()) is None:
        raise argparse.ArgumentTypeError(f"{text!r} is no day YYYY-MM-DD")
    return text


def parser() -> argparse.ArgumentParser:
    form = argparse.RawDescriptionHelpFormatter
    found = argparse.ArgumentParser(prog="python3 -m audit explain", description=__doc__,
                                    formatter_class=form)
    found.add_argument("file", metavar="FILE", help="the ledger's SQLite file")
    found.add_argument("account", metavar="ACCOUNT", nargs="?",
                       help="without one all closed cycles of all accounts are explained and held "
                            "against the program, and counted")
    found.add_argument("cycle", metavar="CYCLE", nargs="?", type=int)
    found.add_argument("--issued", action="store_true", help="as its bill issued it")
    found.add_argument("--changes", action="store_true", help="what later posts did to it")
    found.add_argument("--balance", metavar="DAY", nargs="?", const=True, type=day_text_of,
                       help="what is owed at the end of a day, today if none is given")
    found.add_argument("--form", choices=("text", "json", "html"), default="text")
    found.add_argument("--number", metavar="WORD", default="",
                       help="one number alone, as interest, minimum, \"fee 2024-03-02\", "
                            "\"average purchase:2\", due-date, grace, year-fees, repay")
    found.add_argument("--program", metavar="billctl", help="the program; otherwise the one that "
                       "is built in this repository, or the one on the PATH")
    return found


def explained(given: argparse.Namespace, program: str) -> str:
    """The text of what was asked for, after it was held against the program."""
    with copied(given.file) as copy:
        if given.account is None:
            with Server(Program(program, str(copy))) as server:
                return f"explained: {Everything(rows_of(copy), server).all().text()}\n"
        rows = rows_of_account(rows_of(copy), given.account)
    machine = carried_out(rows)
    if given.changes:
        changes = Changes(machine, rows, given.cycle)
        hold_changes(changes, program)
        return changes.text() if given.form == "text" else json_of(changes.json())
    if given.balance:
        owed = Owed(machine, rows, None if given.balance is True else day_of(given.balance))
        hold(owed.document, program)
        return owed.text() if given.form == "text" else json_of(owed.document.json())
    cycles = Cycles(machine, rows)
    document = (cycles.issued if given.issued else cycles.recomputed)(given.cycle)
    hold(document, program)
    if given.number and not any(is_asked(given.number, n) for n in document.numbers):
        words = ", ".join(dict.fromkeys(n.word for n in document.numbers))
        raise NotThere(f"no number of this cycle is named {given.number!r}; they are: {words}")
    if given.form == "html":
        return page_of(document, cycles.days(given.cycle))
    if given.form == "json":
        return json_of(document.json(given.number))
    return text_of(document, given.number)


def json_of(document: dict[str, Any]) -> str:
    """A line for each member, and of a list for each element."""
    members = []
    for name in sorted(document):
        value = document[name]
        text = (json.dumps(value, sort_keys=True) if not isinstance(value, list) or not value else
                "[\n  " + ",\n  ".join(json.dumps(one, sort_keys=True) for one in value) + "\n ]")
        members.append(f" {json.dumps(name)}: {text}")
    return "{\n" + ",\n".join(members) + "\n}\n"


def asked(words: list[str]) -> argparse.Namespace:
    """The words, as far as they fit together."""
    found = parser()
    given = found.parse_args(words)
    if given.account is None:
        if given.issued or given.changes or given.balance or given.number:
            found.error("name an ACCOUNT")
        return given
    if (given.cycle is None) != bool(given.balance):
        found.error("name a CYCLE, or --balance and perhaps a day")
    if given.changes and (given.issued or given.number):
        found.error("--changes is of the whole issued cycle")
    if given.form == "html" and (given.changes or given.balance or given.number):
        found.error("--form html is of a whole cycle")
    return given


def main(words: list[str]) -> int:
    given = asked(words)
    program = given.program or (str(BUILT) if BUILT.exists() else shutil.which("billctl"))
    try:
        if program is None:
            raise Failed("there is no program: build it, or name one with --program")
        sys.stdout.write(explained(given, program))
    except Parted as parted:
        print(f"different: {parted}")
        return 1
    except NotThere as why:
        print(f"explain: {why}", file=sys.stderr)
        return 1
    except Damaged as damaged:
        print(f"explain: row {damaged.row} is damaged; nothing is explained", file=sys.stderr)
        return 2
    except (Failed, Unreadable) as why:
        print(f"explain: {why}", file=sys.stderr)
        return 2
    return 0
