"""Bills whose statement was printed before, from rows that are gone: their numbers are compared."""

import os
import re
from collections.abc import Callable

from companion.files import names_in, read_text
from companion.home import LEDGER
from companion.looks import bill_lines
from companion.opening import copied
from companion.program import feed
from companion.run import AFTER_SECONDS
from companion.server import Server
from companion.state import State

NAME = re.compile(r"(.+)-([0-9]+)\.txt")

# Accounts and cycles.
Held = frozenset[tuple[str, int]]


def printed_before(home: str, wanted: set[tuple[str, int]]) -> dict[tuple[str, int], list[str]]:
    """The files of statements that were printed of some accounts and cycles, as paths below."""
    found: dict[tuple[str, int], list[str]] = {}
    top = os.path.join(home, "statements")
    for day in names_in(top):
        for name in names_in(os.path.join(top, day)):
            match = NAME.fullmatch(name)
            which = (match.group(1), int(match.group(2))) if match else None
            if which is not None and which in wanted:
                found.setdefault(which, []).append(os.path.join("statements", day, name))
    return found


def held_back(program: str, home: str, state: State,
              close: Callable[[], None]) -> tuple[Held, list[str]]:
    """The bills that are due whose statement was printed with other numbers, and that in words.

    The bills are carried out on a copy, whose statements are compared with the printed ones.
    """
    due = {(one.account, one.cycle) for one in state.due()}
    printed = printed_before(home, due) if due else {}
    if not printed:
        return frozenset(), []
    close()
    held, texts = set(), []
    with copied(os.path.join(home, LEDGER), AFTER_SECONDS) as copy:
        lines = [line for line in bill_lines(state)]
        feed(program, copy, "apply", "".join(line + "\n" for line in lines).encode(), len(lines))
        with Server(program, copy, len(printed) + 1) as server:
            for which, files in printed.items():
                now = server.statement(*which)
                other = [name for name in files if read_text(os.path.join(home, name)) != now]
                if other and len(other) == len(files):
                    held.add(which)
                    texts.append(f"statement {which[1]} of {which[0]} has other numbers now than "
                                 f"the one that was printed: {', '.join(other)}")
    return frozenset(held), texts
