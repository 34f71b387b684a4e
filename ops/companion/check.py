"""`check`: opens a copy of a ledger's file as billctl would, and names the cause where it can't."""

import shutil
import sqlite3

from companion.opening import (
    cause_of_form, cause_of_schema, copied, has_commits, rows_in, things_of, warn_of_room,
)
from companion.program import ask_of, call, feed
from companion.reasons import reason_of
from companion.rows import NoSpelling, decode
from companion.state import State, fold
from companion.trouble import CANNOT_OPEN, DAMAGED, DONE, FOUND, Trouble, say

FIRST_FINDINGS = 3


def cause_of_pages(base: sqlite3.Connection, path: str) -> str | None:
    """What SQLite's own check finds, else None."""
    found = [row[0] for row in base.execute("PRAGMA integrity_check")]
    if found == ["ok"]:
        return None
    told = "; ".join(" ".join(text.split()) for text in found[:FIRST_FINDINGS])
    return f"{path} is damaged, as SQLite's integrity_check finds: {told}; restore a backup"


def cause_in(copy: str, path: str, is_refused: bool = False) -> str | None:
    """Why stock SQLite finds a copy to be no ledger's file, else None.

    Where billctl refused it, also what it may have refused.
    """
    base = sqlite3.connect(copy, isolation_level=None)
    try:
        cause = cause_of_pages(base, path) or cause_of_schema(base, path)
        if is_refused and not cause:
            return cause_of_form(base, path) or (
                f"{path}: billctl refuses it or its log, and SQLite finds no cause; "
                "restore a backup")
        return cause
    except sqlite3.Error as error:
        return f"{path} is damaged, as SQLite finds: {error}; restore a backup"
    finally:
        base.close()


def row_told(program: str, copy: str, number: int) -> str:
    """In words, the row at which a ledger is damaged."""
    base = sqlite3.connect(copy, isolation_level=None)
    try:
        rows = list(rows_in(base, copy))[:number]
    finally:
        base.close()
    if len(rows) < number:
        return "it is missing"
    seq, body = rows[-1]
    if seq != number:
        return f"its number is {seq}"
    try:
        lines = [decode(earlier).line() for _, earlier in rows]
    except NoSpelling as reason:
        return f"its bytes are no spelling of a request: {reason}"
    return f"it is `{lines[-1]}`, which {verdict(program, lines)}"


def verdict(program: str, lines: list[str]) -> str:
    """What billctl says of the last of some lines behind the others, in memory."""
    data = "".join(line + "\n" for line in lines).encode()
    _, replies = feed(program, "-", "apply", data, len(lines))
    reply = replies[-1] if len(replies) == len(lines) else ""
    if reply.startswith("ok "):
        return f"is a repeat of post {reply[3:]}"
    if not reply.startswith("no "):
        return "would be refused, or is a repeat"
    return f"would be refused: {reply}: {reason_of(reply, lines[-1].split(' ', 1)[0])}"


def require_sound(program: str, path: str, copy: str) -> None:
    """Has billctl load a copy.

    Raises Trouble with the cause where it can't, or where a row isn't sound.
    """
    plain = copy + ".asked"
    shutil.copyfile(copy, plain)
    if has_commits(copy):
        shutil.copyfile(copy + "-wal", plain + "-wal")
    status, written = call(program, plain, "apply")
    if status == DAMAGED:
        number = int(written.split()[1])
        told = row_told(program, copy, number)
        raise Trouble(f"{path}: row {number} is damaged: {told}; restore a backup", DAMAGED)
    if status == CANNOT_OPEN:
        raise Trouble(cause_in(copy, path, True) or f"{path} can't be opened", CANNOT_OPEN)
    if status != DONE:
        raise Trouble(f"billctl ended with {status} over a copy of {path}: {ask_of(status)}",
                      status if status > 0 else FOUND)


def check(program: str, path: str, wait: int) -> int:
    """Prints how many rows and accounts the file has, and today.

    Raises Trouble with the cause where billctl can't open it, or where a row isn't sound.
    """
    with copied(path, wait) as copy:
        require_sound(program, path, copy)
        cause = cause_in(copy, path)
        if cause:
            raise Trouble(cause, CANNOT_OPEN)
        base = sqlite3.connect(copy, isolation_level=None)
        has_table = bool(things_of(base))
        state = fold(State(), rows_in(base, path)) if has_table else State()
        base.close()
    warn_of_room(path)
    if not has_table:
        say(f"check: {path} has no table yet: an empty ledger")
    print(f"rows {state.rows}\naccounts {len(state.accounts)}\ntoday {state.today}")
    return DONE
