"""What the program tells of the account, held against the texts that are explained."""

import contextlib
import tempfile
from collections.abc import Callable, Iterator
from pathlib import Path

from ..ledger_file import write
from ..program import Program, Server
from .changes import Changes
from .document import Document
from .facts import Rows

FEW = 2  # statements that are asked for by calls of their own


class Parted(Exception):
    """A text of the program isn't the one that is explained; both are in the words."""


def export_part(text: str, begun: int, ended: int) -> str:
    """The exported entries from a place to another, without the header."""
    return "".join(text.splitlines(keepends=True)[begun + 1:ended + 1])


@contextlib.contextmanager
def over(rows: Rows, path: str) -> Iterator[Program]:
    """The program over a file with these rows alone."""
    with tempfile.TemporaryDirectory(prefix="explain-") as folder:
        file = Path(folder) / "account.db"
        write(file, [body for _, body, _ in rows.kept])
        yield Program(path, str(file))


def held(what: str, ours: str, theirs: str) -> None:
    """The same text on both sides, else the first line that differs, with both."""
    ours_lines, their_lines = ours.splitlines(), theirs.splitlines()
    for place in range(max(len(ours_lines), len(their_lines))):
        pair = [lines[place] if place < len(lines) else "(nothing)"
                for lines in (ours_lines, their_lines)]
        if pair[0] != pair[1]:
            raise Parted(f"{what}, line {place + 1}\n  model:   {pair[0]}\n  program: {pair[1]}")


def hold(document: Document, path: str) -> None:
    """Every text of a document is the program's over the document's rows."""
    issued = [name for name in document.texts if name.startswith("issued")]
    with over(document.rows, path) as program:
        known = _statements(document, issued, program) if len(issued) > FEW else {}
        hold_texts(document, lambda words: known.get(tuple(words)) or _told(program, words))


def _statements(document: Document, issued: list[str],
                program: Program) -> dict[tuple[str, ...], str]:
    """Earlier statements, which one server tells sooner than a call each."""
    account = document.rows.account
    found: dict[tuple[str, ...], str] = {}
    with Server(program) as server:
        for name in issued:
            k = name.split()[1]
            body = server.get(f"/accounts/{account}/statements/{k}") or b"none\n"
            found["statement", account, k] = body.decode("utf-8", "replace")
    return found


def hold_texts(document: Document, tell: Callable[[list[str]], str]) -> None:
    """Every text of a document is what the program tells, by the words of a command."""
    begun, ended = document.entries
    account, cycle = document.rows.account, str(document.head.get("cycle", ""))
    for name, text in document.texts.items():
        word = name.split()[0]
        if word == "export":
            found = export_part(tell(["export", account]), begun, ended)
        elif word == "trial":
            told = tell(["trial", "2011-01-01", document.head["day"]])
            found = told.splitlines(keepends=True)[-1]
        elif word == "issued":
            found = tell(["statement", account, name.split()[1]])
        else:
            found = tell([word, account, cycle])
        held(f"account {account}, {name}", text, found)


def hold_changes(changes: Changes, path: str) -> None:
    """Both statements of the cycle are the program's."""
    account, cycle = changes.rows.account, str(changes.k)
    with over(changes.rows, path) as program:
        for word, name in (("statement", "issued"), ("restate", "restated")):
            held(f"account {account}, {word} {cycle}", changes.texts[name],
                 _told(program, [word, account, cycle]))


def _told(program: Program, words: list[str]) -> str:
    return program.run(words)[0].decode("utf-8", "replace")
