"""The model as the program: its commands over kept rows, with the same texts and statuses.

    python3 -m audit.commands FILE COMMAND...

FILE is `-` for no rows, or a ledger's file, which is read and never written.
`serve` isn't there, but `answer`, which reads the bytes of one connection.
"""

import re
import sys
from collections.abc import Callable
from typing import NamedTuple

from . import csv_text, lines, rows
from .connections import serve
from .demo import demo_text
from .ledger_file import Unreadable, copied, rows_of
from .machine import Machine, Reply
from .product import COMMANDS_TO_COME
from .trial import trial_text
from .views import view
from .words import Request


class Damaged(Exception):
    """The first row that doesn't fit its place."""

    def __init__(self, row: int):
        self.row = row


def load(kept: list[tuple[int, bytes]],
         told: Callable[[int, int], None] = lambda done, all_rows: None) -> Machine:
    """Carries out kept rows, each with its number; `told` hears how far it came."""
    machine = Machine()
    for place, (seq, body) in enumerate(kept, start=1):
        request = rows.decode(body)
        if seq != place or request is None or not machine.apply(request).new:
            raise Damaged(place)
        told(place, len(kept))
    return machine


class Keeper:
    """The kept rows in memory.  They are carried out once, as long as none is added by hand."""

    def __init__(self, kept: list[tuple[int, bytes]] | None = None):
        self.rows = kept or []
        self._loaded: tuple[list[tuple[int, bytes]], Machine] | None = None

    def machine(self) -> Machine:
        if self._loaded is None or self._loaded[0] != self.rows:
            self._loaded = list(self.rows), load(self.rows)
        return self._loaded[1]

    def keep(self, body: bytes) -> None:
        """One row more, of a request that the machine has just accepted."""
        row = (len(self.rows) + 1, body)
        self.rows.append(row)
        if self._loaded is not None:
            self._loaded[0].append(row)


# -- words -----------------------------------------------------------------------------------


# Reads a word of a command; None where it isn't of its form.
Reader = Callable[[str], int | str | None]


def _number(low: int, high: int) -> Reader:
    def read(word: str) -> int | None:
        if not re.fullmatch("0|[1-9][0-9]{0,11}", word, re.ASCII):
            return None
        return int(word) if low <= int(word) <= high else None
    return read


def _name(word: str) -> str | None:
    return lines.read_name(word.encode("utf-8", "surrogateescape"))


def _day(word: str) -> int | None:
    return lines.read_day(word.encode("utf-8", "surrogateescape"))


_CYCLE = _number(1, 1_200)
# command -> its words with their readers, in the order of the usage line
COMMANDS: dict[str, dict[str, Reader]] = {
    "apply": {},
    "import": {},
    "statement": {"ACCOUNT": _name, "CYCLE": _CYCLE},
    "restate": {"ACCOUNT": _name, "CYCLE": _CYCLE},
    "export": {"ACCOUNT": _name},
    "work": {},
    "demo": {"START": _number(0, 999_999_999_999), "ACCOUNTS": _number(0, 1_000),
             "CYCLES": _number(1, 60)},
    "serve": {"PORT": _number(1, 65_535), "COUNT": _number(1, 1_000_000)},
    "repay": {"ACCOUNT": _name, "CYCLE": _CYCLE},
    "trial": {"FROM": _day, "TO": _day},
}


def usage() -> str:
    forms = [" ".join([word, *readers]) for word, readers in COMMANDS.items()
             if word not in COMMANDS_TO_COME]
    return "usage: " + " | ".join(forms) + "\n"


class Command(NamedTuple):
    """A command, with the account that it names and its numbers and days in order."""
    name: str
    account: str | None = None
    numbers: tuple[int, ...] = ()


def read_words(words: list[str], unknown: frozenset[str] = COMMANDS_TO_COME) -> Command | None:
    """The command of a list of words, None where they are none."""
    if words == ["answer"]:
        return Command("answer")
    if not words or words[0] not in COMMANDS or words[0] in unknown:
        return None
    readers = list(COMMANDS[words[0]].values())
    if len(words) != len(readers) + 1:
        return None
    values = [read(word) for read, word in zip(readers, words[1:])]
    numbers = tuple(value for value in values if isinstance(value, int))
    if None in values or (words[0] == "trial" and numbers[0] > numbers[1]):
        return None
    account = next((value for value in values if isinstance(value, str)), None)
    return Command(words[0], account, numbers)


# -- the run ---------------------------------------------------------------------------------


def _answer_request(machine: Machine, keeper: Keeper, request: Request) -> Reply:
    reply = machine.apply(request)
    if reply.new:
        keeper.keep(rows.encode(request))
    return reply


def _reply_line(machine: Machine, keeper: Keeper, number: int, line: bytes) -> str:
    item = lines.read_line(line)
    if isinstance(item, lines.Bad):
        return lines.bad_text(number, item.field)
    if isinstance(item, lines.Show):
        return view(machine, "show", item.account) or "no 1 UnknownAccount\n"
    return lines.reply_text(_answer_request(machine, keeper, item))


def apply_lines(machine: Machine, keeper: Keeper, data: bytes) -> tuple[str, int]:
    """One reply for each line, and the status."""
    replies = [_reply_line(machine, keeper, number, line)
               for number, line in enumerate(lines.split_lines(data), start=1)]
    return "".join(replies), _status(replies)


def import_csv(machine: Machine, keeper: Keeper, data: bytes) -> tuple[str, int]:
    """One reply for each record, and the status."""
    replies = []
    for item in csv_text.import_items(data):
        if isinstance(item, csv_text.BadRecord):
            replies.append(lines.bad_text(item.row, item.field))
        else:
            replies.append(lines.reply_text(_answer_request(machine, keeper, item)))
    return "".join(replies), _status(replies)


def _status(replies: list[str]) -> int:
    return 0 if all(reply.startswith(("ok", "show")) for reply in replies) else 1


def _carry_out(command: Command, keeper: Keeper, data: bytes) -> tuple[str, int]:
    machine, name = keeper.machine(), command.name
    if name == "apply":
        return apply_lines(machine, keeper, data)
    if name == "import":
        return import_csv(machine, keeper, data)
    if name == "trial":
        replies, status = apply_lines(machine, keeper, data)
        return replies + trial_text(machine, *command.numbers), status
    if name == "answer":
        answer = serve(machine, data, keeper.keep)
        return ("", 1) if answer is None else (answer.to_bytes().decode("utf-8"), 0)
    text = view(machine, name, command.account, *command.numbers)
    return ("none\n", 1) if text is None else (text, 0)


def run(words: list[str], keeper: Keeper, data: bytes = b"",
        unknown: frozenset[str] = COMMANDS_TO_COME) -> tuple[bytes, int]:
    """What a run with these words and this input writes, and its status."""
    command = read_words(words, unknown)
    if command is None:
        return usage().encode(), 2
    if command.name == "demo":
        return demo_text(*command.numbers).encode(), 0
    try:
        text, status = _carry_out(command, keeper, data)
    except Damaged as damaged:
        text, status = f"damaged {damaged.row}\n", 8
    return text.encode("utf-8"), status


def main(argv: list[str]) -> int:
    if not argv or argv[0] in ("-h", "--help") or argv[1:2] == ["serve"]:
        print(__doc__)
        return 2
    keeper = Keeper()
    try:
        if argv[0] != "-":
            with copied(argv[0]) as copy:
                keeper = Keeper(rows_of(copy))
    except Unreadable as why:
        print(f"audit: {why}", file=sys.stderr)
        return 5
    wants_input = argv[1:2] in (["apply"], ["import"], ["trial"], ["answer"])
    out, status = run(argv[1:], keeper, sys.stdin.buffer.read() if wants_input else b"")
    sys.stdout.buffer.write(out)
    return status


if __name__ == "__main__":
    sys.exit(main(sys.argv[1:]))
