"""What waits in the inbox of a night: read, converted where it is a bank's sheet, and guarded."""

import os
import re
from dataclasses import dataclass, field
from datetime import date

from companion import dated, guards
from companion.convert import records_of_sheet
from companion.days import day_of
from companion.files import names_in
from companion.history import numbers_in
from companion.home import INBOX
from companion.inputs import Input, Numbers
from companion.notes import Notes
from companion.opening import open_rows
from companion.run import AFTER_SECONDS, Meant
from companion.sheet import read_sheet
from companion.state import State
from companion.trouble import GUARDED, Trouble

# The front of a file that `restore --again` put back or found: it waits for the night of its day.
AGAIN = re.compile(r"00-again-([0-9]{4}-[0-9]{2}-[0-9]{2})-(.+)")


@dataclass
class Waiting:
    """A file of the inbox: its bytes, and what they are; or why a guard refuses it."""

    name: str
    size: int
    given: Input | None = None
    refusal: str = ""
    note: str = ""
    notes: Notes = field(default_factory=dict)


def bare_name(name: str) -> str:
    """The name that a file came with."""
    again = AGAIN.fullmatch(name)
    return bare_name(again.group(2)) if again else name


def inbox_of(home: str, day: date) -> list[str]:
    """The files that wait for a night, by name.

    Those whose name begins with a dot are still being written, and those put back for a later
    night wait for it.
    """
    folder = os.path.join(home, INBOX)
    found = []
    for name in names_in(folder):
        again = AGAIN.fullmatch(name)
        waits = day_of(again.group(1)) if again else None
        if name.startswith(".") or (waits is not None and waits > day):
            continue
        if os.path.isfile(os.path.join(folder, name)):
            found.append(name)
    return found


def columns_for(home: str, name: str) -> str | None:
    """The description of columns for a file of the inbox: `columns/STEM.toml` for STEM.csv."""
    bare = bare_name(name)
    for each in names_in(os.path.join(home, "columns")):
        stem, end = os.path.splitext(each)
        if end == ".toml" and re.match(re.escape(stem) + r"($|[^A-Za-z])", bare):
            return os.path.join(home, "columns", each)
    return None


def input_of(home: str, name: str, data: bytes, day: date) -> tuple[Input, str, Notes]:
    """What the bytes of a file are on a day; of a bank's sheet also its control sums and notes."""
    columns = columns_for(home, name)
    if columns is None:
        return guards.read_input(data), "", {}
    data, note, notes = records_of_sheet(read_sheet(columns), data, day)
    return guards.read_input(data), note, notes


def read_waiting(home: str, name: str, day: date) -> Waiting:
    """A file of the inbox, past the guards that need no ledger."""
    with open(os.path.join(home, INBOX, name), "rb") as file:
        data = file.read()
    found = Waiting(name, len(data))
    try:
        found.given, found.note, found.notes = input_of(home, name, data, day)
        if any(line.startswith("roll ") for line in found.given.lines):
            raise guards.guard("it rolls, and only the night does")
    except Trouble as trouble:
        if trouble.status != GUARDED:
            raise
        found.given, found.refusal = None, trouble.message
    return found


def refused(given: Input, late: list[dated.Dated], back: list[dated.Dated],
            known: Numbers) -> str:
    """Why a file isn't taken: records of billed cycles, or notices dated back."""
    for texts, refusal in ((dated.named(given, late, known), dated.late_refusal),
                           (dated.named(given, back, known), dated.back_refusal)):
        if texts:
            return f"nothing was sent: {refusal(texts)}"
    return ""


def waiting(home: str, path: str, state: State, day: date,
            meant: Meant) -> tuple[list[Waiting], Numbers]:
    """The files that wait, past all guards; and the numbers of the posts that they name by keys."""
    found = [read_waiting(home, name, day) for name in inbox_of(home, day)]
    doubts = {}
    wanted: set[tuple[str, str]] = set()
    for one in found:
        if one.given is None:
            continue
        late = [] if meant.late else dated.late_in(one.given, state)
        back = [] if meant.dated_back else dated.back_in(one.given, day)
        doubts[one.name] = late, back
        wanted |= dated.wanted_keys(one.given, late + back)
    known: Numbers = {}
    if wanted:
        with open_rows(path, AFTER_SECONDS) as rows:
            known = numbers_in(rows, wanted)
    for one in found:
        if one.given is not None:
            one.refusal = refused(one.given, *doubts[one.name], known)
            if one.refusal:
                one.given = None
    return found, known
