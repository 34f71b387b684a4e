"""Statements as data and as pages, by the independent model's own command (docs/PAGES.md).

A night makes them where its home has `night.toml`, which says in which forms and of which files.
"""

import os
from collections.abc import Iterable
from dataclasses import dataclass
from datetime import date

from companion.days import closing
from companion.home import read_toml
from companion.model import ask_model
from companion.opening import require_openable
from companion.state import Account
from companion.texts import Entry, owed_at
from companion.trouble import GUARDED, Trouble

SETTINGS = "night.toml"
FORMS = ("text", "json", "html", "pdf")
FILES = ("issuer", "names", "notes")

# An account and a cycle.
Which = tuple[str, int]


@dataclass(frozen=True)
class Files:
    """The issuer's own files: its texts, the names of cardholders, and what a purchase was."""

    issuer: str | None = None
    names: str | None = None
    notes: str | None = None

    def words(self) -> list[str]:
        given = (("--issuer", self.issuer), ("--names", self.names), ("--notes", self.notes))
        return [word for name, path in given if path is not None for word in (name, path)]


@dataclass(frozen=True)
class Wanted:
    """The forms in which a night writes its statements, and the issuer's files for them."""

    forms: list[str]
    files: Files


def wanted_of(home: str) -> Wanted | None:
    """What `night.toml` says; None where it isn't there. Its paths are below the home."""
    path = os.path.join(home, SETTINGS)
    if not os.path.exists(path):
        return None
    found = read_toml(path)
    for key, value in found.items():
        if key != "forms" and (key not in FILES or not isinstance(value, str)):
            raise Trouble(f"{path}: {key!r} is none of forms, {', '.join(FILES)}, or no text",
                          GUARDED)
    forms = found.get("forms")
    if not isinstance(forms, list) or not forms or any(form not in FORMS for form in forms):
        raise Trouble(f"{path}: forms is a list of {', '.join(FORMS)}", GUARDED)
    places = {key: os.path.join(home, found[key]) for key in FILES if key in found}
    return Wanted(forms, Files(**places))


def words_of(program: str, path: str, day: date, folder: str, wanted: Wanted) -> list[str]:
    """The words with which the model writes the statements of a day."""
    chosen = [word for form in wanted.forms for word in ("--form", form)]
    return ["statements", path, day.isoformat(), folder, *chosen, *wanted.files.words(),
            "--program", program]


def pages(program: str, path: str, day: date, folder: str, wanted: Wanted, wait: int) -> int:
    """The word `statements` with forms. Prints the path of each file."""
    require_openable(path, wait)
    return ask_model("statements", words_of(program, path, day, folder, wanted))


def owed_at_closings(account: Account, day: date, entries: Iterable[Entry]) -> dict[Which, int]:
    """What was owed at the closing of each cycle that was billed on a day, by the entries.

    Those are left out behind whose bill a post came, which may have changed it since.
    """
    known = list(entries)
    return {(account.name, cycle): owed_at(known, closing(account.opened, account.close, cycle))
            for cycle, billed in account.bills.items() if billed == day and account.is_last(cycle)}
