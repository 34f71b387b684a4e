"""A night's folder: its files, its settings, and the seals of its reports.

It has the ledger `rows.db` and `inbox`; the rest is made: `done`, `refused`, `statements`, `books`,
`backups`, `reports`. `settings.toml` and `columns` are the operator's, where they are there.
"""

import os
import re
import tomllib
from dataclasses import dataclass
from typing import Any

from companion.files import names_in, read_text
from companion.opening import open_rows
from companion.rights import cause_of
from companion.seals import Seal, seals_at
from companion.trouble import DONE, FOUND, GUARDED, OWN_FILES, Trouble, counted, say

LEDGER = "rows.db"
INBOX = "inbox"
REPORT = re.compile(r"([0-9]{4}-[0-9]{2}-[0-9]{2})(?:-([0-9]+))?\.txt")
SETTINGS = {"late": "refuse", "keep": ""}
CHOICES = {"late": ("refuse", "take")}
EMPTY = "0 -"


def require_home(home: str) -> None:
    if not os.path.isdir(home):
        raise Trouble(f"{home} is no folder", GUARDED)
    if not os.path.exists(os.path.join(home, LEDGER)):
        raise Trouble(f"{os.path.join(home, LEDGER)} isn't there; begin the ledger by "
                      f"`run {os.path.join(home, LEDGER)} --new`", GUARDED)


def read_toml(path: str) -> dict[str, Any]:
    """The values of a TOML file."""
    try:
        with open(path, "rb") as file:
            return tomllib.load(file)
    except OSError as error:
        raise Trouble(f"{path} can't be read: {cause_of(error)}", OWN_FILES) from error
    except (tomllib.TOMLDecodeError, UnicodeDecodeError) as error:
        raise Trouble(f"{path} isn't understood: {error}", GUARDED) from error


def settings_of(home: str) -> dict[str, str]:
    """What `settings.toml` says, or what is so without it."""
    path = os.path.join(home, "settings.toml")
    found = read_toml(path) if os.path.exists(path) else {}
    for key, value in found.items():
        if key not in SETTINGS or not isinstance(value, str):
            raise Trouble(f"{path}: {key!r} is none of {', '.join(SETTINGS)}, or no text", GUARDED)
        if key in CHOICES and value not in CHOICES[key]:
            raise Trouble(f"{path}: {key} is {value!r}, wanted {' or '.join(CHOICES[key])}",
                          GUARDED)
    return {**SETTINGS, **found}


@dataclass(frozen=True)
class Sealed:
    """The seal of a report that ended, and the seal that it names as the one before."""

    name: str
    seal: Seal
    before: str | None


def seal_in(line: str, front: str) -> str | None:
    return line[len(front):].strip() if line.startswith(front) else None


def sealed_reports(home: str) -> list[Sealed]:
    """The reports with a seal, by the number of their rows and then by their names."""
    found = []
    folder = os.path.join(home, "reports")
    for name in names_in(folder):
        if REPORT.fullmatch(name) is None:
            continue
        seal, before = None, None
        for line in read_text(os.path.join(folder, name)).splitlines():
            seal = seal_in(line, "seal: ") or seal
            before = seal_in(line, "seal before: ") or before
        parts = seal.split() if seal else []
        if len(parts) == 2 and parts[0].isdigit():
            found.append(Sealed(name, Seal(int(parts[0]), parts[1]), before))
    return sorted(found, key=lambda one: (one.seal.rows, report_order(one.name)))


def report_order(name: str) -> tuple[str, int]:
    """The day of a report, and which one of its day it is."""
    found = REPORT.fullmatch(name)
    assert found is not None
    return found.group(1), int(found.group(2) or 1)


def last_sealed(home: str) -> Sealed | None:
    """The last report with a seal: rows only grow, so it is the one with the most."""
    found = sealed_reports(home)
    return found[-1] if found else None


def seal_text(seal: Seal | None) -> str:
    return EMPTY if seal is None else seal.text()


def require_sealed(home: str, whole: Seal, early: Seal | None, last: Sealed) -> None:
    """Refuses a ledger whose first rows aren't those that the last report sealed."""
    name, rows = f"reports/{last.name}", last.seal.rows
    if early is None:
        raise Trouble(
            f"the ledger has {counted(whole.rows, 'row')}, and {name} sealed {rows}: an older file "
            "was restored, or rows were lost. Nothing was done. Where a backup was restored, "
            "`restore BACKUP FILE --again` puts the files of the undone nights back into the inbox "
            "and says which nights to go through again; else restore the last backup", GUARDED)
    if early.hash != last.seal.hash:
        raise Trouble(
            f"the first {rows} rows aren't those that {name} sealed: a row was changed, lost or "
            f"put in. Nothing was done. Keep the file as it is, and compare it with the backup of "
            f"{rows} rows: `rows` prints both as lines, and `restore` puts the backup in its place "
            "and keeps the file", GUARDED)


def chain(home: str, wait: int) -> int:
    """The word `chain`: each report names the seal of the one before, and the rows are those."""
    require_home(home)
    reports = sealed_reports(home)
    wanted = sorted({one.seal.rows for one in reports})
    with open_rows(os.path.join(home, LEDGER), wait) as rows:
        whole, seals = seals_at(rows, wanted)
    before: Seal | None = None
    wrong = 0
    for one in reports:
        faults = faults_of(one, before, seals.get(one.seal.rows))
        print(one.name, one.seal.rows, one.seal.hash, "; ".join(faults) or "ok")
        wrong += bool(faults)
        before = one.seal
    say(f"chain: {counted(len(reports), 'report')}, {wrong} of them not of this ledger; it has "
        f"{counted(whole.rows, 'row')}, {whole.rows - (before.rows if before else 0)} since the "
        "last report")
    return FOUND if wrong else DONE


def faults_of(one: Sealed, before: Seal | None, found: Seal | None) -> list[str]:
    """What is wrong with a report: its rows, and the seal that it names before its own."""
    faults = []
    if found is None:
        faults.append("the ledger has fewer rows: an older file was restored, or rows were lost")
    elif found != one.seal:
        faults.append("the rows aren't those that it sealed: one was changed, lost or put in")
    if one.before is not None and not is_before(one.before, before):
        faults.append(f"it names the seal {one.before} before it, and the report before has "
                      f"{seal_text(before)}: a report was changed, lost or put in")
    return faults


def is_before(named: str, before: Seal | None) -> bool:
    return named.split(" (")[0] == seal_text(before)
