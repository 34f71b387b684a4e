"""`backup`: a copy of a ledger in one file with its seal, loaded by billctl before it counts."""

import os
import re
import sqlite3
import tempfile
from collections.abc import Callable
from dataclasses import dataclass
from datetime import date, timedelta

from companion.check import cause_in, require_sound
from companion.days import day_of
from companion.files import make_folder, names_in, put_text, settle
from companion.opening import MORE_ROOM, copy_pair, held, require_openable
from companion.rights import cause_of
from companion.seals import Seal, read_seal
from companion.state import count_and_today
from companion.trouble import CANNOT_OPEN, DONE, GUARDED, OWN_FILES, Trouble, counted, say

SEAL_END = ".seal"
NAME = re.compile(r"(.+)-([0-9]{4}-[0-9]{2}-[0-9]{2})-([0-9]+)\.db")

# Has billctl load what a copy holds, or raises Trouble.
Prove = Callable[[str], None]


def seal_beside(backup_path: str) -> Seal | None:
    """The seal that was kept beside a backup, None where there is none."""
    try:
        with open(backup_path + SEAL_END, encoding="ascii") as file:
            rows, hash_of = file.read().split()
        return Seal(int(rows), hash_of)
    except (OSError, ValueError):
        return None


def join(room: str, path: str, wait: int, advice: str = MORE_ROOM) -> str:
    """A copy of the file in the room, with the log's commits in it, as one file."""
    copy = os.path.join(room, "copy")
    with held(path, wait) as real:
        copy_pair(real, copy, advice)
    base = sqlite3.connect(copy, isolation_level=None)
    try:
        base.execute("PRAGMA journal_mode=DELETE").fetchall()
    except sqlite3.Error as error:
        raise Trouble(cause_in(copy, path) or f"{path}: SQLite can't read a copy of it: {error}",
                      CANNOT_OPEN) from error
    finally:
        base.close()
    return copy


def stem_of(path: str) -> str:
    name = os.path.basename(path)
    return name[:-3] if name.endswith(".db") else name


def name_of(path: str, day: date, rows: int) -> str:
    return f"{stem_of(path)}-{day}-{rows}.db"


def backup(program: str, path: str, folder: str, wait: int,
           prove: Prove | None = None) -> tuple[str, bool]:
    """Makes a backup in the folder, named by today and the number of rows, with the file's mode.

    Gives its path, and whether it is new. It gets its name once `prove` had billctl load its rows.
    """
    require_openable(path, wait)
    make_folder(folder)
    try:
        with tempfile.TemporaryDirectory(prefix=".new-", dir=folder) as room:
            copy = join(room, path, wait)
            rows, today = count_and_today(copy)
            found = read_seal(copy)
            to = os.path.join(folder, name_of(path, today, rows))
            if os.path.exists(to):
                return to, require_same(to, found)
            if prove is None:
                require_sound(program, path, copy)
            else:
                prove(copy)
            os.chmod(copy, os.stat(path).st_mode & 0o777)
            settle(copy)
            os.rename(copy, to)
            settle(to)
    except sqlite3.Error as error:
        raise Trouble(f"a backup can't be made in {folder}: {error}", OWN_FILES) from error
    except OSError as error:
        raise Trouble(f"a backup can't be made in {folder}: {cause_of(error)}",
                      OWN_FILES) from error
    require_same_rows(to, found, path)
    put_text(to + SEAL_END, found.text() + "\n")
    return to, True


def require_same_rows(path: str, wanted: Seal, source: str) -> None:
    """Refuses a file that hasn't the rows it was copied from."""
    if read_seal(path) != wanted:
        raise Trouble(f"{path} hasn't the rows of {source}; the disk may fail", OWN_FILES)


def require_same(to: str, found: Seal) -> bool:
    """Whether a backup that is there has to be made anew: never. One with other rows is told."""
    if read_seal(to) != found:
        raise Trouble(f"{to} is there already with other rows: a row was changed, or the file "
                      "isn't the one that was backed up. Keep both, find out which is right, and "
                      "back up to another folder meanwhile", GUARDED)
    if seal_beside(to) != found:
        put_text(to + SEAL_END, found.text() + "\n")
    return False


def tell_backup(program: str, path: str, folder: str, wait: int, kept: "Keep | None" = None) -> int:
    """The word `backup`."""
    to, is_new = backup(program, path, folder, wait)
    seal = seal_beside(to)
    rows = counted(seal.rows if seal else 0, "row")
    say(f"backup: {to}, {rows}" if is_new else f"backup: {to} is there already with these rows")
    if kept is not None:
        for name in thin(folder, stem_of(path), kept):
            say(f"backup: {name} is removed, as --keep says")
    print(to)
    return DONE


@dataclass(frozen=True)
class Keep:
    """Of how many days, weeks and months the last backup is kept."""

    days: int = 0
    weeks: int = 0
    months: int = 0


def keep_of(text: str) -> Keep | None:
    """What `14d,8w,24m` says, else None."""
    found: dict[str, int] = {}
    for part in text.split(","):
        if re.fullmatch("[1-9][0-9]{0,4}[dwm]", part) is None or part[-1] in found:
            return None
        found[part[-1]] = int(part[:-1])
    return Keep(found.get("d", 0), found.get("w", 0), found.get("m", 0))


def kept_of(found: list[tuple[date, int, str]], kept: Keep) -> set[str]:
    """The names that stay: the last backup of each day, week and month in reach, and the last."""
    newest = max(found)
    stay = {newest[2]}
    month = newest[0].year * 12 + newest[0].month
    last: dict[tuple[str, int], str] = {}
    for day, _, name in sorted(found):
        week = (day - timedelta(days=day.weekday())).toordinal()
        at_week = (newest[0] - timedelta(days=newest[0].weekday())).toordinal()
        if (newest[0] - day).days < kept.days:
            last["d", day.toordinal()] = name
        if (at_week - week) // 7 < kept.weeks:
            last["w", week] = name
        if month - day.year * 12 - day.month < kept.months:
            last["m", day.year * 12 + day.month] = name
    return stay | set(last.values())


def thin(folder: str, stem: str, kept: Keep) -> list[str]:
    """Removes the backups of a ledger that `kept` doesn't ask for. Gives their names."""
    found = []
    for name in names_in(folder):
        match = NAME.fullmatch(name)
        day = day_of(match.group(2)) if match else None
        if match and day is not None and match.group(1) == stem:
            found.append((day, int(match.group(3)), name))
    if not found:
        return []
    stay = kept_of(found, kept)
    gone = [name for _, _, name in found if name not in stay]
    for name in gone:
        for each in (name, name + SEAL_END):
            if os.path.exists(os.path.join(folder, each)):
                os.remove(os.path.join(folder, each))
    return gone
