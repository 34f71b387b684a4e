"""`restore`: the file as a backup has it, and in a night's home what the backup doesn't have."""

import os
import re
import shutil
import tempfile
import time
from dataclasses import dataclass, field
from datetime import date, timedelta

from companion import locks
from companion.backups import NAME as BACKUP
from companion.backups import SEAL_END, join, require_same_rows, seal_beside
from companion.check import require_sound
from companion.days import day_of
from companion.files import free_name, make_folder, names_in, put_text, read_text, settle
from companion.home import INBOX, LEDGER, sealed_reports
from companion.inputs import Input
from companion.opening import OTHER_FOLDER, cause_of_kind, cause_of_name, log_of
from companion.reissue import NAME as STATEMENT
from companion.seals import Seal, read_seal
from companion.state import State, read_state
from companion.trouble import CANNOT_OPEN, DONE, GUARDED, Trouble, counted, say
from companion.waiting import AGAIN, bare_name, input_of

REPLIES = ".replies"
OF_REPLY = re.compile(r"ok ([0-9]+)")


def require_backup(program: str, path: str) -> tuple[Seal, State]:
    """The seal and the state of a backup that billctl loads and whose own seal is right."""
    with tempfile.TemporaryDirectory(prefix="ledger-") as room:
        copy = join(room, path, 0, OTHER_FOLDER)
        require_sound(program, path, copy)
        found, state = read_seal(copy), read_state(copy)
    beside = seal_beside(path)
    if beside is None:
        say(f"restore: {path} has no seal beside it; its rows are sound, and none may be missing "
            "at its end that you know of")
    elif beside != found:
        raise Trouble(f"{path} isn't what was backed up: its seal is {found.text()}, and "
                      f"{path + SEAL_END} says {beside.text()}", GUARDED)
    return found, state


def move_away(path: str) -> str | None:
    """Moves a file with its log and journal into a new folder beside it, and gives the folder."""
    real = os.path.realpath(path)
    ends = ("", "-wal", "-shm", "-journal")
    parts = [real + end for end in ends if os.path.lexists(real + end)]
    if not parts:
        return None
    stamped = f"{os.path.basename(real)}.before-{time.strftime('%Y%m%d-%H%M%S')}"
    folder = os.path.join(os.path.dirname(real), free_name(os.path.dirname(real), stamped))
    os.mkdir(folder, 0o700)
    for part in parts:
        shutil.move(part, folder)
    return folder


def keep_access(real: str, copy: str) -> None:
    """Gives a copy the mode of the file whose place it takes, and its owner if this user may.

    Where no file is there, it is for its owner alone, who is the folder's.
    """
    is_there = os.path.exists(real)
    found = os.stat(real if is_there else os.path.dirname(real))
    os.chmod(copy, found.st_mode & 0o777 if is_there else 0o600)
    try:
        os.chown(copy, found.st_uid, found.st_gid)
    except PermissionError:
        if is_there:
            say(f"restore: {real} belongs to this user now")


@dataclass
class Undone:
    """What a home has that came of rows which a backup doesn't have."""

    files: list[tuple[str, str]] = field(default_factory=list)
    statements: dict[str, int] = field(default_factory=dict)
    reports: list[str] = field(default_factory=list)
    backups: list[str] = field(default_factory=list)

    def __bool__(self) -> bool:
        return bool(self.files or self.statements or self.reports)


def is_behind(given: Input, replies: list[str], state: State) -> bool:
    """Whether an input entered something that a ledger doesn't have."""
    for request, reply in zip(given.requests(), replies):
        if request is None or not reply.startswith("ok"):
            continue
        found = OF_REPLY.fullmatch(reply)
        if found is None:
            if request.line() not in state.shared:
                return True
            continue
        account = state.accounts.get(request.fields["account"])
        if account is None or account.posts < int(found.group(1)):
            return True
    return False


def done_files(home: str) -> list[tuple[str, str]]:
    """The files that were entered, as their day and name, in the order of the nights."""
    found = []
    for day in names_in(os.path.join(home, "done")):
        if day_of(day) is not None:
            names = names_in(os.path.join(home, "done", day))
            found += [(day, name) for name in names if name + REPLIES in names]
    return found


def read_done(home: str, day: str, name: str) -> tuple[Input, list[str]]:
    """A file that was entered, and its replies. What it names by keys has the number 0 here."""
    path = os.path.join(home, "done", day, name)
    with open(path, "rb") as file:
        given, _, _ = input_of(home, name, file.read(), date.fromisoformat(day))
    if given.keyed:
        for record in given.records:
            given.numbers.setdefault((record[0], record[-1]), 0)
    return given, read_text(path + REPLIES).splitlines()


def lines_behind(home: str, day: str, name: str, state: State) -> bool:
    """Whether a file that was entered is behind a backup; one that isn't read goes by its day."""
    try:
        given, replies = read_done(home, day, name)
    except Trouble:
        return day >= state.today.isoformat()
    return is_behind(given, replies, state)


def backups_behind(home: str, seal: Seal) -> list[str]:
    """The backups of the night with more rows, and their seals."""
    found = []
    for name in names_in(os.path.join(home, "backups")):
        match = BACKUP.fullmatch(name.removesuffix(SEAL_END))
        if match and match.group(1) == "rows" and int(match.group(3)) > seal.rows:
            found.append(name)
    return found


def undone_of(home: str, seal: Seal, state: State) -> Undone:
    """What came of rows that a backup doesn't have."""
    found = Undone()
    found.files = [(day, name) for day, name in done_files(home)
                   if lines_behind(home, day, name, state)]
    top = os.path.join(home, "statements")
    for day in names_in(top):
        for name in names_in(os.path.join(top, day)):
            match = STATEMENT.fullmatch(name)
            if match is None:
                continue
            account = state.accounts.get(match.group(1))
            if account is None or int(match.group(2)) not in account.bills:
                found.statements[day] = found.statements.get(day, 0) + 1
    found.backups = backups_behind(home, seal)
    found.reports = [one.name for one in sealed_reports(home) if one.seal.rows > seal.rows]
    return found


def tell_undone(home: str, undone: Undone) -> None:
    """Says which files and statements came of rows that are gone."""
    for day, name in undone.files:
        say(f"restore: done/{day}/{name} was entered after the backup")
    for day, number in undone.statements.items():
        say(f"restore: statements/{day}: {counted(number, 'statement')} printed from rows that "
            "are gone")
    for name in undone.reports:
        say(f"restore: reports/{name} sealed rows that are gone")


def to_wait(home: str, path: str, day: str) -> None:
    """Puts a file into the inbox, where it waits for the night of a day."""
    folder = os.path.join(home, INBOX)
    name = free_name(folder, f"00-again-{day}-{bare_name(os.path.basename(path))}")
    shutil.move(path, os.path.join(folder, name))


def hold_others(home: str, day: str) -> None:
    """Has what waits in the inbox wait until the undone nights are gone through again."""
    folder = os.path.join(home, INBOX)
    found = [name for name in names_in(folder) if not name.startswith(".")
             and AGAIN.fullmatch(name) is None and os.path.isfile(os.path.join(folder, name))]
    for name in found:
        to_wait(home, os.path.join(folder, name), day)
    if found:
        say(f"restore: {counted(len(found), 'file')} of the inbox held for the night of {day}")


def put_back(home: str, undone: Undone, backup_path: str, stamp: str) -> None:
    """Puts the files of the undone nights into the inbox, and sets what else they made apart.

    Each waits for the night of its day. Nothing is removed: a note says what was set apart.
    """
    days = sorted({day for day, _ in undone.files} | {name[:10] for name in undone.reports})
    make_folder(os.path.join(home, INBOX))
    if days:
        hold_others(home, str(date.fromisoformat(days[-1]) + timedelta(days=1)))
    for day, name in undone.files:
        path = os.path.join(home, "done", day, name)
        to_wait(home, path, day)
        os.rename(path + REPLIES, f"{path}{REPLIES}.undone-{stamp}")
    apart = [os.path.join("reports", name) for name in undone.reports]
    apart += [os.path.join("backups", name) for name in undone.backups]
    for day in days:
        apart += [os.path.join("books", name) for name in names_in(os.path.join(home, "books"))
                  if name.startswith(day) and name.endswith(".csv")]
    for name in apart:
        os.rename(os.path.join(home, name), os.path.join(home, f"{name}.undone-{stamp}"))
    note = [f"{backup_path} was restored", *(f"{name}: set apart as {name}.undone-{stamp}"
                                             for name in apart)]
    put_text(os.path.join(home, "reports", f"restored-{stamp}.txt"),
             "".join(line + "\n" for line in note))
    say(f"restore: {counted(len(undone.files), 'file')} put back into the inbox; go through these "
        "nights again, in order:")
    for day in days:
        say(f"    ledger night {home} --day {day}")


def place(backup_path: str, path: str, wait: int, found: Seal) -> str | None:
    """Puts a copy of a backup in the place of a file. Gives where that was moved."""
    folder = os.path.dirname(os.path.realpath(path))
    with tempfile.TemporaryDirectory(prefix=".restored-", dir=folder) as room:
        copy = join(room, backup_path, wait)
        settle(copy)
        if os.path.lexists(path):
            locks.wait_for([os.path.realpath(path), log_of(path)], wait)
        keep_access(os.path.realpath(path), copy)
        moved = move_away(path)
        os.rename(copy, os.path.realpath(path))
    settle(os.path.realpath(path))
    require_same_rows(path, found, backup_path)
    return moved


def is_restored(path: str, wait: int, found: Seal) -> bool:
    """Whether a file has the rows of a backup already. One that is damaged hasn't; why is told."""
    if not os.path.exists(path):
        return False
    try:
        return read_seal(path, wait) == found
    except Trouble as trouble:
        real = os.path.realpath(path)
        if cause_of_kind(real, path):
            raise
        locks.wait_for([real, log_of(path)], 0)
        cause = trouble.message.removesuffix("; restore a backup")
        say(f"restore: what is there can't be read: {cause}")
        return False


def home_of(path: str) -> str | None:
    """The night's home of a file, None where it is in none."""
    folder = os.path.dirname(os.path.abspath(path))
    is_home = os.path.basename(path) == LEDGER and os.path.isdir(os.path.join(folder, "reports"))
    return folder if is_home else None


def restore(program: str, backup_path: str, path: str, wait: int, again: bool = False) -> int:
    """The word `restore`: the file becomes the backup, and what was there is moved beside it."""
    cause = cause_of_name(path)
    if cause:
        raise Trouble(cause, CANNOT_OPEN)
    if os.path.lexists(path) and os.path.exists(backup_path):
        if os.path.samefile(backup_path, path):
            raise Trouble(f"{path} is the backup itself", GUARDED)
    found, state = require_backup(program, backup_path)
    home = home_of(path)
    undone = undone_of(home, found, state) if home else Undone()
    if not is_restored(path, wait, found):
        folder = place(backup_path, path, wait, found)
        say(f"restore: {path} has the {counted(found.rows, 'row')} of {backup_path}")
        if folder:
            say(f"restore: what was there is in {folder}; `rows` prints its rows from "
                f"{found.rows + 1} on as lines, where it can be read")
    else:
        say(f"restore: {path} has the {counted(found.rows, 'row')} of {backup_path} already")
    if home and undone:
        tell_undone(home, undone)
        if again:
            put_back(home, undone, backup_path, time.strftime("%Y%m%d-%H%M%S"))
        else:
            say("restore: --again puts these files back into the inbox in their order, and sets "
                "these reports apart; until then no night goes on here")
    else:
        say("restore: send again what came in since; what is in the backup already gets its old "
            "number")
    return DONE
