"""`night`: a whole night as one call, which may be stopped anywhere and called again."""

import os
import shutil
from datetime import date

from companion import guards
from companion.backups import backup, keep_of, stem_of, thin
from companion.books import Close
from companion.files import free_name, make_folder, put_text
from companion.hand import Hand, is_bulk
from companion.home import (
    INBOX, LEDGER, last_sealed, require_home, require_sealed, seal_text, settings_of,
)
from companion.inputs import Input
from companion.looks import bill_lines, late_bills
from companion.made import add_notes_of, make_pages
from companion.opening import open_rows, require_openable
from companion.pages import wanted_of
from companion.reissue import Held, held_back
from companion.report import end_report, overdue_of, tell_money, tell_tasks
from companion.rights import cause_of, require_owner
from companion.run import AFTER_SECONDS, Meant
from companion.seals import Seal, seals_at
from companion.state import State, read_state
from companion.statements import file_name, keep_text, put_tasks
from companion.trouble import DONE, FOUND, GUARDED, OWN_FILES, Progress, Trouble, counted, say
from companion.under_way import Asked, Night, locked
from companion.waiting import Waiting, waiting

# Connections of a server beside those that can be counted before.
SPARE = 16

GOES_ON = "the next call goes on from here"


def place_for(night: Night, name: str, where: str) -> str:
    """Where a file of the inbox goes, as a path below the home."""
    folder = os.path.join(where, str(night.day))
    make_folder(night.path(folder))
    return os.path.join(folder, free_name(night.path(folder), name))


def put_away(night: Night, name: str, to: str, end: str, lines: list[str]) -> None:
    """Moves a file out of the inbox, and writes beside it what came of it."""
    put_text(night.path(to + end), "".join(line + "\n" for line in lines))
    shutil.move(night.path(INBOX, name), night.path(to))


def take_in(night: Night, one: Waiting) -> None:
    """Sends a file of the inbox, or puts it aside where a guard refuses it."""
    if one.given is None:
        night.found = True
        night.missing.append(one.name)
        to = place_for(night, one.name, "refused")
        night.tell(f"inbox {one.name}: {one.refusal}; it is in {to}")
        put_away(night, one.name, to, ".why", [one.refusal])
        return
    replies = night.send(one.given, one.name)
    if one.note:
        night.tell(f"  {one.note}")
    add_notes_of(night, one.notes)
    if os.path.getsize(night.path(INBOX, one.name)) != one.size:
        night.found = True
        night.missing.append(one.name)
        night.tell(f"inbox {one.name}: it was written to meanwhile, so it stays for the next call")
        return
    put_away(night, one.name, place_for(night, one.name, "done"), ".replies", replies)


def lines_given(lines: list[str]) -> Input:
    return Input("".join(line + "\n" for line in lines).encode(), "apply", lines)


def roll(night: Night) -> None:
    """Rolls to the night's day, past the guard."""
    if night.day == night.state.today:
        return
    before = night.state.today
    night.send(lines_given([f"roll {night.day}"]), "roll")
    night.tell(f"roll: from {before} to {night.day}")


def awaiting(night: Night) -> Held:
    """The bills that wait for a later call, since records are missing that no statement has after
    its bill. One whose last day has come doesn't wait."""
    found = [one for one in night.state.due() if night.missing and night.day < one.last_day]
    if found:
        number = "1 waits" if len(found) == 1 else f"{len(found)} wait"
        names = ", ".join(dict.fromkeys(night.missing))
        night.tell(f"bills: {number} for the next call, since records of {names} are missing, and "
                   "a statement has none that come behind its bill; the first has until "
                   f"{found[0].last_day}")
    return frozenset((one.account, one.cycle) for one in found)


def bill(night: Night) -> None:
    """Sends the bills that are due, but those printed before with other numbers, and those that
    wait for records."""
    held, texts = held_back(night.asked.program, night.home, night.state, night.hand.close)
    for text in texts:
        night.tell(f"  {text}")
    if held and not night.asked.reissue:
        night.found = True
        night.tell(f"reissue: {counted(len(held), 'bill')} held back, since statements with other "
                   "numbers were printed; --reissue issues them")
    held = awaiting(night) | (frozenset() if night.asked.reissue else held)
    lines = bill_lines(night.state, held)
    late = late_bills(night.state)
    if lines:
        night.send(lines_given(lines), "bills")
    night.tell(f"bills: {len(lines)}{late}")


def print_all(night: Night) -> Close:
    """The statements of the day, the open tasks and the day's close."""
    folder = night.path("statements", str(night.day))
    make_folder(folder)
    wanted = night.state.issued_on(night.day)
    asker = night.hand.asker()
    progress = Progress("statements", len(wanted))
    for place, (account, cycle) in enumerate(wanted):
        text = asker.statement(account, cycle)
        keep_text(folder, file_name(account, cycle), text, night.asked.reissue)
        progress.at(place + 1)
    tasks = put_tasks(folder, asker.tasks())
    night.tell(f"statements: {len(wanted)} in {os.path.relpath(folder, night.home)}")
    night.found = bool(overdue_of(tasks, night.day)) or night.found
    tell_tasks(tasks, night.day, night.tell)
    sealed = night.before.seal.rows if night.before else 0
    returned = night.state.returned_since(sealed)
    return tell_money(night.home, night.day, night.state, asker, returned, night.tell)


def save(night: Night) -> None:
    """A backup, whose rows billctl loads with those of the night itself."""
    to, is_new = backup(night.asked.program, night.ledger, night.path("backups"), AFTER_SECONDS,
                        night.hand.prove)
    if is_new:
        night.tell(f"backup: {os.path.relpath(to, night.home)}")


def save_end(night: Night) -> Seal:
    """The backup at the end: rows that were loaded at the beginning, and those of tonight.

    No load proves it again: its first rows are those that billctl loaded, by their seal, and
    behind them are as many as it accepted. The next night loads them all.
    """
    whole = require_grown(night)
    to, is_new = backup(night.asked.program, night.ledger, night.path("backups"), 0,
                        None if night.hand.calls else lambda copy: None)
    if is_new:
        night.tell(f"backup: {os.path.relpath(to, night.home)}")
    kept = night.asked.keep
    for name in thin(night.path("backups"), stem_of(night.ledger), kept) if kept else []:
        night.tell(f"backup: backups/{name} is removed, as keep says")
    return whole


def require_grown(night: Night) -> Seal:
    """Refuses rows that aren't those of the beginning with the accepted ones behind them."""
    assert night.start is not None
    with open_rows(night.ledger, AFTER_SECONDS) as rows:
        whole, found = seals_at(rows, [night.start.rows])
    if found.get(night.start.rows) != night.start:
        raise Trouble("the rows that were there when the night began aren't there any more: the "
                      "file was changed meanwhile. Keep it, and compare it with the backup",
                      OWN_FILES)
    if whole.rows != night.state.rows:
        others = whole.rows - night.state.rows
        night.tell(f"others: {counted(others, 'row')} came in by others meanwhile")
        night.hand.state = read_state(night.ledger, AFTER_SECONDS)
    return whole


def is_done(night: Night) -> bool:
    """Whether this day's night has ended already, and nothing came since."""
    reports = night.reports()
    if not reports or night.state.today != night.day or night.waiting or night.state.due():
        return False
    if os.path.exists(night.part):
        return False
    with open(reports[-1], encoding="utf-8") as file:
        return file.read().splitlines()[-1] == f"rows: {night.state.rows}"


def carry_out(night: Night) -> None:
    """The steps of a night, each of which may be done again."""
    night.tell(f"night of {night.day}")
    save(night)
    night.hand.begin()
    roll(night)
    for place, one in enumerate(night.waiting):
        say(f"night: file {place + 1} of {len(night.waiting)} of the inbox: {one.name}")
        take_in(night, one)
    bill(night)
    close = print_all(night)
    night.hand.close()
    whole = save_end(night)
    make_pages(night, close.at_closings)
    last = night.before
    named = f"{last.seal.text()} (reports/{last.name})" if last else seal_text(None)
    end_report(night.part, night.path("reports", night.report_name(len(night.reports()) + 1)),
               [f"seal before: {named}", f"seal: {whole.text()}", f"rows: {whole.rows}"],
               night.path("statements", str(night.day)), night.day)


def count_of(state: State, day: date, files: list[Waiting]) -> tuple[int, int]:
    """How many lines a night sends, and how many connections a server of it takes."""
    lines = 1 + sum(len(one.given) for one in files if one.given)
    bills = sum(account.closed(day) - len(account.bills) for account in state.accounts.values())
    newly = sum(one.given.data.count(b"open") for one in files if one.given)
    return lines, lines + 3 * bills + len(state.accounts) + 2 * newly + SPARE


def begun(asked: Asked) -> Night:
    """A night whose ledger is the one that the last report sealed."""
    path = os.path.join(asked.home, LEDGER)
    require_openable(path, asked.wait)
    last = last_sealed(asked.home)
    with open_rows(path, asked.wait) as rows:
        whole, found = seals_at(rows, [last.seal.rows] if last else [])
    if last is not None:
        require_sealed(asked.home, whole, found.get(last.seal.rows), last)
    state = read_state(path, asked.wait)
    if asked.day < state.today:
        raise Trouble(f"the ledger's today is {state.today} already, and {asked.day} is before it",
                      GUARDED)
    if asked.day > state.today:
        guards.require_near([f"roll {asked.day}"], state, asked.meant.far)
    for name in ("reports", INBOX):
        make_folder(os.path.join(asked.home, name))
    files, numbers = waiting(asked.home, path, state, asked.day, asked.meant)
    lines, count = count_of(state, asked.day, files)
    hand = Hand(asked.program, path, state, asked.calls, is_bulk(lines, state.rows), count)
    hand.numbers = numbers
    night = Night(asked, hand, last, whole, files)
    night.go_on()
    return night


def night_of(asked: Asked) -> int:
    require_home(asked.home)
    require_owner(os.path.join(asked.home, LEDGER))
    with locked(asked.home):
        night = begun(asked)
        if is_done(night):
            say(f"night: the night of {asked.day} is done, and nothing came since: "
                f"{night.reports()[-1]}")
            return DONE
        try:
            carry_out(night)
        finally:
            night.hand.drop()
        return FOUND if night.found else DONE


def night(asked: Asked) -> int:
    """The word `night`."""
    settings = settings_of(asked.home) if os.path.isdir(asked.home) else {}
    late = asked.meant.late or settings.get("late") == "take"
    kept = asked.keep or keep_of(settings.get("keep", ""))
    meant = Meant(asked.meant.far, late, asked.meant.dated_back)
    try:
        return night_of(Asked(asked.program, asked.home, asked.day, meant, asked.wait, asked.calls,
                              asked.reissue, kept, wanted_of(asked.home)))
    except OSError as error:
        raise Trouble(f"{error.filename or asked.home}: {cause_of(error)}; {GOES_ON}",
                      OWN_FILES) from error
    except Trouble as trouble:
        if isinstance(trouble.__cause__, OSError):
            trouble.message += f"; {GOES_ON}"
        raise
