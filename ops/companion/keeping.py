"""The words that keep a ledger: seals, backups, restores, and the night."""

import argparse

from companion import backups, night, restores, seals
from companion.program import find_program
from companion.sending import add_meant, meant_of
from companion.under_way import Asked
from companion.words import Words, day, keep


def carry_seal(asked: argparse.Namespace) -> int:
    since = seals.Seal(*asked.since) if asked.since else None
    return seals.seal(asked.file, since, asked.wait)


def add_files(words: Words) -> None:
    """Seals, backups and restores."""
    word = words.add(
        "seal", "a hash over all rows",
        "Prints the number of rows and a SHA-256 over all of them in order, to be kept elsewhere.\n"
        "With the seal of another day it says whether the first N rows are still those: status 1\n"
        "where one was changed, lost or put in.", carry_seal)
    word.add_argument("--since", nargs=2, metavar=("N", "HASH"), help="an older seal")
    word = words.add(
        "backup", "a copy with its seal, loaded by billctl",
        "Waits for FILE, copies it and its log into one file DIR/NAME-TODAY-ROWS.db, has billctl\n"
        "load a copy of that, and compares seals. The seal is kept beside it. What is there\n"
        "already with the same rows stays.",
        lambda asked: backups.tell_backup(find_program(asked.program), asked.file, asked.folder,
                                          asked.wait, asked.keep), wait=60, program=True)
    word.add_argument("folder", metavar="DIR")
    word.add_argument("--keep", type=keep, default=None, metavar="14d,8w,24m",
                      help="remove other backups than the last one of so many days, weeks, months")
    word = words.add(
        "restore", "the file as a backup has it",
        "Has billctl load a copy of BACKUP, compares its seal, moves FILE, its log and its\n"
        "journal into a new folder FILE.before-TIME, and puts a copy of BACKUP in its place. In\n"
        "the home of a night it names the files that were entered after the backup, and the\n"
        "statements that were printed since; --again puts these files back into the inbox, each\n"
        "for the night of its day, and sets reports and books of the undone nights apart.",
        lambda asked: restores.restore(find_program(asked.program), asked.backup, asked.file,
                                       asked.wait, asked.again), place=None, program=True)
    word.add_argument("backup", metavar="BACKUP")
    word.add_argument("file", metavar="FILE")
    word.add_argument("--again", action="store_true",
                      help="put what was entered after the backup back into the inbox")


def carry_night(asked: argparse.Namespace) -> int:
    return night.night(Asked(
        find_program(asked.program), asked.home, asked.day, meant_of(asked), asked.wait,
        asked.calls, asked.reissue, asked.keep))


def add_night(words: Words) -> None:
    word = words.add(
        "night", "a whole night as one call",
        "In the folder HOME: a backup of HOME/rows.db, the roll to DAY, all files of HOME/inbox\n"
        "in the order of their names, the bills that are due, their statements and the open tasks\n"
        "in HOME/statements/DAY, the day's close in HOME/books, a backup in HOME/backups, and a\n"
        "report in HOME/reports. A file that a guard refuses goes to HOME/refused/DAY with its\n"
        "cause, and the bills wait for the next call while they may; the others go to\n"
        "HOME/done/DAY with their replies. It may be stopped anywhere and called again; a second\n"
        "call after a night with nothing left changes nothing. A ledger whose first rows aren't\n"
        "those that the last report sealed is refused. Prints the path of the report. Status 1:\n"
        "something was refused, or a deadline is past.", carry_night, wait=60, place="home",
        program=True)
    word.add_argument("--day", type=day, default=None, metavar="DAY",
                      help="the day to roll to; else today's by the clock")
    add_meant(word)
    word.add_argument("--reissue", action="store_true",
                      help="bills whose statement was printed before with other numbers are meant")
    word.add_argument("--keep", type=keep, default=None, metavar="14d,8w,24m",
                      help="remove other backups than the last one of so many days, weeks, months")
    word.add_argument("--calls", action="store_true",
                      help="no server: a call for each input, statement and account")


def add(words: Words) -> None:
    add_files(words)
    add_night(words)
