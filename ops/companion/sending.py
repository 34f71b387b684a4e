"""The words by which something goes in, or comes out in files."""

import argparse
import sys

from companion import statements
from companion.convert import convert
from companion.move import move
from companion.pages import FORMS, Files, Wanted, pages
from companion.program import find_program
from companion.run import Meant, run
from companion.trouble import WORDS, Trouble
from companion.words import Words, day


def add_meant(word: argparse.ArgumentParser) -> None:
    """What may be meant, and is refused without being said."""
    word.add_argument("--far", action="store_true", help="a roll of more than 7 days is meant")
    word.add_argument("--late", action="store_true",
                      help="records that lie in a billed cycle are meant")
    word.add_argument("--dated-back", action="store_true",
                      help="notices of a day before yesterday are meant")


def meant_of(asked: argparse.Namespace) -> Meant:
    return Meant(asked.far, asked.late, asked.dated_back)


def carry_run(asked: argparse.Namespace) -> int:
    data = sys.stdin.buffer.read()
    return run(find_program(asked.program), asked.file, data, asked.new, meant_of(asked),
               asked.wait)


def add_run(words: Words) -> None:
    way = words.add(
        "run", "the safe way in",
        "Sends request lines, or CSV records with their header, from standard input to FILE by\n"
        "billctl's apply or import. Nothing is sent, with status 10, where the input is empty,\n"
        "its last line has no line feed, the header of CSV isn't exact, a roll goes more than 7\n"
        "days, a record lies in a billed cycle, a notice is of a day before yesterday, or FILE\n"
        "isn't there. Replies go to standard output; of each `no` and `bad` standard error says\n"
        "the line or record, the field and the reason. A post that was accepted before, a roll\n"
        "to today, and a holiday or fee row that is kept already are repeats, and no failure.\n"
        "With a ninth column `of`, the key of a post, records may also be of the kinds return,\n"
        "dispute, ack, resolve and amend.", carry_run, program=True)
    way.add_argument("--new", action="store_true", help="FILE isn't there: begin a new ledger")
    add_meant(way)


def carry_convert(asked: argparse.Namespace) -> int:
    return convert(asked.columns, sys.stdin.buffer.read(), asked.day, asked.ledger, asked.wait,
                   asked.late, asked.notes)


def add_convert(words: Words) -> None:
    way = words.add(
        "convert", "from a sheet's own columns to records",
        "Reads a sheet from standard input, with the columns that COLUMNS.toml describes, and\n"
        "prints the ledger's records for `run`, with control sums by kind on standard error.\n"
        "Where anything isn't understood, nothing is printed but a table of it, with status 1;\n"
        "where a day or the total isn't as the description wants it, status 10.\n"
        "examples/sheet/columns.toml of the repository shows all that a description may say.",
        carry_convert, place=None)
    way.add_argument("columns", metavar="COLUMNS.toml")
    way.add_argument("--day", type=day, default=None, metavar="DAY",
                     help="newest_days and oldest_days count from it; else today's by the clock")
    way.add_argument("--ledger", default=None, metavar="FILE",
                     help="refuse records that lie in a billed cycle of this ledger")
    way.add_argument("--late", action="store_true", help="such records are meant")
    way.add_argument("--notes", default=None, metavar="NOTES.csv",
                     help="add account, key and text of each booking, by `note` of the description")


def add_move(words: Words) -> None:
    way = words.add(
        "move", "accounts of another system as request lines",
        "Reads accounts.csv, and where they are there plans.csv and disputes.csv, of FOLDER, and\n"
        "prints the lines that open these accounts on DAY with their balances, for `run`.\n"
        "Standard error has the control sums, to be held against the other system's.\n"
        "docs/MOVING.md of the repository says what is lost by it, and in whose favour.",
        lambda asked: move(asked.folder, asked.day), wait=None, place=None)
    way.add_argument("folder", metavar="FOLDER")
    way.add_argument("day", metavar="DAY", type=day)


def carry_statements(asked: argparse.Namespace) -> int:
    program, files = find_program(asked.program), Files(asked.issuer, asked.names, asked.notes)
    if asked.form:
        if asked.calls:
            raise Trouble("--calls is for statements without --form", WORDS)
        return pages(program, asked.file, asked.day, asked.folder, Wanted(asked.form, files),
                     asked.wait)
    if files.words():
        raise Trouble("--issuer, --names and --notes are for --form json, html or pdf", WORDS)
    return statements.statements(program, asked.file, asked.day, asked.folder, asked.wait,
                                 asked.calls)


def add_statements(words: Words) -> None:
    way = words.add(
        "statements", "the statements of a day, in files",
        "Writes each statement that was issued on DAY to DIR/ACCOUNT-CYCLE.txt, and the open\n"
        "tasks of today to DIR/work.txt. One server on loopback answers for them, or a call for\n"
        "each where they are few.\n"
        "With --form the independent model writes them in these forms, from one reading of the\n"
        "rows, with DIR/manifest.csv: each number is held against billctl's before. The files of\n"
        "the issuer are described in docs/PAGES.md. PDF needs Chromium.",
        carry_statements, program=True)
    way.add_argument("day", metavar="DAY", type=day)
    way.add_argument("folder", metavar="DIR")
    way.add_argument("--calls", action="store_true", help="no server: a call each")
    way.add_argument("--form", choices=FORMS, action="append", default=[],
                     help="may be given more than once")
    way.add_argument("--issuer", metavar="ISSUER.toml", help="the issuer's name and texts")
    way.add_argument("--names", metavar="NAMES.csv", help="names and addresses by account")
    way.add_argument("--notes", metavar="NOTES.csv", help="what a post was, by account and key")


def add(words: Words) -> None:
    add_run(words)
    add_convert(words)
    add_move(words)
    add_statements(words)
