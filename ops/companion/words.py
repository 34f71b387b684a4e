"""The words of `ops/ledger`, with their help."""

import argparse
import os
import sys
from collections.abc import Callable
from datetime import date

from companion import VERSION
from companion.backups import Keep, keep_of
from companion.days import day_of
from companion.program import ask_of
from companion.requests import NUMBER
from companion.rights import cause_of
from companion.server import Ended, NoServer
from companion.trouble import OWN_FILES, Trouble, say

PROGRAM = "ledger"
HASH_DIGITS = 64

ABOUT = """Looks at a ledger's file, sends lines and records past guards, and goes through a night.

FILE is the SQLite file that billctl keeps its rows in, and HOME the folder of a night, which has it
as rows.db. It is written through billctl alone; a look leaves it and its log as they are. What is
asked for goes to standard output, what is said of it to standard error."""

STATUSES = """exit statuses:
  0   done; for run: nothing was refused but what was carried out before
  1   something was refused or isn't as it should be; standard error says what
  2   these words are no command
  3-9 billctl's own, of a call that the word made (billctl(1)); 5: FILE can't be opened, and the
      cause is named; 8: a row of it is damaged
  10  refused before anything was sent or changed
  11  another night is under way
  12  a file of the companion's own, or billctl itself, can't be read, written or run
  141 the reader of standard output went away"""

Does = Callable[[argparse.Namespace], int]


def day(text: str) -> date:
    found = day_of(text)
    if found is None:
        raise argparse.ArgumentTypeError(
            f"{text!r} is no day YYYY-MM-DD from 2011-01-01 to 2099-12-31")
    return found


def count(text: str) -> int:
    if NUMBER.fullmatch(text) is None:
        raise argparse.ArgumentTypeError(f"{text!r} is no number")
    return int(text)


def keep(text: str) -> Keep:
    found = keep_of(text)
    if found is None:
        raise argparse.ArgumentTypeError(
            f"{text!r} isn't as 14d,8w,24m: days, weeks and months whose last backup is kept")
    return found


def hash_of(text: str) -> str:
    if len(text) != HASH_DIGITS or any(digit not in "0123456789abcdefABCDEF" for digit in text):
        raise argparse.ArgumentTypeError(
            f"{text!r} is no hash of {HASH_DIGITS} hexadecimal digits")
    return text


class Words:
    """The parser, to which each word is added with its help and what it does."""

    def __init__(self) -> None:
        form = argparse.RawDescriptionHelpFormatter
        self.parser = argparse.ArgumentParser(prog=PROGRAM, description=ABOUT, epilog=STATUSES,
                                              formatter_class=form)
        self.parser.add_argument("--version", action="version", version=f"{PROGRAM} {VERSION}")
        self.words = self.parser.add_subparsers(dest="word", metavar="WORD", required=True)

    def add(self, name: str, short: str, about: str, does: Does, wait: int | None = 5,
            place: str | None = "file", program: bool = False) -> argparse.ArgumentParser:
        """A word with its help. `place` is what it takes first: a file, a home, or nothing."""
        form = argparse.RawDescriptionHelpFormatter
        word = self.words.add_parser(name, help=short, description=about, epilog=STATUSES,
                                     formatter_class=form)
        word.set_defaults(does=does)
        if place == "file":
            word.add_argument("file", metavar="FILE", help="the ledger's file")
        if place == "home":
            word.add_argument("home", metavar="HOME", help="the folder of a night")
        if program:
            word.add_argument("--program", help="billctl; else BILLCTL, or the one that is "
                              "installed or built beside this companion")
        if wait is not None:
            word.add_argument("--wait", type=count, default=wait, metavar="SECONDS",
                              help=f"wait so long for a file in use ({wait})")
        return word


def parsed(args: list[str]) -> argparse.Namespace:
    from companion import keeping, looking, sending
    words = Words()
    looking.add(words)
    sending.add(words)
    keeping.add(words)
    asked = words.parser.parse_args(args)
    if asked.word in ("night", "convert") and asked.day is None:
        asked.day = date.today()
    if asked.word == "seal" and asked.since:
        try:
            asked.since = (count(asked.since[0]), hash_of(asked.since[1]))
        except argparse.ArgumentTypeError as error:
            words.parser.error(str(error))
    return asked


def carried_out(asked: argparse.Namespace) -> int:
    """Carries out a word. Gives the exit status."""
    try:
        status: int = asked.does(asked)
        sys.stdout.flush()
        return status
    except NoServer:
        raise Trouble("billctl's server on loopback gave no answer; call again",
                      OWN_FILES) from None
    except Ended as ended:
        raise Trouble(f"billctl ended with {ended.status}: {ask_of(ended.status)}",
                      ended.status if ended.status > 0 else OWN_FILES) from None


def main(args: list[str]) -> int:
    """Carries out the word. Gives the exit status."""
    asked = parsed(args)
    try:
        return carried_out(asked)
    except Trouble as trouble:
        say(f"{asked.word}: {trouble.message}")
        return trouble.status
    except BrokenPipeError:
        os.dup2(os.open(os.devnull, os.O_WRONLY), sys.stdout.fileno())
        return 141
    except OSError as error:
        say(f"{asked.word}: {error.filename or 'a file'}: {cause_of(error)}")
        return OWN_FILES
    except KeyboardInterrupt:
        say(f"{asked.word}: stopped")
        return 130
