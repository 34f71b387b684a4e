"""Writes the statements of a day as files: as data, as pages, or as their exact text.

    python3 -m audit statements FILE DAY DIR [--form text|json|html|pdf]...
                                [--issuer ISSUER.toml] [--names NAMES.csv] [--notes NOTES.csv]

Each statement that was issued on DAY becomes DIR/ACCOUNT-CYCLE.FORM, and DIR/manifest.csv names all
files with their bytes, SHA-256 and amounts.  All numbers are the independent model's.  Before a
statement is written, the program is asked for its text, its repayment and the account's entries,
and every number of them is one of the statement's.  FILE is copied and never written.  A call that
was stopped may be made again: what is there already stays.

Standard output has the path of each file, standard error what lacks and what was done.  Status 0:
all files are there.  1: a number isn't the program's, or a file is there with other bytes.  2: the
file, the program or a file of the issuer can't be used, and why.
"""

import argparse
import ctypes
import multiprocessing
import os
import shutil
import signal
import sys
from collections.abc import Iterator
from contextlib import ExitStack, suppress
from pathlib import Path

from ..commands import Damaged
from ..days import day_of
from ..ledger_file import Unreadable, copied, rows_of
from ..lines import read_day
from ..program import Failed
from .browser import Browser
from .data import data_of, json_text
from .files import Manifest, Taken, manifest_path, put, sync
from .held import Held, Parted, text_of
from .issued import Data, Wanted, bills_of, wanted_on
from .issuer import Issuer, WrongFile, read_issuer
from .lacking import Lacking, with_names
from .page import page_of

BUILT = Path(__file__).resolve().parents[2] / "crates" / "billctl" / "out" / "billctl"
FORMS = ("text", "json", "html", "pdf")
ENDS = {"text": "txt", "json": "json", "html": "html", "pdf": "pdf"}
FEW = 4  # accounts that one process makes alone
SAID_EACH = 200  # accounts, after which it says how far it is
PR_SET_PDEATHSIG = 1  # Linux's option of prctl for a signal when the parent is gone


def parser() -> argparse.ArgumentParser:
    form = argparse.RawDescriptionHelpFormatter
    found = argparse.ArgumentParser(prog="python3 -m audit statements", description=__doc__,
                                    formatter_class=form)
    found.add_argument("file", metavar="FILE", help="the ledger's SQLite file")
    found.add_argument("day", metavar="DAY", help="the day on which the statements were issued")
    found.add_argument("folder", metavar="DIR", help="made where it isn't there")
    found.add_argument("--form", choices=FORMS, action="append",
                       help="may be given more than once; json where it isn't")
    found.add_argument("--issuer", metavar="ISSUER.toml", help="name, addresses and texts")
    found.add_argument("--names", metavar="NAMES.csv", help="names and addresses by account")
    found.add_argument("--notes", metavar="NOTES.csv", help="what a post was, by account and key")
    found.add_argument("--jobs", type=int, metavar="N", default=os.cpu_count() or 1,
                       help="processes at once, as many as processors where it isn't given")
    found.add_argument("--program", metavar="billctl", help="the program; otherwise the one that "
                       "is built in this repository, or the one on the PATH")
    return found


def made(given: tuple[Wanted, str]) -> list[Data]:
    """An account's statements of the day, each held against the program."""
    wanted, program = given
    held, found = Held(program, wanted.rows), []
    for bill in bills_of(wanted):
        data = data_of(bill)
        held.hold(data)
        found.append(data)
    return found


def end_with_caller() -> None:
    """Has the system end this process when the one that started it is gone."""
    with suppress(OSError, AttributeError):
        ctypes.CDLL(None).prctl(PR_SET_PDEATHSIG, int(signal.SIGKILL))


def all_made(file: str, day: int, program: str, jobs: int) -> Iterator[Data]:
    """The statements of the day, in the order of their accounts' first bills."""
    with copied(file) as copy:
        kept = rows_of(copy)
    wanted = [(one, program) for one in wanted_on(kept, day)]
    del kept
    if len(wanted) <= FEW or jobs <= 1:
        for one in wanted:
            yield from made(one)
        return
    with multiprocessing.get_context("fork").Pool(min(jobs, len(wanted)), end_with_caller) as pool:
        for count, found in enumerate(pool.imap(made, wanted), start=1):
            if count % SAID_EACH == 0:
                say(f"{count} of {len(wanted)}")
            yield from found


class Writer:
    """Writes each statement in the forms that are asked for."""

    def __init__(self, folder: Path, forms: list[str], issuer: Issuer,
                 browser: Browser | None) -> None:
        self.folder, self.forms, self.issuer, self.browser = folder, forms, issuer, browser
        self.manifest, self.lacking, self.new = Manifest(), Lacking(), 0

    def content(self, form: str, data: Data) -> bytes:
        if form == "text":
            return text_of(data).encode()
        if form == "json":
            return json_text(data).encode()
        page = page_of(data, self.issuer)
        if form == "html" or self.browser is None:
            return page.encode()
        return self.browser.pdf(page, data["issued"])

    def take(self, data: Data) -> None:
        data = with_names(data, self.issuer)
        self.lacking.take(data)
        self.manifest.statement(data)
        for form in self.forms:
            name = f"{data['account']}-{data['cycle']}.{ENDS[form]}"
            content = self.content(form, data)
            self.new += put(self.folder / name, content)
            self.manifest.file(data, name, content)
            print(self.folder / name)

    def end(self) -> None:
        text = self.manifest.text()
        path = manifest_path(self.folder, text)
        self.new += put(path, text.encode())
        sync(self.folder)
        print(path)


def say(text: str) -> None:
    print(f"statements: {text}", file=sys.stderr, flush=True)


def written(given: argparse.Namespace, program: str) -> None:
    """Makes and writes all that is asked for."""
    issuer = read_issuer(given.issuer, given.names, given.notes)
    forms = list(dict.fromkeys(given.form or ["json"]))
    folder = Path(given.folder)
    with ExitStack() as stack:
        found = all_made(given.file, day_of(given.day), program, given.jobs)
        first = next(found, None)  # what can't be read is refused before the folder is made
        browser = stack.enter_context(Browser()) if "pdf" in forms else None
        folder.mkdir(mode=0o700, parents=True, exist_ok=True)
        writer = Writer(folder, forms, issuer, browser)
        if first is not None:
            writer.take(first)
        for data in found:
            writer.take(data)
        writer.end()
    if {"html", "pdf"} & set(forms):
        for line in writer.lacking.lines(issuer):
            say(line)
    say(f"{writer.manifest.statements} issued on {given.day}, {writer.new} new files in {folder}")


def main(words: list[str]) -> int:
    given = parser().parse_args(words)
    program = given.program or (str(BUILT) if BUILT.exists() else shutil.which("billctl"))
    try:
        if read_day(given.day.encode()) is None:
            raise Failed(f"{given.day!r} is no day YYYY-MM-DD from 2011-01-01 to 2099-12-31")
        if program is None:
            raise Failed("there is no program: build it, or name one with --program")
        written(given, program)
    except (Parted, Taken) as why:
        say(f"different: {why}" if isinstance(why, Parted) else str(why))
        return 1
    except Damaged as damaged:
        say(f"row {damaged.row} is damaged; nothing is written")
        return 2
    except (Failed, Unreadable, WrongFile) as why:
        say(str(why))
        return 2
    except OSError as error:
        say(f"{error.filename or 'a file'}: {error.strerror}")
        return 2
    return 0
