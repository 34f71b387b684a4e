"""`tomorrow`: what the next night would do, gone through on a copy of the home."""

import contextlib
import io
import os
import shutil
import tempfile
from datetime import date, timedelta

from companion.files import names_in, read_text
from companion.home import INBOX, LEDGER, require_home
from companion.night import night
from companion.opening import copy_pair, held
from companion.run import Meant
from companion.state import read_state
from companion.under_way import Asked
from companion.waiting import inbox_of

# What a night reads of a home beside the ledger and the inbox.
SMALL = ("settings.toml",)
FOLDERS = ("columns", "books", "reports")


def copy_home(home: str, to: str, day: date, inbox: bool, wait: int) -> None:
    """A copy of what a night needs. Statements that were printed are linked."""
    with held(os.path.join(home, LEDGER), wait) as real:
        copy_pair(real, os.path.join(to, LEDGER))
    os.mkdir(os.path.join(to, INBOX))
    for name in inbox_of(home, day) if inbox else []:
        shutil.copyfile(os.path.join(home, INBOX, name), os.path.join(to, INBOX, name))
    for name in SMALL:
        if os.path.exists(os.path.join(home, name)):
            shutil.copyfile(os.path.join(home, name), os.path.join(to, name))
    for name in FOLDERS:
        if os.path.isdir(os.path.join(home, name)):
            shutil.copytree(os.path.join(home, name), os.path.join(to, name))
    printed = os.path.join(home, "statements")
    os.mkdir(os.path.join(to, "statements"))
    for name in names_in(printed):
        if name == str(day):
            shutil.copytree(os.path.join(printed, name), os.path.join(to, "statements", name))
        else:
            os.symlink(os.path.abspath(os.path.join(printed, name)),
                       os.path.join(to, "statements", name))


def tomorrow(program: str, home: str, day: date | None, inbox: bool, meant: Meant,
             wait: int) -> int:
    """The word `tomorrow`: the report that the night of a day would end with."""
    require_home(home)
    if day is None:
        day = read_state(os.path.join(home, LEDGER), wait).today + timedelta(days=1)
    with tempfile.TemporaryDirectory(prefix="ledger-") as room:
        copy_home(home, room, day, inbox, wait)
        told = io.StringIO()
        with contextlib.redirect_stdout(told):
            status = night(Asked(program, room, day, meant, wait))
        if told.getvalue():
            print(read_text(told.getvalue().strip()), end="")
        for name in names_in(os.path.join(room, "done", str(day))):
            if name.endswith(".replies"):
                print(f"replies to {name[:-len('.replies')]}:")
                print(read_text(os.path.join(room, "done", str(day), name)), end="")
    return status
