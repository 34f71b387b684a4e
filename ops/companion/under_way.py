"""A night as it goes on: its lock, what is asked of it, and what was told of it so far."""

import contextlib
import fcntl
import os
import re
from collections.abc import Iterator
from dataclasses import dataclass, field
from datetime import date

from companion.backups import Keep
from companion.files import read_text
from companion.hand import Hand
from companion.home import LEDGER, Sealed
from companion.inputs import Input
from companion.pages import Wanted
from companion.report import accepted_line
from companion.run import Meant
from companion.seals import Seal
from companion.state import State
from companion.trouble import LOCKED, Trouble, counted, say
from companion.waiting import Waiting

LOCK = "night.lock"

# The line of a file of which something was refused, and of one of which all was.
SOME_REFUSED = re.compile("inbox .*, [1-9][0-9]* refused")
ALL_REFUSED = re.compile("inbox ([^:]*): .*; it is in refused/.*")


@contextlib.contextmanager
def locked(home: str) -> Iterator[None]:
    """Keeps a second night from the folder.

    A lock that a night left which was killed is no lock: the system gave it back.
    """
    path = os.path.join(home, LOCK)
    with open(path, "a+", encoding="ascii") as file:
        file.seek(0)
        before = file.read().strip()
        try:
            fcntl.flock(file, fcntl.LOCK_EX | fcntl.LOCK_NB)
        except OSError:
            raise Trouble(f"another night is under way in {home}: process {before or '?'}",
                          LOCKED) from None
        if before:
            say(f"night: the night of process {before} didn't end; this one continues it")
        file.truncate(0)
        try:
            file.write(f"{os.getpid()}\n")
            file.flush()
            yield
        finally:
            empty(file.fileno())


def empty(handle: int) -> None:
    """Empties the lock on every way out."""
    with contextlib.suppress(OSError):
        os.ftruncate(handle, 0)


@dataclass(frozen=True)
class Asked:
    """What the operator asks of a night."""

    program: str
    home: str
    day: date
    meant: Meant = Meant()
    wait: int = 0
    calls: bool = False
    reissue: bool = False
    keep: Keep | None = None
    pages: Wanted | None = None


@dataclass
class Night:
    """One night: where, of which day, what the ledger has so far, and what was told of it.

    `missing` names the files of the inbox whose records aren't in the ledger, or not all of them.
    """

    asked: Asked
    hand: Hand
    before: Sealed | None = None
    start: Seal | None = None
    waiting: list[Waiting] = field(default_factory=list)
    missing: list[str] = field(default_factory=list)
    found: bool = False

    @property
    def home(self) -> str:
        return self.asked.home

    @property
    def day(self) -> date:
        return self.asked.day

    @property
    def state(self) -> State:
        return self.hand.state

    def path(self, *names: str) -> str:
        return os.path.join(self.home, *names)

    @property
    def ledger(self) -> str:
        return self.path(LEDGER)

    @property
    def part(self) -> str:
        return self.path("reports", f"{self.day}.part")

    def tell(self, text: str) -> None:
        """A line of the report: on standard error at once, and kept in case of a stop."""
        say(text)
        with open(self.part, "a", encoding="utf-8") as file:
            file.write(text + "\n")

    def go_on(self) -> None:
        """Takes up what was refused before a stop, by what was told until then."""
        for line in read_text(self.part).splitlines() if os.path.exists(self.part) else []:
            whole = ALL_REFUSED.fullmatch(line)
            if whole:
                self.missing.append(whole.group(1))
            self.found = self.found or bool(whole or SOME_REFUSED.fullmatch(line))

    def reports(self) -> list[str]:
        """The reports of this day's nights that ended, the last one behind."""
        found: list[str] = []
        while os.path.exists(self.path("reports", self.report_name(len(found) + 1))):
            found.append(self.path("reports", self.report_name(len(found) + 1)))
        return found

    def report_name(self, number: int) -> str:
        return f"{self.day}.txt" if number == 1 else f"{self.day}-{number}.txt"

    def send(self, given: Input, name: str) -> list[str]:
        """Sends what passed the guards. Gives the replies, with the refusals told."""
        sent = self.hand.send(given, name)
        self.found = self.found or bool(sent.refused)
        if name in ("roll", "bills"):
            for text in sent.refused:
                self.tell(f"  {text}")
            return sent.replies
        self.tell(f"inbox {name}: {given.count()}, {counted(sent.new, 'new row')}, "
                  f"{len(sent.refused)} refused")
        for text in sent.refused:
            self.tell(f"  {text}")
        line = accepted_line(given, sent.replies)
        if line:
            self.tell(f"  {line}")
        return sent.replies + sent.refused
