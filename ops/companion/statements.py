"""`statements`: the statements that were issued on a day, in files, and the open tasks beside them.

Each call of billctl loads all rows, so from a few statements on one server on loopback is faster.
"""

import os
from collections.abc import Callable, Iterator
from datetime import date

from companion.files import make_folder, put_text, read_text
from companion.program import call
from companion.server import Ended, NoServer, Server, ended_early
from companion.state import read_state
from companion.trouble import DONE, OWN_FILES, Progress, Trouble, counted, say

# From so many statements on a server is asked.
MANY = 3
TASKS = "work.txt"

# An account and a cycle.
Which = tuple[str, int]


def file_name(account: str, cycle: int) -> str:
    return f"{account}-{cycle}.txt"


class Asker:
    """Answers questions by a server, where one can be had, else by a call each."""

    def __init__(self, program: str, path: str, server: Server | None) -> None:
        self.program = program
        self.path = path
        self.server = server

    def ask(self, served: Callable[[Server], str | None], *words: str) -> str | None:
        """What the server answers; where there is none, what a call prints."""
        if self.server is not None:
            try:
                return served(self.server)
            except NoServer:
                say("statements: the server gave no answer; the rest by a call each")
                self.server.end()
                self.server = None
            except Ended as ended:
                self.server.end()
                raise ended_early(ended.status, self.path) from None
        status, text = call(self.program, self.path, *words)
        if status == 1:
            return None
        if status != DONE:
            raise ended_early(status, self.path)
        return text.decode("ascii")

    def statement(self, account: str, cycle: int) -> str:
        found = self.ask(lambda server: server.statement(account, cycle),
                         "statement", account, str(cycle))
        return found or ""

    def restated(self, account: str, cycle: int) -> str | None:
        return self.ask(lambda server: server.restated(account, cycle),
                        "restate", account, str(cycle))

    def entries(self, account: str) -> str:
        return self.ask(lambda server: server.entries(account), "export", account) or ""

    def tasks(self) -> str:
        return self.ask(lambda server: server.tasks(), "work") or ""


def by_calls(program: str, path: str, wanted: list[Which]) -> Iterator[tuple[Which, str]]:
    """Each statement by a call."""
    progress = Progress("statements", len(wanted))
    for place, (account, cycle) in enumerate(wanted):
        status, text = call(program, path, "statement", account, str(cycle))
        if status != DONE:
            raise ended_early(status, path)
        progress.at(place + 1)
        yield (account, cycle), text.decode("ascii")


def by_server(program: str, path: str, wanted: list[Which]) -> Iterator[tuple[Which, str]]:
    """Each statement over one server."""
    progress = Progress("statements", len(wanted))
    with Server(program, path, len(wanted) + 1) as server:
        for place, (account, cycle) in enumerate(wanted):
            try:
                text = server.statement(account, cycle)
            except Ended as ended:
                server.end()
                raise ended_early(ended.status, path) from None
            if text is None:
                raise NoServer
            progress.at(place + 1)
            yield (account, cycle), text


def texts_of(program: str, path: str, wanted: list[Which],
             calls: bool) -> Iterator[tuple[Which, str]]:
    """The text of each statement that is wanted."""
    left = list(wanted)
    if len(left) >= MANY and not calls:
        try:
            for which, text in by_server(program, path, wanted):
                left.remove(which)
                yield which, text
        except NoServer:
            say(f"statements: the server gave no answer; {len(left)} by a call each")
    yield from by_calls(program, path, left)


def keep_text(folder: str, name: str, text: str, reissue: bool = False) -> bool:
    """Writes a statement. Where the same one is there already it stays. Says whether it is new.

    Another text is refused, or with `reissue` written under a name of its own beside it.
    """
    path = os.path.join(folder, name)
    if os.path.exists(path):
        if read_text(path) == text:
            return False
        if not reissue:
            raise Trouble(f"{path} is there already with another text: it was printed from rows "
                          "that are gone, or changed since. Keep it, and compare it with what "
                          "`statement` prints; another folder takes the new one", OWN_FILES)
        return keep_text(folder, name[:-len(".txt")] + ".reissued.txt", text)
    put_text(path, text)
    return True


def put_statements(program: str, path: str, wanted: list[Which], folder: str,
                   calls: bool = False) -> int:
    """Writes the statements that are wanted. Gives how many of them are new."""
    make_folder(folder)
    return sum(keep_text(folder, file_name(*which), text)
               for which, text in texts_of(program, path, wanted, calls))


def put_tasks(folder: str, text: str) -> list[str]:
    """Writes the open tasks of today beside the statements, and gives their lines."""
    put_text(os.path.join(folder, TASKS), text)
    return text.splitlines()


def statements(program: str, path: str, day: date, folder: str, wait: int = 0,
               calls: bool = False) -> int:
    """The word `statements`. Prints the path of each file."""
    wanted = read_state(path, wait).issued_on(day)
    new = put_statements(program, path, wanted, folder, calls)
    for which in wanted:
        print(os.path.join(folder, file_name(*which)))
    tasks = len(put_tasks(folder, Asker(program, path, None).tasks()))
    say(f"statements: {len(wanted)} issued on {day}, {new} of them new in {folder}; "
        f"{counted(tasks, 'open task')} in {TASKS}")
    return DONE
