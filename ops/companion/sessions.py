"""How lines reach billctl: a call for each input, one pipe, or one server; the replies agree."""

import subprocess
from typing import Protocol, TextIO

from companion.inputs import Input
from companion.program import call, feed, start
from companion.server import Ended, NoServer, Server
from companion.trouble import DONE, FOUND

# So many lines are written before their replies are read: neither pipe can fill.
CHUNK = 256


class Cut(Exception):
    """billctl ended before all lines were answered: its status, and the replies up to there."""

    def __init__(self, status: int, replies: list[str]) -> None:
        super().__init__(status)
        self.status = status
        self.replies = replies


class Session(Protocol):
    """Takes inputs in order. `send` gives a reply for each item; `end` lets the file go."""

    def send(self, given: Input) -> list[str]: ...

    def end(self) -> None: ...


def feed_input(program: str, path: str, given: Input,
               out: TextIO | None = None) -> tuple[int, list[str]]:
    """Sends an input by one call, as it is. One with posts by their keys goes as lines.

    Gives the status and the replies, which also go to `out`.
    """
    if not given.keyed:
        return feed(program, path, given.word, given.data, len(given), out)
    data = "".join(line + "\n" for line in given.good_lines()).encode()
    status, replies = feed(program, path, "apply", data, len(given))
    merged = given.merged(replies)
    if out is not None:
        out.write("".join(reply + "\n" for reply in merged))
        out.flush()
    if status == DONE and len(given.good_lines()) < len(given):
        status = FOUND
    return status, merged


class Calls:
    """A call of billctl for each input. Each call loads all rows."""

    def __init__(self, program: str, path: str) -> None:
        self.program = program
        self.path = path

    def send(self, given: Input) -> list[str]:
        status, replies = feed_input(self.program, self.path, given)
        if status not in (DONE, FOUND):
            raise Cut(status, replies)
        return replies

    def end(self) -> None:
        """Nothing is open between two calls."""


class Pipe:
    """One `apply` whose input stays open: one load, and one commit for many lines."""

    def __init__(self, program: str, path: str) -> None:
        self.running = start([program, path, "apply"], stdin=subprocess.PIPE,
                             stdout=subprocess.PIPE)
        self.is_cut = False

    def send(self, given: Input) -> list[str]:
        lines = given.good_lines()
        replies: list[str] = []
        for place in range(0, len(lines), CHUNK):
            chunk = lines[place:place + CHUNK]
            replies += self.chunk(chunk, replies, given)
        return given.merged(replies)

    def chunk(self, lines: list[str], before: list[str], given: Input) -> list[str]:
        """The replies to some lines. Raises Cut where billctl ends first."""
        assert self.running.stdin is not None and self.running.stdout is not None
        replies: list[str] = []
        try:
            self.running.stdin.write("".join(line + "\n" for line in lines).encode())
            self.running.stdin.flush()
        except BrokenPipeError:
            pass
        for _ in lines:
            reply = self.running.stdout.readline()
            if not reply.endswith(b"\n"):
                self.is_cut = True
                raise Cut(self.close(), given.merged(before + replies))
            replies.append(reply[:-1].decode("ascii", "replace"))
        return replies

    def close(self) -> int:
        """Ends the input, and waits. Gives billctl's status."""
        assert self.running.stdin is not None and self.running.stdout is not None
        try:
            self.running.stdin.close()
        except BrokenPipeError:
            pass
        self.running.stdout.read()
        self.running.stdout.close()
        return self.running.wait()

    def end(self) -> None:
        if self.is_cut:
            return
        status = self.close()
        if status not in (DONE, FOUND):
            raise Cut(status, [])


class Served:
    """One server: one load, a commit for each line, and all questions answered beside them."""

    def __init__(self, server: Server) -> None:
        self.server = server

    def send(self, given: Input) -> list[str]:
        replies: list[str] = []
        try:
            for line in given.good_lines():
                replies.append(self.server.reply(line))
        except Ended as ended:
            raise Cut(ended.status, given.merged(replies)) from None
        except NoServer:
            status = self.server.running.poll() if self.server.running else None
            raise Cut(status if status else -9, given.merged(replies)) from None
        return given.merged(replies)

    def end(self) -> None:
        self.server.end()


def text_by_call(program: str, path: str, *words: str) -> tuple[int, str]:
    """What a command prints, by a call of its own."""
    status, text = call(program, path, *words)
    return status, text.decode("ascii", "replace")
