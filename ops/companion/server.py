"""A billctl that answers on loopback: one load of the rows, and then any number of questions."""

import json
import socket
import subprocess
import time
from dataclasses import dataclass
from types import TracebackType
from typing import Any

from companion.opening import require_openable
from companion.program import ask_of, ends_with_caller, start
from companion.requests import SHARED, WORDS, form_of, members_of
from companion.trouble import DONE, OWN_FILES, Trouble

PORTS_TRIED = 3
PORT_TAKEN = 7
SECONDS = 30
PAUSE = 0.02
PIECE = 65536

# A server takes so many connections at most; one with so many left is ended by using them up.
MOST = 1_000_000
FEW = 20_000

KEEPER = 503
MEMORY = 507
# What billctl ends with where a row can't be kept, and where memory is missing.
ENDS = {KEEPER: 5, MEMORY: 6}


class NoServer(Exception):
    """The server ended or gave no answer."""


class Ended(Exception):
    """billctl can't go on: its exit status, or the one that an answer stands for."""

    def __init__(self, status: int) -> None:
        super().__init__(status)
        self.status = status


@dataclass(frozen=True)
class Answer:
    """What a server answered: the status and the body."""

    status: int
    text: str


def ended_early(status: int, path: str) -> Trouble:
    """Why billctl told nothing, and what that asks."""
    require_openable(path)
    return Trouble(f"billctl ended with {status}: {ask_of(status)}",
                   status if status > 0 else OWN_FILES)


def free_port() -> int:
    with socket.create_server(("127.0.0.1", 0)) as taken:
        port: int = taken.getsockname()[1]
    return port


def read_answer(data: bytes) -> Answer:
    """The answer in the bytes that a connection gave until its end."""
    head, mark, body = data.partition(b"\r\n\r\n")
    parts = head.split(b" ", 2)
    if not mark or len(parts) < 2 or not parts[1].isdigit():
        raise NoServer
    return Answer(int(parts[1]), body.decode("ascii", "replace"))


def body_of(line: str) -> bytes:
    """A well-formed request line as the JSON of `POST /posts`."""
    word, *parts = line.split(" ")
    fields: dict[str, Any] = {"kind": word}
    for member, text in zip(members_of(word), parts):
        fields[member] = int(text) if form_of(member) == "number" else text
    return json.dumps(fields).encode()


def reply_of(line: str, answer: Answer) -> str:
    """The reply to a line, as `apply` writes it, by the answer to its request."""
    word = line.split(" ", 1)[0]
    if word == "show":
        return answer.text.rstrip("\n") if answer.status == 200 else "no 1 UnknownAccount"
    if answer.status in ENDS:
        raise Ended(ENDS[answer.status])
    try:
        told = json.loads(answer.text)
    except ValueError:
        raise NoServer from None
    if answer.status == 200:
        return "ok" if word in SHARED else f"ok {told['ok']}"
    if answer.status != 409:
        raise NoServer
    value = f" {told['value']}" if "value" in told else ""
    return f"no {told['no']} {told['name']}{value}"


class Server:
    """One server over a file. It is started by the first question, and ended by `end`."""

    def __init__(self, program: str, path: str, count: int = MOST) -> None:
        self.program = program
        self.path = path
        self.count = max(1, min(count, MOST))
        self.left = 0
        self.port = 0
        self.running: subprocess.Popen[bytes] | None = None

    def __enter__(self) -> "Server":
        return self

    def __exit__(self, kind: type[BaseException] | None, error: BaseException | None,
                 trace: TracebackType | None) -> None:
        self.end()

    def begin(self) -> None:
        """Starts it and waits until it has loaded the rows. Raises Trouble where it can't."""
        for _ in range(PORTS_TRIED):
            self.port = free_port()
            words = [self.program, self.path, "serve", str(self.port), str(self.count)]
            self.running = start(words, stdin=subprocess.DEVNULL, stdout=subprocess.DEVNULL,
                                 preexec_fn=ends_with_caller())
            self.left = self.count
            try:
                self.ask("GET", "/work")
                return
            except NoServer:
                status = self.running.poll()
                if status in (None, DONE):
                    self.end()
                    raise
                if status != PORT_TAKEN:
                    assert status is not None
                    raise Ended(status) from None
        raise NoServer

    def connected(self) -> socket.socket:
        """A connection, once the server listens."""
        while True:
            try:
                link = socket.create_connection(("127.0.0.1", self.port), timeout=SECONDS)
                self.left -= 1
                return link
            except ConnectionRefusedError:
                if self.running is None or self.running.poll() is not None:
                    raise NoServer from None
                time.sleep(PAUSE)
            except OSError as error:
                raise NoServer from error

    def ask(self, method: str, target: str, body: bytes = b"") -> Answer:
        """What it answers. One that has used up its connections is started again."""
        if self.running is None or self.left == 0:
            self.end()
            self.begin()
        head = f"{method} {target} HTTP/1.0\r\n"
        if body:
            head += f"Content-Type: application/json\r\nContent-Length: {len(body)}\r\n"
        with self.connected() as link:
            try:
                link.sendall(head.encode() + b"\r\n" + body)
                pieces = []
                while piece := link.recv(PIECE):
                    pieces.append(piece)
            except OSError as error:
                raise NoServer from error
        return read_answer(b"".join(pieces))

    def end(self) -> None:
        """Ends it. With few connections left they are used up, so that its log is joined."""
        if self.running is None:
            return
        try:
            while self.running.poll() is None and 0 < self.left <= FEW:
                self.connected().close()
            if self.left == 0:
                self.running.wait(SECONDS)
        except (NoServer, subprocess.TimeoutExpired):
            pass
        if self.running.poll() is None:
            self.running.kill()
        self.running.wait()
        self.running = None

    def text(self, target: str) -> str | None:
        """The text of a question, None where the account or the statement isn't there."""
        answer = self.ask("GET", target)
        if answer.status == 404:
            return None
        if answer.status in ENDS:
            raise Ended(ENDS[answer.status])
        if answer.status != 200:
            raise NoServer
        return answer.text

    def reply(self, line: str) -> str:
        """The reply to a well-formed request line."""
        if line.startswith("show "):
            return reply_of(line, self.ask("GET", f"/accounts/{line[5:]}"))
        assert line.split(" ", 1)[0] in WORDS
        return reply_of(line, self.ask("POST", "/posts", body_of(line)))

    def show(self, account: str) -> str:
        return self.reply(f"show {account}")

    def statement(self, account: str, cycle: int) -> str | None:
        return self.text(f"/accounts/{account}/statements/{cycle}")

    def restated(self, account: str, cycle: int) -> str | None:
        return self.text(f"/accounts/{account}/cycles/{cycle}")

    def entries(self, account: str) -> str:
        return self.text(f"/accounts/{account}/entries") or ""

    def tasks(self) -> str:
        return self.text("/work") or ""
