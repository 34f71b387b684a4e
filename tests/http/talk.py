"""What clients say to a server, connection by connection, and what they have to get for it."""

import subprocess
from collections.abc import Callable
from typing import Any, NamedTuple

from ..support.case import Case
from ..support.program import Word
from ..support.requests import body_of
from ..support.server import Answer, Server
from .openapi import Description

DEADLINE = 30  # seconds that the server gives a connection
SHOWN = 60
TEXT = "text/plain; charset=utf-8"
JSON = "application/json"


class Step(NamedTuple):
    """A connection: what a failure names, the line that the server has to write, what is done."""

    name: str
    line: str
    do: Callable[[Server], None]


class Talk:
    """Connections one after the other to one server, which has to end by itself after the last."""

    def __init__(self, test: Case) -> None:
        self.test, self.described = test, Description()
        self.steps: list[Step] = []

    def ask(self, method: str, path: str, wanted: tuple[int, str], body: str | None = None) -> None:
        """A request of http.client, and the status and the body that it has to get."""
        def do(server: Server) -> None:
            answer = server.ask(method, path, body)
            self.test.assertEqual((answer.status, answer.text), wanted)
            self._has_form(method, path, answer)

        self.steps.append(Step(f"{method} {path} {body or ''}".strip(), str(wanted[0]), do))

    def post(self, line: str, wanted: tuple[int, str]) -> None:
        """A request line, posted as JSON."""
        self.ask("POST", "/posts", wanted, body_of(line))

    def send(self, status: int, *pieces: bytes) -> None:
        """Bytes as they are, which have to get one answer of this status."""
        def do(server: Server) -> None:
            back = server.send(*pieces)
            self.test.assertEqual(back[:13], b"HTTP/1.1 %d " % status)
            self.test.assertEqual(back.count(b"HTTP/1.1 "), 1, "it has more than one answer")

        self.steps.append(Step(pieces[0][:SHOWN].decode("latin-1"), str(status), do))

    def exchange(self, sent: bytes, wanted: bytes) -> None:
        """Bytes as they are, and the whole answer, byte by byte; cut where there is none."""
        def do(server: Server) -> None:
            self.test.assertEqual(server.send(sent), wanted)

        self.steps.append(Step(sent[-SHOWN:].decode("latin-1"), wanted[9:12].decode() or "cut", do))

    def cut(self, name: str, do: Callable[[Server], None]) -> None:
        """A client that gets no answer."""
        self.steps.append(Step(name, "cut", do))

    def run(self, file: Word, **how: Any) -> None:
        """Carries all steps out over a file: answers, the server's lines, and its end."""
        with Server(file, len(self.steps), **how) as server:
            for number, step in enumerate(self.steps, 1):
                with self.test.subTest(connection=number, sent=step.name):
                    step.do(server)
            with self.test.subTest("the server's end"):
                self._ends(server)

    def _ends(self, server: Server) -> None:
        try:
            status = server.finish()
        except subprocess.TimeoutExpired:
            status = -1
        wanted = "".join(step.line + "\n" for step in self.steps)
        self.test.assert_same("".join(line + "\n" for line in server.lines), wanted, "its lines")
        self.test.assertEqual(status, 0, "it doesn't end by itself after its last connection")

    def _has_form(self, method: str, path: str, answer: Answer) -> None:
        headers, kind = answer.headers, answer.headers["Content-Type"]
        self.test.assertEqual(headers["Connection"], "close")
        self.test.assertEqual(headers["Content-Length"], str(len(answer.body)))
        if not self.described.has(method, path, answer.status, kind):
            self.test.fail(f"{answer.status} with {kind} isn't described in docs/openapi.json")


def whole(status: str, kind: str, body: str) -> bytes:
    """An answer, byte by byte."""
    head = f"HTTP/1.1 {status}\r\nContent-Type: {kind}\r\nContent-Length: {len(body)}\r\n"
    return f"{head}Connection: close\r\n\r\n{body}".encode()


POST = b"POST /posts HTTP/1.1\r\n"


def posted(body: bytes) -> bytes:
    """A post with this body, byte by byte."""
    return POST + b"Content-Length: %d\r\n\r\n%s" % (len(body), body)
