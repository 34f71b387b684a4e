"""Clients that send nothing, a byte a second, half a head and a reset, 100 kB of head, two requests
at once and a chunked body, and 200 one after the other: each gets its answer or is cut within the
deadline, the next is served, and each line says how its connection ended."""

import contextlib
import os
import socket
import struct
import subprocess
import time

from ..support.case import Case, tools_missing
from ..support.case import long as takes_long
from ..support.program import apply
from ..support.rows import rows_of
from ..support.server import Server
from .month import month
from .talk import DEADLINE, POST, Step, Talk

MANY = 200


def silent(server: Server) -> None:
    """Sends nothing."""
    begun = time.monotonic()
    assert server.send(end=False) == b"", "a client that sends nothing is answered"
    assert time.monotonic() - begun <= DEADLINE + 5, "a client that sends nothing isn't cut in time"


def dripping(server: Server) -> None:
    """Sends a byte a second."""
    begun = time.monotonic()
    with server.connect() as link:
        link.settimeout(1)
        for byte in b"GET /work HTTP/1.1\r\nX: " + b"y" * 200:
            try:
                link.sendall(bytes([byte]))
                if link.recv(100) == b"":
                    return
                raise AssertionError("a client that drips is answered")
            except TimeoutError:
                pass
            except (ConnectionResetError, BrokenPipeError):
                return
            assert time.monotonic() - begun <= DEADLINE + 5, "a client that drips isn't cut in time"


def reset(server: Server) -> None:
    """Sends half a head and a reset."""
    link = server.connect()
    link.sendall(b"POST /posts HTTP/1.1\r\nContent-Le")
    link.setsockopt(socket.SOL_SOCKET, socket.SO_LINGER, struct.pack("ii", 1, 0))
    link.close()


def half_a_body(server: Server) -> None:
    """Sends less than it announced."""
    server.send(POST + b"Content-Length: 16384\r\n\r\n", b" " * 100)


def by_curl(server: Server) -> None:
    url = f"http://127.0.0.1:{server.port}/nowhere"
    done = subprocess.run(["curl", "-s", "-w", "%{http_code}", url], capture_output=True, text=True)
    assert done.stdout == "none\n404", f"curl gets {done.stdout!r}"


class Clients(Case):
    """Over the rows of a month, which they don't change."""

    def setUp(self) -> None:
        super().setUp()
        apply(self.file, month())
        self.rows = rows_of(self.file)
        self.talk = Talk(self)
        self.shown = 200, apply("-", [*month(), "show h-1"]).lines[-1] + "\n"

    def look(self) -> None:
        self.talk.ask("GET", "/accounts/h-1", self.shown)

    def end(self) -> None:
        self.talk.run(self.file)
        self.assertEqual(rows_of(self.file), self.rows)

    def test_what_is_no_request_is_answered_so(self) -> None:
        send = self.talk.send
        twice = b"Content-Length: 1\r\nContent-Length: 1\r\n\r\n"
        send(400, b"GET /work HTTP/2.0\r\n\r\n")
        send(400, b"GET /work HTTP/1.1\r\n" + twice)
        send(400, POST + b"Transfer-Encoding: chunked\r\n\r\n2\r\n{}\r\n0\r\n\r\n")
        send(400, POST + b"Content-Length: 1234567890\r\n\r\n")
        send(413, POST + b"Content-Length: 16385\r\n\r\n", b"x" * 16385)
        self.talk.cut("half a body", half_a_body)
        send(400, b"GET /work HTTP/1.1\r\n" + b"A: b\r\n" * 65 + b"\r\n")
        send(431, b"GET /work HTTP/1.1\r\nA: " + b"b" * 100000)
        send(404, b"GET /accounts/!/entries HTTP/1.1\r\n\r\n")
        send(200, b"GET /work HTTP/1.1\r\n\r\nGET /work HTTP/1.1\r\n\r\n")
        self.talk.cut("half a head and a reset", reset)
        self.look()
        self.end()

    @takes_long
    def test_slow_clients_are_cut_in_time(self) -> None:
        for name, do in (("nothing", silent), ("a byte a second", dripping)):
            self.talk.cut(name, do)
            self.look()
        self.end()

    def test_200_one_after_the_other(self) -> None:
        for _ in range(MANY):
            self.look()
        self.end()

    def test_by_curl(self) -> None:
        if tools_missing("curl"):
            self.skipTest("curl isn't installed: a client that isn't Python's")
        self.look()
        self.talk.steps.append(Step("curl", "404", by_curl))
        self.end()

    def test_a_connection_ends_before_its_line_is_written(self) -> None:
        """The output takes nothing for now: the client has its answer and its end all the same."""
        reader, writer = full_pipe()
        with os.fdopen(reader, "rb") as output, os.fdopen(writer, "wb") as full:
            with Server("-", 1, out=full, seconds=10) as server:
                full.close()
                back = server.send(b"GET /work HTTP/1.1\r\n\r\n", end=False)
                self.assertEqual(back[:17], b"HTTP/1.1 200 OK\r\n")
                self.assertIsNone(server.running.poll(), "a server whose output is full has ended")
                self.assertEqual(output.read().lstrip(b"."), b"200\n")
                self.assertEqual(server.finish(10), 0)


def full_pipe() -> tuple[int, int]:
    """A pipe that takes no byte until it is read: its two ends."""
    reader, writer = os.pipe()
    os.set_blocking(writer, False)
    for size in (4096, 1):
        with contextlib.suppress(BlockingIOError):
            while True:
                os.write(writer, b"." * size)
    os.set_blocking(writer, True)
    return reader, writer
