"""The program as a server on a free port of loopback, and its clients."""

import contextlib
import http.client
import itertools
import os
import socket
import subprocess
import tempfile
import time
from collections.abc import Mapping
from typing import IO, Any, NamedTuple

from .program import Word, start
from .requests import body_of

MOST_CONNECTIONS = 1_000_000
SECONDS = 60
# below the ports that a system gives to clients; the number of a process sets where it begins
_FIRST_PORT, _PORTS, _STEP = 20_000, 12_000, 31
_calls = itertools.count()


class Answer(NamedTuple):
    """What came back to one request."""

    status: int
    headers: http.client.HTTPMessage
    body: bytes

    @property
    def text(self) -> str:
        return self.body.decode()


def free_port() -> int:
    """A port on which nothing listens, another one at each call."""
    while True:
        port = _FIRST_PORT + (_STEP * os.getpid() + next(_calls)) % _PORTS
        with contextlib.suppress(OSError), socket.create_server(("127.0.0.1", port)):
            return port


class Server:
    """`serve` over a file for so many connections; what still runs at the end of the block is
    killed. Its lines go to a file of its own, or to what is given as `out`."""

    def __init__(self, file: Word, count: int = MOST_CONNECTIONS, *, out: IO[Any] | None = None,
                 seconds: float = SECONDS, **how: Any) -> None:
        self.file, self.count, self.seconds = file, count, seconds
        self.port = free_port()
        self.written = tempfile.TemporaryFile()
        words = [file, "serve", str(self.port), str(count)]
        self.running = start(words, given=subprocess.DEVNULL, out=out or self.written,
                             err=subprocess.DEVNULL, **how)

    def __enter__(self) -> "Server":
        return self

    def __exit__(self, *error: object) -> None:
        self.kill()
        self.written.close()

    @property
    def lines(self) -> list[str]:
        """The lines that were written so far, a line a connection."""
        size = os.fstat(self.written.fileno()).st_size
        return os.pread(self.written.fileno(), size, 0).decode().splitlines()

    def connect(self) -> socket.socket:
        """A connection, once the rows are loaded and the port is listened on."""
        deadline = time.monotonic() + self.seconds
        while self.running.poll() is None and time.monotonic() < deadline:
            with contextlib.suppress(ConnectionRefusedError):
                return socket.create_connection(("127.0.0.1", self.port), self.seconds)
            time.sleep(0.01)
        raise AssertionError(f"no connection is taken on port {self.port}: the status of the "
                             f"server is {self.running.poll()}, and its lines are {self.lines}")

    def ask(self, method: str, path: str, body: bytes | str | None = None,
            headers: Mapping[str, str] | None = None) -> Answer:
        """One request on a connection of its own."""
        client = http.client.HTTPConnection("127.0.0.1", self.port, timeout=self.seconds)
        with contextlib.closing(client):
            client.sock = self.connect()
            client.request(method, path, body, dict(headers or {}))
            answer = client.getresponse()
            return Answer(answer.status, answer.headers, answer.read())

    def post(self, line: str) -> Answer:
        """A request line, posted as JSON."""
        return self.ask("POST", "/posts", body_of(line))

    def send(self, *pieces: bytes, end: bool = True) -> bytes:
        """Bytes as they are, and the end where it is sent: what comes back until it is closed."""
        back = b""
        with self.connect() as link:
            with contextlib.suppress(ConnectionResetError, BrokenPipeError):
                for piece in pieces:
                    link.sendall(piece)
                if end:
                    link.shutdown(socket.SHUT_WR)
                while piece := link.recv(65536):
                    back += piece
        return back

    def finish(self, seconds: float = SECONDS) -> int:
        """The status, once all connections were attended to."""
        return self.running.wait(seconds)

    def stop(self) -> None:
        """Ends it as a system does (SIGTERM)."""
        self.running.terminate()
        self.running.wait(self.seconds)

    def kill(self) -> None:
        self.running.kill()
        self.running.wait()
