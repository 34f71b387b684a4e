"""The program: its commands, and what it answers over HTTP on this machine's loopback."""

import contextlib
import http.client
import itertools
import os
import socket
import subprocess
import tempfile
import time
from typing import IO

MOST_CONNECTIONS = 1_000_000
PORT_TAKEN = 7  # the status of a program that couldn't listen
PORTS_TRIED = 5
# below the ports that a system gives to clients; the number of a process sets where it begins
_FIRST_PORT, _PORTS, _STEP = 20_000, 12_000, 3_001
_calls = itertools.count()


class Failed(Exception):
    """The program couldn't be asked; says how it ended."""


def free_port() -> int:
    """A port on which nothing listens, another one at each call and in each process."""
    while True:
        port = _FIRST_PORT + (os.getpid() + _STEP * next(_calls)) % _PORTS
        with contextlib.suppress(OSError), socket.create_server(("127.0.0.1", port)):
            return port


class Program:
    """The program over a file, or over `-`."""

    def __init__(self, path: str, file: str):
        self.path, self.file = path, file

    def run(self, words: list[str], data: bytes = b"") -> tuple[bytes, int]:
        """What a run writes, and its status."""
        try:
            done = subprocess.run([self.path, self.file, *words], input=data,
                                  stdout=subprocess.PIPE)
        except OSError as error:
            raise Failed(f"{self.path}: {error.strerror}") from None
        return done.stdout, done.returncode

    def commands(self) -> set[str]:
        """The words that its usage line names."""
        usage = self.run([])[0].decode("ascii", "replace").removeprefix("usage: ")
        return {form.split()[0] for form in usage.split("|") if form.split()}

    def serve(self, port: int, count: int, out: IO[bytes] | int) -> subprocess.Popen:
        return subprocess.Popen([self.path, self.file, "serve", str(port), str(count)],
                                stdin=subprocess.DEVNULL, stdout=out)


class Server:
    """Runs of `serve`, one after the other, that answer questions; the last one is stopped at the
    end of the block."""

    def __init__(self, program: Program):
        self.program = program
        self.run: subprocess.Popen | None = None
        self.left = 0

    def __enter__(self) -> "Server":
        return self

    def __exit__(self, *error: object) -> None:
        if self.run is not None:
            self.run.kill()
            self.run.wait()
            self.said.close()

    def _begin(self) -> None:
        """A run that can answer; the one before has answered all that it may."""
        for _ in range(PORTS_TRIED):
            self.__exit__()
            self.port, self.left = free_port(), MOST_CONNECTIONS
            self.said = tempfile.TemporaryFile()
            self.run = self.program.serve(self.port, self.left, self.said)
            if self._listens(self.run):
                return
            status = self.run.returncode
            if status != PORT_TAKEN:
                break
        self.said.seek(0)
        said = self.said.read().decode("utf-8", "replace").strip()
        raise Failed(f"serve ends with status {status}: {said}")

    def _link(self) -> contextlib.closing:
        self.left -= 1
        return contextlib.closing(http.client.HTTPConnection("127.0.0.1", self.port))

    def _listens(self, run: subprocess.Popen) -> bool:
        """Waits until all rows are loaded; False where the run ended before."""
        while run.poll() is None:
            with contextlib.suppress(ConnectionRefusedError), self._link() as link:
                link.connect()
                return True
            time.sleep(0.02)
        return False

    def get(self, path: str) -> bytes | None:
        """The body of 200, None for a 404."""
        if self.left == 0:
            self._begin()
        try:
            with self._link() as link:
                link.request("GET", path)
                answer = link.getresponse()
                status, body = answer.status, answer.read()
        except (OSError, http.client.HTTPException) as error:
            raise Failed(f"GET {path}: {error}") from None
        if status not in (200, 404):
            raise Failed(f"GET {path} is answered {status}: {body.decode('utf-8', 'replace')}")
        return body if status == 200 else None
