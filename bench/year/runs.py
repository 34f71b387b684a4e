"""Runs of the program, with what they take: seconds of each phase, and memory."""

import contextlib
import os
import re
import resource
import socket
import subprocess
import threading
import time
from collections.abc import Iterator
from dataclasses import dataclass, field
from typing import NoReturn

from tests.support.server import free_port

from ..measure import stop

PHASES = ("imports", "nights", "starts")
TICKS = os.sysconf("SC_CLK_TCK")
PIPE = 1 << 20
PIECE = 1 << 16
PAUSE = 0.01
NOBODY = "show nobody"
LOCAL = "127.0.0.1"
WHAT_NOW = "docs/OPERATIONS.md says what its status asks"


def no_seconds() -> dict[str, list[float]]:
    return {phase: [0.0, 0.0] for phase in PHASES}


@dataclass
class Meter:
    """What the runs of a shard took: by phase the seconds by the clock and of the processor, by
    command the most memory in kB, and how often it was started."""

    seconds: dict[str, list[float]] = field(default_factory=no_seconds)
    memory: dict[str, int] = field(default_factory=dict)
    starts: int = 0

    def add(self, phase: str, clock: float, processor: float) -> None:
        self.seconds[phase][0] += clock
        self.seconds[phase][1] += processor

    def note_memory(self, command: str, kilobytes: int) -> None:
        self.memory[command] = max(self.memory.get(command, 0), kilobytes)


class Run:
    """A run of the program. One that still runs at the end of the block is killed."""

    def __init__(self, meter: Meter, words: list[str], given: int, out: int) -> None:
        self.meter, self.words, self.used = meter, words, 0.0
        meter.starts += 1
        self.running = subprocess.Popen(words, stdin=given, stdout=out, bufsize=0, pipesize=PIPE)

    def __enter__(self) -> "Run":
        return self

    def __exit__(self, *error: object) -> None:
        if self.running.returncode is None:
            self.running.kill()
            self.running.wait()
        for end in (self.running.stdin, self.running.stdout):
            if end:
                end.close()

    def processor(self) -> float:
        """The processor's seconds so far."""
        if self.running.returncode is not None:
            return self.used
        with open(f"/proc/{self.running.pid}/stat", encoding="ascii") as file:
            fields = file.read().rpartition(")")[2].split()
        return (int(fields[11]) + int(fields[12])) / TICKS

    @contextlib.contextmanager
    def phase(self, name: str) -> Iterator[None]:
        begun, before = time.monotonic(), self.processor()
        yield
        self.meter.add(name, time.monotonic() - begun, self.processor() - before)

    def note_memory(self) -> None:
        """Notes the most memory so far."""
        with open(f"/proc/{self.running.pid}/status", encoding="ascii") as status:
            found = re.search(r"VmHWM:\s+(\d+)", status.read())
        self.meter.note_memory(self.words[2], int(found[1]) if found else 0)

    def wait(self) -> int:
        """Its status, once it ended. The most memory at its end is that of the caller where the
        caller had more, and then isn't noted."""
        _, state, used = os.wait4(self.running.pid, 0)
        self.used = used.ru_utime + used.ru_stime
        if used.ru_maxrss > resource.getrusage(resource.RUSAGE_SELF).ru_maxrss:
            self.meter.note_memory(self.words[2], used.ru_maxrss)
        self.running.returncode = os.waitstatus_to_exitcode(state)
        return self.running.returncode

    def fail(self, text: str) -> NoReturn:
        stop(f"year: {' '.join(self.words)} {text}")

    @contextlib.contextmanager
    def start(self, begun: float) -> Iterator[None]:
        """A start up to its first answer. One that doesn't get there leaves no run."""
        try:
            yield
        except BaseException:
            self.__exit__()
            raise
        self.meter.add("starts", time.monotonic() - begun, self.processor())


class Lines(Run):
    """A run that takes lines from a pipe, and whose replies are read as they come."""

    def __init__(self, meter: Meter, words: list[str]) -> None:
        begun = time.monotonic()
        super().__init__(meter, words, subprocess.PIPE, subprocess.PIPE)
        with self.start(begun):
            self.exchange([NOBODY])

    def __enter__(self) -> "Lines":
        return self

    def write(self, data: bytes) -> None:
        """Writes all of it, or what the program takes before it ends."""
        assert self.running.stdin
        with contextlib.suppress(BrokenPipeError):
            while data:
                data = data[self.running.stdin.write(data):]

    def piece(self) -> bytes:
        assert self.running.stdout
        return self.running.stdout.read(PIECE) or b""

    def exchange(self, lines: list[str]) -> bytes:
        """The replies to lines, which are written while replies are read: no pipe fills."""
        data = "".join(line + "\n" for line in lines).encode()
        writer = threading.Thread(target=self.write, args=(data,))
        writer.start()
        pieces, missing = [], len(lines)
        while missing and (piece := self.piece()):
            pieces.append(piece)
            missing -= piece.count(b"\n")
        writer.join()
        if missing:
            self.fail(f"ends with {self.wait()}, and {missing} lines have no reply: {WHAT_NOW}")
        return b"".join(pieces)

    def send(self, phase: str, lines: list[str]) -> int:
        """Sends lines that all have to be accepted, and says how many they are."""
        with self.phase(phase):
            replies = self.exchange(lines)
        if (b"\n" + replies).count(b"\nok") != len(lines):
            for line, reply in zip(lines, replies.decode().splitlines()):
                if not reply.startswith("ok"):
                    self.fail(f"answers {line!r} with {reply!r}: the load has to be accepted whole")
        return len(lines)

    def end(self) -> str:
        """Ends the input: what is written after the replies."""
        assert self.running.stdin
        self.note_memory()
        with self.phase("nights"):
            self.running.stdin.close()
            rest = b"".join(iter(self.piece, b""))
            status = self.wait()
        if status not in (0, 1):  # 1 is for the account that nobody has
            self.fail(f"ends with {status}: {WHAT_NOW}")
        return rest.decode()


class Server(Run):
    """A run that answers questions, one connection after the other."""

    def __init__(self, meter: Meter, program: str, file: str, questions: int) -> None:
        self.port, begun = free_port(), time.monotonic()
        words = [program, file, "serve", str(self.port), str(questions + 1)]
        super().__init__(meter, words, subprocess.DEVNULL, subprocess.DEVNULL)
        with self.start(begun):
            self.first: socket.socket | None = self.listening()

    def __enter__(self) -> "Server":
        return self

    def listening(self) -> socket.socket:
        """The first connection, which is taken once the rows are loaded."""
        while self.running.poll() is None:
            with contextlib.suppress(ConnectionRefusedError):
                return self.connected()
            time.sleep(PAUSE)
        self.fail(f"ends with {self.running.returncode} before it listens: {WHAT_NOW}")

    def connected(self) -> socket.socket:
        link = socket.socket()
        try:
            link.connect((LOCAL, self.port))
        except OSError:
            link.close()
            raise
        return link

    def ask(self, path: str) -> bytes:
        """The body of an answer."""
        link, self.first = self.first or self.connected(), None
        with link:
            link.sendall(f"GET {path} HTTP/1.0\r\n\r\n".encode())
            pieces = []
            while piece := link.recv(PIECE):
                pieces.append(piece)
        head, _, body = b"".join(pieces).partition(b"\r\n\r\n")
        if head[9:12] != b"200":
            self.fail(f"answers {path} with {head[:40]!r}")
        return body

    def end(self) -> None:
        """Uses up the last connection, so that it ends by itself."""
        self.note_memory()
        with self.phase("nights"):
            self.connected().close()
            status = self.wait()
        if status != 0:
            self.fail(f"ends with {status}: {WHAT_NOW}")
