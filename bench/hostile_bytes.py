"""Bytes that mean no good, 100 million of them: as lines, as CSV and over connections.

Two fifths come as request lines, two fifths as CSV, one fifth over connections. Each run has to end
by itself with status 0 or 1 in a minute of the processor, with a reply for each line, and an answer
or a cut for each connection. A part of each kind is also given to the independent model (audit/),
which has to reply the same. --count says how many bytes there are. What a run failed at is left in
the file hostile-bytes.found.
"""

import re
import resource
import subprocess
from collections.abc import Callable, Iterator
from typing import NoReturn

from audit.compare import Model, compare_http
from audit.program import Program
from tests.support.program import PROGRAM
from tests.support.server import Server

from .measure import Options, Row, stop
from .spoiled import Spoiler

LONG = True
CASES = ("lines", "CSV", "connections")
TOTAL = 100_000_000
FIFTHS = {"lines": 2, "CSV": 2, "connections": 1}
PIECE = 1_000_000  # bytes of a run of lines or records
SAMPLE = 20_000  # bytes of a run that the model is given too
EVERY = 5  # one run in so many has such a sample behind it
CONNECTIONS = 500  # of a server
SAMPLED_CONNECTIONS = 60
SECONDS = 60  # of the processor, that a run may take
ANSWER = re.compile(rb"HTTP/1\.1 [2345][0-9][0-9] [^\r]*\r\n.*\r\n\r\n", re.S)
FOUND = "hostile-bytes.found"


def limited() -> None:
    resource.setrlimit(resource.RLIMIT_CPU, (SECONDS, SECONDS))


class Hostile:
    """Sends such bytes, and stops at the first run that isn't as it has to be."""

    def __init__(self, seed: int) -> None:
        self.seed, self.spoiler, self.slowest = seed, Spoiler(seed), 0.0

    def fail(self, data: bytes, text: str) -> NoReturn:
        with open(FOUND, "wb") as out:
            out.write(data)
        stop(f"hostile-bytes: seed {self.seed}: {text}; the bytes are in {FOUND}")

    def ran(self, command: str, data: bytes) -> bytes:
        """The replies of a run that ends as it has to."""
        before = resource.getrusage(resource.RUSAGE_CHILDREN).ru_utime
        done = subprocess.run([PROGRAM, "-", command], input=data, capture_output=True,
                              preexec_fn=limited)
        if done.returncode not in (0, 1) or done.stderr:
            told = f"{done.returncode} {done.stderr[:100]!r}"
            self.fail(data, f"{command} of {len(data)} bytes ends with {told}")
        seconds = resource.getrusage(resource.RUSAGE_CHILDREN).ru_utime - before
        self.slowest = max(self.slowest, seconds)
        return done.stdout

    def lines(self, size: int) -> tuple[bytes, bytes]:
        """A run of request lines, and its replies."""
        data = self.spoiler.bytes_like(self.spoiler.lines, size)
        replies = self.ran("apply", data)
        count = data.count(b"\n") + (not data.endswith(b"\n"))
        if replies.count(b"\n") != count:
            lines = replies.count(b"\n")
            self.fail(data, f"{count} lines and {lines} replies")
        return data, replies

    def records(self, size: int) -> tuple[bytes, bytes]:
        """A run of CSV, and its replies."""
        data = self.spoiler.bytes_like(self.spoiler.records, size)
        return data, self.ran("import", data)

    def sampled(self, way: Callable[[int], tuple[bytes, bytes]], command: str) -> int:
        """How many bytes of a smaller run the model replied to, too."""
        data, replies = way(SAMPLE)
        if Model().run([command], data)[0] != replies:
            self.fail(data, f"{command}: the model replies otherwise")
        return len(data)

    def connections(self) -> int:
        """A server for some connections: how many bytes they had."""
        sent, lines = 0, list[str | None]()
        with Server("-", CONNECTIONS) as server:
            for _ in range(CONNECTIONS):
                data = self.spoiler.request()
                back = server.send(data)
                if back and not ANSWER.match(back):
                    self.fail(data, f"{data[:80]!r} is answered {back[:80]!r}")
                lines.append(back[9:12].decode() if back else None)
                sent += len(data)
            status, written = server.finish(), server.lines
        # where the client is reset it may have read nothing of an answer that was written
        same = all(one is None or one == other for one, other in zip(lines, written))
        if status != 0 or len(written) != CONNECTIONS or not same:
            self.fail(b"", f"a server ends with {status} and {len(written)} lines")
        return sent

    def sampled_connections(self) -> int:
        datas = [self.spoiler.request() for _ in range(SAMPLED_CONNECTIONS)]
        found = compare_http(Model(), Program(PROGRAM, "-"), datas)
        if found:
            self.fail(b"".join(datas), found)
        return sum(map(len, datas))

    def run(self, case: str, size: int) -> int:
        """One run: how many bytes it had."""
        if case == "connections":
            return self.connections()
        return len((self.lines if case == "lines" else self.records)(size)[0])

    def sample(self, case: str) -> int:
        if case == "connections":
            return self.sampled_connections()
        way, command = (self.lines, "apply") if case == "lines" else (self.records, "import")
        return self.sampled(way, command)


def measure(case: str, options: Options) -> Iterator[Row]:
    total = options.size(TOTAL) * FIFTHS[case] // 5
    hostile, sent, compared, runs = Hostile(options.seed), 0, 0, 0
    while sent < total:
        sent += hostile.run(case, min(PIECE, total - sent))
        runs += 1
        if runs % EVERY == 1:
            compared += hostile.sample(case)
    slow = f", the slowest in {hostile.slowest:.1f} s" if hostile.slowest else ""
    more = f"{compared:,} more by the model too"
    yield Row(f"{case}, seed {options.seed}", sent, "bytes", f"{runs} runs{slow}; {more}")
