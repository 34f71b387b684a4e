"""Compares the program with the model on generated requests.

    python3 -m audit.compare PROGRAM SEED N [--accounts A] [--by WAY]

runs both over the same input and the same views, and tells the first
difference.  WAY is `memory` (one run of `apply` or `trial` with rows in memory), or, over
a file of rows that the views are read from afterwards, `lines` (the default, in
three runs), `csv` (records that come twice), `http` (a connection a request), or
`asked` (the same, by six servers one after the other over the same rows, so that
questions come after a load, in any order).
"""

import argparse
import random
import socket
import subprocess
import sys
import tempfile
import time
from collections.abc import Sequence
from pathlib import Path

from .commands import Keeper, run
from .connections import serve
from .days import FIRST_DAY, LAST_REQUEST_DAY, day_text
from .difference import first_difference
from .generate import generate
from .inputs import connections, csv_bytes
from .program import Program, free_port

RUNS = 3
SERVERS = 6
WAYS = ("memory", "lines", "csv", "http", "asked")
SETUP = ("feerow", "roll", "open", "openvar", "index", "holiday", "plan")


class Model:
    """The model over rows in memory."""

    def __init__(self) -> None:
        self.keeper = Keeper()

    def run(self, words: list[str], data: bytes = b"") -> tuple[bytes, int]:
        return run(words, self.keeper, data)


def balances(model: Model) -> list[list[str]]:
    """Trial balances of all days, of today, of the days before it, of the last forty, of the days
    between these, and of the days to come."""
    today = model.keeper.machine().today
    month = max(FIRST_DAY, today - 40)
    spans = [(FIRST_DAY, LAST_REQUEST_DAY), (today, today), (month, today),
             (FIRST_DAY, max(FIRST_DAY, today - 1)), (month, max(month, today - 20)),
             (min(today + 1, LAST_REQUEST_DAY), LAST_REQUEST_DAY)]
    return [["trial", day_text(first), day_text(last)] for first, last in spans]


def views(model: Model, commands: set[str]) -> list[list[str]]:
    """The commands that look at every account and cycle, with the cycle behind the last one, and at
    an account that isn't there; of those that the program has."""
    machine = model.keeper.machine()
    found = [["work"]]
    for name, account in [*sorted(machine.accounts.items()), ("nobody", None)]:
        found.append(["export", name])
        for k in range(1, machine.closed_cycles(account) + 2 if account else 2):
            found += [[word, name, str(k)] for word in ("statement", "restate", "repay")]
    found += balances(model)
    return [words for words in found if words[0] in commands]


def both(model: Model, program: Program, words: list[str], data: bytes = b"",
         sent: Sequence[str] = ()) -> str | None:
    """The first difference between two runs with the same words and input."""
    ours, theirs = model.run(words, data), program.run(words, data)
    if ours == theirs:
        return None
    found = first_difference(ours[0], theirs[0], sent)
    if found is None:
        found = f"status {ours[1]} of the model, {theirs[1]} of the program"
    return f"{' '.join(words)}, {found}"


def compare_lines(model: Model, program: Program, lines: list[str], runs: int,
                  words: Sequence[str] = ("apply",)) -> str | None:
    """The lines in so many runs of a command that reads lines."""
    size = -(-len(lines) // runs)
    for at in range(0, len(lines), size):
        part = lines[at:at + size]
        data = "".join(line + "\n" for line in part).encode()
        found = both(model, program, list(words), data, part)
        if found:
            return found
    return None


def compare_csv(model: Model, program: Program, lines: list[str], data: bytes) -> str | None:
    """The shared requests, openings and plans as lines, then the CSV input twice."""
    first = [line for line in lines if line.split(" ")[0] in SETUP]
    found = compare_lines(model, program, first, RUNS)
    for _ in range(2):
        found = found or both(model, program, ["import"], data)
    return found


# -- connections -----------------------------------------------------------------------------


def _connected(port: int) -> socket.socket:
    for _ in range(100):
        try:
            return socket.create_connection(("127.0.0.1", port))
        except ConnectionRefusedError:
            time.sleep(0.05)
    raise SystemExit("the program doesn't listen")


def _send(port: int, data: bytes) -> bytes:
    """What a connection with these bytes is answered; the client sends no more after them."""
    answer = b""
    with _connected(port) as link:
        link.settimeout(20)
        try:
            link.sendall(data)
            link.shutdown(socket.SHUT_WR)
        except OSError:
            pass
        try:
            while piece := link.recv(65_536):
                answer += piece
        except ConnectionError:
            pass
    return answer


def compare_http(model: Model, program: Program, datas: list[bytes]) -> str | None:
    """Each connection's answer, then the lines that `serve` writes."""
    port = free_port()
    server = program.serve(port, len(datas), subprocess.PIPE)
    machine, want_lines = model.keeper.machine(), b""
    try:
        for place, data in enumerate(datas, start=1):
            answer = serve(machine, data, model.keeper.keep)
            want = answer.to_bytes() if answer else b""
            want_lines += b"%d\n" % answer.status if answer else b"cut\n"
            got = _send(port, data)
            if got != want:
                return (f"connection {place}\n  bytes:   {data!r}\n  model:   {want!r}\n"
                        f"  program: {got!r}")
        got_lines = server.communicate(timeout=60)[0]
    finally:
        server.kill()
    found = first_difference(want_lines, got_lines)
    if found is None and server.returncode != 0:
        found = f"status 0 of the model, {server.returncode} of the program"
    return found and f"serve, {found}"


def compare_asked(model: Model, program: Program, datas: list[bytes], seed: int) -> str | None:
    """The same by several servers, one after the other, which begin at drawn places."""
    starts = sorted(random.Random(seed).sample(range(1, len(datas)), SERVERS - 1))
    for first, last in zip([0, *starts], [*starts, len(datas)], strict=True):
        found = compare_http(model, program, datas[first:last])
        if found:
            return f"after {first} connections, {found}"
    return None


# -- one input -------------------------------------------------------------------------------


def compare_over_file(program: Program, seed: int, n: int, accounts: int, way: str) -> str | None:
    """An input over a file of rows, and all views afterwards."""
    model, lines = Model(), generate(seed, n, accounts)
    if way == "lines":
        found = compare_lines(model, program, lines, RUNS)
    elif way == "csv":
        found = compare_csv(model, program, lines, csv_bytes(seed, n, accounts))
    elif way == "asked":
        found = compare_asked(model, program, connections(seed, n, accounts), seed)
    else:
        found = compare_http(model, program, connections(seed, n, accounts))
    for words in [] if found else views(model, program.commands()):
        found = found or both(model, program, words)
    return found


def compare_in_memory(program: Program, lines: list[str], seed: int) -> str | None:
    """An input in one run, by an odd seed with a trial balance behind its replies."""
    words = ["apply"]
    if seed % 2 and "trial" in program.commands():
        after = Model()
        after.run(words, "".join(line + "\n" for line in lines).encode())
        spans = balances(after)
        words = spans[seed // 2 % len(spans)]
    return compare_lines(Model(), program, lines, 1, words)


def compare(path: str, seed: int, n: int, accounts: int, way: str = "lines") -> str | None:
    """The first difference, None where there is none."""
    if way == "memory":
        return compare_in_memory(Program(path, "-"), generate(seed, n, accounts), seed)
    with tempfile.TemporaryDirectory() as folder:
        program = Program(path, str(Path(folder) / "rows.db"))
        return compare_over_file(program, seed, n, accounts, way)


def main() -> int:
    parser = argparse.ArgumentParser(prog="python3 -m audit.compare", description=__doc__,
                                     formatter_class=argparse.RawDescriptionHelpFormatter)
    parser.add_argument("program", metavar="PROGRAM")
    parser.add_argument("seed", metavar="SEED", type=int)
    parser.add_argument("n", metavar="N", type=int)
    parser.add_argument("--accounts", metavar="A", type=int, default=3)
    parser.add_argument("--by", choices=WAYS, default="lines")
    given = parser.parse_args()
    found = compare(given.program, given.seed, given.n, given.accounts, given.by)
    print(found or "same")
    return 1 if found else 0


if __name__ == "__main__":
    sys.exit(main())
