"""Connections a second of one processor, by `ab` (Debian's apache2-utils).

It asks one of a hundred accounts what it owes, eight connections at a time, and posts one charge
again and again, 100,000 connections each, with rows in memory and in a file. The slowest of a
hundred and the memory of the server are in the note. The server runs on the first processor and
`ab` on the second. An idle machine measures best.
"""

import os
import re
import subprocess
from collections.abc import Iterator

from tests.support.requests import body_of
from tests.support.server import Server

from .measure import Options, Row, needs, room_in, stop
from .streams import RATES

LONG = True
CASES = ("memory", "file")
ACCOUNTS = 100
COUNT = 100_000
CHARGE = "charge a7 c 2024-03-01 purchase 1250"


def memory_of(process: int) -> int:
    with open(f"/proc/{process}/status", encoding="ascii") as status:
        found = re.search(r"VmRSS:\s+(\d+)", status.read())
    return int(found[1]) if found else 0


def asked(count: int, *words: str) -> tuple[float, str]:
    """Connections a second, and how long the slowest of a hundred took."""
    ab = ["ab", "-q", "-n", str(count), "-c", "8", *words]
    done = subprocess.run(["taskset", "-c", "1", *ab], capture_output=True, text=True)
    rate = re.search(r"Requests per second:\s+([0-9.]+)", done.stdout)
    slow = re.search(r"\n\s+99%\s+(\d+)", done.stdout)
    failed = re.search(r"Failed requests:\s+(\d+)", done.stdout)
    if not rate or not slow or not failed or failed[1] != "0":
        stop(f"connections: ab says\n{done.stdout}{done.stderr}")
    return float(rate[1]), f"99 of 100 within {slow[1]} ms"


def measure(case: str, options: Options) -> Iterator[Row]:
    needs("ab", "taskset")
    count = options.size(COUNT)
    with room_in(options.folder) as room:
        body = os.path.join(room, "charge")
        with open(body, "w", encoding="ascii") as out:
            out.write(body_of(CHARGE))
        with Server("-" if case == "memory" else os.path.join(room, "rows.db")) as server:
            os.sched_setaffinity(server.running.pid, {0})
            opened = [f"open a{at} o 2024-03-01 5 {RATES}" for at in range(ACCOUNTS)]
            for line in ["roll 2024-03-01", *opened]:
                if server.post(line).status != 200:
                    stop(f"connections: {line} isn't accepted")
            before, url = memory_of(server.running.pid), f"http://127.0.0.1:{server.port}"
            rate, slow = asked(count, f"{url}/accounts/a7")
            yield Row(f"rows in {case}, shown", rate, "connections/s", slow)
            rate, slow = asked(count, "-p", body, "-T", "application/json", f"{url}/posts")
            memory = f"{before} kB before, {memory_of(server.running.pid)} kB after"
            yield Row(f"rows in {case}, posted", rate, "connections/s", f"{slow}; {memory}")
