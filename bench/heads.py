"""Processor time of the head of a request by its length: 400 connections for each of three.

A server with rows in memory answers them, on the first processor. Where the time is the same for
each byte, a head costs what its bytes cost. An idle machine measures best.
"""

import os
from collections.abc import Iterator

from tests.support.server import Server

from .measure import Options, Row, stop

CASES = ("100", "1000", "8000")
COUNT = 400
LINE = 500


def head_of(length: int) -> bytes:
    """A head of so many bytes, in lines of at most 500."""
    head = b"GET /accounts/a HTTP/1.1\r\n"
    while len(head) < length - 2:
        left = length - 2 - len(head)
        size = left if left <= LINE else min(LINE, left - 10)
        head += b"x-note: " + b"v" * (size - 10) + b"\r\n"
    return head + b"\r\n"


def ask(server: Server, head: bytes) -> None:
    back = server.send(head, end=False)
    if not back.startswith(b"HTTP/1.1 404"):
        stop(f"heads: a head is answered {back!r}")


def seconds_of(process: int) -> float:
    with open(f"/proc/{process}/stat", encoding="ascii", errors="replace") as stat:
        fields = stat.read().rsplit(")", 1)[1].split()
    return (int(fields[11]) + int(fields[12])) / os.sysconf("SC_CLK_TCK")


def measure(case: str, options: Options) -> Iterator[Row]:
    head, count = head_of(int(case)), options.size(COUNT)
    with Server("-") as server:
        os.sched_setaffinity(server.running.pid, {min(os.sched_getaffinity(0))})
        ask(server, head)
        before = seconds_of(server.running.pid)
        for _ in range(count):
            ask(server, head)
        each = 1e6 * (seconds_of(server.running.pid) - before) / count
    yield Row(f"{case} bytes", each, "microseconds", f"{count} connections")
