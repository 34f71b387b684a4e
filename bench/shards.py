"""Posts and questions a second of 1, 2 and 4 ledgers behind HAProxy, to eight clients.

The door is examples/shards/haproxy.cfg. The clients keep their connections to it, each over
accounts of all shards. Also one ledger without it, a connection a request. Rows are in files: the
disk of --folder decides what a post takes. All run on the same processors, the clients too. An idle
machine measures best.
"""

import multiprocessing
import os
import socket
import sys
import time
from collections.abc import Iterator

from tests.shards.parts import SHARDS, Door, Ledger, ask, free_ports
from tests.support.program import EXAMPLES
from tests.support.requests import body_of

from .measure import Options, Row, needs, room_in, stop
from .streams import RATES

LONG = True
CASES = ("no-door", "1", "2", "4")
COUNT = 4000
CLIENTS, ACCOUNTS = 8, 400
DAY = "2024-03-01"


def post(line: str) -> bytes:
    body = body_of(line)
    head = f"POST /posts HTTP/1.1\r\nHost: door\r\nContent-Type: application/json\r\n" \
        f"Content-Length: {len(body)}\r\n\r\n"
    return (head + body).encode()


def requests(client: int, what: str, count: int) -> Iterator[bytes]:
    """A client's requests: it goes over its accounts in turn."""
    for number in range(count // CLIENTS):
        account = f"a{(number * CLIENTS + client) % ACCOUNTS}"
        if what == "posts":
            yield post(f"charge {account} {client}-{number} {DAY} purchase 1250")
        else:
            yield f"GET /accounts/{account} HTTP/1.1\r\nHost: door\r\n\r\n".encode()


def answer(link: socket.socket) -> bytes:
    """The head of one answer, which has come whole when its length is there."""
    got = link.recv(4096)
    while b"\r\n\r\n" not in got:
        got += link.recv(4096)
    head, _, body = got.partition(b"\r\n\r\n")
    length = int(head.lower().split(b"content-length: ")[1].split(b"\r\n")[0])
    while len(body) < length:
        body += link.recv(4096)
    return head


def client_run(sent: list[bytes], port: int, keeps: bool) -> None:
    """A client's process, which ends with 1 where a request isn't answered 200."""
    link = None
    for request in sent:
        link = link or socket.create_connection(("127.0.0.1", port))
        link.sendall(request)
        if b" 200 " not in answer(link)[:15]:
            sys.exit(1)
        if not keeps:
            link.close()
            link = None


def seconds(what: str, port: int, keeps: bool, count: int) -> float:
    runs = [multiprocessing.Process(
        target=client_run, args=(list(requests(client, what, count)), port, keeps))
        for client in range(CLIENTS)]
    begun = time.monotonic()
    for run in runs:
        run.start()
    for run in runs:
        run.join()
    if any(run.exitcode for run in runs):
        stop(f"shards: {what} weren't answered 200")
    return time.monotonic() - begun


def begin(ledgers: list[Ledger]) -> None:
    for ledger in ledgers:
        ledger.start()
        ledger.wait()
        ask(ledger.port, "POST", "/posts", body_of(f"roll {DAY}"))


def measure(case: str, options: Options) -> Iterator[Row]:
    needs("haproxy")
    shards, has_door = (1, False) if case == "no-door" else (int(case), True)
    count, ports, program = options.size(COUNT), free_ports(SHARDS), options.programs()[0]
    with room_in(options.folder) as room:
        ledgers = [Ledger(program, os.path.join(room, f"shard{shard}"), ports[shard])
                   for shard in range(shards)]
        door = Door(room, str(EXAMPLES / "shards"), ports, shards)
        try:
            begin(ledgers)
            door.open()
            port = door.port if has_door else ports[0]
            for at in range(ACCOUNTS):
                opening = body_of(f"open a{at} o {DAY} 5 {RATES}")
                if ask(port, "POST", "/posts", opening)[0] != 200:
                    stop("shards: no account is opened")
            for what in ("posts", "questions"):
                rate = count / seconds(what, port, has_door, count)
                where = "behind the door" if has_door else "without a door"
                yield Row(f"{shards} {where}", rate, f"{what}/s")
        finally:
            door.stop()
            for ledger in ledgers:
                ledger.kill()
