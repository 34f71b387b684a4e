"""Requests in which the door and a ledger might read two accounts, or none."""
import re
import socket
import time
from collections.abc import Callable

from .parts import SECONDS, Door, Ledger, ask, fail

# What is refused at the door: the body of a post, with A and B for two accounts of two shards, and
# the status. The posts that a
# ledger would take are of a day that never comes.
REFUSED = (
    (r'{"kind":"charge","account":"A","acc\u006funt":"B",REST}', 400),
    (r'{"kind":"charge","acc\u006funt":"B","account":"A",REST}', 400),
    (r'{"kind":"charge","acc\u006funt":"B",REST}', 400),
    (r'{"kind":"charge","account":"\u0042","account":"A",REST}', 400),
    (r'{"kind":"charge","account":"A","x":"\",\"account\":\"B",REST}', 400),
    ('{"kind":"charge","account":"A","account":"B",REST}', 400),
    ('{"kind":"charge","account" \r\n\t: "A", REST, "account"\n:\n"B"}', 400),
    ('{"kind":"charge","account":"A",REST,"account":7}', 400),
    ('{"kind":"charge","account":7,REST}', 422),
    ('{"kind":"charge","account":null,REST}', 422),
    ('{"kind":"charge","account":true,REST}', 422),
    ('{"kind":"charge","account":["B"],REST}', 400),
    ('{"kind":"charge","account":{"account":"B"},REST}', 400),
    ('{"kind":"charge","x":{"account":"B"},"account":"A",REST}', 400),
    ('[{"kind":"charge","account":"B",REST}]', 400),
    ('{"kind":"charge","account":"A",REST} {"kind":"charge","account":"B",REST}', 400),
    ('{"kind":"charge","account":"A",REST}\0{"kind":"charge","account":"B",REST}', 400),
    ('\0{"kind":"charge","account":"B",REST}', 400),
    ('{"kind":"charge","account":"A\0","account":"B",REST}', 400),
    ('\xef\xbb\xbf{"kind":"charge","account":"B",REST}', 400),
    ("{'kind':'charge','account':'B',REST}", 400),
    ('{kind:"charge",account:"B",REST}', 400),
    ('{"kind":"charge",/*"account":"A",*/"account":"B",REST}', 400),
    ('{"kind":"charge","Account":"A",REST}', 422),
    ('{"kind":"charge","account":"",REST}', 422),
    ('{"kind":"charge","account":" B",REST}', 422),
    ('{"kind":"charge","account":"LONG",REST}', 422),
    ('{"kind":"charge",REST}', 422),
    ('{"kind":"charge","account":"A",SPACES"account":"B",REST}', 413),
    ('{"kind":"roll","day":"2024-02-01"}', 421),
    ('{"kind":"roll","day":"2024-02-01","account":"A"}', 421),
    ('{"kind":"charge","kind":"roll","account":"A","day":"2024-02-01"}', 421),
    ('{"kind":"holiday","day":"2024-02-01"}', 421),
    ('{"kind":"feerow","day":"2024-03-01","first":3000,"repeat":4100}', 421),
    ('{"kind":"index","day":"2024-03-01","rate":550}', 421),
    ("", 400),
    ("[]", 400),
    ('{"kind":', 400),
)

# What goes to the ledger of A, and is refused there.
TAKEN = (
    ('{"kind":"charge","account":"A",REST}', 409),
    (' {\n\t"account"\r\n:\t"A" , "kind":"charge",REST}\n', 409),
    ('{"kind":"charge","account":"A","key":"account","day":"2099-01-01","place":"purchase",'
     '"cents":100}', 409),
    ('{"kind":"charge","account":"A","account ":"B",REST}', 422),
    ('{"kind":"charge","account":"A","\xc3\xa4ccount":"B",REST}', 422),
    ('{"kind":"charge","account":"A","\xff":"B",REST}', 400),
    ('{"kind":"charge","account":"A","x":"account:B",REST}', 422),
    ('{"kind":"charge","account":"A","cents":-12.5e3,"cents":"7",REST}', 409),
    ('{"kind":"show","account":"A"}', 422),
)

# Heads and bodies as they are: what comes, its status, and the account whose ledger it reaches.
RAW = (
    (b"POST /posts HTTP/1.1\r\nContent-Type: application/json\r\nTransfer-Encoding: chunked\r\n\r\n"
     b"d\r\n{\"account\":\"B\r\n2\r\n\"}\r\n0\r\n\r\n", 411, ""),
    (b"POST /posts HTTP/1.1\r\nContent-Type: application/json\r\nContent-Length: 15\r\n"
     b"Content-Length: 16\r\n\r\n{\"account\":\"B\"} ", 400, ""),
    (b"POST /posts HTTP/1.1\r\nContent-Type: text/plain\r\nContent-Length: 15\r\n\r\n"
     b"{\"account\":\"A\"}", 415, ""),
    (b"POST /posts HTTP/1.1\r\nContent-Length: 15\r\n\r\n{\"account\":\"A\"}", 415, ""),
    (b"POST /posts HTTP/1.1\r\nOrigin: null\r\nContent-Type: application/json\r\nContent-Length: "
     b"15\r\n\r\n{\"account\":\"A\"}", 403, ""),
    (b"PUT /posts HTTP/1.1\r\nContent-Type: application/json\r\nContent-Length: 15\r\n\r\n"
     b"{\"account\":\"A\"}", 405, ""),
    (b"GET /posts HTTP/1.1\r\n\r\n", 405, ""),
    (b"GET /work HTTP/1.1\r\n\r\n", 421, ""),
    (b"GET /accounts HTTP/1.1\r\n\r\n", 404, ""),
    (b"GET /accounts/ HTTP/1.1\r\n\r\n", 404, ""),
    (b"GET //accounts/A HTTP/1.1\r\n\r\n", 404, ""),
    (b"GET /accounts/A%2f..%2fB HTTP/1.1\r\n\r\n", 404, ""),
    (b"GET /ACCOUNTS/A HTTP/1.1\r\n\r\n", 404, ""),
    (b"GET /accounts/A#/B HTTP/1.1\r\n\r\n", 400, ""),
    (b"GET /accounts/A?account=B HTTP/1.1\r\n\r\n", 200, "A"),
    (b"GET /accounts/A/../B HTTP/1.1\r\n\r\n", 404, "A"),
    (b"GET http://door/accounts/A HTTP/1.1\r\nHost: door\r\n\r\n", 404, "A"),
    (b"DELETE /accounts/A HTTP/1.1\r\n\r\n", 405, "A"),
)


def send(port: int, text: bytes) -> bytes:
    """Bytes as they are, on a connection of their own: what comes back."""
    with socket.create_connection(("127.0.0.1", port), timeout=SECONDS) as link:
        link.sendall(text)
        back = b""
        while b"\r\n\r\n" not in back:
            piece = link.recv(65536)
            if not piece:
                break
            back += piece
    return back


class Hostile:
    """Sends each of them, and looks at which ledger had a connection."""

    def __init__(self, door: Door, ledgers: list[Ledger], names: list[str],
                 shard_of: Callable[[str], int]) -> None:
        self.door, self.ledgers, self.shard_of = door, ledgers, shard_of
        self.first = names[0]
        self.second = next(name for name in names if shard_of(name) != shard_of(self.first))
        self.count = 0

    def text(self, pattern: str) -> bytes:
        rest = '"key":"hostile","day":"2099-01-01","place":"purchase","cents":100'
        text = re.sub('"A(?=["\0])', f'"{self.first}', pattern)
        changes = {"'B'": f"'{self.second}'", '"B"': f'"{self.second}"', "REST": rest,
                   "LONG": self.second + "x" * 32, "SPACES": " " * 17000}
        for mark, meant in changes.items():
            text = text.replace(mark, meant)
        return text.encode("latin-1")

    def connections(self) -> list[int]:
        return [ledger.connections() for ledger in self.ledgers]

    def reached(self, before: list[int]) -> list[int]:
        """The ledgers that had a connection since then; a line comes a moment after its answer."""
        time.sleep(0.01)
        return [shard for shard, (old, new) in enumerate(zip(before, self.connections()))
                if new != old]

    def check(self, what: object, status: int, wanted: int, before: list[int],
              shards: list[int]) -> None:
        self.count += 1
        deadline = time.monotonic() + 5
        while (
            reached := self.reached(before)) != shards and time.monotonic(
                ) < deadline and len(reached) < len(shards):
            pass
        if status != wanted or reached != shards:
            fail(f"{what}: status {status}, wanted {wanted}; it reached the shards {reached}, "
                 f"wanted {shards}")

    def settled(self) -> list[int]:
        """The connections of each ledger, when no line comes any more."""
        before = self.connections()
        time.sleep(0.5)
        while before != self.connections():
            before = self.connections()
            time.sleep(0.5)
        return before

    def run(self) -> int:
        before = self.settled()
        for pattern, wanted in REFUSED:
            status = ask(self.door.port, "POST", "/posts", self.text(pattern))[0]
            self.check(self.text(pattern)[:200], status, wanted, before, [])
        home = [self.shard_of(self.first)]
        for pattern, wanted in TAKEN:
            before = self.connections()
            status = ask(self.door.port, "POST", "/posts", self.text(pattern))[0]
            self.check(self.text(pattern)[:200], status, wanted, before, home)
        for raw, wanted, account in RAW:
            before = self.connections()
            text = re.sub(b"/A(?=[ ?#/%])", b"/" + self.first.encode(), raw)
            back = send(self.door.port, text)
            status = int(back.split(b" ")[1]) if back else 0
            self.check(text[:200], status, wanted, before, home if account else [])
        self.pipelined()
        return self.count

    def pipelined(self) -> None:
        """Two questions on one connection go to two ledgers."""
        before = self.connections()
        pair = (f"GET /accounts/{self.first} HTTP/1.1\r\n\r\n"
                f"GET /accounts/{self.second} HTTP/1.1\r\nConnection: close\r\n\r\n").encode()
        back = b""
        with socket.create_connection(("127.0.0.1", self.door.port), timeout=SECONDS) as link:
            link.sendall(pair)
            while piece := link.recv(65536):
                back += piece
        first, second = (back.find(f"show {name} ".encode())
                         for name in (self.first, self.second))
        if back.count(b"HTTP/1.1 200 ") != 2 or first > second:
            fail(f"two questions on one connection: {back!r}")
        self.check("two questions", 200, 200, before,
                   sorted((self.shard_of(self.first), self.shard_of(self.second))))

    def statistics(self) -> None:
        """What the door tells of itself reaches no ledger."""
        before = self.connections()
        page = "".join(ask(self.door.statistics, "GET", path)[1] for path in ("/;csv", "/metrics"))
        errors = 'haproxy_server_connection_errors_total{proxy="shard3",server="ledger"}'
        if page.count("shard0,ledger,") != 1 or errors not in page:
            fail("the statistics don't tell of each shard")
        self.check("statistics", 200, 200, before, [])
