"""Bytes that mean no good: random bytes, runs of one byte, and lines, records and requests of
examples/ in which bytes are changed, doubled, cut and left out."""

import json
import random

from tests.support.program import EXAMPLES
from tests.support.requests import FIELDS

ODD = b"\x00\t\r\n \"',:.-{}[]\\+0129azAZ_%/?#\x7f\x80\xc3\xa9\xed\xa0\x80\xff"
PATHS = ("/work", "/accounts/a", "/accounts/anna/entries", "/accounts/a/statements/1",
         "/accounts/a/cycles/9", "/posts", "*")


def body_of(line: bytes) -> bytes:
    """A line as JSON, whatever it is."""
    word, *values = line.decode("latin-1").strip().split(" ")
    names = FIELDS.get(word, "").split()
    members = {name: int(value) if value.isdigit() else value
               for name, value in zip(names, values)}
    return json.dumps({"kind": word} | members).encode()


class Spoiler:
    """Draws such bytes from a seed."""

    def __init__(self, seed: int) -> None:
        self.rng = random.Random(seed)
        self.lines: list[bytes] = []
        for path in sorted(EXAMPLES.glob("*.txt")):
            self.lines += path.read_bytes().splitlines(keepends=True)
        records = (EXAMPLES / "month" / "records.csv").read_bytes()
        self.records = records.splitlines(keepends=True)

    def spoiled(self, given: bytes) -> bytes:
        """The text with some bytes changed, doubled, cut or left out."""
        rng, text = self.rng, bytearray(given)
        for _ in range(rng.choice((0, 1, 1, 2, 3, 8))):
            if not text:
                break
            at = rng.randrange(len(text))
            kind = rng.randrange(6)
            if kind == 0:
                text[at] = rng.randrange(256)
            elif kind == 1:
                text[at] = rng.choice(ODD)
            elif kind == 2:
                text[at:at] = bytes([rng.choice(ODD)]) * rng.choice((1, 1, 2, 40))
            elif kind == 3:
                del text[at:at + rng.choice((1, 2, 10))]
            elif kind == 4:
                text[at:at] = text[at:at + rng.choice((1, 5, 30))]
            else:
                del text[at:]
        return bytes(text)

    def bytes_like(self, parts: list[bytes], size: int) -> bytes:
        """So many bytes, made of these parts and of none."""
        rng, out = self.rng, bytearray()
        while len(out) < size:
            kind = rng.randrange(10)
            if kind < 7:
                out += b"".join(self.spoiled(rng.choice(parts)) for _ in range(20))
            elif kind == 7:
                out += rng.randbytes(rng.choice((10, 600, 5000)))
            elif kind == 8:
                out += bytes([rng.choice(ODD)]) * rng.choice((2, 513, 5000))
            else:
                out += bytes(rng.choice(ODD) for _ in range(2000))
        return bytes(out[:size])

    def request(self) -> bytes:
        """What a client sends on a connection."""
        rng, kind = self.rng, self.rng.randrange(10)
        if kind == 0:
            return rng.randbytes(rng.choice((1, 100, 9000)))
        if kind == 1:
            return bytes(rng.choice(ODD) for _ in range(rng.choice((1, 100, 9000))))
        if kind < 4:
            return self.spoiled(f"GET {rng.choice(PATHS)} HTTP/1.1\r\nHost: h\r\n\r\n".encode())
        body = self.spoiled(body_of(rng.choice(self.lines)))
        if kind == 4:
            body = rng.choice((b"[" * rng.choice((127, 128, 16000)), b'{"a":1e400}',
                               b"\xed\xa0\x80", b"9" * 400, b'"' + b"\\" * 9,
                               body + b" " * 15000))
        length = max(0, len(body) + rng.choice((0, 0, 0, 0, -1, 1, 20000)))
        head = b"POST /posts HTTP/1.1\r\nHost: h\r\nContent-Length: %d\r\n\r\n" % length
        return (self.spoiled(head) if rng.random() < 0.3 else head) + body
