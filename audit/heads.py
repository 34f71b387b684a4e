"""The head of a request over HTTP."""

from collections.abc import Container
from typing import NamedTuple

HEADER_LINES = 64

_TOKEN = frozenset(b"ABCDEFGHIJKLMNOPQRSTUVWXYZabcdefghijklmnopqrstuvwxyz0123456789"
                   b"!#$%&'*+-.^_`|~")
_TARGET = frozenset(range(0x21, 0x7F)) | frozenset(range(0x80, 0x100))
_VALUE = frozenset(b"\t") | frozenset(range(0x20, 0x7F)) | frozenset(range(0x80, 0x100))


class Head(NamedTuple):
    length: int
    method: str
    target: str
    headers: list[tuple[bytes, bytes]]


class Partial(Exception):
    """The bytes end before the head does."""


class NoHead(Exception):
    """The bytes begin no head."""


class _HeadReader:
    """Reads a head byte by byte, with the default settings of the usual Rust reader."""

    def __init__(self, data: bytes):
        self.data, self.place = data, 0

    def next(self) -> int:
        if self.place == len(self.data):
            raise Partial
        self.place += 1
        return self.data[self.place - 1]

    def back(self) -> None:
        self.place -= 1

    def newline(self, c: int) -> None:
        """LF, or CR LF, whose first byte is `c`."""
        if c == 0x0D:
            c = self.next()
        if c != 0x0A:
            raise NoHead

    def head(self) -> Head:
        c = self.next()
        while c in (0x0D, 0x0A):  # empty lines before the request line
            self.newline(c)
            c = self.next()
        self.back()
        method = self.until_space(_TOKEN).decode("ascii")
        try:
            target = self.until_space(_TARGET).decode("utf-8")
        except UnicodeDecodeError:
            raise NoHead from None
        for wanted in b"HTTP/1.":
            if self.next() != wanted:
                raise NoHead
        if self.next() not in b"01":
            raise NoHead
        self.newline(self.next())
        headers: list[tuple[bytes, bytes]] = []
        while True:
            c = self.next()
            if c in (0x0D, 0x0A):
                self.newline(c)
                return Head(self.place, method, target, headers)
            if c not in _TOKEN:
                raise NoHead
            self.back()
            found = self.header()
            if len(headers) == HEADER_LINES:  # refused when the line too many is whole
                raise NoHead
            headers.append(found)

    def until_space(self, allowed: Container[int]) -> bytes:
        start = self.place
        while True:
            c = self.next()
            if c == 0x20 and self.place - 1 > start:
                return self.data[start:self.place - 1]
            if c not in allowed:
                raise NoHead

    def header(self) -> tuple[bytes, bytes]:
        start = self.place
        c = self.next()
        while c != 0x3A:
            if c not in _TOKEN:
                raise NoHead
            c = self.next()
        name = self.data[start:self.place - 1]
        start = self.place
        c = self.next()
        while c in _VALUE:
            c = self.next()
        value = self.data[start:self.place - 1]
        self.newline(c)
        return name, value.strip(b" \t")


def read_head(data: bytes) -> Head:
    """The head at the start of the bytes; raises where there is none or not yet one."""
    return _HeadReader(data).head()
