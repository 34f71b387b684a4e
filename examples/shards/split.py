#!/usr/bin/env python3
"""Splits records of CSV or request lines by account, so that each shard's file can be imported or
applied beside the others.

    split.py csv 4 march- < records.csv       march-0.csv .. march-3.csv, each with the header
    split.py lines 4 opens- < opens.txt       opens-0.txt .. opens-3.txt

An account's shard is the CRC-32 of its name modulo the number of shards, as in haproxy.cfg. Each
record or line goes to its file byte for byte and in order. A shared request belongs to every shard,
in the same order as all others: it is refused here, and sent by shared.sh. No file is overwritten.
The files are read again, and what they hold is printed beside what was read: records, and the cents
of charges, credits and payments.

Status: 0 the files stand, and their sums are those of the input; 1 they don't, or nothing was
written, and a line on standard error says why; 2 the words aren't of one of the two forms.
"""
import os
import sys
import zlib
from collections import Counter
from collections.abc import Iterator
from typing import Protocol

HEADER = [b"account", b"key", b"kind", b"day", b"place", b"cents", b"minute", b"channel"]
SHARED = (b"roll", b"holiday", b"feerow", b"index")
BYTE_ORDER_MARK = b"\xef\xbb\xbf"
# where the cents of a request line stand, counted from its word
CENTS_OF_LINE = {b"charge": 5, b"credit": 5, b"payment": 6}
COLUMNS = ("records", "charge", "credit", "payment")


class Unsplit(Exception):
    """Why nothing is split."""


class Piece:
    """A record or a line: its bytes with what ends it, and its fields."""

    def __init__(self, text: bytes, fields: list[bytes]) -> None:
        self.text = text
        self.fields = fields


class Form(Protocol):
    """How an input is read: what its files end with, its pieces, and what each of them holds."""

    end: str

    def pieces(self, data: bytes) -> Iterator[Piece]:
        """The records or lines in order."""

    def front(self, pieces: list[Piece]) -> tuple[bytes, list[Piece]]:
        """What stands in front of each file, and the pieces behind it."""

    def account(self, piece: Piece) -> bytes:
        """The account that a piece names."""

    def cents(self, piece: Piece) -> tuple[bytes, bytes]:
        """The kind and the cents of a piece, where it has them."""


class Table:
    """Records of CSV, as `import` reads them: plain fields or fields in quotes, each record ended
    by CR, LF or CR LF."""

    end = ".csv"

    def pieces(self, data: bytes) -> Iterator[Piece]:
        start = 0
        if data.startswith(BYTE_ORDER_MARK):
            start = len(BYTE_ORDER_MARK)
        while start < len(data):
            stop, fields = self._record(data, start)
            if fields:
                yield Piece(data[start:stop], fields)
            start = stop

    def _record(self, data: bytes, at: int) -> tuple[int, list[bytes]]:
        """The end of the record that begins here, and its fields; none of an empty line."""
        if data[at:at + 1] in (b"\r", b"\n"):
            return at + 1, []
        fields: list[bytes] = []
        while True:
            field, at = self._field(data, at)
            fields.append(field)
            end = data[at:at + 1]
            if end == b",":
                at += 1
            elif data[at:at + 2] == b"\r\n":
                return at + 2, fields
            else:
                return min(at + 1, len(data)), fields

    def _field(self, data: bytes, at: int) -> tuple[bytes, int]:
        """The field that begins here, and the comma, line end or end of data behind it."""
        field = b""
        if data[at:at + 1] == b'"':
            field, at = self._quoted(data, at + 1)
        places = [data.find(end, at) for end in (b",", b"\r", b"\n")]
        stop = min((place for place in places if place >= 0), default=len(data))
        return field + data[at:stop], stop

    def _quoted(self, data: bytes, at: int) -> tuple[bytes, int]:
        """What stands in quotes from here on, and the place behind the last quote."""
        field = b""
        while True:
            stop = data.find(b'"', at)
            if stop < 0:
                return field + data[at:], len(data)
            field += data[at:stop]
            if data[stop + 1:stop + 2] != b'"':
                return field, stop + 1
            field += b'"'
            at = stop + 2

    def front(self, pieces: list[Piece]) -> tuple[bytes, list[Piece]]:
        """The header, which stands in each file, and the records."""
        if not pieces or pieces[0].fields != HEADER:
            raise Unsplit("the first record isn't the header " + b",".join(HEADER).decode())
        return ended(pieces[0].text), pieces[1:]

    def account(self, piece: Piece) -> bytes:
        return piece.fields[0]

    def cents(self, piece: Piece) -> tuple[bytes, bytes]:
        """The kind and the cents of a record, where it has them."""
        if len(piece.fields) == len(HEADER):
            return piece.fields[2], piece.fields[5]
        return b"", b""


class Lines:
    """Request lines."""

    end = ".txt"

    def pieces(self, data: bytes) -> Iterator[Piece]:
        for number, text in enumerate(whole_lines(data), 1):
            fields = text.removesuffix(b"\n").removesuffix(b"\r").split(b" ")
            if fields[0] in SHARED:
                raise Unsplit(f"line {number} is a shared request: send it by shared.sh")
            yield Piece(text, fields)

    def front(self, pieces: list[Piece]) -> tuple[bytes, list[Piece]]:
        return b"", pieces

    def account(self, piece: Piece) -> bytes:
        return piece.fields[1] if len(piece.fields) > 1 else b""

    def cents(self, piece: Piece) -> tuple[bytes, bytes]:
        word = piece.fields[0]
        place = CENTS_OF_LINE.get(word, 0)
        return word, piece.fields[place] if len(piece.fields) == place + 1 else b""


FORMS: dict[str, Form] = {"csv": Table(), "lines": Lines()}


def whole_lines(data: bytes) -> list[bytes]:
    """Lines, each with the line feed that ends it; the last one may have none."""
    *lines, rest = data.split(b"\n")
    return [line + b"\n" for line in lines] + ([rest] if rest else [])


def ended(text: bytes) -> bytes:
    """A record with a line end: the last one of a file may have none."""
    return text if text.endswith((b"\r", b"\n")) else text + b"\n"


def shard_of(account: bytes, shards: int) -> int:
    return zlib.crc32(account) % shards


def sums(form: Form, pieces: list[Piece]) -> Counter[str]:
    """How many records there are, and the cents of each kind that has an amount in digits."""
    total: Counter[str] = Counter()
    for piece in pieces:
        total["records"] += 1
        kind, cents = form.cents(piece)
        if kind in CENTS_OF_LINE and cents.isdigit():
            total[kind.decode()] += int(cents)
    return total


def split(form: Form, data: bytes, shards: int) -> tuple[list[bytes], Counter[str]]:
    """The bytes of each shard's file."""
    front, pieces = form.front(list(form.pieces(data)))
    files = [[front] for _ in range(shards)]
    for piece in pieces:
        files[shard_of(form.account(piece), shards)].append(ended(piece.text))
    return [b"".join(texts) for texts in files], sums(form, pieces)


def write(paths: list[str], texts: list[bytes]) -> None:
    for path in paths:
        if os.path.exists(path):
            raise Unsplit(f"{path} is there already")
    for path, text in zip(paths, texts):
        with open(path, "xb") as file:
            file.write(text)


def held(form: Form, path: str) -> Counter[str]:
    """The sums of a file, as it was written."""
    with open(path, "rb") as file:
        _, pieces = form.front(list(form.pieces(file.read())))
    return sums(form, pieces)


def row(name: str, total: Counter[str]) -> str:
    return " ".join([name] + [f"{column} {total[column]}" for column in COLUMNS])


def run(form: Form, shards: int, prefix: str, data: bytes) -> None:
    texts, total = split(form, data, shards)
    paths = [f"{prefix}{shard}{form.end}" for shard in range(shards)]
    write(paths, texts)
    whole: Counter[str] = Counter()
    for path in paths:
        part = held(form, path)
        print(row(path, part))
        whole += part
    print(row("input", total))
    if +whole != +total:
        raise Unsplit("the sums of the files aren't those of the input")


def main(words: list[str]) -> int:
    if words[:1] in (["--help"], ["-h"]):
        print(__doc__, end="")
        return 0
    if len(words) != 3 or words[0] not in FORMS or not words[1].isdigit() or int(words[1]) == 0:
        print("usage: split.py csv|lines SHARDS PREFIX < INPUT", file=sys.stderr)
        return 2
    try:
        run(FORMS[words[0]], int(words[1]), words[2], sys.stdin.buffer.read())
    except (Unsplit, OSError) as why:
        print(f"split.py: {why}", file=sys.stderr)
        return 1
    return 0


if __name__ == "__main__":
    sys.exit(main(sys.argv[1:]))
