"""CSV: the reader's automaton, records as requests, and the export."""

from collections.abc import Sequence
from typing import NamedTuple

from .book import Entry
from .days import day_text
from .lines import FORMS
from .segments import Segment
from .words import Request, Value, request_of

HEADER = [b"account", b"key", b"kind", b"day", b"place", b"cents", b"minute", b"channel"]
KINDS = (b"charge", b"credit", b"payment")
_BOM = b"\xef\xbb\xbf"
_KIND = "kind"
_EMPTY = "empty"


class BadRecord(NamedTuple):
    row: int
    field: int


class _Records:
    """Takes bytes one by one and gathers records.

    The states: `record` between records, `start` of a field, `field` inside
    one that isn't quoted or behind a closing quote, `quoted` inside quotes,
    `quote` behind a quote inside them.
    """

    def __init__(self) -> None:
        self.done: list[list[bytes]] = []
        self.fields: list[bytes] = []
        self.text = bytearray()
        self.state = "record"

    def end_field(self) -> None:
        self.fields.append(bytes(self.text))
        self.text.clear()
        self.state = "start"

    def end_record(self) -> None:
        self.end_field()
        self.done.append(self.fields)
        self.fields = []
        self.state = "record"

    def plain(self, c: bytes) -> None:
        self.state = "field"
        if c == b",":
            self.end_field()
        elif c in b"\r\n":
            self.end_record()
        else:
            self.text += c

    def take(self, c: bytes) -> None:
        if self.state == "record" and c in b"\r\n":
            return
        if self.state in ("record", "start"):
            if c == b'"':
                self.state = "quoted"
            else:
                self.plain(c)
        elif self.state == "quoted":
            if c == b'"':
                self.state = "quote"
            else:
                self.text += c
        elif self.state == "quote" and c == b'"':
            self.text += c
            self.state = "quoted"
        else:
            self.plain(c)


def read_records(data: bytes) -> list[list[bytes]]:
    """The records of some bytes as the usual flexible CSV reader gives them.

    Fields are separated by commas and may be quoted; a doubled quote inside
    a quoted field is one quote.  A record ends with CR, LF or CR LF, and
    empty lines are no records.  Bytes after a closing quote are taken
    literally, and so is a quote inside an unquoted field.  A byte order mark
    at the start is skipped.
    """
    records = _Records()
    for value in data.removeprefix(_BOM):
        records.take(bytes([value]))
    if records.state != "record":
        records.end_record()
    return records.done


def _forms(kind: bytes | None) -> list[str]:
    """The forms of the eight columns for a kind."""
    if kind == b"payment":
        return ["name", "name", _KIND, "day", _EMPTY, "number", "number", "channel"]
    return ["name", "name", _KIND, "day", "place", "number", _EMPTY, _EMPTY]


def _read_field(form: str, text: bytes) -> Value | None:
    """The value of a field, None where it isn't of its form."""
    if form == _KIND:
        return text.decode() if text in KINDS else None
    if form == _EMPTY:
        return "" if text == b"" else None
    return FORMS[form](text)


def _read_header(fields: list[bytes]) -> BadRecord | None:
    for place, want in enumerate(HEADER):
        if place >= len(fields) or fields[place] != want:
            return BadRecord(1, place + 1)
    return None if len(fields) == len(HEADER) else BadRecord(1, len(HEADER) + 1)


def import_record(row: int, fields: list[bytes]) -> Request | BadRecord | None:
    """The request of a record; None for a good header, which only the first row is."""
    if row == 1:
        return _read_header(fields)
    kind = fields[2] if len(fields) > 2 else None
    values: dict[str, Value] = {}
    for place, form in enumerate(_forms(kind)):
        value = _read_field(form, fields[place]) if place < len(fields) else None
        if value is None:
            return BadRecord(row, place + 1)
        if form not in (_KIND, _EMPTY):
            values[HEADER[place].decode()] = value
    if len(fields) > len(HEADER):
        return BadRecord(row, len(HEADER) + 1)
    return request_of(fields[2].decode(), values)


def import_items(data: bytes) -> list[Request | BadRecord]:
    """The items of all records in order, without a good header."""
    items = [import_record(row, fields) for row, fields in enumerate(read_records(data), start=1)]
    return [item for item in items if item is not None]


def export_text(entries: Sequence[Entry], segments: Sequence[Segment]) -> str:
    """The header and one record per entry in the order in which they were made."""
    lines = ["day,segment,kind,post,cents"]
    for e in entries:
        lines.append(f"{day_text(e.day)},{segments[e.segment].name},{e.kind},{e.post},{e.cents}")
    return "".join(line + "\n" for line in lines)
