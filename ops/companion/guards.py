"""What is refused before anything is sent: inputs that are empty, cut or not what they seem."""

import csv
import io
from collections.abc import Sequence

from companion.days import day_of
from companion.inputs import HEADER, KEYED_HEADER, Input
from companion.requests import COLUMNS, OF, OPENINGS, WORDS
from companion.state import State
from companion.trouble import GUARDED, Trouble

__all__ = ["HEADER", "FAR_DAYS", "Input", "guard", "read_input", "require_near"]

# A roll of more days wants --far.
FAR_DAYS = 7
BYTE_ORDER_MARK = b"\xef\xbb\xbf"
ZIP = b"PK\x03\x04"


def guard(message: str) -> Trouble:
    return Trouble(f"nothing was sent: {message}", GUARDED)


def text_of(data: bytes) -> str:
    return data.decode("utf-8", "backslashreplace")


def records_of(data: bytes) -> list[list[str]]:
    """The records of CSV, without empty lines."""
    text = text_of(data[len(BYTE_ORDER_MARK):] if data.startswith(BYTE_ORDER_MARK) else data)
    try:
        return [record for record in csv.reader(io.StringIO(text, newline="")) if record]
    except csv.Error as error:
        raise guard(f"the input is no CSV: {error}") from error


def lines_of(data: bytes) -> list[str]:
    """Request lines, without their line feeds and a carriage return in front of one."""
    lines = data.split(b"\n")[:-1]
    return [text_of(line[:-1] if line.endswith(b"\r") else line) for line in lines]


def require_header(record: list[str]) -> None:
    """Refuses a header that isn't that of records, and names the first column that differs."""
    for place, wanted in enumerate(COLUMNS):
        found = record[place] if place < len(record) else None
        if found != wanted:
            told = "is missing" if found is None else f"is {found!r}"
            raise guard(f"column {place + 1} of the header {told}, wanted {wanted!r}; "
                        f"the header is {HEADER}")
    if len(record) > len(COLUMNS) and record[len(COLUMNS):] != [OF]:
        raise guard(f"the header has {len(record)} columns, wanted {len(COLUMNS)}: {HEADER}; "
                    f"or, where posts are named by their keys, {KEYED_HEADER}")


def require_whole(data: bytes) -> None:
    """Refuses an input that is empty, or whose last line was cut."""
    if not data:
        raise guard("the input is empty")
    if data.startswith(ZIP):
        raise guard("the input is a workbook (.xlsx) or another zip; save the sheet as CSV")
    if data[:2] in (b"\xff\xfe", b"\xfe\xff") or b"\0" in data[:64]:
        raise guard("the input isn't plain text (it may be UTF-16); save it as UTF-8")
    if not data.endswith(b"\n"):
        last = text_of(data.replace(b"\r", b"\n").rsplit(b"\n", 1)[-1])
        raise guard(f"the last line doesn't end with a line feed, so it may be cut: {last[-60:]!r}")


def read_input(data: bytes) -> Input:
    """What some bytes are: request lines, or records of CSV. Refuses what isn't whole."""
    require_whole(data)
    front = text_of(data.split(b"\n", 1)[0].rstrip(b"\r"))
    if front.lstrip("\ufeff").split(" ")[0] in (*WORDS, "show"):
        if data.startswith(BYTE_ORDER_MARK):
            raise guard("a byte order mark stands before the first line; save it without")
        return Input(data, "apply", lines_of(data))
    if not any(mark in front for mark in ",;\t\"|") and " " in front:
        raise guard("the first line begins with no word of a request, and is no header of CSV: "
                    f"{front[:60]!r}")
    if data.count(b'"') % 2:
        raise guard("a quote isn't closed, so the end of the input may be missing")
    records = records_of(data)
    require_header(records[0] if records else [])
    keyed = len(records[0]) > len(COLUMNS)
    return Input(data, "import", records=records[1:], keyed=keyed)


def require_near(lines: Sequence[str], state: State, far: bool) -> None:
    """Refuses a roll of more than seven days from today, unless `far` says that it is meant.

    Before the first account a roll goes as far as it likes.
    """
    has_accounts = bool(state.accounts)
    today = state.today
    for place, line in enumerate(lines):
        parts = line.split(" ")
        has_accounts = has_accounts or parts[0] in OPENINGS
        day = day_of(parts[1]) if parts[0] == "roll" and len(parts) == 2 else None
        if day is None or day <= today:
            continue
        if not has_accounts:
            today = day
        elif (day - today).days > FAR_DAYS and not far:
            raise guard(f"line {place + 1} rolls from {today} to {day}, {(day - today).days} days, "
                        f"and no roll can be taken back; more than {FAR_DAYS} days want --far")
