"""The issuer's own files: its texts, the names of cardholders, and what a purchase was.

Each is read whole before anything is written; what isn't as it should be is refused with its line.
"""

import csv
import io
import re
import tomllib
from dataclasses import dataclass, field
from pathlib import Path
from typing import Any

from ..lines import read_name
from .markup import words

NAMES_HEADER = ["account", "name", "line1", "line2", "line3", "line4"]
NOTES_HEADER = ["account", "key", "text"]
LINES = ("address", "payment_address", "inquiry_address")
WORDS = ("name", "telephone", "website", "counseling_telephone", "balances_text", "errors_text",
         "payments_text", "changes_text")
PLACES = ("name", "telephone", "website", "address", "payment_address", "inquiry_address")
ONE_LINE = ("telephone", "counseling_telephone")
SHORT = 24
_PLACE = re.compile(r"\{([^{}]*)\}")


class WrongFile(Exception):
    """What is wrong in a file of the issuer, with its line."""


@dataclass(frozen=True)
class Addressee:
    """A cardholder's name and the lines of the address."""

    name: str
    lines: list[str]


@dataclass(frozen=True)
class Issuer:
    """What the issuer gives. A text that isn't given is its name in brackets."""

    words: dict[str, str] = field(default_factory=dict)
    lines: dict[str, list[str]] = field(default_factory=dict)
    names: dict[str, Addressee] = field(default_factory=dict)
    notes: dict[tuple[str, str], str] = field(default_factory=dict)

    def word(self, key: str) -> str:
        """A text, with the places in it filled."""
        if key not in self.words:
            return f"[{key.replace('_', ' ')}]"
        return _PLACE.sub(lambda found: self._place(found[1]), self.words[key])

    def text(self, key: str) -> str:
        """A text for a page, in which nothing is markup; a short one of a line isn't broken."""
        found = self.word(key)
        if key in ONE_LINE and len(found) <= SHORT:
            return f'<span class="one">{words(found)}</span>'
        return words(found)

    def _place(self, key: str) -> str:
        return ", ".join(self.lines[key]) if key in self.lines else self.words[key]

    def block(self, key: str) -> list[str]:
        """The lines of an address."""
        return self.lines.get(key, [f"[{key.replace('_', ' ')}]"])

    def addressee(self, account: str) -> Addressee:
        return self.names.get(account, Addressee("[name]", ["[address]"]))

    def missing(self) -> list[str]:
        """The texts that a page shows as their names in brackets."""
        return [key for key in (*WORDS, *LINES) if key not in self.words and key not in self.lines]


def text_in(path: str) -> str:
    """The text of a file in UTF-8."""
    try:
        data = Path(path).read_bytes()
    except OSError as error:
        raise WrongFile(f"{path}: {error.strerror}") from None
    try:
        return data.decode("utf-8-sig")
    except UnicodeDecodeError as error:
        line = data[:error.start].count(b"\n") + 1
        raise WrongFile(f"{path}, line {line}: byte {data[error.start]:#04x} isn't UTF-8; write "
                        "the file in that encoding") from None


# -- texts -------------------------------------------------------------------------------------


def line_of(text: str, key: str) -> int:
    """The line on which a key stands, else the last one."""
    lines = text.splitlines()
    for number, line in enumerate(lines, start=1):
        if re.match(rf"\s*\"?{re.escape(key)}\"?\s*=", line):
            return number
    return max(1, len(lines))


def hold_text(path: str, text: str, key: str, value: Any) -> None:
    """A value is of its form, and every place in a text has a name."""
    where = f"{path}, line {line_of(text, key)}: {key}"
    if key in LINES:
        if not isinstance(value, list) or not value or not all(
                isinstance(line, str) and line for line in value):
            raise WrongFile(f"{where} has to be a list of lines of text")
        return
    if not isinstance(value, str) or not value.strip():
        raise WrongFile(f"{where} has to be a text that isn't empty")
    for place in _PLACE.findall(value):
        if place not in PLACES:
            raise WrongFile(f"{where} has the place {{{place}}}; the places are "
                            f"{', '.join(PLACES)}")


def read_texts(path: str) -> tuple[dict[str, str], dict[str, list[str]]]:
    """The texts of ISSUER.toml: every key is there, and no other."""
    text = text_in(path)
    try:
        found = tomllib.loads(text)
    except tomllib.TOMLDecodeError as error:
        raise WrongFile(f"{path}: it is no TOML: {error}") from None
    for key in found:
        if key not in (*WORDS, *LINES):
            raise WrongFile(f"{path}, line {line_of(text, key)}: {key} is no key; the keys are "
                            f"{', '.join((*WORDS, *LINES))}")
    for key in (*WORDS, *LINES):
        if key not in found:
            raise WrongFile(f"{path}, line {line_of(text, key)}: it ends without the key {key}")
        hold_text(path, text, key, found[key])
    return {key: found[key] for key in WORDS}, {key: found[key] for key in LINES}


# -- tables ------------------------------------------------------------------------------------


def records_of(path: str, header: list[str]) -> list[tuple[int, list[str]]]:
    """The records of a CSV file with these columns, each with the line on which it ends."""
    reader = csv.reader(io.StringIO(text_in(path), newline=""), strict=True)
    found: list[tuple[int, list[str]]] = []
    try:
        for record in reader:
            if record:
                found.append((reader.line_num, record))
    except csv.Error as error:
        raise WrongFile(f"{path}, line {reader.line_num}: it is no CSV: {error}") from None
    if not found or found[0][1] != header:
        raise WrongFile(f"{path}, line 1: the columns have to be {','.join(header)}")
    for line, record in found[1:]:
        if len(record) != len(header):
            raise WrongFile(f"{path}, line {line}: it has {len(record)} columns, not "
                            f"{len(header)}")
        if read_name(record[0].encode()) is None:
            raise WrongFile(f"{path}, line {line}: {record[0][:40]!r} is no name of an account")
    return found[1:]


def read_names(path: str) -> dict[str, Addressee]:
    found: dict[str, Addressee] = {}
    first: dict[str, int] = {}
    for line, (account, name, *lines) in records_of(path, NAMES_HEADER):
        if account in found:
            raise WrongFile(f"{path}, line {line}: {account} has a name on line "
                            f"{first[account]} already")
        if not name.strip():
            raise WrongFile(f"{path}, line {line}: the name of {account} is empty")
        found[account], first[account] = Addressee(name, [one for one in lines if one]), line
    return found


def read_notes(path: str) -> dict[tuple[str, str], str]:
    found: dict[tuple[str, str], str] = {}
    first: dict[tuple[str, str], int] = {}
    for line, (account, key, text) in records_of(path, NOTES_HEADER):
        if read_name(key.encode()) is None:
            raise WrongFile(f"{path}, line {line}: {key[:40]!r} is no key of a post")
        if (account, key) in found:
            raise WrongFile(f"{path}, line {line}: {account} {key} has a note on line "
                            f"{first[account, key]} already")
        found[account, key], first[account, key] = text, line
    return found


def read_issuer(texts: str | None, names: str | None, notes: str | None) -> Issuer:
    """The files of the issuer, as far as they are given."""
    words, lines = read_texts(texts) if texts else ({}, {})
    return Issuer(words, lines, read_names(names) if names else {},
                  read_notes(notes) if notes else {})
