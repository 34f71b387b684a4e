"""`convert`: from a sheet's own columns to the ledger's records, or a table of what is unclear."""

import csv
import io
from dataclasses import dataclass, field
from datetime import date

from companion import dated
from companion.guards import ZIP, read_input
from companion.inputs import HEADER
from companion.notes import Notes, add_notes, note_of, others_in, read_notes
from companion.requests import COLUMNS, KINDS, form_of, is_of_form
from companion.sheet import AMOUNTS, Sheet, Unclear, cents_of, day_of, minute_of, read_sheet
from companion.state import read_state
from companion.texts import grouped
from companion.trouble import DONE, FOUND, GUARDED, Trouble, counted, say

MONTHS = 12
TABLE = "record | column | what it has | why it isn't understood"


class Converted:
    """The fields of one record of the ledger, from those of the sheet by its columns."""

    def __init__(self, sheet: Sheet, cells: dict[str, str]) -> None:
        self.sheet = sheet
        self.cells = cells

    def text(self, name: str) -> str:
        """What the sheet has for a field, or what is always so."""
        if name in self.sheet.columns:
            text = self.cells[self.sheet.columns[name]]
            if text.strip() or name not in self.sheet.always:
                return text
        return self.sheet.always.get(name, "")

    def chosen(self, name: str) -> str:
        """A choice by the words of the sheet, or the ledger's own word."""
        text = self.text(name).strip()
        return self.sheet.choices[name].get(text, text)

    def signed(self) -> int:
        """The amount with its sign: of a debit above 0, of a credit below."""
        if AMOUNTS[0] not in self.sheet.columns:
            return cents_of(self.sheet, self.text("cents"))
        debit, credit = (self.text(name).strip() for name in AMOUNTS)
        if bool(debit) == bool(credit):
            raise Unclear(AMOUNTS[0], f"{debit} {credit}".strip(),
                          "a record has a debit or a credit, and not both")
        try:
            return cents_of(self.sheet, debit) if debit else -cents_of(self.sheet, credit)
        except Unclear as found:
            raise Unclear(AMOUNTS[0 if debit else 1], found.text, found.why) from None

    def cents_and_kind(self) -> tuple[int, str]:
        cents = self.signed()
        if self.sheet.signs:
            kind = self.sheet.signs.get("plus" if cents >= 0 else "minus")
            if kind is None:
                raise Unclear("cents", self.text("cents"),
                              "no kind is told for an amount of this sign")
            return abs(cents), kind
        if cents < 0:
            raise Unclear("cents", self.text("cents"),
                          "an amount below 0, and [signs] doesn't say what it is")
        return cents, self.chosen("kind")

    def field(self, name: str, kind: str) -> str:
        if name in (("place",) if kind == "payment" else ("minute", "channel")):
            return ""
        if name == "day":
            return day_of(self.sheet, self.text(name)).isoformat()
        if name == "minute":
            columns = self.sheet.columns
            with_day = self.sheet.has_time and columns.get("minute") == columns.get("day")
            return minute_of(self.sheet, self.text(name), with_day)
        if name in self.sheet.choices:
            return self.chosen(name)
        return self.text(name).strip()

    def note(self) -> str:
        """What the booking was, by the columns that say it."""
        return note_of([self.cells[name] for name in self.sheet.note])

    def record(self) -> list[str]:
        """The record. Raises Unclear at the first field that isn't understood."""
        cents, kind = self.cents_and_kind()
        if kind not in KINDS:
            raise Unclear("kind", kind, f"none of {', '.join(KINDS)}")
        fields = {name: self.field(name, kind) for name in COLUMNS if name not in ("kind", "cents")}
        for name, text in fields.items():
            if not text and name not in ("account", "key"):
                continue
            if not is_of_form(form_of(name), text):
                raise Unclear(name, text, f"not of the form of this field ({form_of(name)})")
        for name in ("minute", "channel") if kind == "payment" else ("place",):
            if not fields[name]:
                raise Unclear(name, "", f"missing for a {kind}")
        fields.update(cents=str(cents), kind=kind)
        return [fields[name] for name in COLUMNS]


@dataclass
class Table:
    """A sheet as it was read: its header, its records, and the line with its total."""

    header: list[str]
    records: list[list[str]] = field(default_factory=list)
    total: list[str] | None = None


def refused(text: str) -> Trouble:
    return Trouble(f"nothing was written: {text}", GUARDED)


def text_in(sheet: Sheet, data: bytes) -> str:
    """The text of a sheet, which has to be whole."""
    if data.startswith(ZIP):
        raise refused("the input is a workbook (.xlsx) or another zip; save the sheet as CSV")
    try:
        text = data.decode(sheet.settings["encoding"]).lstrip("\ufeff")
    except (LookupError, UnicodeDecodeError) as error:
        encoding = sheet.settings["encoding"]
        raise refused(f"the input can't be read as {encoding}: {error}") from error
    if not text.endswith(("\n", "\r")):
        raise refused("the input is empty, or its last line may be cut, since it doesn't end with "
                      "a line feed")
    return "".join(text.splitlines(keepends=True)[sheet.settings["skip"]:])


def begins(record: list[str], front: str) -> bool:
    """Whether the first cell with something in it begins with a text."""
    return bool(front) and next((cell for cell in record if cell.strip()), "").strip().startswith(
        front)


def table_in(sheet: Sheet, data: bytes) -> Table:
    """The header and the records of a sheet, up to the line that stops it."""
    body = io.StringIO(text_in(sheet, data), newline="")
    records = [record for record in csv.reader(body, delimiter=sheet.settings["separator"])
               if record]
    if not records:
        raise refused("the input has no header")
    table = Table([name.strip() for name in records[0]])
    for name, column in [*sheet.columns.items(), *(("note", name) for name in sheet.note)]:
        if table.header.count(column) != 1:
            raise refused(f"the input has {table.header.count(column)} columns {column!r}, for "
                          f"{name}; its header is: {', '.join(table.header)}")
    for record in records[1:]:
        if begins(record, sheet.settings["total"]):
            table.total = record
            break
        if begins(record, sheet.settings["stop"]):
            break
        table.records.append(record)
    return table


@dataclass
class Result:
    """What a sheet gives: records, notes, what isn't understood, its signed sum, its newest day."""

    records: list[list[str]] = field(default_factory=list)
    notes: Notes = field(default_factory=dict)
    newest: date = date.min
    unclear: list[tuple[int, str, str, str]] = field(default_factory=list)
    signed: dict[str, int] = field(default_factory=lambda: {"plus": 0, "minus": 0})
    number: int = 0

    def note(self) -> str:
        """The control sums: how many records of each kind, and their sums."""
        counts: dict[str, tuple[int, int]] = {}
        for record in self.records:
            number, cents = counts.get(record[2], (0, 0))
            counts[record[2]] = number + 1, cents + int(record[5])
        parts = [f"{counted(number, kind)} {grouped(cents)}"
                 for kind, (number, cents) in counts.items()]
        return f"{counted(len(self.records), 'record')}: {', '.join(parts) or 'none'}"


def converted(sheet: Sheet, table: Table, day: date) -> Result:
    """The ledger's records, and what isn't understood: record, column, text, why."""
    found = Result(number=len(table.records))
    keys: dict[tuple[str, str], int] = {}
    for number, record in enumerate(table.records, start=2):
        try:
            if len(record) != len(table.header):
                raise Unclear("", str(len(record)), f"the header has {len(table.header)} columns")
            cells = Converted(sheet, dict(zip(table.header, record)))
            made = cells.record()
            place = keys.setdefault((made[0], made[1]), number)
            if place != number:
                raise Unclear("key", made[1], f"record {place} has the same key of this account")
            found.newest = max(found.newest, date.fromisoformat(made[3]))
            require_near_day(sheet, made[3], cells.text("day"), day)
            signed = cells.signed()
            found.signed["plus" if signed >= 0 else "minus"] += signed
            found.records.append(made)
            if text := cells.note():
                found.notes[made[0], made[1]] = text
        except Unclear as one:
            found.unclear.append((number, sheet.column(one.column), one.text, one.why))
    return found


def require_near_day(sheet: Sheet, made: str, text: str, day: date) -> None:
    """Refuses a day ahead, or too long ago, where the description says how old a day may be."""
    if not sheet.days:
        return
    days = (day - date.fromisoformat(made)).days
    if days < 0:
        raise Unclear("day", text, f"after {day}; are days and months swapped?")
    oldest = sheet.days.get("oldest_days")
    if oldest is not None and days > oldest:
        raise Unclear("day", text, f"{days} days before {day}, and oldest_days is {oldest}; are "
                      "days and months swapped?")


def require_new(sheet: Sheet, found: Result, day: date) -> None:
    """Refuses a sheet whose newest day is too long ago: of another time, or read the wrong way."""
    newest, last = sheet.days.get("newest_days"), found.newest
    if newest is None or last == date.min or (day - last).days <= newest:
        return
    cause = "it is a sheet of another time"
    if last.day <= MONTHS and 0 <= (day - date(last.year, last.day, last.month)).days <= newest:
        cause = "are its days and months swapped?"
    raise refused(f"the newest day of the sheet is {last}, {(day - last).days} days before {day}, "
                  f"and newest_days is {newest}: {cause}")


def require_whole(sheet: Sheet, table: Table, found: Result) -> None:
    """Refuses a sheet whose total isn't that of its records."""
    front = sheet.settings["total"]
    if not front:
        return
    if table.total is None:
        raise refused(f"no line begins with {front!r}, so the end of the sheet may be missing")
    cells = dict(zip(table.header, table.total))
    for name, sums in (("cents", found.signed["plus"] + found.signed["minus"]),
                       ("debit", found.signed["plus"]), ("credit", -found.signed["minus"])):
        if name in sheet.columns:
            told = total_of(sheet, cells.get(sheet.columns[name], ""))
            if told != sums:
                raise refused(f"the records sum up to {grouped(sums)}, and the line {front!r} has "
                              f"{grouped(told)} in the column {sheet.columns[name]!r}: records "
                              "are missing, or were changed")


def total_of(sheet: Sheet, text: str) -> int:
    """The amount of the line with the total."""
    try:
        return cents_of(sheet, text) if text.strip() else 0
    except Unclear as found:
        raise refused(f"the total {text!r} is {found.why}") from None


def csv_of(records: list[list[str]]) -> str:
    return "".join(line + "\n" for line in [HEADER, *(",".join(record) for record in records)])


def converted_sheet(sheet: Sheet, data: bytes, day: date) -> Result:
    """What a sheet gives on a day, past all that its description asks."""
    table = table_in(sheet, data)
    found = converted(sheet, table, day)
    require_new(sheet, found, day)
    if not found.unclear:
        require_whole(sheet, table, found)
    return found


def table_lines(found: Result) -> list[str]:
    """The table of what isn't understood."""
    return [TABLE, *(" | ".join(str(cell) for cell in row) for row in found.unclear)]


def records_of_sheet(sheet: Sheet, data: bytes, day: date) -> tuple[bytes, str, Notes]:
    """The records of a sheet as bytes, its control sums and its notes.

    Raises Trouble where it is unclear.
    """
    found = converted_sheet(sheet, data, day)
    if found.unclear:
        raise Trouble(f"{len(found.unclear)} of {counted(found.number, 'record')} not understood: "
                      + "; ".join(table_lines(found)[1:]), GUARDED)
    return csv_of(found.records).encode("ascii"), f"sheet: {found.note()}", found.notes


def require_notes(sheet: Sheet, path: str, found: Result) -> None:
    """Refuses notes that no column gives, and those of posts that have another text already."""
    if not sheet.note:
        raise refused("the description of columns has no `note`, which names the sheet's columns "
                      "that say what a booking was")
    others = others_in(read_notes(path), found.notes)
    if others:
        raise refused(f"{path} has another note of {', '.join(others[:5])}"
                      f"{' and more' if len(others) > 5 else ''}")


def convert(path: str, data: bytes, day: date, ledger: str | None = None, wait: int = 0,
            late: bool = False, notes: str | None = None) -> int:
    """The word `convert`: records on standard output; or nothing, and what isn't understood.

    With `notes` this file gets what each booking was.
    """
    sheet = read_sheet(path)
    found = converted_sheet(sheet, data, day)
    if found.unclear:
        for line in table_lines(found):
            say(line)
        say(f"convert: {len(found.unclear)} of {counted(found.number, 'record')} not understood; "
            "nothing was written")
        return FOUND
    text = csv_of(found.records)
    if ledger is not None and not late:
        given = read_input(text.encode("ascii"))
        texts = dated.named(given, dated.late_in(given, read_state(ledger, wait)), {})
        if texts:
            raise refused(dated.late_refusal(texts))
    if notes is not None:
        require_notes(sheet, notes, found)
        add_notes(notes, found.notes)
    print(text, end="")
    say(f"convert: {found.note()}")
    if notes is not None:
        say(f"convert: {counted(len(found.notes), 'note')} in {notes}")
    return DONE
