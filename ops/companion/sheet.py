"""A description of a sheet's columns, and what a field of the sheet says by it."""

import re
from dataclasses import dataclass, field
from datetime import date
from typing import Any

from companion.home import read_toml
from companion.requests import COLUMNS, is_of_form
from companion.trouble import GUARDED, Trouble

MARKS = {"tab": "\t"}
SETTINGS: dict[str, str | int] = {
    "separator": ",", "encoding": "utf-8", "skip": 0, "point": ".", "thousands": "",
    "date": "YYYY-MM-DD", "least_digits": 2, "stop": "", "total": "",
}

# Settings that have no value where they aren't given.
DAYS = ("newest_days", "oldest_days")
NOTE = "note"
SECTIONS = ("columns", "always", "kinds", "places", "channels", "accounts", "signs")
AMOUNTS = ("debit", "credit")
TIME = re.compile(r"([0-9]{1,2}):([0-9]{2})(?::[0-9]{2})?(?:\s*([AaPp])\.?[Mm]\.?)?")
PARTS = {
    "YYYY": r"(?P<year>[0-9]{4})", "MM": r"(?P<month>[0-9]{1,2})", "DD": r"(?P<day>[0-9]{1,2})",
    "YY": r"(?P<short>[0-9]{2})", "hh": r"(?P<hour>[0-9]{1,2})", "mm": r"(?P<minute>[0-9]{2})",
    "ss": r"[0-9]{2}",
}


class Unclear(Exception):
    """A field that isn't understood: the column it comes from, its text, and why."""

    def __init__(self, column: str, text: str, why: str) -> None:
        super().__init__(why)
        self.column = column
        self.text = text
        self.why = why


@dataclass
class Sheet:
    """A description of a sheet's columns."""

    settings: dict[str, Any]
    columns: dict[str, str]
    always: dict[str, str]
    choices: dict[str, dict[str, str]]
    signs: dict[str, str]
    date: re.Pattern[str]
    days: dict[str, int] = field(default_factory=dict)
    note: list[str] = field(default_factory=list)

    def column(self, name: str) -> str:
        return self.columns.get(name, name)

    @property
    def has_time(self) -> bool:
        """Whether the time of the day stands in the column of the day."""
        return "hour" in self.date.groupindex


def wrong(text: str) -> Trouble:
    return Trouble(f"the description of columns: {text}", GUARDED)


def date_form(text: str) -> re.Pattern[str]:
    """The form of days as a pattern."""
    pieces = re.split("(YYYY|YY|MM|DD|hh|mm|ss)", text)
    form = "".join(PARTS.get(piece, re.escape(piece)) for piece in pieces)
    years = pieces.count("YYYY") + pieces.count("YY")
    if years != 1 or any(pieces.count(part) != 1 for part in ("MM", "DD")):
        raise wrong(f"the date {text!r} has to name YYYY or YY, MM and DD once each")
    if any(pieces.count(part) > 1 for part in ("hh", "mm", "ss")) \
            or pieces.count("hh") != pieces.count("mm"):
        raise wrong(f"the date {text!r} names hh and mm once each, or neither")
    return re.compile(form)


def settings_in(found: dict[str, Any]) -> dict[str, Any]:
    """The settings before the first section."""
    for key in found:
        if key not in (*SETTINGS, *SECTIONS, *DAYS, NOTE):
            raise wrong(f"{key!r} is none of {', '.join([*SETTINGS, *DAYS, NOTE, *SECTIONS])}")
    settings = {key: found.get(key, value) for key, value in SETTINGS.items()}
    if any(type(settings[key]) is not type(value) for key, value in SETTINGS.items()):
        raise wrong("skip and least_digits are numbers, and the other settings before the first "
                    "section are texts")
    if any(type(found.get(key, 0)) is not int or found.get(key, 0) < 0 for key in DAYS):
        raise wrong("newest_days and oldest_days are numbers of days")
    settings["separator"] = MARKS.get(settings["separator"], settings["separator"])
    if len(settings["separator"]) != 1 or settings["skip"] < 0:
        raise wrong("the separator is one character or tab, and skip isn't negative")
    if settings["least_digits"] not in (1, 2):
        raise wrong("least_digits is 2, or 1 where amounts may have one digit after the point")
    return settings


def note_in(found: dict[str, Any]) -> list[str]:
    """The columns of the sheet that say what a booking was."""
    columns = found.get(NOTE, [])
    if not isinstance(columns, list) or not all(isinstance(name, str) for name in columns):
        raise wrong(f"{NOTE} is a list of the sheet's columns, as [\"Merchant\", \"City\"]")
    return columns


def require_columns(sections: dict[str, dict[str, str]]) -> None:
    """Refuses columns that no record has, and amounts that are named in two ways."""
    for name, more in (("columns", AMOUNTS), ("always", ())):
        for key in sections[name]:
            if key not in (*COLUMNS, *more):
                raise wrong(f"{key!r} in [{name}] is none of {', '.join((*COLUMNS, *more))}")
    for key in sections["signs"]:
        if key not in ("plus", "minus"):
            raise wrong(f"{key!r} in [signs] is neither plus nor minus")
    amounts = [name for name in AMOUNTS if name in sections["columns"]]
    if amounts and ("cents" in sections["columns"] or len(amounts) != len(AMOUNTS)):
        raise wrong("amounts have one column, cents, or the two columns debit and credit")
    if amounts and set(sections["signs"]) != {"plus", "minus"}:
        raise wrong("with the columns debit and credit [signs] says what both are: plus is the "
                    "kind of a debit, minus that of a credit")


def sheet_of(found: dict[str, Any]) -> Sheet:
    """The description that some values of TOML give."""
    settings = settings_in(found)
    if any(not isinstance(found.get(name, {}), dict) for name in SECTIONS):
        raise wrong(f"{', '.join(SECTIONS)} are sections")
    sections = {name: {key: str(value) for key, value in found.get(name, {}).items()}
                for name in SECTIONS}
    require_columns(sections)
    choices = {"kind": sections["kinds"], "place": sections["places"],
               "channel": sections["channels"], "account": sections["accounts"]}
    days = {key: found[key] for key in DAYS if key in found}
    return Sheet(settings, sections["columns"], sections["always"], choices, sections["signs"],
                 date_form(settings["date"]), days, note_in(found))


def read_sheet(path: str) -> Sheet:
    return sheet_of(read_toml(path))


def cents_of(sheet: Sheet, text: str) -> int:
    """The cents of an amount as the sheet writes it, with its sign."""
    bare = text.strip().replace("\u2212", "-").replace("$", "").replace(" ", "")
    in_brackets = bare.startswith("(") and bare.endswith(")")
    sign = -1 if bare.startswith("-") or bare.endswith("-") or in_brackets else 1
    bare = bare.strip("+-()")
    point, mark = re.escape(sheet.settings["point"]), sheet.settings["thousands"]
    whole = rf"[0-9]{{1,3}}(?:{re.escape(mark)}[0-9]{{3}})+|[0-9]+" if mark else "[0-9]+"
    least = sheet.settings["least_digits"]
    found = re.fullmatch(rf"({whole})(?:{point}([0-9]{{{least},2}}))?", bare)
    if found is None:
        digits = "two digits" if least == 2 else "one or two digits"
        raise Unclear("cents", text,
                      f"no amount with units, {sheet.settings['point']!r} and {digits}")
    units = found.group(1).replace(mark, "") if mark else found.group(1)
    return sign * (int(units) * 100 + int((found.group(2) or "0").ljust(2, "0")))


def day_of(sheet: Sheet, text: str) -> date:
    """The day of a text as the sheet writes it."""
    found = sheet.date.fullmatch(text.strip())
    if found is None:
        raise Unclear("day", text, f"no day of the form {sheet.settings['date']}")
    parts = found.groupdict()
    year = int(parts["year"]) if "year" in parts else 2000 + int(parts["short"])
    try:
        return date(year, int(parts["month"]), int(parts["day"]))
    except ValueError:
        raise Unclear("day", text, "no day of the calendar") from None


def minute_of(sheet: Sheet, text: str, with_day: bool) -> str:
    """The minute of the day: of a number, of a time as 17:05 or 5:05 pm, or behind a day."""
    bare = text.strip()
    if with_day:
        match = sheet.date.fullmatch(bare)
        if match is None:
            raise Unclear("minute", text, f"no day of the form {sheet.settings['date']}")
        hour, minute, half = int(match["hour"]), int(match["minute"]), ""
    elif is_of_form("number", bare):
        return bare
    else:
        found = TIME.fullmatch(bare)
        if found is None:
            raise Unclear("minute", text,
                          "no time of the day as 17:05, and no number of minutes")
        hour, minute = int(found.group(1)), int(found.group(2))
        half = (found.group(3) or "").lower()
    if half and 1 <= hour <= 12:
        hour = hour % 12 + (12 if half == "p" else 0)
    if hour > 23 or minute > 59:
        raise Unclear("minute", text, "no time of the day")
    return str(hour * 60 + minute)
