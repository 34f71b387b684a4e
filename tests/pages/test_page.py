"""The page: every amount, day and rate of the data stands on it, and it loads nothing."""

import os
import re
import tempfile
from collections.abc import Iterator
from datetime import date
from html.parser import HTMLParser
from typing import Any

from audit.statements.issuer import Issuer
from audit.statements.page import page_of
from tests.support.case import Case
from tests.support.program import EXAMPLES, run

from .statements import DATA_ONLY, all_data, shown_text

NAMES = ("allocation-deferred-last-cycles", "disputes", "notice", "returned-payment", "repay",
         "two-cycles", "every-task")
RATES = ("rate", "rate_up_to", "index", "margin", "rate_after")
NUMBERS = ("year", "days", "count")
EMPTY = {"meta", "link", "br"}


def money(cents: int) -> str:
    return f"{'-' if cents < 0 else ''}${abs(cents) // 100:,}.{abs(cents) % 100:02d}"


def shown(name: str, value: Any) -> str:
    """How a value of the data stands on the page."""
    if isinstance(value, str):
        day = date.fromisoformat(value)
        return f"{day.strftime('%b')} {day.day}, {day.year}"
    if name in RATES:
        return f"{value // 100}.{value % 100:02d}%"
    if name == "daily_rate_billionths":
        return f"{value / 10 ** 7:.7f}%"
    return str(value) if name in NUMBERS else money(value)


def values(data: Any, name: str = "") -> Iterator[tuple[str, Any]]:
    """Numbers other than 0, and days, with the name of their member."""
    if isinstance(data, dict):
        for key, one in data.items():
            if key not in DATA_ONLY and not (key == "grace_amount" and data["grace_by"] is None):
                yield from values(one, key)
    elif isinstance(data, list):
        for one in data:
            yield from values(one, name)
    elif isinstance(data, int) and not isinstance(data, bool) and data != 0:
        yield name, data
    elif isinstance(data, str) and re.fullmatch(r"\d{4}-\d\d-\d\d", data):
        yield name, data


class Nested(HTMLParser):
    """Holds that tags are closed in order; counts heads, and names what is loaded."""

    def __init__(self) -> None:
        super().__init__()
        self.open: list[str] = []
        self.loaded: list[str] = []
        self.ids: list[str] = []
        self.named: list[str] = []

    def handle_starttag(self, tag: str, attrs: list[tuple[str, str | None]]) -> None:
        if tag not in EMPTY:
            self.open.append(tag)
        for name, value in attrs:
            if name in ("src", "href", "action") and value != "data:,":
                self.loaded.append(str(value))
            if name == "id":
                self.ids.append(str(value))
            if name == "aria-labelledby":
                self.named.append(str(value))
        assert tag not in ("script", "img", "iframe", "object", "form"), tag

    def handle_endtag(self, tag: str) -> None:
        assert self.open and self.open.pop() == tag, tag


class Page(Case):
    def hold(self, what: str, data: dict[str, Any]) -> int:
        page = page_of(data, Issuer())
        text, count = shown_text(page), 0
        for name, value in values(data):
            if name in ("minimum_total", "payment", "payment_total", "savings"):
                wanted = f"${value // 100:,}"
            else:
                wanted = shown(name, value)
            self.assertIn(wanted, text, f"{what}: {name} {value}")
            count += 1
        nested = Nested()
        nested.feed(page)
        self.assertEqual((nested.open, nested.loaded), ([], []), what)
        self.assertEqual(sorted(nested.ids), sorted(nested.named), what)
        self.assertIn('<html lang="en">', page)
        return count

    def test_each_value_is_there(self) -> None:
        count = 0
        for name in NAMES:
            with tempfile.TemporaryDirectory() as room:
                file = os.path.join(room, "rows.db")
                run([file, "apply"], (EXAMPLES / f"{name}.txt").read_bytes())
                for _, data in all_data(file):
                    count += self.hold(f"{name}, {data['account']} {data['cycle']}", data)
        self.assertGreater(count, 500)

    def test_a_number_that_lacks_is_found(self) -> None:
        run([self.file, "apply"], (EXAMPLES / "returned-payment.txt").read_bytes())
        data = all_data(self.file)[1][1]
        data["payment"]["more"] = 7654321
        with self.assertRaises(AssertionError):
            self.hold("planted", data)
