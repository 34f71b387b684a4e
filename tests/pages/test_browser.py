"""Ten statements in Chromium: nothing wider than the page, no error, and printed well."""

import re
import subprocess
import tempfile
import unittest
from collections import Counter
from pathlib import Path

from audit.program import Failed
from audit.statements.browser import Browser, chromium
from tests.support.case import Case, tools_missing
from tests.support.case import long as takes_long

from .looked_at import WHOLE, WIDER, WIDTHS, Looked, ten_pages
from .statements import shown_text
from .ten import TEN

AMOUNT = re.compile(r"-?\$[0-9,]+\.[0-9]{2}")
MORE_PAGES = {"sixty": 3, "many": 12}  # others have two
SLIP = "card-slip-"
FONT = "Liberation Sans"  # as wide as Arial, the other font that the pages name


def missing() -> str:
    try:
        chromium()
    except Failed:
        return "Chromium isn't installed: no page is looked at"
    lacks = tools_missing("pdftotext")
    return "pdftotext isn't installed: no printed page is looked at" if lacks else ""


def other_font() -> str:
    """Why printed pages aren't counted: a font with other widths takes more of them."""
    if tools_missing("fc-match"):
        return "fc-match isn't installed: printed pages aren't counted"
    done = subprocess.run(["fc-match", "-f", "%{family}", FONT], capture_output=True, check=True)
    found = done.stdout.decode()
    return "" if FONT in found else f"{FONT} isn't installed: printed pages aren't counted"


def printed_pages(pdf: bytes) -> list[str]:
    """The text of each page."""
    with tempfile.NamedTemporaryFile(suffix=".pdf") as file:
        file.write(pdf)
        file.flush()
        done = subprocess.run(["pdftotext", "-layout", file.name, "-"], capture_output=True,
                              check=True)
    return done.stdout.decode().split("\f")[:-1]


@takes_long
@unittest.skipIf(missing(), missing())
class Ten(Case):
    def test_looked_at(self) -> None:
        pages = ten_pages(Path(self.file))
        self.assertEqual(list(pages), list(TEN))
        with Browser() as browser:
            look = Looked(browser)
            for name, html in pages.items():
                for width in WIDTHS:
                    look.show(html, width)
                    self.assertEqual(look.value(WIDER), "[]", f"{name} at {width}")
                    self.assertEqual(look.value(WHOLE), width, name)
                    self.assertEqual(look.said(), [], name)
                self.hold_printed(name, html, browser.pdf(html, "2024-02-06"))

    @unittest.skipIf(other_font(), other_font())
    def test_few_pages(self) -> None:
        """In the font that they name, ten pages are printed on few sheets."""
        pages = ten_pages(Path(self.file))
        with Browser() as browser:
            for name, html in pages.items():
                found = printed_pages(browser.pdf(html, "2024-02-06"))
                self.assertLessEqual(len(found), MORE_PAGES.get(name, 2), name)

    def test_same_bytes(self) -> None:
        """A page is the same PDF, whatever was printed before it."""
        pages = ten_pages(Path(self.file))
        with Browser() as browser:
            first = browser.pdf(pages["fees"], "2024-02-06")
            browser.pdf(pages["deferred"], "2024-02-06")
            self.assertTrue(browser.pdf(pages["fees"], "2024-02-06") == first)
            self.assertFalse(browser.pdf(pages["fees"], "2024-02-07") == first)
        self.assertEqual(len(printed_pages(first)), 2)

    def hold_printed(self, name: str, html: str, pdf: bytes) -> None:
        """Every amount is printed, a table that goes on has its head, pages have their number."""
        found = printed_pages(pdf)
        self.assertEqual(Counter(AMOUNT.findall("".join(found))),
                         Counter(AMOUNT.findall(shown_text(html))), name)
        for number, text in enumerate(found, start=1):
            self.assertIn(f"Page {number} of {len(found)}", text, name)
            if SLIP in text:
                self.assertRegex(text.partition(SLIP)[0], r"Reference +Made on", name)

    def test_a_page_that_is_too_wide_is_found(self) -> None:
        wide = "<!doctype html><p style='width:3000px'>wide</p><script>throw 1</script>"
        with Browser() as browser:
            look = Looked(browser)
            look.show(wide, 380)
            self.assertIn("wide", look.value(WIDER))
            self.assertTrue(look.said())
