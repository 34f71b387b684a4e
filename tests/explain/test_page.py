"""The page: its links, its words, and how a browser shows it."""

import re
import unittest
from collections.abc import Iterator
from html import unescape
from html.parser import HTMLParser

from audit.explaining.page import page_of
from audit.statements.browser import Browser
from tests.explain.common import RETURNED, ExplainCase
from tests.pages.looked_at import WHOLE, WIDER, WIDTHS, Looked
from tests.pages.test_browser import missing, printed_pages
from tests.support.case import long
from tests.support.program import EXAMPLES

NUMBER = re.compile(r"-?\d+\.\d+%?|\d{4}-\d\d-\d\d")


class Tags(HTMLParser):
    """The ids, the places that links lead to, what would be loaded, and open tags."""

    def __init__(self, page: str) -> None:
        super().__init__()
        self.ids: list[str] = []
        self.links: list[str] = []
        self.loaded: list[str] = []
        self.open: list[str] = []
        self.faults: list[str] = []
        self.feed(page)

    def handle_starttag(self, tag: str, attrs: list[tuple[str, str | None]]) -> None:
        given = dict(attrs)
        self.ids += [given["id"] or ""] if "id" in given else []
        if tag == "a":
            self.links.append((given["href"] or "").removeprefix("#"))
        elif "src" in given or (given.get("href") or "").startswith(("http", "/")):
            self.loaded.append(tag)
        if tag in ("script", "iframe", "object"):
            self.loaded.append(tag)
        if tag not in ("meta", "link", "line", "path", "polyline"):
            self.open.append(tag)

    def handle_startendtag(self, tag: str, attrs: list[tuple[str, str | None]]) -> None:
        pass

    def handle_endtag(self, tag: str) -> None:
        if not self.open or self.open.pop() != tag:
            self.faults.append(tag)


class Page(ExplainCase):
    def page(self) -> tuple[str, str]:
        """The page of a statement, and its text as it was printed."""
        for _, _, cycles in self.accounts(RETURNED):
            document = cycles.issued(2)
            return page_of(document, cycles.days(2)), document.texts["statement"]
        raise AssertionError("no account")

    def test_links(self) -> None:
        page, _ = self.page()
        tags = Tags(page)
        self.assertEqual((tags.loaded, tags.faults, tags.open), ([], [], []))
        self.assertEqual(len(tags.ids), len(set(tags.ids)))
        self.assertEqual(set(tags.links) - set(tags.ids), set())
        self.assertGreater(len(tags.links), 40)

    def test_statement(self) -> None:
        page, text = self.page()
        shown = re.sub("<[^>]+>", "", page.split("<pre>")[1].split("</pre>")[0])
        self.assert_same(unescape(shown) + "\n", text)
        for number in NUMBER.findall(text):
            self.assertIn(f">{number}</a>", page)

    def test_planted(self) -> None:
        """The reading of the page finds a link without its target and a page with a script."""
        page, _ = self.page()
        tags = Tags(page.replace('href="#n', 'href="#m', 1).replace("</body>", "<script></script>"))
        self.assertTrue(set(tags.links) - set(tags.ids))
        self.assertEqual(tags.loaded, ["script"])

    @long
    @unittest.skipIf(missing(), missing())
    def test_browser(self) -> None:
        """Nothing reaches past a page of either width, also where it has several balances, and
        every number of the statement is printed."""
        page, text = self.page()
        with Browser() as browser:
            look = Looked(browser)
            for html in (page, *self.wide_pages()):
                for width in WIDTHS:
                    look.show(html, width)
                    self.assertEqual(look.value(WIDER), "[]", width)
                    self.assertEqual((look.value(WHOLE), look.value("innerWidth")), (width, width))
                    self.assertEqual(look.said(), [])
            words = "".join(printed_pages(browser.pdf(page, "2024-03-06")))
        for number in NUMBER.findall(text):
            self.assertIn(number, words)

    def wide_pages(self) -> Iterator[str]:
        """Pages with tables of several balances, and with large amounts."""
        large = RETURNED.replace(" 100000\n", " 1000000000\n")
        names = ("official-g18-interest", "official-13d1-before-the-closing")
        examples = [(EXAMPLES / f"{name}.txt").read_text(encoding="utf-8") for name in names]
        for lines, shown in zip([large, *examples], ("10000000.00", "transfer:4", "290.00")):
            pages = [page_of(cycles.recomputed(k), cycles.days(k))
                     for _, machine, cycles in self.accounts(lines)
                     for k in range(1, machine.closed_cycles(cycles.account) + 1)]
            self.assertTrue(any(f">{shown}<" in page for page in pages), shown)
            yield from pages

    @long
    @unittest.skipIf(missing(), missing())
    def test_planted_width(self) -> None:
        """A table whose last column a narrow page cuts off is found, though the page is as wide as
        the window."""
        page, _ = self.page()
        cut = page.replace(' class="many"', "")
        self.assertNotEqual(cut, page)
        with Browser() as browser:
            look = Looked(browser)
            look.show(cut, min(WIDTHS))
            self.assertEqual(look.value(WHOLE), min(WIDTHS))
            self.assertIn("TABLE", look.value(WIDER))
