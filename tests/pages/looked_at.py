"""The ten statements in Chromium: what the console said, what is wider than a page, pictures."""

import base64
from pathlib import Path
from typing import Any

from audit.ledger_file import write
from audit.lines import read_line
from audit.rows import encode
from audit.statements.browser import Browser
from audit.statements.issuer import Addressee, Issuer
from audit.statements.lacking import with_names
from audit.statements.page import page_of
from audit.words import Request

from .issuer import LINES, TEXTS
from .statements import all_data
from .ten import TEN, lines

WIDTHS = (380, 1200)
HEIGHT = 1000

# What reaches past the page, but for what a narrow page hides: its head of a table.
WIDER = """JSON.stringify([...document.querySelectorAll('body *')].filter(one =>
  !one.closest('thead') && (one.getBoundingClientRect().right > innerWidth + 0.5 ||
  one.getBoundingClientRect().left < -0.5)).map(one => one.tagName + ' ' + one.textContent))"""
WHOLE = "document.documentElement.scrollWidth"
TALL = "Math.ceil(document.documentElement.getBoundingClientRect().height)"


def ten_pages(file: Path) -> dict[str, str]:
    """The ten pages, of a ledger that is written there without the program."""
    requests = [request for line in lines()
                if isinstance(request := read_line(line.encode()), Request)]
    assert len(requests) == len(lines())
    write(file, [encode(request) for request in requests])
    names = {account: Addressee("Anna M. Cardholder", ["5 Hill Road", "Bath, ME 04530"])
             for account, _ in TEN.values()}
    issuer = Issuer(dict(TEXTS), dict(LINES), names, notes_of_ten())
    data = {(one["account"], one["cycle"]): one for _, one in all_data(str(file))}
    return {name: page_of(with_names(data[which], issuer), issuer) for name, which in TEN.items()}


def notes_of_ten() -> dict[tuple[str, str], str]:
    """A merchant and a city of each charge."""
    found = {}
    for number, line in enumerate(lines()):
        words = line.split()
        if words[0] == "charge":
            found[words[1], words[2]] = ("Book Shop, Bath ME", "Harbor Grocery, Portland ME",
                                         "Northern Light Power Company, Augusta ME")[number % 3]
    return found


class Looked:
    """A page in Chromium at some width."""

    def __init__(self, browser: Browser) -> None:
        self.browser = browser
        for domain in ("Log.enable", "Runtime.enable"):
            browser.call(domain)

    def show(self, html: str, width: int) -> None:
        self.browser.events.clear()
        self.browser.call("Emulation.setDeviceMetricsOverride", width=width, height=HEIGHT,
                          deviceScaleFactor=1, mobile=width < 600)
        self.browser.show(html)

    def value(self, expression: str) -> Any:
        return self.browser.call("Runtime.evaluate", expression=expression)["result"]["value"]

    def said(self) -> list[str]:
        """What the console has."""
        names = ("Log.entryAdded", "Runtime.consoleAPICalled", "Runtime.exceptionThrown")
        return [str(event) for event in self.browser.events if event.get("method") in names]

    def picture(self, width: int) -> bytes:
        """The whole page as PNG."""
        clip = {"x": 0, "y": 0, "width": width, "height": self.value(TALL), "scale": 1}
        found = self.browser.call("Page.captureScreenshot", format="png", clip=clip,
                                  captureBeyondViewport=True)
        return base64.b64decode(found["data"])
