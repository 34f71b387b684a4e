"""Chromium without a window, asked through a pipe: pages as PDF."""

import base64
import json
import os
import re
import shutil
import subprocess
import tempfile
from types import TracebackType
from typing import Any

from ..program import Failed

NAMES = ("chromium", "chromium-browser", "google-chrome")
_WORDS = ("--headless=new", "--remote-debugging-pipe", "--disable-gpu", "--no-first-run",
          "--disable-dev-shm-usage", "--disable-background-networking", "--disable-extensions",
          "--disable-component-update", "--hide-scrollbars", "--lang=en-US")
_DATE = re.compile(rb"/(CreationDate|ModDate) \(D:\d{14}[^)]*\)")
_NODE = re.compile(rb"node\d{8}")  # a name of a part, of one length
PRINTED = {"preferCSSPageSize": True, "printBackground": False, "generateTaggedPDF": True}


def chromium() -> str:
    """The path of Chromium; Failed where none is there."""
    found = [path for path in (shutil.which(name) for name in NAMES) if path]
    if not found:
        raise Failed("PDF wants Chromium, and none is on the PATH: install it (Debian's package "
                     "chromium), or ask for --form html")
    return str(found[0])


def dated(pdf: bytes, day: str) -> bytes:
    """The PDF with the day of issue for its time, so that it is the same in every call."""
    def at(found: re.Match[bytes]) -> bytes:
        wanted = b"/%s (D:%s000000+00'00')" % (found[1], day.replace("-", "").encode())
        return wanted if len(wanted) == len(found[0]) else found[0]
    return _DATE.sub(at, pdf)


def numbered(pdf: bytes) -> bytes:
    """The PDF with the parts of its structure counted from 0, and not from the pages before it."""
    places = {old: b"node%08d" % place for place, old in enumerate(sorted(set(_NODE.findall(pdf))))}
    return _NODE.sub(lambda found: places[found[0]], pdf)


class Browser:
    """One Chromium, with one page."""

    def __init__(self) -> None:
        self.path = chromium()
        self.calls = 0
        self.session = ""
        self.events: list[dict[str, Any]] = []

    def __enter__(self) -> "Browser":
        self.folder = tempfile.mkdtemp(prefix="statements-")
        self._to, from_it = self._pipes()
        self._from = os.fdopen(from_it, "rb")
        try:
            target = self.call("Target.createTarget", url="about:blank")["targetId"]
            found = self.call("Target.attachToTarget", targetId=target, flatten=True)
            self.session = found["sessionId"]
            self.call("Page.enable")
            self.frame = self.call("Page.getFrameTree")["frameTree"]["frame"]["id"]
        except BaseException:
            self.__exit__(None, None, None)
            raise
        return self

    def _pipes(self) -> tuple[int, int]:
        """Starts Chromium, which reads calls from its third channel and answers on its fourth."""
        read_calls, write_calls = os.pipe()
        read_answers, write_answers = os.pipe()
        words = [self.path, *_WORDS, f"--user-data-dir={self.folder}"]
        if os.geteuid() == 0:
            words.append("--no-sandbox")  # it has none for root
        shell = 'exec "$@" 3<&%d 4>&%d' % (read_calls, write_answers)
        self.running = subprocess.Popen(
            ["/bin/bash", "-c", shell, "bash", *words], pass_fds=(read_calls, write_answers),
            stdin=subprocess.DEVNULL, stdout=subprocess.DEVNULL, stderr=subprocess.DEVNULL,
            start_new_session=True)
        os.close(read_calls)
        os.close(write_answers)
        return write_calls, read_answers

    def __exit__(self, kind: type[BaseException] | None, error: BaseException | None,
                 trace: TracebackType | None) -> None:
        os.close(self._to)
        self._from.close()
        try:
            self.running.wait(5)
        except subprocess.TimeoutExpired:
            self.running.kill()
            self.running.wait()
        shutil.rmtree(self.folder, ignore_errors=True)

    def _read(self) -> dict[str, Any]:
        out = bytearray()
        while (byte := self._from.read(1)) != b"\0":
            if not byte:
                raise Failed("Chromium ended, or can't be run here")
            out += byte
        found: dict[str, Any] = json.loads(out)
        return found

    def call(self, method: str, **given: Any) -> dict[str, Any]:
        """What Chromium answers to a call."""
        self.calls += 1
        asked = {"id": self.calls, "method": method, "params": given}
        if self.session:
            asked["sessionId"] = self.session
        data = json.dumps(asked).encode() + b"\0"
        try:
            while data:
                data = data[os.write(self._to, data):]
        except BrokenPipeError:
            raise Failed("Chromium ended, or can't be run here") from None
        while True:
            found = self._read()
            if found.get("id") == self.calls:
                if "error" in found:
                    raise Failed(f"Chromium: {method}: {found['error'].get('message')}")
                result: dict[str, Any] = found["result"]
                return result
            self.events.append(found)

    def show(self, html: str) -> None:
        """Has the page show this."""
        self.call("Page.setDocumentContent", frameId=self.frame, html=html)

    def pdf(self, html: str, day: str) -> bytes:
        """A page as PDF, the same bytes for the same page and day."""
        self.show(html)
        found = self.call("Page.printToPDF", **PRINTED)
        self.events.clear()
        return numbered(dated(base64.b64decode(found["data"]), day))
