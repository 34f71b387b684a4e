"""ops/nginx.conf before a ledger: its guards, and a check of health that costs no connection."""

import http.client
import os
import subprocess
import time
import unittest

from tests.support.case import tools_missing
from tests.support.program import TOP
from tests.support.server import Server, free_port

from .common import LINES, Case

JSON = "application/json"
CHARGE = '{"kind":"charge","account":"anna","key":"w1","day":"2024-02-06","place":"purchase",' \
    '"cents":500}'


@unittest.skipIf(tools_missing("nginx"), "nginx isn't installed")
class Nginx(Case):
    """nginx before a ledger whose files may have so many bytes."""

    room_left: int | None = None

    def setUp(self) -> None:
        super().setUp()
        self.begin(LINES)
        self.server = Server(self.file, count=4, file_limit=self.room_left)
        self.addCleanup(self.server.__exit__)
        self.server.connect().close()
        self.port, self.behind = free_port(), self.server.port
        with open(os.path.join(TOP, "ops", "nginx.conf"), encoding="ascii") as file:
            text = file.read()
        for old, new in (("127.0.0.1:9080", f"127.0.0.1:{self.port}"),
                         ("127.0.0.1:8080", f"127.0.0.1:{self.behind}"),
                         ("/run/nginx-billctl.pid", self.at("pid")),
                         ("/run/billctl", self.at("run")),
                         ("/var/log/nginx/billctl.log", self.at("access.log")),
                         ("/var/log/nginx/billctl-503.log", self.at("unkept.log"))):
            self.assertIn(old, text)
            text = text.replace(old, new)
        os.mkdir(self.at("run"))
        os.chmod(self.room, 0o755)
        for kind in ("client_body", "proxy", "fastcgi", "uwsgi", "scgi"):
            text = text.replace("http {\n", f"http {{\n    {kind}_temp_path {self.at(kind)};\n", 1)
        path = self.write("nginx.conf", text)
        self.nginx = subprocess.Popen(["nginx", "-c", path, "-p", self.room, "-g", "daemon off;"],
                                      stderr=subprocess.PIPE)
        self.addCleanup(self.stopped)
        for _ in range(500):
            try:
                self.ask("GET", "/health")
                break
            except OSError:
                time.sleep(0.02)

    def stopped(self) -> None:
        self.nginx.terminate()
        self.nginx.communicate()

    def ask(self, method: str, target: str, body: str | None = None,
            **headers: str) -> tuple[int, str]:
        link = http.client.HTTPConnection("127.0.0.1", self.port, timeout=60)
        link.request(method, target, body,
                     {name.replace("_", "-"): text for name, text in headers.items()})
        answer = link.getresponse()
        found = answer.status, answer.read().decode()
        link.close()
        return found

    def logged(self, name: str) -> list[list[str]]:
        """Method, route and status of each line of a log."""
        with open(self.at(name), encoding="ascii") as log:
            return [line.split(" ")[2:5] for line in log]


class Guards(Nginx):
    def test_guards(self) -> None:
        """What passes, and what is kept out before it costs the ledger a connection."""
        self.assertEqual(self.ask("POST", "/posts", CHARGE, Content_Type=JSON), (200, '{"ok":3}'))
        kept_out: list[tuple[dict[str, str], int]] = [
            ({"Content_Type": "text/plain"}, 415), ({}, 415),
            ({"Content_Type": JSON, "Origin": "https://a.example"}, 403)]
        for headers, status in kept_out:
            self.assertEqual(self.ask("POST", "/posts", CHARGE, **headers)[0], status)
        self.assertEqual(self.ask("GET", "/accounts/anna", Origin="null")[0], 403)
        self.assertEqual(self.ask("POST", "/posts", "x" * 17000, Content_Type=JSON)[0], 413)
        self.assertEqual(self.ask("GET", "/health")[0], 503)
        with open(self.at("run", "health"), "w", encoding="ascii") as file:
            file.write("up\n")
        self.assertEqual(self.ask("GET", "/health"), (200, "up\n"))
        status, text = self.ask("GET", "/accounts/anna")
        self.assertEqual((status, text), (200, "show anna 2024-02-06 owed 100500 credit 0 "
                                               "held 0\n"))
        self.assertEqual(self.ask("GET", "/accounts/none")[0], 404)
        self.assertEqual(self.server.running.wait(60), 0, "four connections, and no more")
        self.assertEqual(self.ask("GET", "/accounts/anna")[0], 502)
        lines = self.logged("access.log")
        self.assertIn(["POST", "/posts", "200"], lines)
        self.assertIn(["GET", "/accounts/anna", "200"], lines)
        self.assertNotIn("/health", {line[1] for line in lines})
        self.assertEqual(self.logged("unkept.log"), [])


class Unkept(Nginx):
    # the head of a log without a commit, and no more
    room_left = 41

    def test_unkept(self) -> None:
        """A 503 of the ledger has a line in a log of its own, and neither that of a check of
        health nor another answer has."""
        self.assertEqual(self.ask("GET", "/health")[0], 503)
        self.assertEqual(self.ask("POST", "/posts", CHARGE, Content_Type=JSON),
                         (503, '{"fault":"keeper"}'))
        self.assertEqual(self.ask("GET", "/accounts/anna")[0], 200)
        self.assertEqual(self.logged("unkept.log"), [["POST", "/posts", "503"]])
