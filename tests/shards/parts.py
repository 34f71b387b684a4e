"""What the test of the shards runs: ledgers, the door before them, and the scripts of
examples/shards."""
import os
import shutil
import socket
import subprocess
import sys
import time
import zlib
from collections.abc import Callable
from email.message import Message
from functools import partial
from http.client import HTTPConnection
from typing import NoReturn

from tests.support.rows import copy

Answer = tuple[int, str, Message]
SHARDS = 4
COUNT = 1000000
# what the door and the scripts may take for one answer; and what a busy machine may take for
# several
SECONDS, PATIENCE = 70, 600
NO_USER = {"    user haproxy\n    group haproxy\n": ""}


def fail(text: str) -> NoReturn:
    raise AssertionError(text)


def shard_of(account: str) -> int:
    return zlib.crc32(account.encode()) % SHARDS


def at(port: int) -> str:
    return f"127.0.0.1:{port}"


def listens(port: int) -> bool:
    with socket.socket() as link:
        return link.connect_ex(("127.0.0.1", port)) == 0


def free_ports(count: int) -> list[int]:
    links = [socket.socket() for _ in range(count)]
    for link in links:
        link.bind(("127.0.0.1", 0))
    ports = [link.getsockname()[1] for link in links]
    for link in links:
        link.close()
    return ports


def ask(port: int | None, method: str, path: str, body: str | bytes | None = None,
        link: HTTPConnection | None = None) -> Answer:
    """One request: status, text and headers."""
    client = link or HTTPConnection("127.0.0.1", port, timeout=SECONDS)
    headers = {} if body is None else {"Content-Type": "application/json"}
    client.request(method, path, body, headers)
    answer = client.getresponse()
    text = answer.read().decode("latin-1")
    if link is None:
        client.close()
    return answer.status, text, answer.headers


class Ledger:
    """A server over a file of its own."""

    def __init__(self, program: str, folder: str, port: int) -> None:
        self.program, self.folder, self.port = program, folder, port
        self.output = os.path.join(folder, "lines")
        self.run: subprocess.Popen[bytes] | None = None

    def start(self) -> None:
        os.makedirs(self.folder, exist_ok=True)
        with open(self.output, "a") as lines:
            self.run = subprocess.Popen([self.program, self.file(), "serve", str(self.port),
                                         str(COUNT)], stdin=subprocess.DEVNULL, stdout=lines)

    def file(self) -> str:
        return os.path.join(self.folder, "rows.db")

    def wait(self) -> Answer:
        """Asks until it answers."""
        for _ in range(400):
            try:
                return ask(self.port, "GET", "/accounts/nobody")
            except OSError:
                time.sleep(0.05)
        return fail(f"no ledger on port {self.port}")

    def kill(self) -> None:
        if self.run:
            self.run.kill()
            self.run.wait()

    def move(self, folder: str) -> None:
        """To another folder, as to another machine: the file and its log."""
        os.makedirs(folder)
        copy(self.file(), os.path.join(folder, "rows.db"))
        shutil.rmtree(self.folder)
        self.folder, self.output = folder, os.path.join(folder, "lines")

    def connections(self) -> int:
        with open(self.output) as lines:
            return sum(1 for _ in lines)


def changed(text: str, changes: dict[str, str]) -> str:
    """A text in which each of these stands once, with what stands for it."""
    for old, new in changes.items():
        if text.count(old) != 1:
            fail(f"{old!r} stands {text.count(old)} times in a file of examples/shards")
        text = text.replace(old, new)
    return text


class Proxy:
    """HAProxy with a file of examples/shards, whose addresses are those of the test."""

    def __init__(self, room: str, examples: str, name: str, changes: dict[str, str]) -> None:
        with open(os.path.join(examples, f"{name}.cfg")) as file:
            text = changed(file.read(), changes)
        self.config, self.output = os.path.join(room, f"{name}.cfg"), os.path.join(room,
                                                                                   f"{name}.log")
        with open(self.config, "w") as file:
            file.write(text)
        self.run: subprocess.Popen[bytes] | None = None

    def start(self, is_there: Callable[[], bool]) -> None:
        with open(self.output, "w") as log:
            self.run = subprocess.Popen(["haproxy", "-f", self.config], stdin=subprocess.DEVNULL,
                                        stdout=log, stderr=log)
        for _ in range(400):
            if is_there() and self.run.poll() is None:
                return
            time.sleep(0.05)
        with open(self.output) as log:
            fail(f"no {self.config}: {log.read()}")

    def stop(self) -> None:
        if self.run:
            self.run.kill()
            self.run.wait()


class Door(Proxy):
    """The door. Each answer tells when it was given."""

    def __init__(self, room: str, examples: str, ports: list[int],
                 shards: int = SHARDS) -> None:
        self.socket = os.path.join(room, "door.sock")
        self.port, self.statistics = free_ports(2)
        changes = NO_USER | {"/run/haproxy/admin.sock": self.socket,
                             "127.0.0.1:8000": at(self.port), "127.0.0.1:8404": at(self.statistics)}
        changes |= {at(8100 + shard): at(port) for shard, port in enumerate(ports)}
        changes |= {"mod(4)]": f"mod({shards})]",
                    "frontend accounts\n": "frontend accounts\n    http-response set-header "
                                           "Answered %[date(0,us)]\n"}
        super().__init__(room, examples, "haproxy", changes)

    def open(self) -> None:
        self.start(lambda: os.path.exists(self.socket))


class Way:
    """The way to shard 3 as if it stood on another machine, with TLS between; without openssl there
    is none."""

    def __init__(self, room: str, examples: str, port: int) -> None:
        self.port = port
        self.ends: list[tuple[Proxy, int]] = []
        if not shutil.which("openssl"):
            return
        certificate = os.path.join(room, "shard3.pem")
        words = ("req -x509 -newkey ec -pkeyopt ec_paramgen_curve:prime256v1 -nodes -days 2 "
                 "-subj /CN=shard3 -addext subjectAltName=DNS:shard3").split()
        subprocess.run(["openssl", *words, "-keyout", certificate + ".key", "-out", certificate],
                       check=True, capture_output=True)
        self.port, far = free_ports(2)
        changes = {f"/etc/billctl/{name}.pem": certificate for name in ("ca", "door")}
        changes |= {"127.0.0.1:8103": at(self.port), "10.0.0.2:9103": at(far)}
        self.ends.append((Proxy(room, examples, "near", changes), self.port))
        changes = {f"/etc/billctl/{name}.pem": certificate for name in ("ca", "machine")}
        changes |= {"127.0.0.1:8103": at(port), "10.0.0.2:9103": at(far)}
        self.ends.append((Proxy(room, examples, "far", NO_USER | changes), far))

    def open(self) -> None:
        for end, port in self.ends:
            end.start(partial(listens, port))

    def stop(self) -> None:
        for end, _ in self.ends:
            end.stop()


class Scripts:
    """The scripts of examples/shards, over a folder of their own. A `curl` before the real one
    notes when it was called."""

    def __init__(self, room: str, examples: str, door: Door, ports: list[int]) -> None:
        self.examples = examples
        self.folder = os.path.join(room, "shards")
        self.stamps = os.path.join(room, "stamps")
        os.makedirs(os.path.join(room, "bin"))
        os.makedirs(self.folder)
        with open(os.path.join(self.folder, "shards"), "w") as file:
            file.writelines(f"{shard} 127.0.0.1:{port}\n" for shard, port in enumerate(ports))
        curl = os.path.join(room, "bin", "curl")
        with open(curl, "w") as file:
            file.write(f'#!/bin/sh\ndate +%s%6N >>"{self.stamps}"\n'
                       f'exec {shutil.which("curl")} "$@"\n')
        os.chmod(curl, 0o755)
        path = os.path.join(room, "bin") + ":" + os.environ["PATH"]
        self.environment = os.environ | {"SHARDS": self.folder, "SOCKET": door.socket,
                                         "PATH": path}

    def shared(self, *words: str, wanted: int = 0, tries: int = 20) -> tuple[str, int]:
        """Calls shared.sh: what it prints, and when it first sent something."""
        open(self.stamps, "w").close()
        done = subprocess.run([os.path.join(self.examples, "shared.sh"), *words],
                              env=self.environment | {"TRIES": str(tries)}, capture_output=True,
                              text=True)
        if done.returncode != wanted:
            fail(f"shared.sh {words} ends with {done.returncode}, wanted {wanted}: "
                 f"{done.stdout}{done.stderr}")
        with open(self.stamps) as stamps:
            return done.stdout + done.stderr, min((int(stamp) for stamp in stamps), default=0)

    def shut(self, shard: int) -> None:
        """Shuts a shard at the door, and waits until nothing is under way there."""
        self._door(f"set server shard{shard}/ledger state maint")
        for _ in range(SECONDS * 10):
            line = next(line for line in self._door("show stat").splitlines()
                        if line.startswith(f"shard{shard},ledger,"))
            if line.split(",")[4] == "0":
                return
            time.sleep(0.1)
        fail(f"shard {shard} doesn't come to rest")

    def _door(self, command: str) -> str:
        done = subprocess.run(["socat", "-t", "10", "-",
                               f"UNIX-CONNECT:{self.environment['SOCKET']}"], input=command + "\n",
                              capture_output=True, text=True)
        return done.stdout

    def gather(self, *words: str) -> str:
        done = subprocess.run([sys.executable, os.path.join(self.examples, "gather.py"), *words],
                              env=self.environment, capture_output=True, text=True)
        if done.returncode != 0:
            fail(f"gather.py {words} ends with {done.returncode}: {done.stderr}")
        return done.stdout
