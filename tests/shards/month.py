"""A month of 200 accounts over four ledgers behind a door, and the same over one ledger."""
import os
import time
from collections.abc import Iterator

from tests.support import program
from tests.support.program import PROGRAM
from tests.support.rows import bodies_of

from .accounts import Client, Told
from .hostile import Hostile
from .parts import PATIENCE, SHARDS, Door, Ledger, Scripts, Way, ask, fail, free_ports, shard_of

EXAMPLES = str(program.EXAMPLES / "shards")
CLIENTS, ACCOUNTS = 8, 200
NAMES = [f"{kind}{number}" for kind in ("a", "Card-", "x.", "9_")
         for number in range(ACCOUNTS // 4)]
DAYS = [f"2024-01-{day:02}" for day in range(4, 32, 3)] + ["2024-02-03"]
KILLED_ON, HELD_ON, REFUSED_ON, MOVED_ON = "2024-01-10", "2024-01-13", "2024-01-16", "2024-01-22"
ANSWERS_A_DAY = 300
# the first two bytes of a kept row that names no account
SHARED_ROWS = (b"\x02\x01", b"\x02\x02", b"\x02\x03", b"\x02\x15")
BODIES = {
    "roll": '{{"kind":"roll","day":"{0}"}}',
    "holiday": '{{"kind":"holiday","day":"{0}"}}',
    "feerow": '{{"kind":"feerow","day":"{0}","first":{1},"repeat":{2}}}',
    "index": '{{"kind":"index","day":"{0}","rate":{1}}}',
}


class Month:
    """A month of eight clients, with what was answered to them and to shared.sh."""

    def __init__(self, room: str, names: list[str], seed: int) -> None:
        ports = free_ports(SHARDS)
        self.room, self.names = room, names
        self.ledgers = [Ledger(PROGRAM, os.path.join(room, f"shard{shard}"), port)
                        for shard, port in enumerate(ports)]
        self.way = Way(room, EXAMPLES, ports[3])
        ports = ports[:3] + [self.way.port]
        self.door = Door(room, EXAMPLES, ports)
        self.scripts = Scripts(room, EXAMPLES, self.door, ports)
        self.day = "2024-01-01"
        self.over = False
        self.shared_answers: list[Told] = []
        self.clients = [Client(self, names[number::CLIENTS], seed) for number in range(CLIENTS)]

    def start(self) -> None:
        for ledger in self.ledgers:
            ledger.start()
        for ledger in self.ledgers:
            ledger.wait()
        self.way.open()
        self.door.open()

    def stop(self) -> None:
        self.over = True
        self.door.stop()
        self.way.stop()
        for ledger in self.ledgers:
            if ledger.run:
                ledger.kill()

    def share(self, *words: str, wanted: int = 0, tries: int = 20, is_new: bool = True) -> str:
        """Sends a shared request to all shards; where it is new, its place among the answers is
        that of its first sending."""
        told, moment = self.scripts.shared(*words, wanted=wanted, tries=tries)
        if is_new:
            self.shared_answers.append((moment, "POST", "/posts",
                                        BODIES[words[0]].format(*words[1:]), 200, '{"ok":0}'))
        return told

    def answered(self) -> int:
        for client in self.clients:
            if client.trouble:
                fail(f"a client ends with {client.trouble}")
        return sum(len(client.answers) for client in self.clients)

    def wait_for(self, answers: int) -> None:
        deadline = time.monotonic() + PATIENCE
        while self.answered() < answers:
            time.sleep(0.01)
            if time.monotonic() > deadline:
                fail("the clients don't go on")

    def wait_for_each(self) -> None:
        """Until no client waits for what it waits for now."""
        before = [len(client.answers) for client in self.clients]
        deadline = time.monotonic() + PATIENCE
        while any(len(client.answers) <= old + 1 for client, old in zip(self.clients, before)):
            self.answered()
            time.sleep(0.01)
            if time.monotonic() > deadline:
                fail("a client waits on")

    def kill_one(self) -> None:
        """A ledger is killed as it answers, and started again. What wasn't answered is sent again
        before the next roll."""
        victim = self.ledgers[1]
        before = victim.connections()
        while victim.connections() < before + 20:
            time.sleep(0.001)
        victim.kill()
        time.sleep(0.3)
        victim.start()
        self.wait_for_each()

    def move_one(self, day: str) -> None:
        """A ledger is shut at the door and killed; the day is rolled without it; it goes on over a
        copy, and gets the day."""
        mover = self.ledgers[2]
        self.scripts.shut(2)
        mover.kill()
        told = self.share("roll", day, wanted=3, tries=1)
        if told.split(":")[0] != f"shard 2 lacks roll {day}":
            fail(f"shared.sh without shard 2 says {told}")
        mover.move(os.path.join(self.room, "elsewhere"))
        mover.start()
        self.share(is_new=False)

    def days(self) -> None:
        """The rolls of the month, while the clients go on."""
        for day in DAYS:
            self.wait_for(self.answered() + ANSWERS_A_DAY)
            if day == MOVED_ON:
                self.move_one(day)
            else:
                self.share("roll", day)
            self.day = day
            if day == KILLED_ON:
                self.kill_one()
            if day == HELD_ON:
                self.share("holiday", "2024-01-15")
                self.share("feerow", "2024-01-20", "3200", "4300")
                self.share("index", "2024-01-20", "550")
            if day == REFUSED_ON:
                self.share("roll", day, is_new=False)
                self.share("holiday", "2024-01-20", is_new=True)
                self.share("holiday", "2024-01-14", wanted=2, is_new=False)
                self.share("feerow", "2024-01-21", "5000", "4000", wanted=1, is_new=False)
                self.share("roll", "2025-02-15", wanted=2, is_new=False)

    def run(self) -> None:
        self.share("feerow", "2011-01-02", "3000", "4100")
        self.share("roll", self.day)
        for client in self.clients:
            client.start()
        self.days()
        self.wait_for(self.answered() + ANSWERS_A_DAY)
        self.over = True
        for client in self.clients:
            client.join(PATIENCE)
        self.answered()

    def answers(self) -> list[Told]:
        """All answers in the order in which they were given."""
        found = [answer for client in self.clients for answer in client.answers]
        return sorted(self.shared_answers + found, key=lambda answer: answer[0])


def compare(what: str, got: object, wanted: object) -> None:
    if got != wanted:
        fail(f"{what}: {got!r}, by one ledger {wanted!r}")


def questions(names: list[str]) -> Iterator[str]:
    for name in names:
        for end in ("", "/entries", "/statements/1", "/cycles/1"):
            yield f"/accounts/{name}{end}"


def replay(month: Month, alone: Ledger) -> int:
    """One ledger gets the same requests in the same order, and answers the same; and so it does at
    the end."""
    for _, method, path, body, status, text in month.answers():
        compare(f"{method} {path} {body}", (status, text), ask(alone.port, method, path, body)[:2])
    for path in questions(month.names):
        compare(path, ask(month.door.port, "GET", path)[:2], ask(alone.port, "GET", path)[:2])
    tasks = ask(alone.port, "GET", "/work")[1]
    compare("gather.py work", month.scripts.gather("work"), tasks)
    return len(tasks.splitlines())


def account_of(row: bytes) -> str:
    """The account of a kept row: its length is the third byte."""
    return row[3:3 + row[2]].decode()


def compare_rows(month: Month, alone: Ledger) -> int:
    """The shared rows of each shard are those of one ledger, and so are the rows of each account,
    which lie in one shard."""
    whole = bodies_of(alone.file())
    for shard, ledger in enumerate(month.ledgers):
        rows = bodies_of(ledger.file())
        compare(f"shared rows of shard {shard}", [row for row in rows if row[:2] in SHARED_ROWS],
                [row for row in whole if row[:2] in SHARED_ROWS])
        own = [row for row in rows if row[:2] not in SHARED_ROWS]
        wanted = [row for row in whole if row[:2] not in SHARED_ROWS
                  and shard_of(account_of(row)) == shard]
        compare(f"rows of shard {shard}", sorted(own, key=account_of),
                sorted(wanted, key=account_of))
    return len(whole)


def told_of(month: Month, alone: Ledger) -> str:
    """The month behind the door, and all that it is held against: what it came to."""
    month.start()
    month.run()
    alone.start()
    alone.wait()
    tasks = replay(month, alone)
    hostile = Hostile(month.door, month.ledgers, month.names, shard_of)
    count = hostile.run()
    hostile.statistics()
    month.stop()
    alone.kill()
    rows = compare_rows(month, alone)
    again = sum(client.sent_again for client in month.clients)
    return (f"{len(month.answers())} answers to {CLIENTS} clients over {SHARDS} shards, {again} "
            f"sent again, {rows} rows, {tasks} tasks, as of one ledger; {count} hostile requests, "
            "none at a wrong shard")


def run(room: str, seed: int) -> str:
    """A month with a folder of its own: what it came to."""
    month = Month(room, NAMES, seed)
    alone = Ledger(PROGRAM, os.path.join(room, "alone"), free_ports(1)[0])
    try:
        return f"seed {seed}: {told_of(month, alone)}"
    except AssertionError as error:
        raise AssertionError(f"seed {seed}: {error}") from error
    finally:
        month.stop()
        alone.kill()
