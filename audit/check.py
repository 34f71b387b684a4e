"""A ledger's file recomputed, and held against what the program tells of it."""

import sys
import time
from collections.abc import Sequence
from dataclasses import dataclass, fields
from typing import Protocol

from .alone import Alone
from .commands import Damaged, load
from .days import day_text
from .difference import first_difference
from .ledger_file import copied, rows_of
from .machine import Machine
from .program import Failed, Program, Server
from .sent import Sent, statements_below
from .tasks import tasks_text
from .views import view

SECONDS = 1.0  # between two lines of progress


class Different(Exception):
    """The first difference, in words, with both sides."""


@dataclass
class Counted:
    """What was compared.  `cents` are those of all entries, each without its sign."""
    accounts: int = 0
    issued: int = 0
    recomputed: int = 0
    repayments: int = 0
    entries: int = 0
    cents: int = 0
    tasks: int = 0
    sent: int = 0

    def add(self, other: "Counted") -> None:
        for f in fields(self):
            setattr(self, f.name, getattr(self, f.name) + getattr(other, f.name))

    def text(self) -> str:
        """All counts in one line; of repayments and statements as sent only where some were
        there."""
        parts = [f"accounts {self.accounts}", f"statements issued {self.issued}",
                 f"recomputed {self.recomputed}", f"entries {self.entries}", f"cents {self.cents}",
                 f"open tasks {self.tasks}"]
        parts += [f"repayments {self.repayments}"] if self.repayments else []
        parts += [f"statements sent {self.sent}"] if self.sent else []
        return ", ".join(parts)


class Progress:
    """Lines on standard error, at most one a second."""

    def __init__(self, quiet: bool):
        self.quiet, self.last = quiet, time.monotonic()

    def say(self, text: str, at_once: bool = False) -> None:
        if not self.quiet and (at_once or time.monotonic() - self.last >= SECONDS):
            print(f"audit: {text}", file=sys.stderr, flush=True)
            self.last = time.monotonic()

    def loaded(self, done: int, of: int) -> None:
        self.say(f"{done} of {of} rows carried out")


def same(what: str, model: str | None, other: bytes | None, side: str = "program") -> bool:
    """Whether the text is there, on both sides and the same."""
    ours = b"none\n" if model is None else model.encode("utf-8")
    found = first_difference(ours, b"none\n" if other is None else other, side=side)
    if found is not None:
        raise Different(f"{what}, {found}")
    return model is not None


class Answers(Protocol):
    """What answers a path, as `program.Server` does."""

    def get(self, path: str) -> bytes | None:
        """The body of its answer, None for 404."""


class Runs(Protocol):
    """What runs a command over the rows, as `program.Program` does."""

    def run(self, words: list[str], data: bytes = b"") -> tuple[bytes, int]:
        """What a run writes, and its status."""


class Audit:
    """The model of a ledger's rows beside the program over the same rows."""

    def __init__(self, machine: Machine, server: Answers, alone: Alone | None = None):
        """Repayments are asked of `alone`, and not at all without it."""
        self.machine, self.server, self.alone = machine, server, alone
        work = server.get("/work")
        if work is None:
            raise Failed("GET /work is answered 404: ask a program that knows the path")
        self.tasks: dict[str, list[bytes]] = {}
        for line in work.splitlines(keepends=True):
            self.tasks.setdefault(line.split(b" ")[1].decode(), []).append(line)
        self.work = work

    def asked(self, what: str, word: str, path: str, name: str, cycle: int | None = None) -> bool:
        """A view by its command's word, and by the program's answer to its path."""
        return same(what, view(self.machine, word, name, cycle), self.server.get(path))

    def repayments(self, alone: Alone, name: str, issued: list[int]) -> int:
        """The lines of `repay` of these statements, which have no path of their own."""
        with alone.program(name) as program:
            return sum(same(f"account {name}, repayment of statement {k}",
                            view(self.machine, "repay", name, k),
                            program.run(["repay", name, str(k)])[0]) for k in issued)

    def statements(self, name: str) -> Counted:
        """Both statements of every closed cycle, and none of the cycle behind them."""
        found, all_issued = Counted(), []
        for k in range(1, self.machine.closed_cycles(self.machine.accounts[name]) + 2):
            base = f"/accounts/{name}"
            issued = self.asked(f"account {name}, statement {k} as issued", "statement",
                                f"{base}/statements/{k}", name, k)
            all_issued += [k] if issued else []
            found.recomputed += self.asked(f"account {name}, cycle {k} as recomputed", "restate",
                                           f"{base}/cycles/{k}", name, k)
        found.issued = len(all_issued)
        if self.alone and all_issued:
            found.repayments = self.repayments(self.alone, name, all_issued)
        return found

    def account(self, name: str) -> Counted:
        """All that is told of an account."""
        self.asked(f"account {name}, show", "show", f"/accounts/{name}", name)
        self.asked(f"account {name}, entries", "export", f"/accounts/{name}/entries", name)
        tasks = self.machine.tasks(name)
        same(f"account {name}, open tasks", tasks_text(tasks),
             b"".join(self.tasks.get(name, [])))
        found = self.statements(name)
        entries = self.machine.entries_of(name)
        found.add(Counted(accounts=1, entries=len(entries), tasks=len(tasks),
                          cents=sum(abs(e.cents) for e in entries)))
        return found

    def whole(self, progress: Progress) -> Counted:
        """Account by account, and then the open tasks of all."""
        counted = Counted()
        for place, name in enumerate(self.machine.accounts, start=1):
            found = self.account(name)
            counted.add(found)
            progress.say(f"account {place} of {len(self.machine.accounts)}, {name}: "
                         f"{found.issued} statements, {found.entries} entries")
        same("open tasks of all accounts", view(self.machine, "work"), self.work)
        return counted


def recomputed(kept: list[tuple[int, bytes]], program: Runs, progress: Progress) -> Machine:
    """The model of the rows; where they are damaged, the program has to say so too."""
    try:
        return load(kept, progress.loaded)
    except Damaged as damaged:
        told, status = program.run(["apply"])
        want = f"damaged {damaged.row}\n"
        found = first_difference(want.encode(), told)
        if found is not None:
            raise Different(f"kept rows, {found}") from None
        raise Failed(f"row {damaged.row} is damaged, as the program says with status {status}; "
                     "nothing was compared") from None


def compare_sent(machine: Machine, sent: list[Sent]) -> Counted:
    """Statements as they were sent, beside those that the model issues."""
    for s in sent:
        same(f"account {s.account}, statement {s.cycle} in {s.file}",
             view(machine, "statement", s.account, s.cycle), s.text, side="sent")
    return Counted(sent=len(sent))


def check(file: str, path: str, sent: Sequence[str] = (), quiet: bool = False) -> str:
    """What was compared, in words; `Different` where something isn't the same."""
    progress = Progress(quiet)
    statements = statements_below(sent)
    with copied(file) as copy:
        kept = rows_of(copy)
        program = Program(path, str(copy))
        machine = recomputed(kept, program, progress)
        progress.say(f"{len(kept)} rows, {len(machine.accounts)} accounts, "
                     f"today {day_text(machine.today)}", at_once=True)
        counted = compare_sent(machine, statements)
        alone = Alone(kept, path) if "repay" in program.commands() else None
        with Server(program) as server:
            counted.add(Audit(machine, server, alone).whole(progress))
        return counted.text()
