"""A night that is killed, or whose disk is full, when one of its steps begins."""

import contextlib
import ctypes
import os
import signal
from collections.abc import Callable, Iterator
from typing import Any
from unittest import mock

from .common import Told, ledger

# The steps of a night by their names in companion.night, each of which every night comes to.
STEPS = ("save", "roll", "take_in", "put_away", "bill", "print_all", "put_tasks", "tell_money",
         "save_end", "end_report")

# With the one that a night comes to which has statements to print.
ALL = (*STEPS[:6], "keep_text", *STEPS[6:])
PAGE = 4096


@contextlib.contextmanager
def before(step: str, act: Callable[[], None]) -> Iterator[list[str]]:
    """Does something when a step of a night begins, and each later one. Gives those reached."""
    import companion.night
    reached: list[str] = []

    def acting(name: str) -> Callable[..., Any]:
        does = getattr(companion.night, name)

        def acted(*args: Any, **named: Any) -> Any:
            if reached or name == step:
                reached.append(name)
                act()
            return does(*args, **named)
        return acted

    with contextlib.ExitStack() as stack:
        for name in ALL:
            stack.enter_context(mock.patch(f"companion.night.{name}", acting(name)))
        yield reached


def killed_at(step: str, *words: str) -> bool:
    """A night in a process of its own, which is killed when a step begins. Says whether it was."""
    child = os.fork()
    if child == 0:
        try:
            with before(step, lambda: os.kill(os.getpid(), signal.SIGKILL)):
                ledger("night", *words)
        finally:
            os._exit(99)
    return os.WIFSIGNALED(os.waitpid(child, 0)[1])


@contextlib.contextmanager
def small_disk(folder: str, size: int) -> Iterator[bool]:
    """A disk in memory of so many bytes at a folder. Says no where this user may mount none."""
    libc = ctypes.CDLL(None, use_errno=True)
    is_there = os.geteuid() == 0 and libc.mount(
        b"tmpfs", folder.encode(), b"tmpfs", 0, f"size={size}".encode()) == 0
    try:
        yield is_there
    finally:
        if is_there:
            libc.umount2(folder.encode(), 2)


def fill(path: str) -> None:
    """Takes all room of a disk with one file, also what was given back since."""
    with contextlib.suppress(OSError), open(path, "ab", buffering=0) as file:
        while True:
            file.write(bytes(PAGE))


def full_at(step: str, filler: str, *words: str) -> tuple[bool, Told]:
    """A night whose disk is full from the beginning of a step on; then there is room again.

    Says whether the step was reached, and what the night told.
    """
    with before(step, lambda: fill(filler)) as reached:
        told = ledger("night", *words)
    with contextlib.suppress(FileNotFoundError):
        os.remove(filler)
    return bool(reached), told
