"""Who has a ledger's file: its locks, and the processes that hold it open."""

import fcntl
import os
import struct
import time
from typing import IO

from companion.trouble import CANNOT_OPEN, Trouble, say

# SQLite's pending, reserved and shared locks. billctl takes them all, exclusively, on the file
# and on its log.
PLACE = 1 << 30
LENGTH = 512
FLOCK = "hhqqi4x"
PAUSE = 0.1


def is_locked(path: str) -> bool:
    """Whether another process has a lock that keeps billctl from the file.

    Where the system can't tell, no.
    """
    if not hasattr(fcntl, "F_OFD_GETLK"):
        return False
    with open(path, "rb") as file:
        asked = struct.pack(FLOCK, fcntl.F_WRLCK, os.SEEK_SET, PLACE, LENGTH, 0)
        kind: int = struct.unpack(FLOCK, fcntl.fcntl(file, fcntl.F_OFD_GETLK, asked))[0]
        return kind != fcntl.F_UNLCK


def take_shared(file: IO[bytes]) -> bool:
    """Keeps billctl from an open file until it is closed, where the system can.

    Says whether it was free.
    """
    if not hasattr(fcntl, "F_OFD_SETLK"):
        return True
    try:
        asked = struct.pack(FLOCK, fcntl.F_RDLCK, os.SEEK_SET, PLACE, LENGTH, 0)
        fcntl.fcntl(file, fcntl.F_OFD_SETLK, asked)
    except OSError:
        return False
    return True


def has_open(pid: str, wanted: tuple[int, int]) -> bool:
    folder = f"/proc/{pid}/fd"
    for name in os.listdir(folder):
        try:
            found = os.stat(os.path.join(folder, name))
        except OSError:
            continue
        if (found.st_dev, found.st_ino) == wanted:
            return True
    return False


def name_of(pid: str) -> str:
    try:
        with open(f"/proc/{pid}/comm", encoding="utf-8", errors="replace") as file:
            return file.read().strip()
    except OSError:
        return "?"


def holders(path: str) -> list[str]:
    """The processes that have a file open, as `process 12 (billctl)`, if this user may see them."""
    try:
        found = os.stat(path)
        pids = [name for name in os.listdir("/proc") if name.isdigit() and int(name) != os.getpid()]
    except OSError:
        return []
    names = []
    for pid in sorted(pids, key=int):
        try:
            if has_open(pid, (found.st_dev, found.st_ino)):
                names.append(f"process {pid} ({name_of(pid)})")
        except OSError:
            continue
    return names


def who_has(path: str) -> str:
    """In words, who has a file that is locked."""
    return " and ".join(holders(path)) or "another process, which this user can't see"


def wait_for(paths: list[str], seconds: int) -> None:
    """Waits until no process has a lock on any of the files.

    Raises Trouble where one still has after so many seconds.
    """
    end = time.monotonic() + seconds
    told = False
    for path in paths:
        while os.path.exists(path) and is_locked(path):
            if time.monotonic() >= end:
                raise Trouble(f"{path} is in use by {who_has(path)}", CANNOT_OPEN)
            if not told:
                say(f"waiting for {path}, in use by {who_has(path)}")
                told = True
            time.sleep(PAUSE)
