"""billctl itself: where it is, how it is called, and what each of its exit statuses asks."""

import contextlib
import ctypes
import os
import shutil
import signal
import subprocess
import tempfile
from collections.abc import Callable
from typing import Any, TextIO

from companion.trouble import OWN_FILES, Progress, Trouble

# The folder that has `companion`, and its parent: the repository, or where ops/install put all.
HERE = os.path.dirname(os.path.dirname(os.path.realpath(__file__)))
TOP = os.path.dirname(HERE)
PLACES = (os.path.join(TOP, "bin", "billctl"),
          os.path.join(TOP, "crates", "billctl", "out", "billctl"))

# Linux's option of prctl for a signal when the parent is gone.
PR_SET_PDEATHSIG = 1

ASKS = {
    0: "every accepted line has its row",
    1: "something was refused; those lines had no effect, and the others stand",
    2: "these words are no command of billctl; nothing was done",
    3: "the input failed; find why, and send the rest again (the whole of a CSV file: "
       "an import did nothing)",
    4: "the output failed; the rows stand. Send again from the first line without a whole reply; "
       "what is kept gets its old number",
    5: "the rows couldn't be loaded, or some couldn't be kept: lines with a reply stand; the rest "
       "had no effect where the disk was full, and perhaps had where it failed. Make room on the "
       "disk or mend what is named, and send again",
    6: "memory was wanted; lines with a reply stand. Give the machine memory, and send again",
    7: "the port is taken, or the system gives no more connections; start the server again",
    8: "a row is damaged, and nothing was done; restore a backup",
    9: "the input is too large; split it",
}


def find_program(named: str | None = None) -> str:
    """The path of billctl: as named, by BILLCTL, as installed or built here, or on the PATH."""
    for path in (named, os.environ.get("BILLCTL")):
        if path:
            if not os.path.isfile(path) or not os.access(path, os.X_OK):
                raise Trouble(f"{path} is no program that can be run", OWN_FILES)
            return os.path.abspath(path)
    for path in PLACES:
        if os.access(path, os.X_OK):
            return path
    found = shutil.which("billctl")
    if found:
        return found
    raise Trouble(f"billctl is neither built at {PLACES[-1]} nor on the PATH: the script billctl "
                  "of the repository builds it; or name it with --program or BILLCTL", OWN_FILES)


def ask_of(status: int) -> str:
    """What a status of billctl asks of the operator, also where a signal ended it."""
    if status < 0:
        return (f"it was ended by {signal.Signals(-status).name}; every line with a reply stands. "
                "Send the whole input again")
    return ASKS.get(status, "it is no status of billctl's")


def start(words: list[str], **streams: Any) -> subprocess.Popen[bytes]:
    """Starts a program.

    A limit on the size of files is an error of its writes, and no signal, as for this process.
    """
    try:
        return subprocess.Popen(words, restore_signals=False, **streams)
    except OSError as error:
        raise Trouble(f"{words[0]} can't be run: {error.strerror}", OWN_FILES) from error


def ends_with_caller() -> Callable[[], None]:
    """What a new process calls first, so that the system ends it when this one is gone."""
    caller = os.getpid()

    def end_with_caller() -> None:
        with contextlib.suppress(OSError, AttributeError):
            ctypes.CDLL(None).prctl(PR_SET_PDEATHSIG, int(signal.SIGKILL))
        if os.getppid() != caller:  # it went before the system was asked
            os.kill(os.getpid(), signal.SIGKILL)

    return end_with_caller


def call(program: str, path: str, *words: str) -> tuple[int, bytes]:
    """Calls a command over a file, with nothing to read. Gives its status and what it wrote."""
    running = start([program, path, *words], stdin=subprocess.DEVNULL, stdout=subprocess.PIPE)
    written: bytes = running.communicate()[0]
    return running.returncode, written


def feed(program: str, path: str, word: str, data: bytes, whole: int,
         out: TextIO | None = None) -> tuple[int, list[str]]:
    """Has `apply` or `import` read some bytes.

    Gives its status and its replies, which go to `out` as they come.
    """
    replies: list[str] = []
    progress = Progress("replies", whole)
    with tempfile.TemporaryFile() as file:
        try:
            file.write(data)
            file.seek(0)
        except OSError as error:
            raise Trouble(f"the input can't be put aside: {error.strerror}; "
                          "TMPDIR may name another folder", OWN_FILES) from error
        running = start([program, path, word], stdin=file, stdout=subprocess.PIPE)
        assert running.stdout is not None
        for line in running.stdout:
            text = line.decode("ascii", "replace")
            if text.endswith("\n"):
                replies.append(text[:-1])
                progress.at(len(replies))
            if out is not None:
                out.write(text)
                out.flush()
        running.stdout.close()
    return running.wait(), replies
