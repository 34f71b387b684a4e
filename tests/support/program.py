"""The program under test: where it is, runs of it with bounds, and kills."""

import contextlib
import ctypes
import os
import resource
import signal
import subprocess
import time
from collections.abc import Callable, Iterable, Mapping, Sequence
from pathlib import Path
from typing import IO, Any, NamedTuple

TOP = Path(__file__).resolve().parents[2]
EXAMPLES = TOP / "examples"
PROGRAM = os.environ.get("BILLCTL") or str(TOP / "crates" / "billctl" / "out" / "billctl")

Word = str | os.PathLike[str]
Channel = int | IO[Any]

LONGEST_NAME = 15  # of a process, to Linux
PTRACE_TRACEME, PTRACE_SYSCALL, PTRACE_SETOPTIONS = 0, 24, 0x4200
TRACE_CALLS, KILL_WITH_TRACER = 1, 0x100000
CALL_STOP = signal.SIGTRAP | 0x80
_ptrace = ctypes.CDLL(None, use_errno=True).ptrace
_ptrace.argtypes = (ctypes.c_long, ctypes.c_long, ctypes.c_void_p, ctypes.c_void_p)
_ptrace.restype = ctypes.c_long


class Done(NamedTuple):
    """A run that ended: its status (a negative signal where it was killed) and what it wrote."""

    status: int
    out: bytes
    err: bytes

    @property
    def text(self) -> str:
        return self.out.decode()

    @property
    def lines(self) -> list[str]:
        return self.text.splitlines()


def as_input(lines: Iterable[str]) -> bytes:
    """Lines as the program reads them, each with its line feed."""
    return "".join(line + "\n" for line in lines).encode()


def not_built() -> str:
    """Why the program can't be run, or nothing."""
    if os.access(PROGRAM, os.X_OK) and not os.path.isdir(PROGRAM):
        return ""
    return (f"{PROGRAM} isn't there or can't be run: build it with ./billctl, or name another "
            "program in the variable BILLCTL")


def bounds(file_limit: int | None, memory_limit: int | None,
           mask: int | None) -> Callable[[], None] | None:
    """What a run does before it begins: from then on no file takes a byte behind so many, it
    gets no more memory than so many bytes, and new files have the rights that the mask leaves."""
    if file_limit is None and memory_limit is None and mask is None:
        return None

    def bind() -> None:
        if file_limit is not None:
            signal.signal(signal.SIGXFSZ, signal.SIG_IGN)
            resource.setrlimit(resource.RLIMIT_FSIZE, (file_limit, file_limit))
        if memory_limit is not None:
            resource.setrlimit(resource.RLIMIT_AS, (memory_limit, memory_limit))
        if mask is not None:
            os.umask(mask)
    return bind


def start(words: Sequence[Word], *, given: Channel = subprocess.PIPE,
          out: Channel = subprocess.PIPE, err: Channel = subprocess.PIPE,
          file_limit: int | None = None, memory_limit: int | None = None,
          mask: int | None = None, cwd: Word | None = None,
          env: Mapping[str, str] | None = None) -> "subprocess.Popen[bytes]":
    """A run that goes on: the words begin with the place of the rows."""
    try:
        return subprocess.Popen([PROGRAM, *words], stdin=given, stdout=out, stderr=err, bufsize=0,
                                preexec_fn=bounds(file_limit, memory_limit, mask), cwd=cwd,
                                env=env)
    except (FileNotFoundError, PermissionError) as error:
        raise AssertionError(not_built() or str(error)) from None


def run(words: Sequence[Word], given: bytes | str | Channel = b"", *, seconds: float = 60,
        out: Channel = subprocess.PIPE, **how: Any) -> Done:
    """A run to its end. What is given is bytes, text, or an open file; `how` is as for `start`."""
    data = given.encode() if isinstance(given, str) else given
    source = subprocess.PIPE if isinstance(data, bytes) else data
    with start(words, given=source, out=out, **how) as running:
        try:
            told, errors = running.communicate(data if isinstance(data, bytes) else None, seconds)
        except subprocess.TimeoutExpired:
            running.kill()
            raise AssertionError(f"{' '.join(map(str, words))} doesn't end in {seconds} seconds") \
                from None
        except BaseException:
            running.kill()
            raise
    return Done(running.returncode, told or b"", errors or b"")


def apply(file: Word, lines: Iterable[str], **how: Any) -> Done:
    """The lines carried out over a file, or over `-`."""
    return run([file, "apply"], as_input(lines), **how)


def kill_after(running: "subprocess.Popen[bytes]", seconds: float) -> None:
    """Kills a run after so many seconds, where it hasn't ended before."""
    with contextlib.suppress(subprocess.TimeoutExpired):
        running.wait(seconds)
    running.kill()
    running.wait()


def run_to_call(words: Sequence[Word], calls: int | None, *, given: Channel,
                out: Channel, seconds: float = 600) -> tuple[int, int]:
    """A run that is killed before its so many'th system call, the first being 1; without a number
    it ends by itself. Gives the calls that it made and its status: a negative signal where it was
    killed. The thread that calls this follows the run, so each lane needs a thread of its own."""
    def trace() -> None:
        _ptrace(PTRACE_TRACEME, 0, None, None)

    running = subprocess.Popen([PROGRAM, *words], stdin=given, stdout=out,
                               stderr=subprocess.DEVNULL, preexec_fn=trace)
    deadline = time.monotonic() + seconds
    made, is_inside = 0, False
    _, state = os.waitpid(running.pid, 0)
    _ptrace(PTRACE_SETOPTIONS, running.pid, None, TRACE_CALLS | KILL_WITH_TRACER)
    passed = 0
    while os.WIFSTOPPED(state):
        _ptrace(PTRACE_SYSCALL, running.pid, None, passed)
        _, state = os.waitpid(running.pid, 0)
        stop = os.WSTOPSIG(state) if os.WIFSTOPPED(state) else 0
        passed = 0 if stop in (CALL_STOP, signal.SIGTRAP) else stop
        if stop == CALL_STOP:
            is_inside = not is_inside
            made += is_inside
        if stop and (made == calls and is_inside or time.monotonic() > deadline):
            os.kill(running.pid, signal.SIGKILL)
            _, state = os.waitpid(running.pid, 0)
            made -= 1
    running.returncode = os.waitstatus_to_exitcode(state)
    return made, running.returncode


class Session:
    """A run to which a line is sent once the reply to the one before was read. At the end of the
    block it is killed where it still runs."""

    def __init__(self, words: Sequence[Word], **how: Any) -> None:
        self.running = start(words, **how)
        self.pid = self.running.pid

    @property
    def process(self) -> str:
        """What the companion calls it, by the name of the program that is tested."""
        return f"process {self.pid} ({Path(PROGRAM).name[:LONGEST_NAME]})"

    def __enter__(self) -> "Session":
        return self

    def __exit__(self, *error: object) -> None:
        self.kill()
        for end in (self.running.stdin, self.running.stdout, self.running.stderr):
            if end:
                end.close()

    def write(self, data: bytes) -> None:
        assert self.running.stdin
        self.running.stdin.write(data)

    def read_line(self) -> str:
        """The next reply, with its line feed; empty at the end of what the run writes."""
        assert self.running.stdout
        return self.running.stdout.readline().decode()

    def ask(self, line: str) -> str:
        """Sends a line, and gives the reply to it."""
        self.write(line.encode() + b"\n")
        return self.read_line()

    def close(self) -> None:
        """Ends the input."""
        assert self.running.stdin
        self.running.stdin.close()

    def end(self, seconds: float = 60) -> int:
        """Ends the input: the status with which the run ends."""
        self.close()
        return self.running.wait(seconds)

    def kill(self) -> None:
        self.running.kill()
        self.running.wait()
