"""Outputs that are read line by line, and such as take nothing."""

import io
from collections.abc import Iterable

from ..support.program import as_input, run, start
from .expected import WAITING, Expected, fail, pipes, sound_rows
from .requests import IMPORT, LINES, OPENING

FULL = "/dev/full"


def answered(expected: Expected, room: str, pieces: Iterable[int]) -> None:
    """Sends the lines in pieces, each once the one before is answered: the rows of the replies are
    there when these are."""
    file, sent = expected.begun(room), 0
    with start([file, "apply"]) as running:
        source, raw = pipes(running)
        replies = io.BufferedReader(raw)
        for piece in pieces:
            source.write(as_input(LINES[sent:sent + piece]))
            for number in range(sent, sent + piece):
                reply = replies.readline().decode()
                if reply != expected.charged[number] + "\n":
                    fail(f"line {number} is answered {reply!r}")
            sent += piece
            expected.has_rows(len(OPENING) + sent, sound_rows(file, 1), 0)
        source.close()
        rest = replies.read()
    if running.returncode != 0 or rest:
        fail(f"it ends with {running.returncode}, and writes {rest!r}")


def full_output(expected: Expected, room: str, command: str) -> None:
    """An output that takes nothing: no row is there but those that waited with the first replies.
    """
    file = expected.begun(room)
    with open(FULL, "wb") as sink:
        done = run([file, command], as_input(LINES if command == "apply" else IMPORT), out=sink)
    if done.status != 4:
        fail(f"{command} into a full output ends with {done.status}")
    # an import's first commit has all that may wait, and the record that finds the output failed
    # was taken
    if not expected.imported(room, [], WAITING + 1).ahead:
        fail(f"{command} into a full output keeps no row")
