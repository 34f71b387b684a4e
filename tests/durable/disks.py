"""A disk that takes so many bytes of each file (a log grows by 256 kB at once): whole replies were
written, and exactly their rows are there."""

from ..support.program import as_input, run
from .expected import Expected, Way, accepted, fail, sound_rows
from .requests import OPENING

# below 262,144 bytes there is no room for a log, and below 524,288 none for all rows
ROOMS = 200_000, 500_000


def full_disk(expected: Expected, room: str, way: Way, size: int) -> int:
    """How many rows a run kept before the disk was full."""
    file = expected.begun(room)
    done = run([file, way.command], as_input(way.lines), file_limit=size)
    replies = done.lines
    is_front = replies == way.replies[: len(replies)]
    if done.status != 5 or not is_front or not done.text.endswith("\n" if replies else ""):
        fail(f"{way.command} over a disk of {size} bytes ends with {done.status}")
    kept = accepted(replies)
    expected.has_rows(len(OPENING) + len(kept), sound_rows(file, 1), 0)
    expected.imported(room, kept)
    return len(kept)
