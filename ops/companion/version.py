"""`version`: which program and which companion these are."""

import hashlib
import os
import shutil
import subprocess

from companion import VERSION
from companion.program import TOP, find_program
from companion.rows import FORMAT
from companion.trouble import DONE, OWN_FILES, Trouble

PLACE = os.path.join(TOP, "VERSION")
UNKNOWN = "unknown"

# A kit that is at work may answer late.
SECONDS = 2


def hash_of(path: str) -> str:
    """The SHA-256 of a file."""
    try:
        with open(path, "rb") as file:
            return hashlib.file_digest(file, "sha256").hexdigest()
    except OSError as error:
        raise Trouble(f"{path} can't be read: {error.strerror}", OWN_FILES) from error


def told_by(*words: str) -> str:
    """The first line of a command, where it is there and succeeds in time."""
    if shutil.which(words[0]) is None:
        return UNKNOWN
    try:
        done = subprocess.run(words, capture_output=True, text=True, check=False, timeout=SECONDS)
    except subprocess.TimeoutExpired:
        return UNKNOWN
    return done.stdout.split("\n", 1)[0].strip() if done.returncode == 0 else UNKNOWN


def sources() -> list[str]:
    """The commit and the kit: as `ops/install` wrote them, or as they are here."""
    if os.path.exists(PLACE):
        with open(PLACE, encoding="utf-8") as file:
            return file.read().splitlines()
    return [f"commit {told_by('git', '-C', TOP, 'rev-parse', 'HEAD')}",
            f"kit {told_by('rt', '--version')}"]


def version(named: str | None) -> int:
    """The word `version`."""
    program = find_program(named)
    print(f"program {program}\nsha256 {hash_of(program)}")
    for line in sources():
        print(line)
    print(f"companion {VERSION}\nformat of rows {FORMAT}, and 1 of older rows")
    return DONE
