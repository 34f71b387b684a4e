"""The independent model (audit/): where it is, and how its words are called."""

import os
import subprocess
import sys
from collections.abc import Callable

from companion.program import TOP, ends_with_caller, start
from companion.trouble import OWN_FILES, Trouble

SAID = (0, 1)  # all is as it has to be, or something differs or isn't there


def folder_of_model(code: str) -> str:
    """The folder that has the model with some code: that of this companion, or of PYTHONPATH."""
    for place in (TOP, *os.environ.get("PYTHONPATH", "").split(os.pathsep)):
        if place and os.path.isfile(os.path.join(place, "audit", code, "command.py")):
            return place
    raise Trouble("the independent model (audit/ of the repository) isn't here: call ops/ledger "
                  "from the repository, install it by ops/install, or name the repository in "
                  "PYTHONPATH", OWN_FILES)


def ask_model(code: str, words: list[str], tell: Callable[[str], None] | None = None) -> int:
    """Has the model carry out words, whose code is in a folder of audit/. Gives its status.

    What it prints and says is its own; with `tell` that takes each line that it says, and what it
    prints is left out.
    """
    place, found = folder_of_model(code), os.environ.get("PYTHONPATH")
    path = os.pathsep.join([place, found] if found else [place])
    given = {**os.environ, "PYTHONPATH": path, "PYTHONSAFEPATH": "1",
             "PYTHONDONTWRITEBYTECODE": "1"}
    streams = {"stdout": subprocess.DEVNULL, "stderr": subprocess.PIPE} if tell else {}
    with start([sys.executable, "-m", "audit", *words], env=given, stdin=subprocess.DEVNULL,
               preexec_fn=ends_with_caller(), **streams) as running:
        if tell is not None and running.stderr is not None:
            for line in running.stderr:
                tell(line.decode("utf-8", "replace").rstrip("\n"))
    return running.returncode if running.returncode in SAID else OWN_FILES
