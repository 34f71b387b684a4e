"""Runs of the program in which one sync fails as on a disk that can't write."""

import os
import subprocess

from ..support.case import Case, read
from ..support.program import TOP, Word

SOURCE = TOP / "tests" / "durable" / "failing_sync.c"


class Syncs:
    """The library that makes a sync fail, and how many there were."""

    def __init__(self, test: Case) -> None:
        self.library, self.made = test.at("failing_sync.so"), test.at("syncs")
        words = ["cc", "-O1", "-shared", "-fPIC", "-o", self.library, str(SOURCE), "-ldl"]
        subprocess.run(words, check=True)

    def environment(self, number: int) -> dict[str, str]:
        """Of a run whose sync of this number fails; none does where it is 0. It counts anew."""
        if os.path.exists(self.made):
            os.remove(self.made)
        return os.environ | {"LD_PRELOAD": self.library, "FAILED_SYNC": str(number),
                             "SYNCS": self.made}

    def count(self) -> int:
        """How many syncs the run has made so far."""
        made: Word = self.made
        return len(read(made)) if os.path.exists(made) else 0
