"""The audit of a shard: the independent model over a sample of its accounts.

The rows of these accounts and the shared ones go into a file of their own, which changes nothing
of what is printed of them. The statements that the shard's own server printed in the nights are
compared too, so that the sample is held to the whole shard.
"""

import contextlib
import random
import sqlite3
import tempfile
import time
from pathlib import Path

from audit.check import Different, check
from audit.ledger_file import Unreadable, copied, write
from audit.program import Failed
from audit.rows import decode
from tests.support.program import PROGRAM

from ..measure import stop
from .results import Audit, Setup

AUDITED_ONE_IN = 100  # shards


def sampled(shard: int, names: list[str], setup: Setup) -> frozenset[str]:
    """The accounts of a shard that are audited: none in most shards."""
    if shard % AUDITED_ONE_IN:
        return frozenset()
    count = min(setup.sample, len(names))
    return frozenset(random.Random(f"{setup.seed}/{shard}/sample").sample(names, count))


def is_of(body: bytes, names: frozenset[str]) -> bool:
    """Whether a row is shared, or of one of these accounts, or none that can be read."""
    request = decode(body)
    return request is None or request.account is None or request.account in names


def rows_of(file: str, names: frozenset[str]) -> list[bytes]:
    with copied(file) as copy, contextlib.closing(sqlite3.connect(copy)) as base:
        found = base.execute("SELECT body FROM kept ORDER BY seq")
        return [body for body, in found if is_of(body, names)]


def compared(rows: Path, sent: Path) -> tuple[str, str]:
    """What was compared, or else the first difference."""
    try:
        return check(str(rows), PROGRAM, [str(sent)]), ""
    except Different as different:
        return "", str(different)
    except (Failed, Unreadable) as why:
        stop(f"year: the audit compares nothing: {why}")


def audited(file: str, sent: Path, names: frozenset[str]) -> Audit:
    begun = time.monotonic()
    with tempfile.TemporaryDirectory(prefix="billctl-year-audit-", dir=sent.parent) as room:
        rows = Path(room) / "rows.db"
        write(rows, rows_of(file, names))
        found, difference = compared(rows, sent)
    return Audit(found, difference, len(names), time.monotonic() - begun)
