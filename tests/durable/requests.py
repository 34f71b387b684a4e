"""What the runs are given: ten accounts, and 7,990 charges as lines, records and posts."""

from collections.abc import Iterator

from ..support.requests import HEADER, body_of

ACCOUNTS = 10
CHARGES = 7990


def opening() -> Iterator[str]:
    yield "roll 2024-03-01"
    for account in range(ACCOUNTS):
        yield f"open a{account} o 2024-03-01 5 1999 2499 2199 2999 2500 100"


def charges() -> Iterator[tuple[str, str, int]]:
    """Account, key and cents of each charge."""
    for number in range(CHARGES):
        yield f"a{number % ACCOUNTS}", f"c{number}", 100 + number


def mixed() -> Iterator[str]:
    """The records, and between them some that keep no row and have longer replies, of which more
    than may wait come before the rows are too many."""
    for number, record in enumerate(RECORDS):
        yield record
        if number % 12 == 0:
            yield "nobody" + record[record.index(","):]


OPENING = list(opening())
LINES = [f"charge {account} {key} 2024-03-01 purchase {cents}" for account, key, cents in charges()]
RECORDS = [f"{account},{key},charge,2024-03-01,purchase,{cents},,"
           for account, key, cents in charges()]
IMPORT = [HEADER, *RECORDS]
MIXED_IMPORT = [HEADER, *mixed()]
BODIES = [body_of(line) for line in LINES]
