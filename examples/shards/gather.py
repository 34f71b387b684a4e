#!/usr/bin/env python3
"""Puts together what each shard tells for itself.

    gather.py work                     the open tasks of all shards, in the order of `work`
    gather.py add A.txt B.txt ..       texts of lines with the same words and amounts, as those
                                       of `trial`, added up line by line

`work` asks each shard of the file `shards` (in the folder of SHARDS, else /etc/billctl). Lines of
`add` are words with amounts behind them, whole or with two digits behind the point; the sums are
exact.

Status: 0 all of it is printed; 1 the texts don't go together; 2 the words are of neither form; 3 a
shard didn't answer, and nothing is printed.
"""
import heapq
import http.client
import os
import re
import sys
from collections.abc import Sequence

AMOUNT = re.compile(r"-?[0-9]+(\.[0-9][0-9])?")
SECONDS = 65


class Apart(Exception):
    """Why texts don't go together."""


class Silent(Exception):
    """Which shard didn't answer."""


def shards() -> list[list[str]]:
    """Number and address of each shard."""
    with open(os.path.join(os.environ.get("SHARDS", "/etc/billctl"), "shards")) as file:
        return [line.split() for line in file if line.strip()]


def tasks_of(shard: str, address: str) -> list[str]:
    """The lines of a shard's open tasks."""
    try:
        link = http.client.HTTPConnection(address, timeout=SECONDS)
        link.request("GET", "/work")
        answer = link.getresponse()
        text = answer.read().decode("ascii")
    except (OSError, http.client.HTTPException) as why:
        raise Silent(f"shard {shard} at {address}: {why}") from why
    if answer.status != 200:
        raise Silent(f"shard {shard} at {address}: status {answer.status}")
    return text.splitlines()


def day_and_account(task: str) -> list[str]:
    return task.split(" ")[:2]


def work() -> list[str]:
    """The open tasks of all shards. Tasks of one day and account are those of one shard, in its
    order."""
    return list(heapq.merge(*(tasks_of(*shard) for shard in shards()), key=day_and_account))


def cents(amount: str) -> int:
    whole, _, part = amount.lstrip("-").partition(".")
    return (-1 if amount.startswith("-") else 1) * int(whole + part)


def amount(total: int, model: str) -> str:
    """A sum, written as an amount was."""
    if "." not in model:
        return str(total)
    return f"{'-' if total < 0 else ''}{abs(total) // 100}.{abs(total) % 100:02}"


def added(lines: Sequence[str]) -> str:
    """The sum of lines that have the same words at the same places."""
    columns = list(zip(*(line.split(" ") for line in lines)))
    if len({line.count(" ") for line in lines}) != 1:
        raise Apart(" / ".join(lines))
    return " ".join(added_field(column) for column in columns)


def added_field(column: Sequence[str]) -> str:
    are_amounts = all(AMOUNT.fullmatch(field) for field in column)
    if are_amounts and len({"." in field for field in column}) == 1:
        return amount(sum(cents(field) for field in column), column[0])
    if len(set(column)) != 1:
        raise Apart(" / ".join(column))
    return column[0]


def add(paths: list[str]) -> list[str]:
    texts = []
    for path in paths:
        with open(path) as file:
            texts.append(file.read().splitlines())
    if len({len(text) for text in texts}) != 1:
        raise Apart("the texts have different numbers of lines")
    return [added(lines) for lines in zip(*texts)]


def main(words: list[str]) -> int:
    if words[:1] in (["--help"], ["-h"]):
        print(__doc__, end="")
        return 0
    try:
        if words == ["work"]:
            lines = work()
        elif words[:1] == ["add"] and len(words) > 1:
            lines = add(words[1:])
        else:
            print("usage: gather.py work | add FILE ..", file=sys.stderr)
            return 2
    except Silent as why:
        print(f"gather.py: {why}", file=sys.stderr)
        return 3
    except (Apart, OSError) as why:
        print(f"gather.py: {why}", file=sys.stderr)
        return 1
    sys.stdout.write("".join(line + "\n" for line in lines))
    return 0


if __name__ == "__main__":
    sys.exit(main(sys.argv[1:]))
