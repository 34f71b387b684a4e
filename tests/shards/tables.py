"""split.py and gather.py, which need no door: over worked texts, and over the month of
examples/month in four ledgers."""
import contextlib
import csv
import importlib.machinery
import importlib.util
import io
import os
import sys

from tests.support.case import read
from tests.support.program import run
from tests.support.requests import SHARED

from .parts import SHARDS, fail, shard_of

# A table as a spreadsheet might write it: its accounts with the records that are theirs, by number.
HEADER = b"account,key,kind,day,place,cents,minute,channel"
TABLE = (
    b'\xef\xbb\xbf"account","key",kind,day,place,cents,minute,channel\r\n'
    b'anna,c1,charge,2026-03-02,purchase,100,,\r\n'
    b'\r\n'
    b'"ben",c1,charge,2026-03-02,purchase,20,,\n'
    b'"an"na,"c2",credit,2026-03-02,"purchase",3,,\r'
    b'"be""n,",p1,payment,2026-03-02,,4000,600,"on\r\nline"\n'
    b'cora,c1\n'
    b'anna,p1,payment,2026-03-02,,50000,600,mail'
)
RECORDS = (
    ("anna", b'anna,c1,charge,2026-03-02,purchase,100,,\r\n'),
    ("ben", b'"ben",c1,charge,2026-03-02,purchase,20,,\n'),
    ("anna", b'"an"na,"c2",credit,2026-03-02,"purchase",3,,\r'),
    ('be"n,', b'"be""n,",p1,payment,2026-03-02,,4000,600,"on\r\nline"\n'),
    ("cora", b'cora,c1\n'),
    ("anna", b'anna,p1,payment,2026-03-02,,50000,600,mail\n'),
)
SUMS = "input records 6 charge 120 credit 3 payment 54000"
LINES = (("anna", "charge anna c1 2026-03-02 purchase 7\r\n"),
         ("ben", "payment ben p1 2026-03-02 600 mail 50\n"), ("anna", "show anna\n"),
         ("", "roll\n"))

TABLES = ("records", "records-corrected")

# Two trial balances, and their sum.
BALANCES = ("charge 12.50 0.00\nhold 50.00 50.00\nchange -0.05\nrows 7\n",
            "charge 0.05 1.00\nhold 0.00 0.00\nchange 12.50\nrows 10\n")
BALANCE = "charge 12.55 1.00\nhold 50.00 50.00\nchange 12.45\nrows 17\n"


def call(script: str, words: list[str], text: bytes = b"", wanted: int = 0) -> str:
    """Calls the script's own `main`, in this process: what it prints."""
    loader = importlib.machinery.SourceFileLoader(os.path.basename(script), script)
    spec = importlib.util.spec_from_loader(loader.name, loader)
    assert spec
    module = importlib.util.module_from_spec(spec)
    loader.exec_module(module)
    before, sys.stdin = sys.stdin, io.TextIOWrapper(io.BytesIO(text))
    try:
        with (contextlib.redirect_stdout(io.StringIO()) as told,
              contextlib.redirect_stderr(io.StringIO()) as why):
            status = module.main(words)
    finally:
        sys.stdin = before
    if status != wanted:
        fail(f"{loader.name} {words} ends with {status}, wanted {wanted}: {why.getvalue()}")
    return told.getvalue()


def worked(room: str, examples: str) -> None:
    """Records and lines go whole, and in order, to the file of their account's shard."""
    split, prefix = os.path.join(examples, "split.py"), os.path.join(room, "worked-")
    told = call(split, ["csv", str(SHARDS), prefix], TABLE)
    for shard in range(SHARDS):
        wanted = TABLE[3:TABLE.index(b"\r\n") + 2] + b"".join(text for account, text in RECORDS
                                                              if shard_of(account) == shard)
        if read(f"{prefix}{shard}.csv") != wanted:
            fail(f"split.py: file {shard} is {read(f'{prefix}{shard}.csv')!r}, wanted {wanted!r}")
    if told.splitlines()[-1] != SUMS:
        fail(f"split.py says {told}")
    call(split, ["csv", str(SHARDS), prefix], TABLE, 1)
    call(split, ["csv", str(SHARDS), prefix + "x"],
         TABLE.replace(b"minute,channel", b"channel,minute", 1), 1)
    call(split, ["lines", str(SHARDS), prefix + "x"], b"show anna\nroll 2024-01-01\n", 1)
    call(split, ["lines", "0", prefix + "x"], b"", 2)
    call(split, ["lines", str(SHARDS), prefix], "".join(text for _, text in LINES[:3]).encode())
    for shard in range(SHARDS):
        lines = "".join(text for account, text in LINES[:3] if shard_of(account) == shard)
        if read(f"{prefix}{shard}.txt").decode() != lines:
            fail(f"split.py: file {shard} of lines isn't {lines!r}")
    if [name for name in os.listdir(room) if name.startswith("worked-x")]:
        fail("split.py wrote what it refused")
    paths = [os.path.join(room, f"balance-{number}") for number in range(2)]
    for path, text in zip(paths, BALANCES):
        with open(path, "w") as file:
            file.write(text)
    gather = os.path.join(examples, "gather.py")
    if call(gather, ["add", *paths]) != BALANCE:
        fail(f"gather.py adds up to {call(gather, ['add', *paths])}")
    call(gather, ["add", paths[0], os.path.join(room, "worked-0.txt")], wanted=1)


def compare_sums(told: str, path: str) -> None:
    """The sums that split.py tells are those of the table, as Python's csv reads it."""
    with open(path, newline="") as file:
        records = list(csv.DictReader(file))
    totals = [
        f"{kind} {sum(int(record['cents']) for record in records if record['kind'] == kind)}"
        for kind in ("charge", "credit", "payment")]
    if told.splitlines()[-1] != " ".join([f"input records {len(records)}", *totals]):
        fail(f"split.py says {told}, wanted {totals}")


def send(rows: str, word: str, text: bytes) -> None:
    done = run([rows, word], text)
    if done.status not in (0, 1):
        fail(f"{word} over {rows} ends with {done.status}")


def month(room: str, examples: str, folder: str) -> None:
    """The month of three accounts, imported in four ledgers side by side: the entries are those of
    one ledger."""
    split, prefix = os.path.join(examples, "split.py"), os.path.join(room, "month-")
    lines = read(os.path.join(folder, "opening.txt")).splitlines(keepends=True)
    shared = [line for line in lines if line.split(b" ")[0].decode() in SHARED]
    opens = b"".join(line for line in lines if line not in shared)
    call(split, ["lines", str(SHARDS), prefix + "opens-"], opens)
    for name in TABLES:
        told = call(split, ["csv", str(SHARDS), f"{prefix}{name}-"],
                    read(os.path.join(folder, f"{name}.csv")))
        compare_sums(told, os.path.join(folder, f"{name}.csv"))
    for shard in range(SHARDS):
        rows = os.path.join(room, f"month-{shard}.db")
        opened = read(f"{prefix}opens-{shard}.txt")
        send(rows, "apply", b"".join(shared[:-1]) + opened + shared[-1])
        for name in TABLES:
            send(rows, "import", read(f"{prefix}{name}-{shard}.csv"))
        for account in ("anna", "ben", "cora"):
            entries = run([rows, "export", account]).out
            is_here = shard_of(account) == shard
            wanted = read(os.path.join(folder, f"entries-{account}.csv")) if is_here else b"none\n"
            if entries != wanted:
                fail(f"the entries of {account} in shard {shard} are {entries!r}")
