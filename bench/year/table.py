"""The table of a year, and what disagrees."""

from collections.abc import Callable, Iterator

from .results import Result
from .runs import PHASES

MEGABYTE, HOUR = 1_000_000, 3600
FEW = 100  # numbers below have a digit after the point
SECONDS = "seconds (of the processor)"
MADE_OF = {
    "imports": "openings and records",
    "nights": "rolls, bills, statements, tasks, trial balance",
    "starts": "loads of all rows",
}


def money(cents: int) -> str:
    """Cents as units with two digits."""
    units, rest = divmod(abs(cents), 100)
    return f"{'-' if cents < 0 else ''}{units:,}.{rest:02}"


def short(number: float) -> str:
    return f"{number:,.1f}" if number < FEW else f"{number:,.0f}"


def seconds(clock: float, processor: float) -> str:
    return f"{short(clock)} ({short(processor)})"


def row(*cells: str) -> str:
    return f"| {' | '.join(cells)} |"


def figures(what: str, results: list[Result], figure: Callable[[Result], float],
            shown: Callable[[float], str] = lambda number: f"{number:,.0f}") -> str:
    """A row of the table: the mean and the most of a shard, and the sum."""
    found = [figure(result) for result in results]
    return row(what, shown(sum(found) / len(found)), shown(max(found)), shown(sum(found)))


def megabytes(number: float) -> str:
    return f"{short(number / MEGABYTE)} MB"


def taken(result: Result, phases: tuple[str, ...]) -> tuple[float, float]:
    """Seconds of some phases, by the clock and of the processor."""
    found = [result.seconds[phase] for phase in phases]
    return sum(clock for clock, _ in found), sum(processor for _, processor in found)


def time_row(what: str, results: list[Result], phases: tuple[str, ...]) -> str:
    found = [taken(result, phases) for result in results]
    clock, processor = (sum(part) for part in zip(*found))
    return row(what, seconds(clock / len(found), processor / len(found)), seconds(*max(found)),
               seconds(clock, processor))


def time_rows(results: list[Result]) -> Iterator[str]:
    for phase in PHASES:
        yield time_row(f"{phase}: {MADE_OF[phase]}: {SECONDS}", results, (phase,))
    yield time_row(f"together: {SECONDS}", results, PHASES)


def memory_rows(results: list[Result]) -> Iterator[str]:
    """The most memory of a process, by command: a sum would be of processes that run apart."""
    for command in results[0].memory:
        found = [result.memory[command] * 1024 for result in results]
        mean = sum(found) / len(found)
        yield row(f"memory of `{command}` at its peak", megabytes(mean), megabytes(max(found)), "–")


def table(results: list[Result]) -> Iterator[str]:
    """The table in Markdown."""
    setup = results[0].setup
    yield row(f"{setup.months} months", f"a shard of {setup.accounts:,} accounts: mean", "most",
              f"all shards ({len(results)})")
    yield "|---|---|---|---|"
    yield figures("rows kept", results, lambda result: result.rows)
    yield figures("statements issued", results, lambda result: result.statements)
    yield figures("starts of the program", results, lambda result: result.starts)
    yield from time_rows(results)
    yield from memory_rows(results)
    yield figures("bytes on the disk", results, lambda result: result.size, megabytes)


def name_of(result: Result, results: list[Result]) -> str:
    """What a shard is called: with its seed, where the shards are of several."""
    seeds = {other.setup.seed for other in results}
    return f"Shard {result.shard}" + (f" of seed {result.setup.seed}" if len(seeds) > 1 else "")


def sums(results: list[Result]) -> Iterator[str]:
    """The sums of all shards, and each shard in which they, or its audit, disagree."""
    trial = sum(result.trial for result in results)
    balances = sum(result.balances for result in results)
    verdict = "the same" if trial == balances else "they disagree"
    yield (f"Trial balance of all shards: {money(trial)}; sum of the new balances of all accounts: "
           f"{money(balances)}: {verdict}.")
    for result in results:
        if result.trial != result.balances:
            yield (f"{name_of(result, results)} disagrees: its trial balance is "
                   f"{money(result.trial)}, the sum of its new balances {money(result.balances)}.")
        if result.difference:
            yield (f"{name_of(result, results)}: its audit found a difference: "
                   f"{result.difference}")


def audits(results: list[Result]) -> Iterator[str]:
    for result in results:
        audit, accounts = result.audit, result.setup.accounts
        if audit and audit.compared:
            whole = audit.seconds / audit.accounts * accounts / HOUR
            yield (f"{name_of(result, results)}, audited by a sample of {audit.accounts:,} of its "
                   f"{accounts:,} accounts in {short(audit.seconds)} seconds, where all would take "
                   f"{short(whole)} hours: the same: {audit.compared}.")


def report(results: list[Result]) -> Iterator[str]:
    """All that is printed at the end."""
    yield from table(results)
    yield ""
    yield from sums(results)
    yield from audits(results)
