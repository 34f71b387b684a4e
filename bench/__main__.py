"""Measures the built program, and prints one table.

    python3 -m bench [NAME[:CASE]..] [--count N] [--seed N] [--folder DIR] [--beside PROGRAM]
    python3 -m bench --list
    python3 -m bench year [--help]

Without a name it runs the measures that take minutes at most; those marked `long` run where they
are named. CASE is one of a measure's cases. The variable BILLCTL names another program than the
built one; where a measure takes a second program (--beside), it holds the two side by side. An
idle machine measures best. None of it is part of the gate. `year` is a run of hours with options of
its own: a year of a million accounts.
"""

import argparse
import importlib
import os
import pkgutil
import random
import sys
from collections.abc import Iterator
from types import ModuleType

import bench
from tests.support.program import not_built

from .measure import Missing, Options, Row
from .year.command import main as year

WIDTHS = "{:14} {:44} {:>14} {:22} {}"


def modules() -> dict[str, ModuleType]:
    """The measures by name."""
    found = {}
    for info in pkgutil.iter_modules(bench.__path__):
        if info.name != "__main__":
            module = importlib.import_module(f"bench.{info.name}")
            if hasattr(module, "measure"):
                found[info.name.replace("_", "-")] = module
    return found


def cases_of(module: ModuleType) -> list[str]:
    return list(getattr(module, "CASES", ["all"]))


def is_long(module: ModuleType) -> bool:
    return bool(getattr(module, "LONG", False))


def chosen(words: list[str], found: dict[str, ModuleType]) -> Iterator[tuple[str, str]]:
    """The cases that are wanted, each with its measure's name."""
    for word in words or [name for name, module in found.items() if not is_long(module)]:
        name, _, case = word.partition(":")
        name = name.replace("_", "-")
        if name not in found:
            sys.exit(f"bench: there is no measure {name}; there are {', '.join(found)}")
        cases = cases_of(found[name])
        if case and case not in cases:
            sys.exit(f"bench: {name} has no case {case}; it has {', '.join(cases)}")
        yield from ((name, one) for one in ([case] if case else cases))


def figure_text(figure: float) -> str:
    if figure == int(figure) or figure >= 1000:
        return f"{figure:,.0f}"
    return f"{figure:.1f}" if figure >= 100 else f"{figure:.2f}" if figure >= 1 else f"{figure:.4f}"


def line_of(name: str, row: Row) -> str:
    return WIDTHS.format(name, row.case, figure_text(row.figure), row.unit, row.note).rstrip()


def list_all(found: dict[str, ModuleType]) -> None:
    for name, module in found.items():
        first = (module.__doc__ or "").split("\n")[0]
        cases = cases_of(module)
        print(f"{name}{' (long)' if is_long(module) else ''}: {first.rstrip('.')}")
        if cases != ["all"]:
            print(f"    cases: {', '.join(cases)}")
    print("year (hours): python3 -m bench year --help")


def run(words: list[str], options: Options, found: dict[str, ModuleType]) -> int:
    """Prints the table; 1 where something wasn't measured."""
    wanted, missing = list(chosen(words, found)), dict[str, str]()
    print(WIDTHS.format("measure", "case", "figure", "unit", "note").rstrip(), flush=True)
    for name, case in wanted:
        try:
            for row in found[name].measure(case, options):
                print(line_of(name, row), flush=True)
        except Missing as reason:
            missing[f"{name}:{case}"] = str(reason)
    for case, why in missing.items():
        print(f"not measured: {case}: {why}")
    return 1 if missing else 0


def main() -> int:
    if sys.argv[1:2] == ["year"]:
        return year(sys.argv[2:])
    parser = argparse.ArgumentParser(
        prog="python3 -m bench", description=__doc__,
        formatter_class=argparse.RawDescriptionHelpFormatter)
    parser.add_argument("names", nargs="*", metavar="NAME[:CASE]")
    parser.add_argument("--list", action="store_true", help="the measures and their cases")
    parser.add_argument("--count", type=int, metavar="N",
                        help="lines, records, connections, histories or bytes, whichever the "
                             "measure counts")
    parser.add_argument("--seed", type=int, metavar="N", help="of what is drawn")
    parser.add_argument("--folder", metavar="DIR", help="where files of rows are, whose disk "
                        "decides what a commit takes")
    parser.add_argument("--beside", metavar="PROGRAM", help="a second program")
    given = parser.parse_args()
    found = modules()
    if given.list:
        list_all(found)
        return 0
    if not_built():
        sys.exit(f"bench: {not_built()}")
    seed = random.randrange(10**6) if given.seed is None else given.seed
    beside = given.beside and os.path.abspath(given.beside)
    return run(given.names, Options(given.count, seed, given.folder, beside), found)


if __name__ == "__main__":
    sys.exit(main())
