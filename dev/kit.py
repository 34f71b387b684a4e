"""The kit's command rt as a module, for the scripts next to this file.

Its logic line (`rt version`) says which logic the kit proves with; editions of one logic prove the
same. Another edition may name the parts of rt otherwise, and then these scripts have to follow:
tests/tools/test_kit.py reports what changed. Nothing here decides what is proved: rt does, and
`rt ci` alone is the gate.
"""
import importlib.machinery
import importlib.util
import inspect
import os
import resource
import shutil
import sys
import threading
from types import ModuleType
from typing import Any

TOP = os.path.dirname(os.path.dirname(os.path.abspath(__file__)))
LOGIC = "logic dac8208d650f15bf"


def load() -> ModuleType:
    """rt, with the handles that this repository allows, as `rt ci` begins."""
    rt = module()
    os.chdir(TOP)
    rt.Crate.allowed = rt.handles_of(TOP)
    rt.Crate.cuts_libraries = True
    rt.rtlib.guarded()
    remember(rt)
    return rt


def module() -> ModuleType:
    """rt, with nothing set in it."""
    found = shutil.which("rt")
    if not found:
        sys.exit("the command rt of the Rattle kit isn't on the PATH: install the kit")
    path = os.path.realpath(found)
    sys.path.insert(0, os.path.dirname(path))
    loader = importlib.machinery.SourceFileLoader("rt", path)
    spec = importlib.util.spec_from_loader("rt", loader)
    if spec is None:
        sys.exit(f"{path} can't be loaded as a module: it isn't a kit's rt")
    rt = importlib.util.module_from_spec(spec)
    loader.exec_module(rt)
    return rt


def remember(rt: ModuleType) -> None:
    """Has the crates remember what is below them, and compute each stamp below a crate once.

    Some kits compute both anew for each path that leads to a crate, a minute each time over the
    crates of this repository. What is below a crate stays. A stamp is remembered only while the
    stamp of a crate above it is computed, since files change in a run.
    """
    below_owner, stamp_owner = owner(rt.Crate, "below"), owner(rt.Crate, "stamp")
    below, stamp, under_way = below_owner.below, stamp_owner.stamp, threading.local()

    def below_of(crate: Any) -> list[Any]:
        if not hasattr(crate, "known_below"):
            crate.known_below = below(crate)
        return list(crate.known_below)

    def stamp_of(crate: Any) -> str:
        is_outermost = not hasattr(under_way, "known")
        if is_outermost:
            under_way.known = dict[str, str]()
        try:
            if crate.folder not in under_way.known:
                under_way.known[crate.folder] = stamp(crate)
            return str(under_way.known[crate.folder])
        finally:
            if is_outermost:
                del under_way.known

    below_owner.below, stamp_owner.stamp = below_of, stamp_of


def owner(kind: Any, name: str) -> Any:
    """The class that a method of this one is written in."""
    return next(one for one in kind.__mro__ if name in vars(one))


def crates(rt: ModuleType) -> dict[str, Any]:
    """The crates of the repository by name, the lowest first.

    Some kits' crates_of takes a second folder, into which it moves what each crate has built. It
    isn't asked there: the program would be gone for whoever runs it meanwhile.
    """
    if len(inspect.signature(rt.crates_of).parameters) == 1:
        found = rt.crates_of(TOP)
    else:
        rt.rtlib.Crate = rt.Crate
        found = sorted(rt.rtlib.crates_below(TOP), key=lambda crate: len(crate.below()))
    return {crate.name: crate for crate in found}


def copied(rt: ModuleType, seed: str, to: str) -> None:
    """Copies what a check proved, for another check to begin with and to write to."""
    if hasattr(rt, "linked"):
        rt.linked(seed, to)
    else:
        shutil.copytree(seed, to)


def named(all_crates: dict[str, Any], name: str) -> Any:
    if name not in all_crates:
        sys.exit(f"{name} isn't a crate of crates.txt")
    return all_crates[name]


def seconds_used() -> float:
    """Processor seconds of all that this script ran so far."""
    used = resource.getrusage(resource.RUSAGE_CHILDREN)
    return used.ru_utime + used.ru_stime
