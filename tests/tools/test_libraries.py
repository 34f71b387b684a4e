"""dev/libraries.py: what it builds is what the installed kit takes as built, and a kit that keeps
what runs prove is asked first. Nothing is proved here."""

import contextlib
import io
import os
import shutil
import sys
import unittest
from collections.abc import Iterator
from pathlib import Path
from types import ModuleType, SimpleNamespace
from typing import Any
from unittest import mock

from tests.support.case import Case

TOP = os.path.dirname(os.path.dirname(os.path.dirname(os.path.abspath(__file__))))
sys.path.insert(0, os.path.join(TOP, "dev"))

import kit  # noqa: E402
import libraries  # noqa: E402


class Libraries(Case):
    """Two crates in a repository of their own; what would prove one only makes its folder."""

    def setUp(self) -> None:
        super().setUp()
        self.proved: list[str] = []
        self.is_proved = True

    def repository(self, name: str) -> Path:
        top = Path(self.at(name))
        for crate in ("low", "high"):
            (top / "crates" / crate / "src").mkdir(parents=True)
            (top / "crates" / crate / "src" / "lib.rt").write_text(f"//! The {crate} one.\n")
        (top / ".git").mkdir()
        (top / "crates.txt").write_text("low:\nhigh: low\n")
        (top / "HANDLES").write_text("Handles allowed: none.\n")
        return top

    def prove(self, builder: libraries.Builder, crate: Any) -> bool:
        self.proved.append(crate.name)
        os.makedirs(f"{crate.folder}/out/rlib/{crate.name}.rlib")
        return self.is_proved

    @contextlib.contextmanager
    def at_top(self, top: Path) -> Iterator[None]:
        """The scripts of dev/ work there, and prove nothing."""
        def prove(builder: libraries.Builder, crate: Any) -> bool:
            return self.prove(builder, crate)

        with mock.patch.object(kit, "TOP", str(top)), \
                mock.patch.object(libraries.Builder, "prove", prove):
            yield

    def built(self, top: Path, *words: str) -> tuple[int, list[str]]:
        """The status of a run over both crates, and which were proved."""
        self.proved = []
        with self.at_top(top), contextlib.redirect_stdout(io.StringIO()), \
                mock.patch.object(sys, "argv", ["libraries.py", "--itself", "high", *words]):
            return libraries.main(), self.proved

    def are_built(self, top: Path) -> list[bool]:
        """What a run of rt finds, which remembers nothing."""
        rt, known = kit.module(), dict[str, Any]()
        return [bool(rt.Crate(f"{top}/crates/{name}", str(top), known).is_built())
                for name in ("low", "high")]


@unittest.skipUnless(shutil.which("rt"), "the command rt of the Rattle kit isn't on the PATH")
class Installed(Libraries):
    """Over the installed kit, as if it kept nothing."""

    rt: ModuleType

    @classmethod
    def setUpClass(cls) -> None:
        super().setUpClass()
        cls.addClassCleanup(os.chdir, os.getcwd())
        cls.rt = kit.load()

    def setUp(self) -> None:
        super().setUp()
        parts = contextlib.ExitStack()
        self.addCleanup(parts.close)
        parts.enter_context(mock.patch.object(kit, "load", lambda: self.rt))
        parts.enter_context(mock.patch.object(libraries, "keeps", lambda rt: False))

    def test_rt_takes_what_was_built(self) -> None:
        top = self.repository("one")
        self.assertEqual(self.are_built(top), [False, False])
        self.assertEqual(self.built(top), (0, ["low", "high"]))
        self.assertEqual(self.are_built(top), [True, True])
        self.assertEqual(self.built(top), (0, []))

    def test_a_change_below_is_built_again(self) -> None:
        top = self.repository("one")
        self.built(top)
        (top / "crates" / "low" / "src" / "lib.rt").write_text("//! Another.\n")
        self.assertEqual(self.are_built(top), [False, False])
        self.assertEqual(self.built(top), (0, ["low", "high"]))

    def test_what_isnt_proved_has_no_stamp(self) -> None:
        top, self.is_proved = self.repository("one"), False
        self.assertEqual(self.built(top), (1, ["low"]))
        self.assertEqual(self.are_built(top), [False, False])

    def test_another_clone_has_it(self) -> None:
        """What is made of the same files is taken, if it was built as the gate does."""
        one, two, three = (self.repository(name) for name in ("one", "two", "three"))
        (two / "crates" / "high" / "src" / "lib.rt").write_text("//! Another.\n")
        self.built(one)
        self.assertEqual(self.built(two, "--from", str(three), "--from", str(one)), (0, ["high"]))
        self.assertEqual(self.are_built(two), [True, True])
        (one / "crates" / "low" / "out" / "rlib" / libraries.MARKER).unlink()
        self.assertEqual(self.built(three, "--from", str(one)), (0, ["low"]))


class Kept:
    """A stand-in for what a kit keeps: it has the library of `low` already."""

    asked: list[str] = []

    def __init__(self, crates: list[Any]) -> None:
        self.asked.append(f"of {len(crates)}")

    def key(self, crate: Any) -> str:
        return str(crate.name)

    def give(self, crate: Any, tests: bool, key: str) -> bool:
        if key == "low":
            os.makedirs(f"{crate.folder}/out/rlib/low.rlib", exist_ok=True)
        return key == "low"

    def keep(self, crate: Any, tests: bool, key: str) -> None:
        self.asked.append(f"keep {key}")

    @contextlib.contextmanager
    def in_turn(self, crate: Any, tests: bool, key: str) -> Iterator[bool]:
        self.asked.append(f"wait {key}")
        yield False

    def is_built(self, crate: Any) -> None:
        self.asked.append(f"built {crate.name}")


class Keeping(Libraries):
    def crate(self, top: Path, name: str) -> Any:
        """A stand-in for a crate, whose stamp is its name."""
        folder = f"{top}/crates/{name}"
        return SimpleNamespace(
            name=name, folder=folder, is_program=False, stamp=lambda: name,
            is_built=lambda: libraries.stamp_in(f"{folder}/out/rlib") == name)

    def test_what_the_kit_keeps_is_taken(self) -> None:
        top = self.repository("one")
        found = [self.crate(top, name) for name in ("low", "high")]
        rt, Kept.asked = ModuleType("rt"), []
        rt.Kept = Kept  # type: ignore[attr-defined]
        self.assertTrue(libraries.keeps(rt))
        with self.at_top(top), contextlib.redirect_stdout(io.StringIO()) as said, \
                mock.patch.object(kit, "crates", lambda rt: dict.fromkeys("ab")):
            builder = libraries.Keeper(rt, 1)
            self.assertTrue(all(builder.build(crate) for crate in found))
            self.assertEqual([line.split()[-2:] for line in said.getvalue().splitlines()],
                             [["low", "kept"], ["high", "proved"]])
            self.assertEqual(self.proved, ["high"])
            self.assertTrue(all(builder.build(crate) for crate in found))
        self.assertEqual(Kept.asked, ["of 2", "built low", "wait high", "built high", "keep high",
                                      "built high", "built low", "built high"])
        self.assertTrue(all(crate.is_built() for crate in found))


if __name__ == "__main__":
    unittest.main()
