"""dev/kit.py against the kit that is installed: what the scripts of dev/ call of its rt, its logic,
and what its crates remember. Where a kit changed, a case names the part that dev/ has to follow.
Each script of dev/ says with --help what it does."""
import inspect
import os
import pathlib
import shutil
import subprocess
import sys
import tempfile
import unittest
from types import ModuleType
from typing import Any
from unittest import mock

TOP = os.path.dirname(os.path.dirname(os.path.dirname(os.path.abspath(__file__))))
sys.path.insert(0, os.path.join(TOP, "dev"))

import kit  # noqa: E402

# What dev/ calls of rt: how many values it gives in order, self among them, and which by name.
CALLS: dict[str, tuple[int, tuple[str, ...]]] = {
    "handles_of": (1, ()), "edits_of": (1, ()), "checked": (4, ()), "must_fail": (4, ()),
    "Crate.ci": (3, ()), "Crate.stamp": (1, ()), "Crate.below": (1, ()), "Crate.is_built": (1, ()),
    "Crate.sources_below": (1, ()), "Crate.words": (2, ("tests", "keeps")),
    "rtlib.guarded": (0, ()), "rtlib.kit_sources": (1, ()),
}
# What it calls where a kit keeps what runs prove, which begins an edit over a linked copy of that.
KEEPS: dict[str, int] = {"linked": 2, "Kept": 1, "Kept.key": 2, "Kept.give": 4, "Kept.keep": 4,
                         "Kept.in_turn": 4, "Kept.is_built": 2}
FORMS = (["root"], ["root", "aside"])


def signature_of(rt: ModuleType, name: str) -> inspect.Signature:
    """The parameters of a part of rt."""
    part: Any = rt
    for word in name.split("."):
        part = getattr(part, word)
    return inspect.signature(part)


@unittest.skipUnless(shutil.which("rt"), "the command rt of the Rattle kit isn't on the PATH")
class Installed(unittest.TestCase):
    rt: ModuleType

    @classmethod
    def setUpClass(cls) -> None:
        here = os.getcwd()
        cls.addClassCleanup(os.chdir, here)
        cls.rt = kit.load()

    def test_each_part_has_takes_what_dev_gives(self) -> None:
        for name, (count, named) in CALLS.items():
            with self.subTest(name):
                self.takes(name, count, named)

    def test_a_kit_that_keeps_has_each_part_for_it(self) -> None:
        if any(hasattr(self.rt, name) for name in ("Kept", "linked")):
            for name, count in KEEPS.items():
                with self.subTest(name):
                    self.takes(name, count, ())

    def takes(self, name: str, count: int, named: tuple[str, ...]) -> None:
        try:
            signature_of(self.rt, name).bind(*range(count), **dict.fromkeys(named))
        except (AttributeError, TypeError) as error:
            self.fail(f"rt's {name} changed ({error}): the scripts in dev/ have to follow it")

    def test_the_crates_are_read_by_one_of_the_two_forms(self) -> None:
        found = list(signature_of(self.rt, "crates_of").parameters)
        self.assertIn(found, FORMS, "rt's crates_of changed: kit.crates in dev/kit.py calls it")

    def test_the_crates_are_those_of_crates_txt(self) -> None:
        with open(os.path.join(TOP, "crates.txt"), encoding="utf-8") as lines:
            wanted = [line.split(":")[0] for line in lines if line[0].isalpha() and ":" in line]
        self.assertEqual(sorted(kit.crates(self.rt)), sorted(wanted))

    def test_stamps_are_those_of_the_kit(self) -> None:
        """They are what a load of rt gives of which nothing is remembered."""
        found = kit.crates(self.rt)
        low, high = found["card_events"], found["card_waits"]
        self.assertEqual([it.name for it in high.below()], ["card_events"])
        rt = kit.module()
        rt.Crate.allowed = rt.handles_of(TOP)
        known: dict[str, Any] = {}
        for crate in (low, high):
            alone = rt.Crate(crate.folder, TOP, known)
            self.assertFalse(hasattr(alone, "known_below"))
            self.assertEqual(alone.stamp(), crate.stamp(), crate.name)

    def test_the_logic_is_the_one_that_dev_was_written_for(self) -> None:
        told = subprocess.run(["rt", "version"], capture_output=True, text=True).stdout
        message = f"rt version says {told.strip()!r}: another logic decides what is proved. Run " \
            "`rt ci --anew`, and correct LOGIC in dev/kit.py and the documents that name it"
        self.assertIn(kit.LOGIC, told, message)


class Forms(unittest.TestCase):
    """kit.crates over a stand-in for rt, in a folder of its own."""

    def setUp(self) -> None:
        self.top = tempfile.mkdtemp()
        self.addCleanup(shutil.rmtree, self.top)
        os.makedirs(f"{self.top}/.git")
        os.makedirs(f"{self.top}/crates/low/out/rlib")
        os.makedirs(f"{self.top}/crates/high")
        patch = mock.patch.object(kit, "TOP", self.top)
        patch.start()
        self.addCleanup(patch.stop)
        self.rt = ModuleType("rt")

    def names(self) -> list[str]:
        found = list(kit.crates(self.rt))
        self.assertEqual(os.listdir(f"{self.top}/crates/low/out"), ["rlib"], "the build is lost")
        self.assertEqual(os.listdir(f"{self.top}/.git"), [], "a folder is left")
        return found

    def test_a_kit_that_takes_the_root(self) -> None:
        def crates_of(root: str) -> list[mock.Mock]:
            return crates()

        self.rt.crates_of = crates_of  # type: ignore[attr-defined]
        self.assertEqual(self.names(), ["low", "high"])

    def test_a_kit_that_moves_builds_aside_isnt_asked(self) -> None:
        """Another test may run the program meanwhile."""
        def crates_of(root: str, aside: str) -> list[mock.Mock]:
            raise AssertionError("the builds would move")

        self.rt.crates_of = crates_of  # type: ignore[attr-defined]
        self.rt.Crate = mock.Mock  # type: ignore[attr-defined]
        rtlib = mock.Mock(crates_below=lambda root: crates()[::-1])
        self.rt.rtlib = rtlib  # type: ignore[attr-defined]
        self.assertEqual(self.names(), ["low", "high"])

    def test_a_seed_is_copied(self) -> None:
        """By the kit, where it has a way of its own."""
        os.makedirs(f"{self.top}/seed/part")
        kit.copied(self.rt, f"{self.top}/seed", f"{self.top}/to")
        self.assertEqual(os.listdir(f"{self.top}/to"), ["part"])
        self.rt.linked = lambda seed, to: os.mkdir(f"{to}-linked")  # type: ignore[attr-defined]
        kit.copied(self.rt, f"{self.top}/seed", f"{self.top}/to")
        self.assertTrue(os.path.isdir(f"{self.top}/to-linked"))


class Scripts(unittest.TestCase):
    def test_each_says_what_it_does(self) -> None:
        for path in sorted(pathlib.Path(TOP, "dev").glob("*.py")):
            text = path.read_text(encoding="utf-8")
            if "__main__" not in text:
                continue
            with self.subTest(path.name):
                done = subprocess.run([sys.executable, str(path), "--help"], capture_output=True,
                                      text=True)
                first = text.split('"""')[1].split("\n")[0]
                self.assertEqual((done.returncode, done.stderr), (0, ""))
                self.assertIn(first, done.stdout)


class Remembering(unittest.TestCase):
    """kit.remember over a stand-in for a kit that computes all anew."""

    def setUp(self) -> None:
        self.asked: list[str] = []
        asked = self.asked

        class Base:
            def __init__(self, name: str, *deps: Any) -> None:
                self.folder = self.name = name
                self.deps, self.text = deps, "text"

            def below(self) -> list[Any]:
                asked.append(f"below {self.name}")
                found = [low for dep in self.deps for low in [*dep.below(), dep]]
                return list(dict.fromkeys(found))

            def stamp(self) -> str:
                asked.append(f"stamp {self.name}")
                return f"{self.name} {self.text} ({', '.join(it.stamp() for it in self.deps)})"

        class Crate(Base):
            pass

        self.rt = ModuleType("rt")
        self.rt.Crate, self.base = Crate, Base  # type: ignore[attr-defined]
        kit.remember(self.rt)
        self.row = [Crate("0")]
        for number in range(1, 20):
            self.row.append(Crate(str(number), *self.row[-2:]))

    def test_each_is_computed_once(self) -> None:
        """Without it twenty crates, each on the two before it, take 17,710 calls."""
        high = self.row[-1]
        self.assertEqual([it.name for it in high.below()], [str(n) for n in range(19)])
        self.assertEqual(len(self.asked), 20)
        self.asked.clear()
        first = high.stamp()
        self.assertEqual(sorted(self.asked), sorted(f"stamp {n}" for n in range(20)))
        self.asked.clear()
        self.assertEqual((len(high.below()), high.stamp()), (19, first))
        self.assertEqual(len(self.asked), 20, "what is below is remembered")

    def test_a_change_below_changes_a_stamp(self) -> None:
        low, high = self.row[0], self.row[-1]
        before = high.stamp()
        low.text = "another"
        self.assertNotEqual(high.stamp(), before)
        self.assertIn("0 another", high.stamp())

    def test_what_is_below_is_each_callers_own(self) -> None:
        self.row[2].below().clear()
        self.assertEqual([it.name for it in self.row[2].below()], ["0", "1"])

    def test_a_stamp_that_fails_leaves_nothing(self) -> None:
        high = self.row[-1]
        whole, high.deps = high.deps, (None,)
        self.assertRaises(AttributeError, high.stamp)
        high.deps = whole
        self.row[0].text = "another"
        self.assertIn("0 another", high.stamp())


def crates() -> list[mock.Mock]:
    """The lower one first."""
    found = [mock.Mock(), mock.Mock()]
    for crate, name, below in zip(found, ("low", "high"), ([], ["low"])):
        crate.name = name
        crate.below.return_value = below
    return found


if __name__ == "__main__":
    unittest.main()
