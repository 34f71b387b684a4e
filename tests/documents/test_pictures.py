"""The pictures of ARCHITECTURE: they show crates.txt, and are what their script draws."""

import importlib.util
import re
import unittest
import xml.etree.ElementTree
from types import ModuleType

from tests.documents.reading import TOP, text_of

PICTURES = TOP / "docs" / "pictures"
SVG = "{http://www.w3.org/2000/svg}"


def script() -> ModuleType:
    spec = importlib.util.spec_from_file_location("draw", PICTURES / "draw.py")
    assert spec is not None and spec.loader is not None
    module = importlib.util.module_from_spec(spec)
    spec.loader.exec_module(module)
    return module


def reached(direct: dict[str, set[str]], start: str) -> set[str]:
    """All that is below a group, by the arrows given."""
    found: set[str] = set()
    left = list(direct.get(start, ()))
    while left:
        one = left.pop()
        if one not in found:
            found.add(one)
            left += direct.get(one, ())
    return found


class Layers(unittest.TestCase):
    """The groups of crates, read here apart from the script."""

    def setUp(self) -> None:
        self.draw = script()
        self.text = text_of("crates.txt")
        self.home: dict[str, str] = {}
        self.uses: dict[str, list[str]] = {}
        heading = ""
        for line in self.text.splitlines()[1:]:
            if line.startswith("#"):
                heading = line.lstrip("# ")
                continue
            crate, _, others = line.partition(":")
            self.assertNotIn(crate, self.home, f"{crate} is in two groups")
            self.home[crate] = heading
            self.uses[crate] = others.split()

    def test_each_crate_is_in_one_group(self) -> None:
        folders = {place.name for place in (TOP / "crates").iterdir() if (place / "src").is_dir()}
        self.assertEqual(folders, set(self.home))
        self.assertNotIn("", self.home.values(), "a crate is above the first heading")
        self.assertEqual(10, len(set(self.home.values())))
        self.assertEqual(set(self.home.values()), set(self.draw.PLACES))

    def test_each_crate_is_drawn_once(self) -> None:
        tree = xml.etree.ElementTree.fromstring((PICTURES / "layers.svg").read_text("utf-8"))
        texts = [one.text or "" for one in tree.iter(f"{SVG}text")]
        drawn = [word for text in texts for word in re.findall(r"\b(?:card_\w+|billctl)\b", text)]
        self.assertEqual(sorted(self.home), sorted(drawn))

    def test_arrows_are_those_of_the_crates(self) -> None:
        wanted: dict[str, set[str]] = {}
        for crate, others in self.uses.items():
            for other in others:
                if other in self.home and self.home[other] != self.home[crate]:
                    wanted.setdefault(self.home[crate], set()).add(self.home[other])
        drawn: dict[str, set[str]] = {}
        for upper, lower in self.draw.arrows(self.text):
            drawn.setdefault(upper, set()).add(lower)
        for heading in set(self.home.values()):
            with self.subTest(group=heading):
                self.assertNotIn(heading, reached(wanted, heading), "groups stand on each other")
                self.assertLessEqual(drawn.get(heading, set()), wanted.get(heading, set()))
                self.assertEqual(reached(wanted, heading), reached(drawn, heading))

    def test_each_arrow_is_drawn(self) -> None:
        tree = xml.etree.ElementTree.fromstring((PICTURES / "layers.svg").read_text("utf-8"))
        lines = [one for one in tree.iter(f"{SVG}line") if one.get("marker-end")]
        self.assertEqual(len(self.draw.arrows(self.text)), len(lines))

    def test_the_text_is_that_of_the_page(self) -> None:
        found = self.draw.layers_text(self.text) in text_of("docs/ARCHITECTURE.md")
        self.assertTrue(found, "put what draw.py --text prints into ARCHITECTURE")


class Files(unittest.TestCase):
    """The drawn files are what the script draws."""

    def test_files_are_drawn(self) -> None:
        draw = script()
        drawn = {"layers.svg": draw.layers(text_of("crates.txt")), "request.svg": draw.request()}
        for name, text in drawn.items():
            with self.subTest(picture=name):
                message = f"call python3 docs/pictures/draw.py: {name} is an older one"
                self.assertTrue(text == (PICTURES / name).read_text("utf-8"), message)

    def test_the_steps_are_those_of_the_page(self) -> None:
        page = text_of("docs/ARCHITECTURE.md")
        names = [name for name, _, _ in script().STEPS]
        self.assertTrue(" -> ".join(names) in page, f"ARCHITECTURE lacks the steps {names}")


if __name__ == "__main__":
    unittest.main()
