"""The documents: plain English, links that lead somewhere, files and commands that are there."""

import re
import subprocess
import sys
import unittest

from tests.documents.reading import TOP, code_blocks, documents, prose, sentences, text_of

# Pages in plain English, with sentences of at most 40 words.
PLAIN = (
    "README.md", "docs/API.md", "docs/ARCHITECTURE.md", "docs/CONTRIBUTING.md", "docs/DECISIONS.md",
    "docs/FORMATS.md", "docs/OPERATIONS.md", "docs/PROOFS.md", "docs/SCALE.md", "docs/WORDS.md",
    "ops/billctl.1", "dev/PLANTS.md", "examples/shards/README.md",
)
LONGEST_PLAIN = 40
LONGEST = 60

# RULES states laws as one sentence each, to be read against the regulation.
LONGEST_LAW = 90

# Turns of phrase that aren't plain, with the plain ones.
IDIOMS = {
    r"wants? (?:of|no) memory|wants memory|takes no memory": "out of memory, doesn't allocate",
    r"\btells?\b|\btold\b": "is visible to the contract; reports, says",
    r"\bbut for\b": "except",
    r"stands? beside|stands? in\b": "is next to; is in",
    r"\b(?:comes?|came) to\b(?! (?:be|an end))": "is, amounts to",
    r"\b(?:comes?|came) of\b": "results from",
    r"\bhand(?:s|ed)? on\b": "re-exports, passes on",
    r"where that is there": "if there is one",
    r"no home secures": "not secured by a home",
    r"what has to be done": "deadlines",
    r"second computation": "the independent model",
    r"is no command|are no command": "isn't a command",
    r"\bgo(?:es)? on\b": "continues",
    r"\bin turn\b": "in order",
    r"has the \w+ append": "appends",
    r"fault that rose": "an error that was counted",
}

WORD_LIMITS = {"README.md": 750, "docs/PROOFS.md": 4500, "docs/DECISIONS.md": 4000}


class PlainEnglish(unittest.TestCase):
    """What the documents sound like."""

    def test_no_idiom(self) -> None:
        for name in PLAIN:
            for number, line in enumerate(prose(name).splitlines(), start=1):
                for idiom, instead in IDIOMS.items():
                    found = re.search(idiom, line)
                    with self.subTest(page=name, line=number, idiom=idiom):
                        self.assertIsNone(found, f"{line[:200]!r}: write {instead!r}")

    def test_no_sentence_begins_with_of(self) -> None:
        for name in PLAIN:
            for sentence in sentences(name):
                with self.subTest(page=name):
                    message = "put the clause first, or write For"
                    self.assertNotRegex(sentence, r"^(?:[-*] |\d+\. )?Of \w", message)

    def test_sentences_are_short(self) -> None:
        for name in documents():
            longest = LONGEST_PLAIN if name in PLAIN else LONGEST
            if name == "docs/RULES.md":
                longest = LONGEST_LAW
            for sentence in sentences(name):
                with self.subTest(page=name):
                    count = len(sentence.split())
                    self.assertLessEqual(count, longest, f"split this sentence: {sentence}")

    def test_pages_have_few_words(self) -> None:
        for name, limit in WORD_LIMITS.items():
            with self.subTest(page=name):
                self.assertLessEqual(len(text_of(name).split()), limit)


class Links(unittest.TestCase):
    """Each link between documents leads to a file, and to a heading of it."""

    def test_links_lead_somewhere(self) -> None:
        for name in documents():
            for target in re.findall(r"\]\(([^)\s]+)\)", text_of(name)):
                if target.startswith(("http:", "https:")):
                    continue
                file, _, heading = target.partition("#")
                place = (TOP / name).parent / file if file else TOP / name
                with self.subTest(page=name, link=target):
                    self.assertTrue(place.exists(), f"{name} links to {file}, which isn't there")
                    if heading:
                        self.assertIn(heading, headings(place.read_text(encoding="utf-8")))


class Named(unittest.TestCase):
    """Files and modules that documents name are there."""

    def test_files_in_code_are_there(self) -> None:
        for name in documents():
            for path in re.findall(PATHS, text_of(name)):
                if "NAME" in path:
                    continue
                with self.subTest(page=name, path=path):
                    self.assertTrue(is_there(path), f"{name} names {path}, which isn't there")

    def test_modules_are_there(self) -> None:
        for name in documents():
            for module in re.findall(MODULES, text_of(name)):
                with self.subTest(page=name, module=module):
                    place = TOP.joinpath(*module.rstrip(".").split("."))
                    found = place.with_suffix(".py").is_file() or (place / "__main__.py").is_file()
                    self.assertTrue(found, f"{name} calls -m {module}, which isn't there")

    def test_words_of_the_companion_are_there(self) -> None:
        named = {word for name in documents() for block in code_blocks(text_of(name))
                 for word in re.findall(r"ops/ledger ([a-z]+)", block)}
        self.assertTrue(named)
        for word in sorted(named):
            with self.subTest(word=word):
                call = [sys.executable, TOP / "ops" / "ledger", word, "--help"]
                status = subprocess.run(call, capture_output=True, check=False).returncode
                self.assertEqual(0, status, f"ops/ledger has no word {word}")


# Modules as documents call them.
MODULES = re.compile(r"python3 -m ((?:audit|tests|bench|dev)(?:\.\w+)*)")

# Paths from the top of the repository as documents write them.
PATHS = re.compile(
    r"(?<![\w/.-])((?:docs|tests|bench|dev|examples|audit|ops)/[\w./-]*\w)(?![\w*<{@-])"
)


def is_there(path: str) -> bool:
    """Whether a path is that of a file or folder, or the front of the files of one example."""
    place = TOP / path
    return place.exists() or any(place.parent.glob(place.name + ".*"))


def headings(text: str) -> list[str]:
    """The anchors of a page's headings, as a browser has them."""
    found = re.findall(r"^#+ (.+)$", text, re.M)
    return [re.sub(r"[^\w\- ]", "", one.lower()).replace(" ", "-") for one in found]


if __name__ == "__main__":
    unittest.main()
