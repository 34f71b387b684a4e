"""Holds the official commentary's examples (examples/official-NAME) against program and model.

Each example has its replies (NAME.out) and may have lines that a command over its rows prints
(NAME.calls; examples/README.md describes the form).  A line that begins with `differs` is what the
commentary asks for where the ledger is known to do otherwise: it may not be there, so that a rule
that changes is found here as well.
"""

import collections.abc
import dataclasses
import pathlib
import re
import unittest

from audit import commands
from tests.support.case import Case
from tests.support.program import EXAMPLES, TOP, run

OFFICIAL = sorted(EXAMPLES.glob("official-*.txt"))
CLAIM = re.compile(r"(differs )?((?:statement|restate|repay|export|work|reply)\b[^:]*): (.+)")
Told = collections.abc.Callable[[list[str]], bytes]
LEAST_CLAIMS = 45
LEAST_DIFFERENCES = 9


@dataclasses.dataclass(frozen=True)
class Claim:
    """What the output of a command, or the reply to a line, has to have."""

    command: tuple[str, ...]
    text: str
    differs: bool

    def holds(self, output: str) -> bool:
        """Whether a line of an output begins with the words of the claim."""
        if self.text == "nothing":
            return output == ""
        words = self.text.split()
        return any(line.split()[:len(words)] == words for line in output.splitlines())


def claims_of(example: pathlib.Path) -> list[Claim]:
    """The claims beside an example, if there are any."""
    path = example.with_suffix(".calls")
    if not path.exists():
        return []
    found = []
    for number, line in enumerate(path.read_text(encoding="ascii").splitlines(), start=1):
        match = CLAIM.fullmatch(line)
        if match is None:
            raise ValueError(f"{path.name}, line {number}: write [differs] COMMAND WORDS: LINE")
        found.append(Claim(tuple(match[2].split()), match[3], match[1] is not None))
    return found


def replies_by_line(out: bytes) -> dict[tuple[str, ...], str]:
    lines = out.decode("ascii").splitlines()
    return {("reply", str(place)): line for place, line in enumerate(lines, start=1)}


class OfficialExamples(Case):

    def hold(self, claim: Claim, output: str, who: str) -> None:
        """A claim holds; one that differs doesn't."""
        said = f"{' '.join(claim.command)}: {claim.text}"
        if claim.differs and claim.holds(output):
            self.fail(f"{who} prints {said}, which the ledger is said to lack: "
                      "take `differs` away, and correct docs/RULES.md")
        if not claim.differs and not claim.holds(output):
            self.fail(f"{who} doesn't print {said}, but\n{output}")

    def test_replies_of_the_model(self) -> None:
        """They are those of the example, which test_replies holds the program against."""
        for example in OFFICIAL:
            with self.subTest(example=example.stem):
                wanted = example.with_suffix(".out").read_bytes()
                told, _ = commands.run(["apply"], commands.Keeper(), example.read_bytes())
                self.assert_same(told, wanted, example.stem)

    def hold_all(self, example: pathlib.Path, replies: bytes, told: Told, who: str) -> None:
        """All claims of an example; tasks are given whole."""
        outputs = replies_by_line(replies)
        claims = claims_of(example)
        for claim in claims:
            with self.subTest(example=example.stem, claim=claim.text):
                if claim.command not in outputs:
                    outputs[claim.command] = told(list(claim.command)).decode("ascii")
                self.hold(claim, outputs[claim.command], who)
        if ("work",) in outputs:
            wanted = [c for c in claims if c.command == ("work",) and c.text != "nothing"]
            with self.subTest(example=example.stem, claim="all tasks"):
                self.assertEqual(outputs["work",].count("\n"), len(wanted), who)

    def test_claims_of_the_program(self) -> None:
        for example in filter(claims_of, OFFICIAL):
            rows = self.at(example.stem)
            replies = run([rows, "apply"], example.read_bytes()).out
            self.hold_all(example, replies, lambda words: run([rows, *words]).out, "the program")

    def test_claims_of_the_model(self) -> None:
        for example in filter(claims_of, OFFICIAL):
            keeper = commands.Keeper()
            replies, _ = commands.run(["apply"], keeper, example.read_bytes())
            self.hold_all(example, replies, lambda words: commands.run(words, keeper)[0],
                          "the model")

    def test_form(self) -> None:
        """There are enough claims, and none that differs is alone."""
        all_claims = [claim for example in OFFICIAL for claim in claims_of(example)]
        self.assertGreaterEqual(len(all_claims), LEAST_CLAIMS)
        self.assertGreaterEqual(sum(claim.differs for claim in all_claims), LEAST_DIFFERENCES)
        for example in OFFICIAL:
            claims = claims_of(example)
            kinds = {claim.command[0] for claim in claims if not claim.differs}
            for claim in claims:
                self.assertIn(claim.command[0], kinds, f"{example.stem}: nothing holds beside it")
        self.assertEqual({path.stem for path in EXAMPLES.glob("*.calls")},
                         {example.stem for example in OFFICIAL if claims_of(example)})

    def test_documents(self) -> None:
        """Each example has a row in examples/README.md, and docs/RULES.md names it."""
        readme = (EXAMPLES / "README.md").read_text(encoding="utf-8")
        rules = (TOP / "docs" / "RULES.md").read_text(encoding="utf-8")
        names = {example.stem for example in OFFICIAL}
        rows = re.findall(r"^\| `(official-[\w-]+\w)` \|", readme, re.MULTILINE)
        self.assertEqual(sorted(rows), sorted(names))
        named = set(re.findall(r"official-[\w-]+\w", rules)) - {"official-NAME"}
        self.assertEqual(named, names)


if __name__ == "__main__":
    unittest.main()
