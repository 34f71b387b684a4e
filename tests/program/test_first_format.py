"""A file whose rows an older program wrote in the first format (first-format.db beside this file).

It has requests of each kind that the older program knew. The same requests, given as lines over a
new file, are kept in the second format. Both files tell the same of each account: what is owed,
statements as issued and restated, entries, open tasks, repayments. Then both take the same lines,
among them the kinds that came with the second format: the replies are the same, what is told
afterwards too, and the rows of the first format stay byte for byte, with rows of the second behind
them.
"""

from collections.abc import Iterator
from pathlib import Path

from audit.lines import line_text
from audit.rows import decode
from audit.words import Request
from tests.support.case import Case
from tests.support.program import Done, apply, as_input, run
from tests.support.rows import bodies_of, copy

OLD = Path(__file__).with_name("first-format.db")
CYCLES = ("1", "2", "3")
KINDS = set("roll holiday feerow open charge credit payment return plan notice lower penalty "
            "review dispute ack resolve askrefund refund amend bill".split())
RARE = ("resolve", "refund", "review", "penalty", "return", "lower")


def accounts(requests: list[Request]) -> list[str]:
    """Some of the accounts, among them those with posts of the rarer kinds."""
    names = sorted({str(r.account) for r in requests if r.word == "open"})
    rare = {r.account for r in requests if r.word in RARE}
    return [name for at, name in enumerate(names) if at % 8 == 0 or name in rare]


def later_lines(requests: list[Request]) -> Iterator[str]:
    """Lines for the days behind these requests, a variable account and a post on each old account
    among them."""
    year = int(max(line_text(r).split()[1] for r in requests if r.word == "roll")[:4]) + 1
    day, first = f"{year}-02-06", f"{year}-01-10"
    yield f"index {year}-01-02 550"
    yield f"roll {first}"
    yield f"openvar variable o {first} 5 1449 1949 1649 2999 2500 100"
    yield f"charge variable c {first} purchase 100000"
    for name in accounts(requests):
        yield f"charge {name} later {first} purchase 1250"
    yield f"roll {day}"
    yield "show variable"
    for name in accounts(requests):
        yield f"payment {name} paid {first} 600 online 5000"
        yield f"show {name}"


class FirstFormat(Case):
    def expect_alike(self, old: str, new: str, names: list[str]) -> int:
        """What both files tell is the same; gives how many texts were compared."""
        shows = as_input(f"show {name}" for name in names)
        calls: list[tuple[list[str], bytes]] = [(["work"], b""), (["apply"], shows)]
        calls += [(["export", name], b"") for name in names]
        calls += [([word, name, cycle], b"") for name in names
                  for word in ("statement", "restate", "repay") for cycle in CYCLES]
        for words, given in calls:
            self.assertEqual(run([old, *words], given), run([new, *words], given), words)
        return len(calls)

    def both(self, old: str, new: str, lines: list[str]) -> Done:
        """Lines that both files take alike."""
        done = apply(old, lines)
        self.assert_done(done, 0)
        self.assertIn("ok", done.text)
        self.assertEqual(done, apply(new, lines))
        return done

    def test_both(self) -> None:
        old, new = self.at("old.db"), self.at("new.db")
        copy(OLD, old)
        first = bodies_of(old)
        requests = [request for body in first if (request := decode(body))]
        self.assertEqual(len(requests), len(first))
        self.assertEqual({body[0] for body in first}, {1})
        self.assertEqual({r.word for r in requests}, KINDS)
        self.assert_done(apply(new, map(line_text, requests)), 0)
        self.assertEqual({body[0] for body in bodies_of(new)}, {2})
        names = accounts(requests)
        compared = self.expect_alike(old, new, names)
        self.both(old, new, list(later_lines(requests)))
        compared += self.expect_alike(old, new, [*names, "variable"])
        rows = bodies_of(old)
        self.assertEqual(rows[:len(first)], first)
        self.assertEqual({body[0] for body in rows[len(first):]}, {2})
        print(f"{len(first)} rows of {len(names)} accounts, {compared} texts the same, "
              f"{len(rows) - len(first)} rows more")
