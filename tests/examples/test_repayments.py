"""What the balances of issued statements come to where they are repaid, against the model.

examples/repay.repaid has the words of each call and its text. Status 1 comes exactly where the
text is `none`.
"""

from tests.support.case import Case, read
from tests.support.program import EXAMPLES, run


class Repayments(Case):
    def test_repay(self) -> None:
        run([self.file, "apply"], read(EXAMPLES / "repay.txt"))
        wanted = read(EXAMPLES / "repay.repaid").decode()
        calls = [line for line in wanted.splitlines() if line.startswith("repay ")]
        self.assertTrue(calls)
        found = ""
        for call in calls:
            done = run([self.file, *call.split()])
            self.assert_done(done, int(done.text == "none\n"), what=call)
            found += f"{call}\n{done.text}"
        self.assert_same(found, wanted)
