"""The Python of the repository: it compiles, keeps to one style, and its types are right.

The style is that of pyproject.toml (pyflakes and pycodestyle, 100 columns), by ruff or, where it
isn't installed, by flake8; the types are those that mypy finds.
"""

import os
import subprocess
import sys

from tests.support.case import Case, tools_missing
from tests.support.program import TOP

FOLDERS = ("ops", "audit", "tests", "bench", "dev", "docs/pictures", "examples/shards")
STYLE = {
    "ruff": ["ruff", "check", "--no-cache"],
    "flake8": ["flake8", "--max-line-length", "100"],
}


class Python(Case):
    def expect_clean(self, *words: str) -> None:
        """A tool over folders of the repository finds nothing."""
        environment = dict(os.environ, PYTHONPYCACHEPREFIX=self.room)
        environment.pop("PYTHONDONTWRITEBYTECODE", None)
        done = subprocess.run(words, cwd=TOP, stdout=subprocess.PIPE, stderr=subprocess.STDOUT,
                              text=True, env=environment)
        self.assertEqual(done.returncode, 0, f"{words[0]} finds\n{done.stdout}")

    def test_compiles(self) -> None:
        self.expect_clean(sys.executable, "-m", "compileall", "-q", *FOLDERS)

    def test_style(self) -> None:
        missing = tools_missing(*STYLE)
        if len(missing) == len(STYLE):
            self.skipTest("neither ruff nor flake8 is installed: the style isn't looked at")
        tool = next(name for name in STYLE if name not in missing)
        self.expect_clean(*STYLE[tool], *FOLDERS)

    def test_types(self) -> None:
        if tools_missing("mypy"):
            self.skipTest("mypy isn't installed: the types aren't looked at")
        self.expect_clean("mypy", "--cache-dir", os.devnull, "--follow-imports", "silent", *FOLDERS)
