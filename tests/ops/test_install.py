"""The installation below a folder of its own, the completion, and the man page."""

import os
import shutil
import subprocess
import unittest

from tests.support.program import PROGRAM, TOP

from .common import LINES, Case

INSTALL = os.path.join(TOP, "ops", "install")
WORDS = ("check today accounts due bills rows posts explain late tomorrow undo chain examine "
         "version run convert move statements seal backup restore night").split()
PROGRAM_WORDS = "apply import statement restate repay export work serve trial demo".split()
UNITS = ("billctl.service", "billctl-night.service", "billctl-night.timer",
         "billctl-alarm@.service", "billctl-watch@.service", "billctl-watch@.timer")

# What systemd gives a unit that is open to all is 9.6; what is wanted is 3.0 at most.
EXPOSURE = 30


class Installation(Case):
    def install(self, *words: str) -> "subprocess.CompletedProcess[str]":
        return subprocess.run([INSTALL, *words], capture_output=True, text=True,
                              env=dict(os.environ, BILLCTL=PROGRAM))

    def test_root(self) -> None:
        """What is installed runs by itself, and finds the program beside it."""
        root = self.at("root")
        done = self.install("--root", root)
        self.assertEqual(done.returncode, 0, done.stderr)
        for name in ("etc/systemd/system/billctl.service",
                     "etc/systemd/system/billctl-night.service",
                     "etc/systemd/system/billctl-night.timer",
                     "usr/local/share/man/man1/billctl.1",
                     "usr/local/share/bash-completion/completions/ledger",
                     "opt/billctl/bin/billctl"):
            self.assertTrue(os.path.isfile(os.path.join(root, name)), name)
        for name in ("var/lib/billctl", "var/lib/billctl/inbox"):
            self.assertEqual(os.stat(os.path.join(root, name)).st_mode & 0o777, 0o700)
        environment = {name: value for name, value in os.environ.items() if name != "BILLCTL"}
        ledger = os.path.join(root, "opt/billctl/ops/ledger")
        done = subprocess.run([ledger, "run", self.file, "--new", "--far"], input=LINES,
                              capture_output=True, text=True, env=environment)
        self.assertEqual((done.returncode, done.stdout), (0, "ok\nok\nok 1\nok 2\nok\n"),
                         done.stderr)

    def test_model(self) -> None:
        """The installed model compares a file, and the installed companion explains a cycle, from
        any folder."""
        root = self.at("root")
        self.install("--root", root)
        self.begin()
        with open(os.path.join(root, "usr/local/bin/billctl-audit"), encoding="ascii") as file:
            script = self.write("billctl-audit", file.read().replace("/opt/billctl",
                                                                     f"{root}/opt/billctl"))
        environment = {name: value for name, value in os.environ.items() if name != "BILLCTL"}
        for words, told in ((["sh", script, self.file], "same: "),
                            ([os.path.join(root, "opt/billctl/ops/ledger"), "explain", self.file,
                              "anna", "1"], "STATEMENT anna CYCLE 1")):
            done = subprocess.run(words, cwd=self.room, capture_output=True, text=True,
                                  env=environment, check=False)
            self.assertIn(told, done.stdout, done.stderr)
        for name in ("issuer/night.toml", "month/opening.txt", "moving/accounts.csv",
                     "sheet/columns.toml"):
            self.assertTrue(os.path.isfile(os.path.join(
                root, "usr/local/share/doc/billctl/examples", name)), name)

    def test_again(self) -> None:
        """A second time changes nothing but what is installed."""
        root = self.at("root")
        self.install("--root", root)
        kept = os.path.join(root, "var/lib/billctl/inbox/kept.csv")
        with open(kept, "w", encoding="ascii") as file:
            file.write("kept")
        self.assertEqual(self.install("--root", root).returncode, 0)
        self.assertTrue(os.path.exists(kept))

    def test_dry(self) -> None:
        done = self.install("--root", self.at("root"), "--dry-run")
        self.assertEqual(done.returncode, 0, done.stderr)
        self.assertIn("opt/billctl/bin/billctl", done.stderr)
        self.assertEqual(os.listdir(self.room), [])

    def test_help(self) -> None:
        """`billctl`, from a clone and installed, answers --help with a line a word, and --version;
        all else is the program's."""
        root = self.at("root")
        self.install("--root", root)
        with open(os.path.join(root, "usr/local/bin/billctl"), encoding="ascii") as file:
            script = self.write("billctl", file.read().replace("/opt/billctl",
                                                               f"{root}/opt/billctl"))
        os.chmod(script, 0o755)
        for command in (os.path.join(TOP, "billctl"), script):
            for word, fronts in (("--help", PROGRAM_WORDS), ("--version", ("program", "sha256"))):
                done = subprocess.run([command, word], capture_output=True, text=True,
                                      env=dict(os.environ, BILLCTL=PROGRAM), check=False)
                self.assertEqual(done.returncode, 0, done.stderr)
                for front in fronts:
                    self.assertRegex(done.stdout, rf"(?m)^ *{front} ")
        done = subprocess.run([script, "-", "apply"], input=LINES, capture_output=True, text=True,
                              check=False)
        self.assertEqual((done.returncode, done.stdout), (0, "ok\nok\nok 1\nok 2\nok\n"))

    def test_words(self) -> None:
        self.assertEqual(self.install("--help").returncode, 0)
        self.assertEqual(self.install("--now").returncode, 2)


class Units(Case):
    @unittest.skipUnless(shutil.which("systemd-analyze"), "systemd-analyze isn't installed")
    def test_exposure(self) -> None:
        """What the units of the ledger and of the night may do, by systemd's own measure."""
        root = self.at("root")
        done = subprocess.run([INSTALL, "--root", root], capture_output=True, text=True,
                              env=dict(os.environ, BILLCTL=PROGRAM), check=False)
        self.assertEqual(done.returncode, 0, done.stderr)
        for name in ("billctl.service", "billctl-night.service"):
            path = os.path.join(root, "etc/systemd/system", name)
            with open(path, encoding="ascii") as file:
                self.assertIn("OnFailure=billctl-alarm@%n.service\n", file.read())
            done = subprocess.run(["systemd-analyze", "security", "--offline=true",
                                   f"--threshold={EXPOSURE}", path], capture_output=True,
                                  text=True, check=False)
            self.assertEqual(done.returncode, 0, done.stdout[-600:] + done.stderr)

    def test_watch(self) -> None:
        """The server's unit brings the watch, which finds what it calls where it is installed."""
        root = self.at("root")
        subprocess.run([INSTALL, "--root", root], capture_output=True, check=True,
                       env=dict(os.environ, BILLCTL=PROGRAM))
        units = os.path.join(root, "etc/systemd/system")
        with open(os.path.join(units, "billctl.service"), encoding="ascii") as file:
            self.assertIn("\nWants=billctl-watch@%N.timer\n", file.read())
        with open(os.path.join(units, "billctl-watch@.service"), encoding="ascii") as file:
            call = file.read().split("ExecStart=")[1].split()
        self.assertEqual(call[1:3], ["%i.service", "/var/lib/billctl"])
        self.assertTrue(os.access(root + call[0], os.X_OK), call[0])


class Removed(Case):
    def installed(self, root: str) -> set[str]:
        return {os.path.relpath(os.path.join(folder, name), root)
                for folder, _, names in os.walk(root) for name in names}

    def test_remove(self) -> None:
        """--remove takes away what was installed, and leaves the ledger."""
        root = self.at("root")
        environment = dict(os.environ, BILLCTL=PROGRAM)
        subprocess.run([INSTALL, "--root", root], capture_output=True, check=True, env=environment)
        found = self.installed(root)
        self.assertIn("opt/billctl/audit/__main__.py", found)
        self.assertIn("usr/local/share/doc/billctl/OPERATIONS.md", found)
        for name in ("nginx.conf", "openapi.json", "statement.schema.json"):
            self.assertIn(f"usr/local/share/doc/billctl/{name}", found)
        self.assertTrue({f"etc/systemd/system/{name}" for name in UNITS} <= found)
        kept = os.path.join(root, "var/lib/billctl/rows.db")
        with open(kept, "w", encoding="ascii") as file:
            file.write("kept")
        done = subprocess.run([INSTALL, "--root", root, "--remove"], capture_output=True,
                              text=True, env=environment, check=False)
        self.assertEqual(done.returncode, 0, done.stderr)
        self.assertEqual(self.installed(root), {"var/lib/billctl/rows.db"})

    @unittest.skipUnless(shutil.which("dpkg-deb") and os.geteuid() == 0,
                         "dpkg-deb isn't installed, or this user isn't root")
    def test_package(self) -> None:
        """A package is built, installed below a folder of its own, run, and removed."""
        done = subprocess.run([os.path.join(TOP, "ops", "package"), self.room],
                              capture_output=True, text=True,
                              env=dict(os.environ, BILLCTL=PROGRAM, VERSION="1.2"), check=False)
        self.assertEqual(done.returncode, 0, done.stderr)
        package = done.stdout.strip()
        root = self.at("root")
        for name in ("info", "updates", "triggers"):
            os.makedirs(os.path.join(root, "var/lib/dpkg", name))
        for name in ("status", "available"):
            with open(os.path.join(root, "var/lib/dpkg", name), "w", encoding="ascii"):
                pass
        dpkg = ["dpkg", f"--root={root}", "--force-script-chrootless", "--force-depends"]
        done = subprocess.run([*dpkg, "-i", package], capture_output=True, text=True, check=False)
        self.assertEqual(done.returncode, 0, done.stdout + done.stderr)
        found = self.installed(root)
        self.assertTrue({f"lib/systemd/system/{name}" for name in UNITS} <= found)
        ledger = os.path.join(root, "opt/billctl/ops/ledger")
        environment = {name: text for name, text in os.environ.items() if name != "BILLCTL"}
        kept = os.path.join(root, "var/lib/billctl/rows.db")
        done = subprocess.run([ledger, "run", kept, "--new", "--far"], input=LINES,
                              capture_output=True, text=True, env=environment, check=False)
        self.assertEqual(done.stdout, "ok\nok\nok 1\nok 2\nok\n", done.stderr)
        done = subprocess.run([ledger, "version"], capture_output=True, text=True,
                              env=environment, check=False)
        self.assertIn(f"program {os.path.join(root, 'opt/billctl/bin/billctl')}\n", done.stdout)
        done = subprocess.run([*dpkg, "-r", "billctl"], capture_output=True, text=True,
                              check=False)
        self.assertEqual(done.returncode, 0, done.stdout + done.stderr)
        left = {name for name in self.installed(root) if not name.startswith("var/lib/dpkg")}
        self.assertTrue(left <= {"var/lib/billctl/rows.db", "var/lib/billctl/rows.db-wal"}, left)


class Texts(Case):
    @unittest.skipUnless(shutil.which("bash"), "no bash")
    def test_completion(self) -> None:
        said = '_ledger; echo "${COMPREPLY[@]}"; '
        script = (f'source "{TOP}/ops/completion.bash"; '
                  f'COMP_WORDS=(ledger ""); COMP_CWORD=1; {said}'
                  f'COMP_WORDS=(ledger run --f); COMP_CWORD=2; {said}')
        done = subprocess.run(["bash", "-c", script], capture_output=True, text=True)
        self.assertEqual(done.stdout, " ".join([*WORDS, "--help", "--version"]) + "\n--far\n",
                         done.stderr)

    def test_man(self) -> None:
        """Each word and each status has its place in the man page."""
        with open(os.path.join(TOP, "ops", "billctl.1"), encoding="ascii") as file:
            page = file.read()
        for word in WORDS:
            self.assertRegex(page, rf"(?m)^\.BI {word} ", word)
        for status in [*range(10), 10, 11, 12, 141]:
            self.assertRegex(page, rf"(?m)^\.B {status}$")
