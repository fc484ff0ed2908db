"""Tests of the commands' words: help that starts nothing, wrong words, and tools that are missing."""
import os
import shutil
import subprocess
import sys
import tempfile
import unittest
from pathlib import Path
from typing import Tuple

from tools.counting import ROOT

# Each command and the tools that it names where they are missing.
COMMANDS = {"archives": ["rt"], "compare": ["rt", "cargo"], "documents": [], "measure": ["rt"],
            "respell": [], "speed": ["rt", "cargo", "gcc", "valgrind"], "vectors": ["rt"]}
WRONG = {"compare": ["--sessions", "many"], "measure": ["no_such_crate"], "vectors": ["no_such_program"]}


class Alone(unittest.TestCase):
    """Commands with next to nothing on the PATH."""

    def setUp(self) -> None:
        folder = tempfile.TemporaryDirectory()
        self.addCleanup(folder.cleanup)
        self.path = Path(folder.name)
        for name in ("dirname", "sed"):
            (self.path / name).symlink_to(shutil.which(name))

    def run_alone(self, *words: str) -> Tuple[int, str, str]:
        """The status of a command, what it prints and what it complains of."""
        ended = subprocess.run(words, cwd=self.path, env={"PATH": str(self.path)}, stdout=subprocess.PIPE, stderr=subprocess.PIPE,
                               universal_newlines=True)
        return ended.returncode, ended.stdout, ended.stderr


class Commands(Alone):
    def command(self, name: str, *words: str) -> Tuple[int, str, str]:
        return self.run_alone(sys.executable, "-B", str(ROOT / "tools" / name), *words)

    def test_all_commands_are_here(self):
        found = (file.name for file in (ROOT / "tools").iterdir() if file.is_file() and os.access(file, os.X_OK))
        self.assertEqual(sorted(found), sorted(COMMANDS))

    def test_help_helps_and_starts_nothing(self):
        for name, tools in COMMANDS.items():
            with self.subTest(command=name):
                status, printed, said = self.command(name, "--help")
                self.assertEqual((status, said), (0, ""))
                self.assertIn(f"usage: tools/{name}", printed)
                for tool in tools:
                    self.assertIn("the Rattle kit" if tool == "rt" else tool, printed)

    def test_wrong_words_are_named(self):
        for name in COMMANDS:
            for words in (["--no-such-word"], WRONG.get(name, ["one", "two"])):
                with self.subTest(command=name, words=words):
                    status, printed, said = self.command(name, *words)
                    self.assertEqual((status, printed), (2, ""))
                    self.assertIn(words[-1], said)

    def test_missing_tools_are_named(self):
        for name, tools in COMMANDS.items():
            if tools:
                with self.subTest(command=name):
                    status, printed, said = self.command(name)
                    self.assertEqual((status, printed), (1, ""))
                    self.assertEqual([line.split()[0] for line in said.splitlines()], tools)

    def test_an_old_python_is_named(self):
        script = f"import sys; sys.version_info = (3, 8, 0); sys.path.insert(0, {str(ROOT)!r}); import tools.needs"
        status, _, said = self.run_alone(sys.executable, "-B", "-c", script)
        self.assertEqual((status, said), (1, "this project needs Python 3.9 or later, and this is 3.8\n"))


class TestCommand(Alone):
    def shell(self, *words: str) -> Tuple[int, str, str]:
        return self.run_alone("/bin/sh", str(ROOT / "test"), *words)

    def test_help(self):
        status, printed, said = self.shell("--help")
        self.assertEqual((status, said), (0, ""))
        self.assertIn("Runs all tests", printed)
        self.assertIn("It needs the Rattle kit, cargo, gcc", printed)

    def test_wrong_words(self):
        for words in (["--no-such-word"], ["--help", "more"]):
            with self.subTest(words=words):
                status, printed, said = self.shell(*words)
                self.assertEqual((status, printed), (2, ""))
                self.assertIn(" ".join(words), said)

    def test_missing_tools(self):
        self.assertEqual(self.shell(), (1, "", "python3 is not on the PATH\n"))
        (self.path / "python3").symlink_to(sys.executable)
        status, printed, said = self.shell()
        self.assertEqual((status, printed), (1, ""))
        self.assertEqual([line.split()[0] for line in said.splitlines()], ["rt", "cargo", "gcc"])
