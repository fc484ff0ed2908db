"""Tests of failures: a program that fails is never shown as if it were whole, nor is output that can't be written."""
import functools
import os
import resource
import subprocess
import sys

from people.running import ROOT
from people.tests import session_w
from people.tests.processes import Processes

CUT_SHORT = "the program 'bench' failed, and its output is cut short: "
# How a program fails, and what is said of it.
FAILURES = {
    "says": "it says 'bench: input: Is a directory'", "status": "it ended with status 3", "signal": "it was ended by SIGKILL",
    "cut": "its last line, '6 8', has no end",
}


class Failures(Processes):
    def test_a_good_program(self):
        self.assertEqual(self.ended("ends", self.session), (0, "\n".join(session_w.LINES) + "\n", ""))

    def test_the_lines_that_came_are_shown_and_the_failure_said(self):
        came = session_w.LINES[:5]
        for how, said in FAILURES.items():
            with self.subTest(how=how):
                self.assertEqual(self.ended(how, self.session, lines=came), (1, "\n".join(came) + "\n", f"{CUT_SHORT}{said}\n"))
                status, output, error = self.ended(how, "--explain", self.session, lines=came)
                self.assertEqual((status, len(output.splitlines()), error), (1, 5, f"{CUT_SHORT}{said}\n"))
                self.assertEqual(list(self.temporary.iterdir()), [])
                status, output, error = self.ended(how, "--draw", self.session, lines=came)
                self.assertEqual((status, output.split()[:6], error), (1, "event 1 2 3 4 5".split(), f"{CUT_SHORT}{said}\n"))

    def test_a_failure_behind_all_lines_is_one(self):
        for how in ("says", "status", "signal"):
            self.assertEqual(self.ended(how, self.session), (1, "\n".join(session_w.LINES) + "\n", f"{CUT_SHORT}{FAILURES[how]}\n"))

    def test_no_picture_of_a_program_that_fails(self):
        drawn = self.folder / "w.svg"
        for how, said in FAILURES.items():
            self.assertEqual(self.ended(how, "--svg", drawn, self.session, lines=session_w.LINES[:5]), (1, "", f"{CUT_SHORT}{said}\n"))
            self.assertFalse(drawn.exists())

    def test_fewer_lines_than_events(self):
        status, output, error = self.ended("ends", self.session, lines=session_w.LINES[:5])
        self.assertEqual((status, len(output.splitlines())), (1, 5))
        self.assertEqual(error, "the program printed 5 of 12 lines: its output is cut short\n")

    def test_a_program_that_is_not_proved(self):
        self.assertEqual(self.ended("not-proved", self.session), (1, "", "the program 'bench' is not proved\n"))


class Outputs(Processes):
    FULL = "standard output: No space left on device\n"

    def setUp(self):
        super().setUp()
        self.records = self.folder / "records"
        self.records.write_bytes(session_w.BYTES)

    def commands(self):
        return ([self.session], ["--explain", self.session], ["--draw", self.session], ["record", self.session],
                ["record", "--raw", self.session], ["compose", self.session], ["read", self.records], ["--help"])

    def test_a_full_disk(self):
        for words in self.commands():
            with open("/dev/full", "wb") as full:
                self.assertEqual(self.ended("ends", *words, stdout=full), (1, "", self.FULL), words)

    def test_a_picture_on_a_full_disk(self):
        self.assertEqual(self.ended("ends", "--svg", "/dev/full", self.session), (1, "", "/dev/full: No space left on device\n"))
        self.assertTrue(os.path.exists("/dev/full"))

    def test_a_disk_that_gets_full(self):
        drawn = self.folder / "w.svg"
        for bytes_left, said in ((4096, f"{drawn}: File too large\n"), (100, "the records, in a temporary file: File too large\n")):
            limit = functools.partial(resource.setrlimit, resource.RLIMIT_FSIZE, (bytes_left, bytes_left))
            self.assertEqual(self.ended("ends", "--svg", drawn, self.session, preexec_fn=limit), (1, "", said))
            self.assertFalse(drawn.exists())

    def test_a_closed_output(self):
        for words in self.commands():
            started = self.start("ends", *words, stdout=None, preexec_fn=lambda: os.close(1))
            self.assertEqual(self.outcome(started), (1, "", "standard output: it is closed\n"), words)

    def test_a_reader_that_has_gone(self):
        for words in self.commands():
            read, write = os.pipe()
            os.close(read)
            self.assertEqual(self.ended("ends", *words, stdout=write), (141, "", ""), words)
            os.close(write)

    def test_a_full_or_closed_standard_error(self):
        with open("/dev/full", "wb") as full:
            self.assertEqual(self.ended("ends", "compose", "missing", stderr=full)[:2], (2, ""))
        started = self.start("status", self.session, stderr=None, preexec_fn=lambda: os.close(2))
        self.assertEqual(self.outcome(started)[:2], (1, "\n".join(session_w.LINES) + "\n"))

    def test_a_closed_standard_input(self):
        started = self.start("ends", "-", stdin=None, preexec_fn=lambda: os.close(0))
        self.assertEqual(self.outcome(started), (2, "", "standard input: it is closed\n"))
        started = self.start("ends", self.session, stdin=None, preexec_fn=lambda: os.close(0))
        self.assertEqual(self.outcome(started), (0, "\n".join(session_w.LINES) + "\n", ""))

    def test_a_name_that_is_no_text(self):
        name = os.fsencode(self.folder) + b"/\xff"
        with open(name, "wb") as file:
            file.write(session_w.RECORDS[9])
        started = subprocess.run([sys.executable, "-B", "bench", "read", name, name], cwd=ROOT, stdout=subprocess.PIPE, check=True)
        self.assertTrue(started.stdout.startswith(name + b", byte 0: slot 1 releases"))

    def test_a_missing_tool_is_named_before_any_work(self):
        bad = self.folder / "bad.session"
        bad.write_text("begin\n", encoding="utf-8")
        for words in ([bad], ["--explain", bad], ["--draw", bad], ["--svg", "file", bad], ["record", bad], ["live"], ["check"]):
            environment = {**os.environ, "PATH": str(self.temporary)}
            ended = subprocess.run([sys.executable, "-B", "bench", *map(str, words)], cwd=ROOT, env=environment, stdin=subprocess.DEVNULL,
                                   stdout=subprocess.PIPE, stderr=subprocess.PIPE, universal_newlines=True, check=False)
            self.assertEqual((ended.returncode, ended.stdout, ended.stderr[:25]), (1, "", "rt is not on the PATH: th"), words)
