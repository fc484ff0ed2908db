"""Tests of proving: one at a time, nothing left behind, and progress."""
import contextlib
import io
import os
import pty
import re
import shutil
import signal
import sys

from tools.counting import ROOT, reached
from tools.lock import HELD, WAITING
from tools.progress import CLEAR, LONG, Progress
from tools.tests.clones import Clone

CHECK = f"{sys.executable} -B -m tools.proving check"
# What is shown of a failure: what went well is left out, function by function.
SHOWN = """rt: chose --jobs 2 for lower
logic=proved functions=1
rt: chose --jobs 2 for upper
fn upper::last: not proved
logic=not-proved
"""


class Lock(Clone):
    def test_two_that_prove_do_so_one_behind_the_other(self):
        first = self.start("check", "lower", STAND_IN_SECONDS="0.5")
        self.begins(first)
        self.assertEqual(self.prove("lower"), WAITING + "\n")
        self.assertEqual(self.ended(first), "")
        self.assertEqual(self.calls(), ["begin", "end"] * 2)

    def test_what_a_holder_starts_does_not_wait(self):
        both = self.start("hold", "sh", "-c", f"{CHECK} upper && {CHECK} lower")
        self.assertEqual(self.ended(both), "")
        self.assertEqual(self.calls(), ["begin", "end"] * 2)

    def test_a_holder_that_removes_target_still_holds(self):
        holder = self.start("hold", "sh", "-c", "rm -rf target; echo begin >>calls; sleep 1; echo end >>calls")
        self.begins(holder)
        self.assertEqual(self.prove("lower"), WAITING + "\n")
        self.assertEqual(self.calls(), ["begin", "end"] * 2)
        self.ended(holder)

    def test_a_holder_of_another_clone_holds_nothing_here(self):
        first = self.start("check", "lower", STAND_IN_SECONDS="0.5")
        self.begins(first)
        self.assertEqual(self.prove("lower", **{HELD: "/elsewhere"}), WAITING + "\n")
        self.ended(first)

    def test_a_program_that_is_proved_does_not_wait(self):
        self.prove("upper")
        holder = self.start("hold", "sh", "-c", "echo held; sleep 1")
        self.assertEqual(holder.stdout.readline(), "held\n")
        self.assertEqual(self.prove("upper"), "")
        self.ended(holder)

    def test_a_held_command_gives_its_status_and_leaves_no_process(self):
        self.assertEqual(self.ended(self.start("hold", "sh", "-c", "sleep 50 & exit 7"), 7), "")
        self.assertEqual(self.left(), [])


class Interrupted(Clone):
    def test_nothing_is_left_and_no_trace_is_printed(self):
        for number in (signal.SIGINT, signal.SIGTERM):
            for words in (["check", "upper"], ["hold", "sh", "-c", f"{CHECK} upper"]):
                with self.subTest(number=number, words=words):
                    (self.root / "calls").unlink(missing_ok=True)
                    self.assertEqual(self.interrupt(self.start(*words, STAND_IN_SECONDS="50"), number), "")
                    self.assertEqual(self.left(), [])
        self.assertEqual(self.prove("upper"), "")

    def test_one_that_waits_ends_too(self):
        holder = self.start("hold", "sh", "-c", "echo held; sleep 50")
        self.assertEqual(holder.stdout.readline(), "held\n")
        waits = self.start("check", "lower")
        self.assertEqual(waits.stderr.readline(), WAITING + "\n")
        waits.send_signal(signal.SIGTERM)
        self.ended(waits, 128 + signal.SIGTERM)
        holder.send_signal(signal.SIGINT)
        self.ended(holder, 128 + signal.SIGINT)
        self.assertEqual(self.left(), [])

    def test_the_test_command_holds_the_lock_and_leaves_nothing(self):
        shutil.copy(ROOT / "test", self.root)
        self.write("crates.txt", "lower:\nupper: lower\nbench: upper\n")
        self.write("crates/bench/src/main.rt", "")
        self.write("crates/bench/stdin", "")
        self.write("tools/documents", "#!/bin/sh\n")
        ran = self.launch(["./test"], STAND_IN_SECONDS="50")
        self.begins(ran)
        waits = self.start("check", "lower")
        self.assertEqual(waits.stderr.readline(), WAITING + "\n")
        self.assertEqual(self.interrupt(waits, signal.SIGTERM), "")
        self.assertEqual(self.interrupt(ran, signal.SIGINT), "")
        self.assertEqual(self.left(), [])


class Failing(Clone):
    def test_what_rt_printed_is_shown(self):
        self.assertEqual(self.prove("upper", status=1, STAND_IN_FAILS="upper"), SHOWN)
        self.assertEqual(self.left(), [])
        self.prove("upper")
        self.assertEqual(self.calls(), ["begin", "begin", "end"])

    def test_a_crate_that_is_not_there_is_named(self):
        self.assertIn("no crates: no_such_crate", self.prove("upper", "no_such_crate", status=2))
        self.assertEqual(self.calls(), [])

    def test_another_kit_is_named_before_any_work(self):
        self.assertIn("rt version prints 'another kit'", self.prove("upper", status=1, STAND_IN_KIT="another kit"))
        self.assertEqual(self.calls(), [])


BEGINS, PROVED = "rt: chose --jobs 2 for %s\n", "logic=proved functions=1\n"


def shown_on(terminal: int) -> str:
    """All that was written to a terminal that nobody has any more."""
    shown = b""
    with contextlib.suppress(OSError), open(terminal, "rb", buffering=0) as opened:
        while True:
            shown += opened.read(4096)
    return shown.decode()


class Shown(Clone):
    def test_a_terminal_has_one_line_that_goes(self):
        ours, theirs = pty.openpty()
        with os.fdopen(theirs, "w") as terminal:
            progress = Progress({"lower", "upper"}, terminal)
            for line in (BEGINS % "lower", "fn lower::first: proved\n", PROVED, BEGINS % "other", BEGINS % "upper", PROVED, "rt: running out/upper\n"):
                progress.take(line)
                progress.tick()
            progress.clear()
        shown = shown_on(ours)
        texts = [f"proving: {done} of 2 crates done, at {crate}, N s" for done, crate in ((0, "lower"), (1, "lower"), (1, "upper"), (2, "upper"))]
        self.assertEqual(re.sub(r"\d+ s", "N s", shown), "".join(CLEAR + text for text in texts) + CLEAR)

    def test_what_a_crate_uses_is_done_when_it_begins(self):
        progress = Progress(reached(["record_bytes"]), io.StringIO())
        progress.take(BEGINS % "record_bytes")
        self.assertEqual(progress.done, reached(["record_bytes"]) - {"record_bytes"})
        progress.take(PROVED)
        self.assertEqual(progress.done, progress.crates)

    def test_elsewhere_a_crate_has_a_line_once_it_takes_long(self):
        out = io.StringIO()
        progress = Progress({"lower", "upper"}, out)
        for line in (BEGINS % "lower", PROVED, BEGINS % "upper"):
            progress.take(line)
            progress.tick()
        progress.began -= LONG + 2
        progress.take(PROVED)
        progress.take("rt: running out/upper\n")
        progress.clear()
        self.assertRegex(out.getvalue(), r"\Aproving: 2 of 2 crates done, at upper, \d+ s\n\Z")

    def test_what_rt_prints_comes_to_the_terminal_and_goes(self):
        ours, theirs = pty.openpty()
        self.ended(self.start("check", "upper", stderr=theirs, STAND_IN_SECONDS="0.3"))
        os.close(theirs)
        shown = shown_on(ours)
        self.assertIn(f"{CLEAR}proving: 1 of 2 crates done, at upper", shown)
        self.assertTrue(shown.endswith(CLEAR), shown)
        self.assertNotIn("\n", shown)
