"""Tests of interrupts: whatever a command is doing, it leaves no file and no process, and says nothing."""
import signal
import subprocess
import time

from people.tests import session_w
from people.tests.processes import Processes, gone

SIGNALS = {signal.SIGINT: 130, signal.SIGTERM: 143, signal.SIGHUP: 129}


class Interrupts(Processes):
    def interrupted(self, started, number, count):
        """The outcome of a command that is interrupted when as many children are there."""
        children = self.children(count)
        started.send_signal(number)
        outcome = self.outcome(started)
        self.assertEqual([child for child in children if not gone(child)], [])
        self.assertEqual(list(self.temporary.iterdir()), [])
        self.notes.unlink()
        return outcome

    def test_while_the_program_runs(self):
        for number, status in SIGNALS.items():
            self.assertEqual(self.interrupted(self.start("sleeps", self.session), number, 1), (status, "", ""))
        for words in (["--explain", self.session], ["--svg", self.folder / "w.svg", self.session], ["check"]):
            self.assertEqual(self.interrupted(self.start("sleeps", *words), signal.SIGINT, 1), (130, "", ""), words)

    def test_while_an_answer_is_waited_for(self):
        started = self.start("sleeps", "live", stdin=subprocess.PIPE)
        started.stdin.write(session_w.TEXT.encode())
        started.stdin.flush()
        self.assertIn(b"fresh", started.stdout.readline())
        self.assertEqual(self.interrupted(started, signal.SIGTERM, 1), (143, "", ""))

    def test_while_it_is_proved(self):
        for number, status in SIGNALS.items():
            self.assertEqual(self.interrupted(self.start("proves", self.session), number, 2), (status, "", ""))

    def test_a_program_that_does_not_want_to_end(self):
        self.assertEqual(self.interrupted(self.start("sleeps-on", self.session), signal.SIGTERM, 1), (143, "", ""))

    def test_while_it_reads(self):
        for words, given in ((["read"], session_w.RECORDS[0]), (["live"], b"fresh 0\n")):
            started = self.start("ends", *words, stdin=subprocess.PIPE)
            started.stdin.write(given)
            started.stdin.flush()
            self.assertIn(b"fresh", started.stdout.readline())
            started.send_signal(signal.SIGINT)
            self.assertEqual(self.outcome(started), (130, "", ""), words)

    def test_further_signals_change_nothing(self):
        started = self.start("sleeps-on", self.session)
        children = self.children(1)
        for number in (signal.SIGINT, signal.SIGTERM, signal.SIGINT, signal.SIGHUP):
            started.send_signal(number)
            time.sleep(0.1)
        self.assertEqual(self.outcome(started), (130, "", ""))
        self.assertTrue(gone(children[0]))

    def test_a_reader_that_has_gone_ends_the_program(self):
        """What is left of the program is ended too, not only the command."""
        started = self.start("sleeps", "live", stdin=subprocess.PIPE)
        children = self.children(1)
        started.stdout.close()
        started.stdin.write(b"fresh 0\n")
        started.stdin.close()
        started.stdin = None
        self.assertEqual(started.wait(30), 141)
        self.assertTrue(all(map(gone, children)))
