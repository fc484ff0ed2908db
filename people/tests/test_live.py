"""Tests of playing as items are typed: each has its answer before the next is typed."""
import os
import select
import subprocess

from people.tests import session_w
from people.tests.processes import LONGEST_SECONDS, Processes
from people.tests.test_explaining import MEANINGS_OF_W

FIRST = "         fresh from version 4294967295: word 3 is 100, the others 0"
ENDED, STOPPED = "the input has ended\n", "the program has stopped\n"


class Live(Processes):
    def live(self, how="ends", **options):
        return self.start(how, "live", stdin=subprocess.PIPE, bufsize=0, **options)

    def typed(self, started, item, output=None):
        """Types an item, and gives the line that is shown before anything else is typed."""
        started.stdin.write(f"{item}\n".encode())
        output = output or started.stdout
        self.assertTrue(select.select([output], [], [], LONGEST_SECONDS)[0], f"no answer to {item}")
        line = b""
        while not line.endswith(b"\n"):
            line += output.read(1)
        return line.decode().rstrip("\n")

    def test_each_item_is_answered_at_once(self):
        started = self.live()
        first, *items = session_w.TEXT.splitlines()
        self.assertEqual(self.typed(started, first), FIRST)
        for item, line, meaning in zip(items, session_w.LINES, MEANINGS_OF_W):
            self.assertEqual(self.typed(started, item), f"{line:<7}  {meaning}")
        self.assertEqual(self.outcome(started), (0, "", ENDED))

    def test_a_bad_line_is_told_at_once_and_not_played(self):
        started = self.live()
        self.typed(started, "fresh 4294967295 3=100")
        self.assertEqual(self.typed(started, "strat 0 3:2", started.stderr), "line 2: strat 0 3:2")
        self.assertIn("the closest is 'start'", self.typed(started, "# a remark, and nothing to be said of it", started.stderr))
        self.assertEqual(self.typed(started, "start 0 3:2").split("  ")[0], "1 0 0")
        started.stdin.write(b"\xff\n")
        self.assertEqual(self.outcome(started), (0, "", f"line 5: no text in UTF-8\n{ENDED}"))

    def test_a_record_in_parts_is_played_when_it_is_whole(self):
        started = self.live()
        self.typed(started, "fresh 4294967295 3=100")
        started.stdin.write(b"raw 04 00 01\nraw 01 00 01\n")
        self.assertTrue(self.typed(started, "raw 03 02 06 00 01 01 01 02 03 01").startswith("1 0 0    slot 0 starts with 3:2;"))
        self.assertTrue(self.typed(started, "raw 05 00").startswith("2 0 0    slot 1 starts with 3:1 5:0;"))
        self.assertEqual(self.outcome(started)[0], 0)

    def test_it_ends_where_the_program_stops(self):
        for item, said in (("fresh 0", "fresh from"), ("raw 7F 00 01 01", "length over 126"), (session_w.END_RECORD.hex(), "end record")):
            started = self.live(lines=["1 12 0"])
            self.typed(started, "fresh 0")
            line = self.typed(started, item if " " in item else f"raw {item}")
            self.assertIn(said, line)
            self.assertTrue(line.endswith("so the program stops"), line)
            self.assertEqual(started.wait(LONGEST_SECONDS), 0)
            self.assertEqual(self.outcome(started), (0, "", STOPPED))

    def test_a_session_that_does_not_begin(self):
        for given in (b"start 0 3:1\n", b"", b"raw 05\n"):
            started = self.live("ends", lines=["0 12 0"])
            status, output, error = self.outcome(started, given)
            self.assertEqual((status, error), (0, STOPPED))
            self.assertTrue(output.startswith("0 12 0   "), output)

    def test_a_torn_record_at_the_end(self):
        started = self.live(lines=["1 12 0"])
        status, output, error = self.outcome(started, b"fresh 0\nraw 05 00 04 01\n")
        self.assertEqual((status, error), (0, STOPPED))
        self.assertIn("body not all there (0 of 5 bytes are)", output)

    def test_a_program_that_fails_is_told(self):
        for how, said in (("says", "it says 'bench: input: Is a directory'"), ("signal", "it was ended by SIGKILL")):
            started = self.live(how, lines=session_w.LINES[:2])
            status, output, error = self.outcome(started, session_w.TEXT.encode())
            self.assertEqual((status, len(output.splitlines())), (1, 3))
            self.assertEqual(error, f"the program 'bench' failed, and its output is cut short: {said}\n")
        started = self.live(lines=session_w.LINES[:2])
        self.assertIn("cut short: event 3 has no line", self.outcome(started, session_w.TEXT.encode())[2])

    def test_one_who_types_is_told_how(self):
        typing, terminal = os.openpty()
        started = self.start("ends", "live", stdin=terminal)
        os.write(typing, b"fresh 4294967295 3=100\nstart 0 3:2\n\x04")
        status, output, error = self.outcome(started)
        self.assertEqual((status, len(output.splitlines())), (0, 2))
        self.assertEqual(error, f"Items are played as they are typed, one a line; Ctrl-D ends.\n{ENDED}")
        os.close(typing)
        os.close(terminal)

    def test_many_records_in_one_item(self):
        """More than the pipes to the program and from it hold."""
        count = 12000
        started = self.live(lines=[f"{place} 5 0" for place in range(1, count + 1)])
        status, output, error = self.outcome(started, b"fresh 0\nraw " + b"020003010003" * count + b"\n")
        self.assertEqual((status, len(output.splitlines()), error), (0, count + 1, ENDED))
