"""Tests of the gate: it runs rt ci over the clone as it stands, and ends badly where that does or where a wrong program is bad."""
import sys

from tools.tests.clones import Clone

BEFORE = "rt: lower/one.edit: refused, as it must be\n"
WELL = "rt: ok; handles allowed: none; must-fail edits: 12 refused%s; every proof and must-fail edit was done in this run\n"


class Gate(Clone):
    def gate(self, lines: str, status: int = 0, ends: int = 0) -> str:
        """What the gate prints where rt ci prints these lines and ends so."""
        words = [sys.executable, "-B", "-m", "tools.gate"]
        return self.ended(self.launch(words, STAND_IN_LINES=lines, STAND_IN_STATUS=str(ends)), status)

    def test_all_is_well(self):
        lines = BEFORE + WELL % "" + "15 passed, 0 failed\n"
        self.assertEqual(self.gate(lines), lines)
        self.assertEqual(self.calls(), [str(self.root), "ci"])
        self.assertEqual(self.left(), [])

    def test_what_fails_there_fails_here(self):
        for lines in (BEFORE + "rt: FAILED: upper\n14 passed, 1 failed\n", "0 passed, 1 failed\n", ""):
            with self.subTest(lines=lines):
                self.assertEqual(self.gate(lines, status=1, ends=1), lines)
        self.assertEqual(self.gate("0 passed, 1 failed\n", status=2, ends=2), "0 passed, 1 failed\n")

    def test_a_bad_wrong_program_fails(self):
        for bad in (", 2 bad", ", 1 of them only by a limit, 2 bad"):
            printed = self.gate(BEFORE + WELL % bad + "15 passed, 0 failed\n", status=1)
            self.assertEqual(printed, BEFORE + WELL % bad + "wrong programs that could not be tried, as told above: 2\n15 passed, 2 failed\n")

    def test_other_last_lines_than_those_of_a_run_that_is_well_fail(self):
        for lines in (BEFORE + "15 passed, 0 failed\n", WELL % "" + "15 passed\n", WELL % "" + "15 passed, 3 failed\n", ""):
            with self.subTest(lines=lines):
                self.assertEqual(self.gate(lines, status=1), lines)
