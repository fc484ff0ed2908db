"""Tests of the tests of streams and of the comparison: a stand-in passes, and one with a fault does not."""
import subprocess
import sys
import tempfile
import unittest
from pathlib import Path
from typing import List, Set

from device.reference import programs, random_session
from tools.tests import stand_in as stand
from tools.tests.streams import Streams

STAND_IN = str(Path(stand.__file__).resolve())
# Python takes no folder as its input, and so the stand-in neither.
NOT_FOR_PYTHON = "test_a_folder_as_input_is_told"
# Seconds for an answer that a fault keeps back.
SHORT_LIMIT = 4
# Each fault with a test that has to find it.
FOUND_LIVE = {
    stand.SHORT_RECORDS: "test_two_records_are_answered_where_half_of_a_third_came",
    stand.SHORT_READ: "test_each_record_is_answered_before_the_next_comes",
    stand.WAITS_FOR_END: "test_each_record_is_answered_before_the_next_comes",
    stand.WAITS_FOR_WHOLE: "test_two_records_are_answered_where_half_of_a_third_came",
    stand.SILENT_INPUT: "test_a_closed_input_is_told",
    stand.SILENT_OUTPUT: "test_a_closed_output_is_told",
    stand.WRITES_ON: "test_a_write_that_fails_behind_lines_is_told",
}
# Each fault with a long session that has to find it, by its delivery: whole, and in pieces of 7 bytes.
WHOLE, PIECES = 374, 1124
FOUND_LONG = {stand.OTHER_DESCRIPTOR: WHOLE, stand.LOST_BYTE: WHOLE, stand.LATE_LINES: WHOLE, stand.SHORT_RECORDS: PIECES, stand.SHORT_READ: PIECES}


def words(folder: str, lines: bytes, fault: str) -> List[str]:
    """The words that run the stand-in."""
    file = Path(folder) / "lines"
    file.write_bytes(lines)
    return [sys.executable, "-B", STAND_IN, str(file), fault]


class OfStandIn(unittest.TestCase):
    def setUp(self) -> None:
        folder = tempfile.TemporaryDirectory()
        self.addCleanup(folder.cleanup)
        self.folder = folder.name

    def failing(self, fault: str, *names: str) -> Set[str]:
        """The tests of streams of these names that fail for a stand-in with a fault."""
        settings = {"folder": self.folder, "words": lambda self, lines: words(self.folder, lines, fault)}
        case = type("StandIn", (Streams, unittest.TestCase), {**settings, "limit": SHORT_LIMIT if fault else Streams.limit})
        result = unittest.TestResult()
        unittest.TestSuite(map(case, names)).run(result)
        return {str(test).split()[0] for test, _ in result.failures + result.errors}

    def test_every_fault_is_tried(self):
        self.assertEqual(set(FOUND_LIVE) | set(FOUND_LONG), set(stand.FAULTS))

    def test_a_right_one_passes(self):
        names = unittest.defaultTestLoader.getTestCaseNames(Streams)
        self.assertEqual(self.failing("", *(name for name in names if name != NOT_FOR_PYTHON)), set())

    def test_faults_are_found_live(self):
        for fault, name in FOUND_LIVE.items():
            with self.subTest(fault=fault):
                self.assertEqual(self.failing(fault, name), {name})

    def compared(self, number: int, fault: str = "") -> subprocess.CompletedProcess:
        """The comparison of one session with a stand-in."""
        _, printed = random_session(number, 1)
        command = [str(programs() / "compare"), "--from", str(number), "--sessions", "1", "--file", str(Path(self.folder) / "difference")]
        return subprocess.run([*command, "--", *words(self.folder, printed.encode(), fault)], stdout=subprocess.PIPE, stderr=subprocess.PIPE,
                              universal_newlines=True)

    def test_a_comparison_finds_faults_past_the_buffers(self):
        for fault, number in FOUND_LONG.items():
            with self.subTest(fault=fault):
                ended = self.compared(number, fault)
                self.assertEqual(ended.returncode, 1, ended.stdout)
                self.assertIn(f"difference at session {number} of seed 1", ended.stdout.splitlines()[-1])

    def test_a_comparison_tells_what_it_missed(self):
        for number in (WHOLE, PIECES):
            with self.subTest(session=number):
                ended = self.compared(number)
                self.assertEqual(ended.returncode, 3, ended.stdout)
                self.assertRegex(ended.stdout.splitlines()[-1], r"lines, no difference, but not all is reached: \d+ lines above say what$")
                self.assertIn("count over 250 at supremum 255: never came up", ended.stdout)

    def test_a_whole_comparison_misses_nothing(self):
        compare, bench = (str(programs() / name) for name in ("compare", "bench"))
        ended = subprocess.run([compare, "--", bench], stdout=subprocess.PIPE, universal_newlines=True)
        self.assertEqual(ended.returncode, 0, ended.stdout)
        self.assertRegex(ended.stdout.splitlines()[-1], r"no difference, and all came up that sessions have to reach$")
