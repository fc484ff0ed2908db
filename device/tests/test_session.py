"""Tests of what plays the records of a session, with a library that answers what it is given."""
import struct
import unittest
from pathlib import Path

from device.building import SESSION, SMALL, START, SUPPORT, TARGETS, compile_c, link, place, records_source
from device.thumb.running import run

STAND_IN = Path(__file__).resolve().parent / "programs" / "stand_in.c"
FIRST, WORDS = 0xFFFFFFFE, [place * 3 for place in range(24)]
FRESH = struct.pack("<HH25I", 100, 0x0100, FIRST, *WORDS)
SUM = FIRST + sum(word * (place + 1) for place, word in enumerate(WORDS))
EVENT = struct.pack("<HHBB", 2, 0x0103, 0, 5)
REFUSED = struct.pack("<HHBI", 5, 0x0104, 9, 7)
# What the stand-in leaves at the second place and at the last one.
TABLES = "0001 0123ABCD\n0543 01000000\n"
CHANGED = "a byte that is not its own was changed\n"
BAD = struct.pack("<HHB", 1, 0x0777, 12)


def line(event, number, left):
    return f"{event} {number} {SUM + left * 1000 + 130 & 0xFFFFFFFF}\n"


def end(kind, number, value, written):
    """A commit or a rollback as the stand-in takes it: what it answers, and how many bytes it writes."""
    return struct.pack("<HHBBBBB", 5, kind, number, value, written, 0, 0)


class Session(unittest.TestCase):
    @classmethod
    def setUpClass(cls):
        cls.objects = {target: [compile_c(source, target) for source in (SESSION, STAND_IN, START, SUPPORT)] for target in TARGETS.values()}

    def plays(self, records, text, tables=TABLES):
        held = records_source(records, "of-test")
        for target, objects in self.objects.items():
            made = link([*objects, compile_c(held, target)], place(target, SMALL, "session-of-test.elf"))
            self.assertEqual(run(made, target.processor).text, text + tables)

    def test_first_record_that_is_not_fresh(self):
        wrong_length, wrong_kind = b"\x63" + FRESH[1:], FRESH[:2] + b"\x01" + FRESH[3:]
        for records in (b"", FRESH[:3], FRESH[:-1], EVENT + FRESH, wrong_length, wrong_kind):
            self.plays(records, "0 12 0\n", tables="")

    def test_fresh_alone(self):
        self.plays(FRESH, "")

    def test_each_event_is_given_all_that_is_left(self):
        self.plays(FRESH + EVENT + REFUSED + EVENT, line(1, 0, 21) + "2 9 7\n" + line(3, 0, 6))

    def test_bad_record_is_the_last(self):
        self.plays(FRESH + EVENT + BAD + EVENT, line(1, 0, 17) + line(2, 12, 11))
        self.plays(FRESH + EVENT + EVENT[:-1], line(1, 0, 11) + "2 12 0\n")
        self.plays(FRESH + EVENT + b"\0", line(1, 0, 7) + "2 12 0\n")

    def test_bytes_of_an_accepted_end_stand_behind_its_line(self):
        self.plays(FRESH + end(0x0104, 0, 3, 3) + end(0x0105, 0, 1, 1), "1 0 3\nE0 E1 E2\n2 0 1\nE0\n")
        self.plays(FRESH + end(0x0104, 0, 200, 130), "1 0 200\n" + " ".join(f"{(0xE0 + place) % 256:02X}" for place in range(130)) + "\n")

    def test_other_bytes_that_an_event_changes_are_told(self):
        self.plays(FRESH + end(0x0105, 0, 3, 4), "1 0 3\nE0 E1 E2\n" + CHANGED)
        self.plays(FRESH + end(0x0104, 9, 0, 1), "1 9 0\n" + CHANGED)
