"""Tests of ordering: each answer of R34 to R36, on both sides of its limits."""
import struct
import unittest

from people.composing import compose
from people.ordering import NoEndRecord, came_first
from people.tests import session_w

COMMITTED, ROLLED_BACK = 0x0201, 0x0202


def end(*entries, kind=COMMITTED, tick=7, slot=0):
    """The bytes of an end record."""
    body = struct.pack("<IBB", tick, slot, len(entries)) + b"".join(struct.pack("<BI", *entry) for entry in entries)
    return struct.pack("<HH", len(body), kind) + body


class Ordering(unittest.TestCase):
    def test_the_versions_decide(self):
        far = 1 << 31
        for of_first, of_second, said in (
                (0, 1, "A came first"), (1, 0, "B came first"), (4294967295, 0, "A came first"), (0, 4294967295, "B came first"),
                (0, far - 1, "A came first"), (0, far + 1, "B came first"), (5, far + 4, "A came first"),
                (far + 5, 5, "too far apart to tell"), (0, far, "too far apart to tell")):
            versions = f": object 3 has version {of_first} in A and {of_second} in B"
            self.assertEqual(came_first(end((3, of_first)), end((3, of_second))), said + versions)
        self.assertEqual(came_first(end((3, 8)), end((3, 8), kind=ROLLED_BACK)), "both have the same version of object 3, 8")

    def test_the_smallest_object_in_common_decides(self):
        first, second = end((1, 9), (3, 1), (5, 2)), end((2, 0), (3, 2), (5, 1))
        self.assertEqual(came_first(first, second), "A came first: object 3 has version 1 in A and 2 in B")
        self.assertEqual(came_first(second, first), "B came first: object 3 has version 2 in A and 1 in B")
        self.assertIn("no object in common", came_first(end((1, 0)), end((2, 0), (3, 0))))

    def test_kind_slot_tick_and_what_stands_behind_have_no_influence(self):
        said = came_first(end((3, 0)), end((3, 1)))
        self.assertEqual(came_first(end((3, 0), kind=ROLLED_BACK, tick=99, slot=15) + b"more", end((3, 1), tick=0) + b"\x00"), said)

    def test_session_w(self):
        second = bytes.fromhex("10 00 02 02 09 00 00 00 01 02 03 01 00 00 00 05 00 00 00 00")
        self.assertEqual(came_first(session_w.END_RECORD, second), "A came first: object 3 has version 0 in A and 1 in B")

    def test_digits_in_any_spacing(self):
        for digits in (b"0B 00 02 02 07 00 00 00 00 01 03 00 00 00 00\n", b"0b00020207000000 00010300000000",
                       b" 0B\t00\r\n0202070000000001 0300000000"):
            self.assertEqual(came_first(digits, session_w.END_RECORD), "both have the same version of object 3, 0")

    def test_what_is_no_end_record(self):
        good = session_w.END_RECORD
        for data, said in ((b"", "under 4 bytes (there are 0)"), (good[:9], "body not all there (5 of 11 bytes are)"),
                           (b"0B000", "5 hexadecimal digits are no whole bytes"), (b"no digits", "length over 126"),
                           (compose("commit 3 9"), "slot 3 commits at tick 9"), (end((24, 0)), "content (object 24 is over 23)"),
                           (end((3, 0), (3, 1)), "content (objects do not rise: 3 follows 3)"), (end(), "content (n is 0)"),
                           (compose("fresh 5"), "fresh from version 5")):
            for name, pair in (("A", (data, good)), ("B", (good, data)), ("A", (data, data))):
                with self.assertRaises(NoEndRecord) as raised:
                    came_first(*pair)
                self.assertTrue(str(raised.exception).startswith(f"{name} is no end record: {said}"), str(raised.exception))
