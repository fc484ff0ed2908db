"""Tests of composing: the bytes of good lines, and how bad lines are refused."""
import unittest

from people.composing import BadSession, compose
from people.tests import session_w

# A bad line, and a part of what is said of it.
BAD_LINES = [
    ("begin 0 3:1", "none of these"),
    ("Start 0 3:1", "none of these"),
    ("fresh", "missing"),
    ("fresh x", "'x' is no number from 0 to 4294967295"),
    ("fresh 4294967296", "no number from 0 to 4294967295"),
    ("fresh -1", "'-1' is no number"),
    ("fresh 0 3", "'3' has no '='"),
    ("fresh 0 24=1", "'24' is no number from 0 to 23"),
    ("fresh 0 3=4294967296", "no number from 0 to 4294967295"),
    ("fresh 0 3=1 3=2", "object 3 is given twice"),
    ("start", "missing"),
    ("start 256 3:1", "'256' is no number from 0 to 255"),
    ("start 0 3", "'3' has no ':'"),
    ("start 0 256:1", "'256' is no number from 0 to 255"),
    ("start 0 3:256", "'256' is no number from 0 to 255"),
    ("start 0 3:1:1", "'1:1' is no number"),
    ("start 0" + " 1:1" * 63, "'1:1' is too much"),
    ("call 0 3", "missing"),
    ("strat 0 3:1", "'strat' is none of these; the closest is 'start'"),
    ("call 0 3 raed", "'raed' is no kind: the kinds are read, write, add, spend, or a number up to 255"),
    ("call 0 3 256", "'256' is no kind: the kinds are read, write, add, spend, or a number up to 255"),
    ("call 0 3 add 4294967296", "no number from 0 to 4294967295"),
    ("call 0 3 add 1 2", "'2' is too much"),
    ("release 0", "missing"),
    ("release 0 3 4", "'4' is too much"),
    ("commit 0", "missing"),
    ("commit 0 4294967296", "no number from 0 to 4294967295"),
    ("rollback 0", "missing"),
    ("rollback 0 1 2", "'2' is too much"),
    ("raw", "missing"),
    ("raw 0", "1 hex digits are no whole bytes"),
    ("raw 0G", "no hex digit"),
    ("raw 0x00", "no hex digit"),
    ("start 0 0x:1", "'0x' is no number"),
    ("start 0 1_0:1", "'1_0' is no number"),
]


class Composing(unittest.TestCase):
    def test_session_w_has_the_bytes_of_the_layout(self):
        self.assertEqual(compose(session_w.TEXT), session_w.BYTES)

    def test_comments_and_blank_lines_are_nothing(self):
        self.assertEqual(compose("# a remark\n\n  \t\n   release 1 5   # another\r\n"), session_w.RECORDS[9])
        self.assertEqual(compose(""), b"")

    def test_numbers_are_decimal_or_hexadecimal(self):
        self.assertEqual(compose("commit 0x0F 0xffffFFFF"), bytes.fromhex("05 00 04 01 0F FF FF FF FF"))
        self.assertEqual(compose("commit 015 16"), bytes.fromhex("05 00 04 01 0F 10 00 00 00"))

    def test_the_least_byte_comes_first(self):
        self.assertEqual(compose("call 1 2 add 0x04030201"), bytes.fromhex("08 00 02 01 01 02 02 00 01 02 03 04"))

    def test_what_the_machine_must_refuse_can_be_composed(self):
        self.assertEqual(compose("start 16 24:255 24:0"), bytes.fromhex("06 00 01 01 10 02 18 FF 18 00"))
        self.assertEqual(compose("start 0"), bytes.fromhex("02 00 01 01 00 00"))
        self.assertEqual(compose("call 255 255 4"), bytes.fromhex("08 00 02 01 FF FF 04 00 00 00 00 00"))
        self.assertEqual(compose("release 255 24"), bytes.fromhex("02 00 03 01 FF 18"))
        self.assertEqual(len(compose("start 0" + " 1:1" * 62)), 130)

    def test_each_kind_of_call_has_its_number(self):
        for place, name in enumerate(("read", "write", "add", "spend")):
            self.assertEqual(compose(f"call 0 3 {name} 7"), compose(f"call 0 3 {place} 7"))
            self.assertEqual(compose(f"call 0 3 {name} 7")[6], place)

    def test_raw_takes_any_spacing(self):
        for line in ("raw 01 02 0A fF", "raw 01020AfF", "raw 0 1 0 2 0 A f F", "raw 010 20Af F"):
            self.assertEqual(compose(line), b"\x01\x02\x0a\xff")

    def test_each_bad_line_is_refused_with_its_number(self):
        for line, words in BAD_LINES:
            with self.subTest(line=line):
                with self.assertRaises(BadSession) as raised:
                    compose("fresh 0\n# a remark\n" + line + "  # why not\nstart 0 3:1\n")
                (bad,) = raised.exception.bad_lines
                self.assertEqual(bad.number, 3)
                self.assertEqual(bad.line, line + "  # why not")
                self.assertIn(words, bad.reason)
                self.assertIn(line.split()[0] if line.split()[0] in bad.form else "fresh or start", bad.form)

    def test_all_bad_lines_are_named(self):
        with self.assertRaises(BadSession) as raised:
            compose("start\nstart 0 3:1\ncommit 0\n")
        self.assertEqual([bad.number for bad in raised.exception.bad_lines], [1, 3])

    def test_a_byte_order_mark_is_taken_at_the_start_alone(self):
        self.assertEqual(compose("\ufeff" + session_w.TEXT), session_w.BYTES)
        self.assertEqual(compose("\ufeff# a remark\n" + session_w.TEXT), session_w.BYTES)
        with self.assertRaises(BadSession):
            compose("fresh 0\n\ufeffstart 0 3:1\n")

    def test_a_bad_line_says_what_is_wrong(self):
        with self.assertRaises(BadSession) as raised:
            compose("raw " + "G" * 100000)
        self.assertLess(len(str(raised.exception.bad_lines[0])), 1000)
