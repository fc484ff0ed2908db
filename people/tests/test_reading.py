"""Tests of reading: records in words, and each check of the layout."""
import unittest

from people.composing import compose
from people.layout import Call, Commit, Fresh, Release, Rollback, RolledBack, Start, write
from people.reading import Fault, read_record, read_run
from people.tests import session_w
from people.wording import say

WORDS_OF_W = (0, 0, 0, 100) + (0,) * 20
RECORDS_OF_W = [
    Fresh(4294967295, WORDS_OF_W), Start(0, ((3, 2),)), Start(1, ((3, 1), (5, 0))), Call(1, 3, 0, 0), Call(0, 3, 3, 40),
    Call(0, 3, 2, 5), Call(0, 3, 0, 0), Call(1, 3, 0, 0), Commit(1, 8), Release(1, 5), Rollback(0, 7), Commit(1, 8),
    Rollback(1, 9),
]

# Bytes that are no record, the check they fail, and a part of what was found.
NO_RECORDS = [
    ("", "under 4 bytes", "0"),
    ("05 00 04", "under 4 bytes", "3"),
    ("7F 00 01 01", "length over 126", "127"),
    ("FF FF FF FF", "length over 126", "65535"),
    ("05 00 04 01 01 08 00 00", "body not all there", "4 of 5"),
    ("02 00 06 01 00 03", "unknown kind", "0x0106"),
    ("02 00 03 02 00 03", "unknown kind", "0x0203"),
    ("63 00 00 01" + "00" * 99, "length wrong for kind and n", "100 bytes, not 99"),
    ("07 00 02 01" + "00" * 7, "length wrong for kind and n", "8 bytes, not 7"),
    ("03 00 03 01 00 03 00", "length wrong for kind and n", "2 bytes, not 3"),
    ("04 00 04 01 00 00 00 00", "length wrong for kind and n", "5 bytes, not 4"),
    ("06 00 05 01 00 00 00 00 00 00", "length wrong for kind and n", "5 bytes, not 6"),
    ("01 00 01 01 00", "length wrong for kind and n", "at least 2 bytes, not 1"),
    ("04 00 01 01 00 02 03 01", "length wrong for kind and n", "n = 2 has 6 bytes, not 4"),
    ("05 00 01 02 07 00 00 00 00", "length wrong for kind and n", "at least 6 bytes, not 5"),
    ("0A 00 02 02 07 00 00 00 00 01 03 00 00 00", "length wrong for kind and n", "n = 1 has 11 bytes, not 10"),
    ("08 00 02 01 00 03 00 01 00 00 00 00", "content", "the zero byte is 1"),
    ("0B 00 02 02 07 00 00 00 10 01 03 00 00 00 00", "content", "slot 16 is over 15"),
    ("06 00 01 02 07 00 00 00 00 00", "content", "n is 0"),
    ("0B 00 01 02 07 00 00 00 00 01 18 00 00 00 00", "content", "object 24 is over 23"),
    ("10 00 01 02 07 00 00 00 00 02 03 00 00 00 00 03 00 00 00 00", "content", "3 follows 3"),
]


class Reading(unittest.TestCase):
    def test_what_was_composed_reads_back(self):
        pieces = list(read_run([compose(session_w.TEXT)]))
        self.assertEqual([piece.content for piece in pieces], RECORDS_OF_W)
        self.assertEqual([piece.offset for piece in pieces][:3], [0, 104, 112])
        self.assertEqual(b"".join(write(piece.content) for piece in pieces), session_w.BYTES)

    def test_an_end_record_is_read(self):
        record = read_record(session_w.END_RECORD + b"anything behind it")
        self.assertEqual(record, RolledBack(7, 0, ((3, 0),)))
        self.assertEqual(say(record), "end record: slot 0 rolled back at tick 7, object 3 version 0")
        committed = bytes.fromhex("10 00 01 02 09 00 00 00 01 02 03 01 00 00 00 05 FF FF FF FF")
        self.assertEqual(say(read_record(committed)),
                         "end record: slot 1 committed at tick 9, object 3 version 1, object 5 version 4294967295")

    def test_each_check_names_itself(self):
        for digits, check, found in NO_RECORDS:
            with self.subTest(digits=digits):
                fault = read_record(bytes.fromhex(digits))
                self.assertIsInstance(fault, Fault)
                self.assertEqual(fault.check, check)
                self.assertIn(found, fault.found)
                self.assertTrue(say(fault).startswith(f"no record: {check} ("))

    def test_limits_of_events_are_left_to_the_steps(self):
        for line in ("start 255 255:0 24:1 3:1", "start 0", "start 0" + " 1:1" * 62, "call 16 24 4", "release 255 255"):
            self.assertNotIsInstance(read_record(compose(line)), Fault)

    def test_a_run_goes_on_behind_a_whole_frame_only(self):
        unknown = bytes.fromhex("02 00 06 01 00 03")
        torn = bytes.fromhex("05 00 04")
        kinds = [type(piece.content) for piece in read_run([unknown + session_w.RECORDS[9] + torn])]
        self.assertEqual(kinds, [Fault, Release, Fault])
        too_long = bytes.fromhex("7F 00 01 01") + session_w.RECORDS[9]
        self.assertEqual([piece.data for piece in read_run([too_long])], [too_long[:4]])

    def test_no_bytes_are_no_record(self):
        for parts in ([], [b""], [b"", b""]):
            (piece,) = read_run(parts)
            self.assertEqual((piece.offset, piece.data, piece.content), (0, b"", read_record(b"")))

    def test_parts_of_any_size_give_the_same(self):
        torn = session_w.BYTES + session_w.END_RECORD + bytes.fromhex("05 00 04 01 01")
        whole = list(read_run([torn]))
        self.assertEqual(b"".join(piece.data for piece in whole), torn)
        for size in (1, 3, 7, 130, 131):
            parts = [torn[place:place + size] for place in range(0, len(torn), size)]
            self.assertEqual(list(read_run(parts)), whole, size)

    def test_a_record_is_given_as_soon_as_it_is_whole(self):
        asked = []

        def parts():
            for record in session_w.RECORDS:
                asked.append(record)
                yield record

        for place, piece in enumerate(read_run(parts()), 1):
            self.assertEqual((piece.data, len(asked)), (session_w.RECORDS[place - 1], place))

    def test_records_in_words(self):
        said = [say(record) for record in RECORDS_OF_W]
        self.assertEqual(said[0], "fresh from version 4294967295: word 3 is 100, the others 0")
        self.assertEqual(said[2], "slot 1 starts with 3:1 5:0")
        self.assertEqual(said[3:5], ["slot 1 calls object 3: read", "slot 0 calls object 3: spend 40"])
        self.assertEqual(said[9:11], ["slot 1 releases object 5", "slot 0 rolls back at tick 7"])
        self.assertEqual(say(Start(0, ())), "slot 0 starts with an empty list")
        self.assertEqual(say(Call(0, 3, 4, 9)), "slot 0 calls object 3: kind 4 9")
        self.assertEqual(say(Fresh(0, (0,) * 24)), "fresh from version 0: all words 0")
