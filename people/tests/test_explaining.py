"""Tests of explaining: session W in words, and lines that do not belong to a session."""
import unittest

from people.composing import compose
from people.explaining import explain
from people.playing import Unpaired, pair
from people.sections import WHOLE, NoEvent, Section
from people.tests import session_w

MEANINGS_OF_W = [
    "slot 0 starts with 3:2; its private versions: object 3 version 0",
    "slot 1 starts with 3:1 5:0; its private versions: object 3 version 1, object 5 version 0",
    "slot 1 calls object 3: read; refused, 10 Wait: it is not its turn there yet",
    "slot 0 calls object 3: spend 40; it was enough, 40 is taken and 60 left",
    "slot 0 calls object 3: add 5; the word is now 65; its supremum 2 is reached, it lets go of object 3",
    "slot 0 calls object 3: read; refused, 8 Released: it has let go of this object",
    "slot 1 calls object 3: read; the word is 65; its supremum 1 is reached, it lets go of object 3",
    "slot 1 commits at tick 8; refused, 10 Wait: an earlier transaction on one of its objects has not ended",
    "slot 1 releases object 5",
    "slot 0 rolls back at tick 7; its end record of 15 bytes: object 3 version 0; put back: object 3 has 100 again; "
    "spoiled: slot 1 on object 3",
    "slot 1 commits at tick 8; refused, 9 Doomed: another's rollback has spoiled it, so only release and rollback are "
    "left to it",
    "slot 1 rolls back at tick 9; its end record of 20 bytes: object 3 version 1, object 5 version 0",
]


class Explaining(unittest.TestCase):
    def explained(self, text, lines, section=WHOLE):
        return list(explain(pair(compose(text), lines), section))

    def test_session_w(self):
        expected = [f"{line:<7}  {meaning}" for line, meaning in zip(session_w.LINES, MEANINGS_OF_W)]
        self.assertEqual(self.explained(session_w.TEXT, session_w.LINES), expected)

    def test_a_spend_that_is_not_enough_and_a_write(self):
        text = "fresh 0\nstart 0 3:0\ncall 0 3 spend 1\ncall 0 3 write 9\n"
        said = self.explained(text, ["1 0 0", "2 0 0", "3 0 0"])
        self.assertTrue(said[1].endswith("spend 1; it was not enough, the word stays 0"))
        self.assertTrue(said[2].endswith("write 9; the word is now 9"))

    def test_every_refusal_of_a_step_has_its_name(self):
        names = ["BadSlot", "BadObject", "BadList", "Busy", "Idle", "NotDeclared", "BadCall", "Released", "Doomed", "Wait",
                 "NoRoom", "BadRecord"]
        for number, name in enumerate(names, 1):
            (said,) = self.explained("fresh 0\nstart 0 3:0\n", [f"1 {number} 0"])
            self.assertIn(f"; refused, {number} {name}: ", said)

    def test_each_object_gets_its_own_word_back(self):
        text = "fresh 0 3=7 5=9\nstart 0 3:0 5:0 6:0\ncall 0 5 add 1\ncall 0 3 write 1\ncall 0 3 write 2\nrollback 0 1\n"
        said = self.explained(text, ["1 0 0", "2 0 10", "3 0 0", "4 0 0", "5 0 25"])
        self.assertTrue(said[4].endswith("; put back: object 3 has 7 again, object 5 has 9 again"))

    def test_a_bad_first_record(self):
        for text in ("", "start 0 3:1\n", "raw 64 00 00 01\n"):
            (said,) = self.explained(text, ["0 12 0"])
            self.assertTrue(said.endswith("12 BadRecord: a session begins with a fresh record, so the program stops"), said)
        (said,) = self.explained("release 0 3\nstart 0 3:1\nrelease 0 3\n", ["0 12 0"])
        self.assertTrue(said.endswith(", so the program stops; behind it 14 bytes with 2 records are not played"), said)

    def test_a_bad_record_stops(self):
        for text in ("fresh 7\n", "raw 02 00 06 01 00 03\n", "raw 0B 00 02 02 07 00 00 00 00 01 03 00 00 00 00\n"):
            (said,) = self.explained("fresh 0\n" + text, ["1 12 0"])
            self.assertTrue(said.endswith("12 BadRecord: no event stands there, so the program stops"), said)
            for more, behind in (("start 0 3:1\n", "8 bytes with 1 record are"),
                                 ("start 0 3:1\nrelease 0 3\n", "14 bytes with 2 records are"),
                                 ("start 0 3:1\nraw 05\n", "9 bytes with 1 record are"), ("raw 05\n", "1 byte is")):
                (said,) = self.explained("fresh 0\n" + text + more, ["1 12 0"])
                self.assertTrue(said.endswith(f", so the program stops; behind it {behind} not played"), said)

    def test_behind_a_frame_that_fails_there_are_only_bytes(self):
        (said,) = self.explained("fresh 0\nraw 7F 00 01 01\nstart 0 3:1\n", ["1 12 0"])
        self.assertTrue(said.endswith("so the program stops; behind it 8 bytes are not played"), said)
        (said,) = self.explained("fresh 0\nraw 05 00 04 01\nraw 00\n", ["1 12 0"])
        self.assertTrue(said.endswith("so the program stops"), said)

    def test_no_lines_mean_nothing(self):
        self.assertEqual(self.explained("fresh 0\n", []), [])

    def test_a_section(self):
        whole = self.explained(session_w.TEXT, session_w.LINES)
        self.assertEqual(self.explained(session_w.TEXT, session_w.LINES, Section(5, 10)), whole[4:10])
        self.assertEqual(self.explained(session_w.TEXT, session_w.LINES, Section(11)), whole[10:])
        with self.assertRaises(NoEvent):
            self.explained(session_w.TEXT, session_w.LINES, Section(13))

    def test_lines_are_explained_as_they_come(self):
        asked = []

        def coming():
            for line in session_w.LINES:
                asked.append(line)
                yield line

        for place, _ in enumerate(explain(pair(session_w.BYTES, coming())), 1):
            self.assertEqual(len(asked), place)

    def test_lines_of_another_session_are_refused(self):
        text = "fresh 0\nstart 0 3:0\n"
        for lines in (["2 0 0"], ["1 0 0", "2 0 0"], ["0 12 0"], ["one"], ["1 0"], ["1 13 0"], [], ["1 0 1"], ["1 4 1"]):
            with self.assertRaises(Unpaired, msg=lines):
                self.explained(text, lines)
        with self.assertRaises(Unpaired):
            self.explained("fresh 0\nfresh 0\n", ["1 0 0"])
        with self.assertRaises(Unpaired):
            self.explained("fresh 0\nfresh 0\nstart 0 3:0\n", ["1 12 0", "2 0 0"])

    def test_lines_that_cannot_be_are_refused(self):
        begin = "fresh 0 3=5\nstart 0 3:0\n"
        for item, line in (("call 0 3 read", "2 0 6"), ("call 0 3 add 1", "2 0 5"), ("call 0 3 spend 6", "2 0 1"),
                           ("call 0 3 write 1", "2 0 1"), ("commit 0 1", "2 0 20"), ("call 0 4 read", "2 0 0"), ("call 1 3 read", "2 0 5"),
                           ("call 0 3 4", "2 0 0"),
                           ("call 0 24 read", "2 0 0"), ("start 16 3:0", "2 0 0"), ("start 1 24:0", "2 0 0"), ("commit 1 1", "2 0 10")):
            with self.assertRaises(Unpaired, msg=item):
                self.explained(f"{begin}{item}\n", ["1 0 0", line])
