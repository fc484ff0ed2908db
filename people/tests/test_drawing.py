"""Tests of drawing: the marks of session W in letters and in SVG."""
import unittest
from xml.etree import ElementTree

from people.composing import compose
from people.drawing import draw
from people.following import State
from people.picture import COLOURS, picture
from people.playing import Unpaired, pair
from people.sections import WHOLE, NoEvent, Section
from people.tests import session_w
from people.timeline import MARKS, rows_of, trace

DRAWING_OF_W = """\
event                1  2  3  4  5  6  7  8  9 10 11 12
refused                   10        8    10        9
object 3
  slot 0 version 0   s========o=o>--?-----------R
  slot 1 version 1      s..w.....=====o>--w-----!~~x~~r
object 5
  slot 1 version 0      s====================>--------r
""".splitlines()

SVG = "{http://www.w3.org/2000/svg}"


def columns_of(text, lines, section=WHOLE):
    return trace(pair(compose(text), lines), section)


def drawn_of(text, lines, section=WHOLE):
    return list(draw(columns_of(text, lines, section), section))


def long_session(calls):
    """One start and many calls, with their lines."""
    text = "fresh 0\nstart 0 3:0\n" + "call 0 3 read\n" * calls
    return text, [f"{place} 0 0" for place in range(1, calls + 2)]


class Drawing(unittest.TestCase):
    def test_session_w_in_letters(self):
        drawn = drawn_of(session_w.TEXT, session_w.LINES)
        self.assertEqual(drawn[:len(DRAWING_OF_W)], DRAWING_OF_W)
        for sign, words in MARKS.items():
            self.assertIn(f"{sign}  {words}", drawn)

    def test_states_of_session_w(self):
        rows = rows_of(columns_of(session_w.TEXT, session_w.LINES))
        early = rows[1]
        self.assertEqual((early.claim.slot, early.claim.object_number, early.claim.version), (1, 3, 1))
        self.assertEqual([early.cells[column].after for column in (1, 3, 4, 6, 9)],
                         [State.WAITS, State.WAITS, State.TURN, State.LET_GO, State.SPOILED])
        self.assertIsNone(early.cells[11].after)
        self.assertEqual([early.cells[column].mark for column in (1, 2, 6, 7, 9, 10, 11)],
                         ["s", "w", "o>", "w", "!", "x", "r"])

    def test_a_commit_is_marked_on_every_object(self):
        rows = rows_of(columns_of("fresh 0\nstart 0 3:0 5:0\ncommit 0 1\n", ["1 0 0", "2 0 20"]))
        self.assertEqual([row.cells[1].mark for row in rows], ["C", "C"])

    def test_a_long_session_is_drawn_in_bands(self):
        drawn = drawn_of(*long_session(100))
        self.assertGreater(sum(line.startswith("event") for line in drawn), 1)
        self.assertLessEqual(max(map(len, drawn)), 120)

    def test_nothing_to_draw(self):
        for text, lines in (("fresh 0\n", []), ("", ["0 12 0"]), ("fresh 0\nstart 16 3:1\n", ["1 1 0"])):
            self.assertEqual(rows_of(columns_of(text, lines)), [])
            self.assertTrue(drawn_of(text, lines))
            ElementTree.fromstring(picture(columns_of(text, lines))[0])

    def test_session_w_as_a_picture(self):
        drawn, left_out = picture(columns_of(session_w.TEXT, session_w.LINES))
        self.assertEqual(left_out, "")
        root = ElementTree.fromstring(drawn)
        texts = [element.text for element in root.iter(SVG + "text")]
        for words in ("object 3", "object 5", "slot 0 version 0", "slot 1 version 1", "o>", "w", "x", "!", "R", "r"):
            self.assertIn(words, texts)
        colours = {element.get("fill") for element in root.iter(SVG + "rect")}
        self.assertLessEqual(set(COLOURS.values()), colours)
        titles = [element.text for element in root.iter(SVG + "title")]
        self.assertEqual(len(titles), len(session_w.LINES))
        self.assertIn("slot 0 calls object 3: spend 40", titles)


class Sections(unittest.TestCase):
    def test_a_section_is_drawn_as_it_stands_in_the_whole(self):
        drawn = drawn_of(session_w.TEXT, session_w.LINES, Section(4, 8))
        self.assertEqual(drawn[:9], """\
event                4  5  6  7  8
refused                    8    10
object 3
  slot 0 version 0 ==o=o>--?------
  slot 1 version 1 .....=====o>--w
object 5
  slot 1 version 0 ===============

left out: events 1 to 3 and events 9 to 12; --from N and --to M show others""".splitlines())

    def test_what_is_left_out_is_said(self):
        text, lines = long_session(19)
        for section, said in ((Section(1, 20), ""), (Section(0, 19), "left out: event 20;"), (Section(2), "left out: event 1;"),
                              (Section(3, 3), "left out: events 1 to 2 and events 4 to 20;"),
                              (Section().at_most(5), "left out: events 6 to 20;")):
            found = [line for line in drawn_of(text, lines, section) if line.startswith("left out")]
            self.assertEqual([line[:len(said)] for line in found], [said] if said else [])
            drawn, left_out = picture(columns_of(text, lines, section), section)
            self.assertEqual(left_out, "".join(found))
            texts = [element.text for element in ElementTree.fromstring(drawn).iter(SVG + "text")]
            self.assertEqual([words for words in texts if words.startswith("left out")], found)

    def test_a_section_without_events_is_refused(self):
        for section in (Section(13), Section(13, 20), Section(0, 0)):
            for drawing in (lambda columns: list(draw(columns, section)), lambda columns: picture(columns, section)):
                with self.assertRaises(NoEvent) as raised:
                    drawing(columns_of(session_w.TEXT, session_w.LINES, section))
                self.assertIn("the last is 12", str(raised.exception))

    def test_a_picture_ends_where_no_viewer_would_show_it(self):
        text, lines = long_session(1999)
        drawn, left_out = picture(columns_of(text, lines))
        self.assertLessEqual(int(ElementTree.fromstring(drawn).get("width")), 32767)
        self.assertRegex(left_out, "events 10[0-9]+ to 2000")

    def test_a_picture_of_many_rows_ends_as_well(self):
        pairs = " ".join(f"{number}:0" for number in range(24))
        text = "fresh 0\n" + f"start 0 {pairs}\ncommit 0 1\n" * 190
        lines = [f"{place} 0 {130 * (place % 2 == 0)}" for place in range(1, 381)]
        drawn, left_out = picture(columns_of(text, lines))
        self.assertLessEqual(int(ElementTree.fromstring(drawn).get("height")), 32767)
        self.assertRegex(left_out, "events [0-9]+ to 380")

    def test_what_came_before_a_failure_is_drawn(self):
        drawn = []
        with self.assertRaises(Unpaired):
            for line in draw(columns_of(session_w.TEXT, session_w.LINES[:5])):
                drawn.append(line)
        self.assertEqual(drawn[0].split(), ["event", "1", "2", "3", "4", "5"])
        with self.assertRaises(Unpaired):
            picture(columns_of(session_w.TEXT, session_w.LINES[:5]))

    def test_bands_come_as_they_are_full(self):
        text, lines = long_session(200)
        asked = []

        def coming():
            for line in lines:
                asked.append(line)
                yield line

        next(draw(columns_of(text, coming())))
        self.assertLess(len(asked), 60)
