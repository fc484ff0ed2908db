"""Tests of the test set against the tool: every session with its expected lines, without the bench program."""
import unittest

from people.answers import ACCEPTED, DOOMED, RELEASED, WAIT
from people.checking import SESSIONS, names
from people.composing import compose
from people.drawing import draw
from people.explaining import explain
from people.following import Followed, State
from people.layout import Call, End, Release
from people.picture import picture
from people.playing import pair
from people.tests import session_w
from people.timeline import trace

# How a transaction stands at an object when a call or release there gets an answer.
STATES = {ACCEPTED: State.TURN, WAIT: State.WAITS, RELEASED: State.LET_GO}


def parts(name):
    """The text of a session, and its expected lines."""
    text = (SESSIONS / f"{name}.session").read_text(encoding="utf-8")
    return text, (SESSIONS / f"{name}.lines").read_text(encoding="utf-8").splitlines()


class Sessions(unittest.TestCase):
    def each(self):
        for name in names(SESSIONS):
            with self.subTest(session=name):
                text, lines = parts(name)
                yield text, lambda: pair(compose(text), lines)

    def test_each_begins_with_a_comment_and_can_be_told(self):
        for text, played in self.each():
            self.assertTrue(text.startswith("# "))
            self.assertEqual(len(list(explain(played()))), len(list(played().steps)))
            self.assertTrue(list(draw(trace(played()))))
            self.assertTrue(picture(trace(played()))[0].endswith("</svg>\n"))

    def test_session_w_is_the_one_of_the_rules(self):
        text, lines = parts("w")
        self.assertEqual(compose(text), session_w.BYTES)
        self.assertEqual(lines, session_w.LINES)

    def test_what_is_followed_agrees_with_the_lines(self):
        for _, play in self.each():
            played = play()
            followed = Followed(played.fresh.first_version)
            for step in played.steps:
                self.agrees(step, followed)
                if step.answer == ACCEPTED:
                    followed.accept(step.content)

    def agrees(self, step, followed):
        """One step: turns by the state, ends by the need, doom by the spoiled marks, lengths by the entries."""
        event = step.content
        if isinstance(event, End) and step.answer in (ACCEPTED, WAIT):
            claims = followed.claims_of(event.slot)
            waits = any(followed.waits_to_end(claim) for claim in claims)
            self.assertEqual(waits, step.answer == WAIT, step.line)
            self.assertEqual(step.value, 0 if waits else 10 + 5 * len(claims), step.line)
        if isinstance(event, (Call, Release)) and step.answer in STATES:
            claim = followed.claim(event.slot, event.object_number)
            if not claim.spoiled:
                self.assertEqual(followed.state(claim), STATES[step.answer], step.line)
        if step.answer == DOOMED:
            self.assertTrue(any(claim.spoiled for claim in followed.claims_of(event.slot)), step.line)
