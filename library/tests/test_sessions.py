"""Tests of whole sessions: by record and by fields, in C and in Rust, against lines by hand and those of the reference."""
import unittest
from itertools import zip_longest

from device.reference import random_session
from library.tests.programs import play, players
from people.checking import SESSIONS, names
from people.composing import compose
from people.leaving import left_behind

RANDOM_SESSIONS = 300
# NoRoom never comes up: a player's buffer has room for every end.
NUMBERS = {str(number) for number in range(13)} - {"11"}


def first_difference(found, wanted):
    """The first of two lists' items that differ, or nothing; a whole comparison of long lists takes unittest minutes."""
    for pair in zip_longest(found, wanted, fillvalue="nothing"):
        if pair[0] != pair[1]:
            return "'%s', expected '%s'" % pair
    return ""


class Sessions(unittest.TestCase):
    def agree(self, records, lines):
        left = left_behind(records, lines)
        for player in players():
            status, printed, said = play(player, records)
            difference = first_difference(printed, lines) or first_difference(said, left)
            self.assertEqual((status, difference), (0, ""), player)

    def test_sessions_by_hand(self):
        for name in names(SESSIONS):
            with self.subTest(session=name):
                text = (SESSIONS / f"{name}.session").read_text(encoding="utf-8")
                self.agree(compose(text), (SESSIONS / f"{name}.lines").read_text(encoding="utf-8").splitlines())

    def test_random_sessions(self):
        found = set()
        for number in range(1, RANDOM_SESSIONS + 1):
            records, printed = random_session(number)
            found.update(line.split()[1] for line in printed.splitlines())
            with self.subTest(session=number):
                self.agree(records, printed.splitlines())
        self.assertEqual(found, NUMBERS)
