"""Tests that a wrong byte of an end or of the tables is found: in what a session writes, and by what plays one."""
import struct
import unittest
from pathlib import Path

from device.building import SESSION, SMALL, START, SUPPORT, TARGETS, compile_c, link, place, records_source
from device.kit import ROOT
from device.playing import by_hand, first_difference, play
from device.tests.test_session import FRESH, STAND_IN, line
from people.leaving import written_out

FIRST_END = "0B 00 02 02 07 00 00 00 00 01 03 00 00 00 00"
SECOND_END = "10 00 02 02 09 00 00 00 01 02 03 01 00 00 00 05 00 00 00 00"
BEGIN = struct.pack("<HH4B", 4, 0x0101, 0, 1, 3, 1)
# The stand-in accepts it, answers 15 and writes the bytes 0xE0 to 0xEE.
COMMIT = struct.pack("<HHBI", 5, 0x0104, 0, 0x0F0F)


class StandIn:
    """A player over the stand-in for the library."""

    def __init__(self, target):
        self.target = target

    def program_of(self, records: bytes, name: str) -> Path:
        sources = (SESSION, STAND_IN, START, SUPPORT, records_source(records, name))
        return link([compile_c(source, self.target) for source in sources], place(self.target, SMALL, f"{name}.elf"))


class Ends(unittest.TestCase):
    def setUp(self):
        _, records, lines = by_hand(ROOT / "sessions" / "w.session")
        self.wanted = written_out(records, lines.splitlines())

    def test_session_w(self):
        self.assertEqual((self.wanted[9:11], self.wanted[12:14]), (["10 0 15", FIRST_END], ["12 0 20", SECOND_END]))
        object_3 = ["000C 00000064", "000D 00000001", "000E 00000001", "000F 00000001"]
        self.assertEqual([line for line in self.wanted[14:] if "000C" <= line < "0010"], object_3)

    def test_each_word_of_the_tables_counts(self):
        text = "\n".join(self.wanted)
        wrong = text.replace("000E 00000001", "000E 00000000")
        place = self.wanted.index("000E 00000001") + 1
        self.assertEqual(first_difference(wrong, text), f"line {place} is '000E 00000000', expected '000E 00000001'")

    def test_each_byte_of_an_end_counts(self):
        text = "\n".join(self.wanted)
        self.assertEqual(first_difference(text, text), "")
        for at in (0, 5, 14):
            wrong = bytearray.fromhex(FIRST_END)
            wrong[at] ^= 1
            written = wrong.hex(" ").upper()
            self.assertEqual(first_difference(text.replace(FIRST_END, written), text), f"line 11 is '{written}', expected '{FIRST_END}'")

    def test_what_plays_a_session_compares_them(self):
        written = " ".join(f"{0xE0 + place:02X}" for place in range(15))
        for target in TARGETS.values():
            played = play(StandIn(target), "ends-of-test", FRESH + BEGIN + COMMIT, line(1, 0, 17) + "2 0 15\n")
            self.assertEqual(played.difference, f"line 3 is '{written}', expected '0B 00 01 02 0F 0F 00 00 00 01 03 FF FF FF FF'")
