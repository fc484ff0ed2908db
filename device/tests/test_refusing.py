"""Tests that what is not known, and what is not allowed, stops the program."""
import struct
import tempfile
import unittest
from pathlib import Path

from device.tests.cores import DATA, core_of, m3_core_of, stepped
from device.thumb.elf import load
from device.thumb.faults import Fault

# Undefined, supervisor calls, hints, and codes that the manual leaves open.
UNKNOWN = ((0xDE00,), (0xDF00,), (0xBF10,), (0xBE00,), (0xB400,), (0xBC00,), (0xC000,), (0xC003 | 1 << 8,), (0xBA80,), (0x4500,), (0x47F8,))
UNKNOWN_TO_M0_PLUS = ((0xB100,), (0xBF08,), (0xF04F, 0x0001), (0xF8D1, 0x0004), (0xE92D, 0x4110), (0xF000, 0xB802), (0xFBB1, 0xF0F2))
UNKNOWN_TO_M3 = ((0xEE00, 0x0A10), (0xF3BF, 0x8F5F), (0xF7F0, 0xA000), (0xE8BD, 0xC011), (0xF04F, 0x1000), (0xFA81, 0xF012), (0xE852, 0x1F00),
                 (0xEA4F, 0x0F01), (0xF8DD, 0xD000))


class Refusing(unittest.TestCase):
    def refused(self, core, words):
        with self.assertRaisesRegex(Fault, words):
            core.run(10)

    def test_unknown_instructions(self):
        for codes in UNKNOWN:
            for make in (core_of, m3_core_of):
                self.refused(make(*codes), f"^{codes[0]:04x} is no instruction that is known here; instruction at 0x00000100$")

    def test_instructions_of_the_other_processor(self):
        for codes in UNKNOWN_TO_M0_PLUS:
            words = " ".join(f"{code:04x}" for code in codes)
            self.refused(core_of(*codes), f"^{words} is no instruction")
            stepped(m3_core_of(*codes, registers={1: DATA}))

    def test_unknown_wide_instructions(self):
        for codes in UNKNOWN_TO_M3:
            self.refused(m3_core_of(*codes), f"^{codes[0]:04x} {codes[1]:04x} is no instruction")

    def test_no_memory(self):
        for address in (0x40000, 0x1FFFFFFC, 0x20040000, 0xE000E010, 0xFFFFFFFC):
            self.refused(core_of(0x6801, registers={0: address}), f"load of a word at {address:#010x}, where there is no memory")
            self.refused(core_of(0x6001, registers={0: address}), f"store of a word at {address:#010x}, where there is no memory")

    def test_last_bytes_of_memory(self):
        for address in (0x3FFFC, 0x20000000, 0x2003FFFC):
            stepped(core_of(0x6801, registers={0: address}))

    def test_not_aligned(self):
        for make in (core_of, m3_core_of):
            for code in (0x6801, 0x6001, 0x8801, 0x8001, 0xC802, 0xC002):
                self.refused(make(code, registers={0: DATA + 1}), "not aligned")
        self.refused(m3_core_of(0xE9D0, 0x1200, registers={0: DATA + 2}), "not aligned")

    def test_store_to_flash(self):
        for code, unit in ((0x6001, "word"), (0x8001, "half-word"), (0x7001, "byte")):
            self.refused(core_of(code, registers={0: 0x200}), f"store of a {unit} at 0x00000200, in flash")

    def test_branches_to_no_program(self):
        self.refused(core_of(0x4700, registers={0: 0x200}), "lowest bit is not set")
        self.refused(core_of(0x4700, registers={0: DATA | 1}), "no program at")
        self.refused(m3_core_of(0xBF04, 0xE001, 0xBF00, flags="z"), "branch inside of an IT block")

    def test_flag_that_is_not_kept(self):
        self.refused(core_of(0xF380, 0x8800, registers={0: 1 << 27}), "saturation flag")

    def test_no_end(self):
        self.refused(core_of(0xE7FE), "no end after 10 instructions")

    def test_unknown_wish_of_the_program(self):
        self.refused(core_of(0xBEAB, registers={0: 0x05}), "asks its host for 0x5")

    def test_files_that_are_no_program(self):
        with tempfile.TemporaryDirectory() as folder:
            file = Path(folder) / "file"
            for data in (b"", b"\x7fELF\x02\x01\x01".ljust(64, b"\0"), b"\x7fELF\x01\x01\x01".ljust(18, b"\0") + struct.pack("<H", 3)):
                file.write_bytes(data)
                with self.assertRaisesRegex(Fault, "no program for a 32-bit Arm"):
                    load(file)
