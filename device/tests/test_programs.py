"""Tests of compiled programs: on both processors and at three levels of optimisation they write what is computed here."""
import functools
import unittest
from pathlib import Path
from unittest import mock

from device import qemu
from device.building import START, SUPPORT, TARGETS, archive, compile_c, link, place, program
from device.kit import WORK
from device.tests.expected import arithmetic, copies, long_arithmetic
from device.tests.expected_choices import choices
from device.thumb import bits
from device.thumb.core import Core
from device.thumb.faults import Fault
from device.thumb.memory import Memory
from device.thumb.running import run

PROGRAMS = Path(__file__).resolve().parent / "programs"
EXPECTED = {"arithmetic": arithmetic, "long_arithmetic": long_arithmetic, "copies": copies, "choices": choices}
LEVELS = ("-O0", "-Os", "-O2")
FAST = ("-O2",)


@functools.lru_cache(maxsize=None)
def expected(name):
    return "".join(f"{number:08x}\n" for number in EXPECTED[name]())


@functools.lru_cache(maxsize=None)
def built(name, target, level):
    return program([PROGRAMS / f"{name}.c"], target, (level,))


@functools.lru_cache(maxsize=None)
def usual_run(name, target, level):
    return run(built(name, target, level), target.processor)


class Programs(unittest.TestCase):
    def each_level(self, name):
        for target in TARGETS.values():
            for level in LEVELS:
                with self.subTest(processor=target.name, level=level):
                    ended = usual_run(name, target, level)
                    self.assertTrue(ended.well)
                    self.assertEqual(ended.text, expected(name))
                    if qemu.installed():
                        self.assertEqual(qemu.written(built(name, target, level), target), expected(name))

    def test_arithmetic(self):
        self.each_level("arithmetic")

    def test_arithmetic_of_64_bits(self):
        self.each_level("long_arithmetic")

    def test_copies_of_every_length_at_every_alignment(self):
        self.each_level("copies")

    def test_choices_structs_and_data(self):
        self.each_level("choices")


class Planted(unittest.TestCase):
    """A fault that is put in is noticed: by the lines, or because the program stops."""

    def noticed(self, name, changed, *, processor):
        target = TARGETS[processor]
        usual = usual_run(name, target, "-Os")
        with changed:
            try:
                ended = run(built(name, target, "-Os"), target.processor, limit=2 * usual.instructions)
            except Fault:
                return
        self.assertNotEqual(ended.text, usual.text)

    def on_both(self, name, change):
        for processor in TARGETS:
            with self.subTest(processor=processor):
                self.noticed(name, change(), processor=processor)

    def test_carry_inverted(self):
        right = bits.plus
        self.on_both("long_arithmetic", lambda: mock.patch.object(
            bits, "plus", lambda *given: (right(*given)[0], right(*given)[1] ^ 1, right(*given)[2])))

    def test_overflow_lost(self):
        right = bits.plus
        self.on_both("arithmetic", lambda: mock.patch.object(bits, "plus", lambda *given: right(*given)[:2] + (0,)))

    def test_sign_lost(self):
        self.on_both("arithmetic", lambda: mock.patch.object(bits, "extended", lambda value, width: value & (1 << width) - 1))

    def test_byte_stored_too_wide(self):
        right = Memory.store

        def store(memory, address, size, value):
            right(memory, address, size, value)
            if size == 1:
                memory.ram[address + 1 - 0x20000000] = 0

        self.on_both("copies", lambda: mock.patch.object(Memory, "store", store))

    def test_condition_turned(self):
        right = Core.holds
        self.on_both("choices", lambda: mock.patch.object(
            Core, "holds", lambda core, condition: right(core, condition ^ 1) if condition in (8, 9) else right(core, condition)))


class Support(unittest.TestCase):
    def text(self, target, objects):
        own = [compile_c(source, target, FAST) for source in (PROGRAMS / "copies.c", START)]
        return run(link([*own, *objects], place(target, FAST, "own-copy.elf")), target.processor).text

    def test_another_library_s_functions_win(self):
        for target in TARGETS.values():
            held = archive([compile_c(SUPPORT, target, FAST)], WORK / target.name / "libsupport.a")
            wrong = compile_c(PROGRAMS / "short_copy.c", target, FAST)
            self.assertEqual(self.text(target, [held]), expected("copies"))
            for objects in ([held, wrong], [wrong, held], [archive([wrong], WORK / target.name / "libwrong.a"), held]):
                self.assertNotEqual(self.text(target, objects), expected("copies"))
