"""Tests of data processing in instructions of one half-word."""
import unittest

from device.tests.cores import STACK_TOP, core_of, flags_of, stepped
from device.thumb.memory import RAM_START

ADDS_R0_R1_R2, SUBS_R0_R1_R2 = 0x1888, 0x1A88
ADCS_R0_R1, SBCS_R0_R1, CMP_R0_R1, NEGS_R0_R1, MULS_R0_R1 = 0x4148, 0x4188, 0x4288, 0x4248, 0x4348


class Data(unittest.TestCase):
    def result(self, code, flags="", **registers):
        """Register 0 and the flags behind one instruction."""
        core = stepped(core_of(code, registers={int(name[1:]): value for name, value in registers.items()}, flags=flags))
        return core.registers[0], flags_of(core)

    def test_addition_sets_all_flags(self):
        self.assertEqual(self.result(ADDS_R0_R1_R2, r1=1, r2=2), (3, ""))
        self.assertEqual(self.result(ADDS_R0_R1_R2, r1=0xFFFFFFFF, r2=1), (0, "zc"))
        self.assertEqual(self.result(ADDS_R0_R1_R2, r1=0x7FFFFFFF, r2=1), (0x80000000, "nv"))
        self.assertEqual(self.result(ADDS_R0_R1_R2, r1=0x80000000, r2=0x80000000), (0, "zcv"))

    def test_subtraction_carries_where_it_does_not_borrow(self):
        self.assertEqual(self.result(SUBS_R0_R1_R2, r1=5, r2=5), (0, "zc"))
        self.assertEqual(self.result(SUBS_R0_R1_R2, r1=5, r2=6), (0xFFFFFFFF, "n"))
        self.assertEqual(self.result(SUBS_R0_R1_R2, r1=0x80000000, r2=1), (0x7FFFFFFF, "cv"))
        self.assertEqual(self.result(0x1F48, r1=9), (4, "c"))

    def test_sums_with_carry_take_it(self):
        self.assertEqual(self.result(ADCS_R0_R1, r0=1, r1=2, flags="c"), (4, ""))
        self.assertEqual(self.result(ADCS_R0_R1, r0=0xFFFFFFFF, r1=0, flags="c"), (0, "zc"))
        self.assertEqual(self.result(SBCS_R0_R1, r0=5, r1=2, flags="c"), (3, "c"))
        self.assertEqual(self.result(SBCS_R0_R1, r0=5, r1=5), (0xFFFFFFFF, "n"))

    def test_comparison_and_negation(self):
        self.assertEqual(self.result(CMP_R0_R1, r0=1, r1=2), (1, "n"))
        self.assertEqual(self.result(NEGS_R0_R1, r1=1), (0xFFFFFFFF, "n"))
        self.assertEqual(self.result(NEGS_R0_R1, r1=0), (0, "zc"))

    def test_shifts_by_a_number(self):
        self.assertEqual(self.result(0x0048, r1=0xC0000000), (0x80000000, "nc"))
        self.assertEqual(self.result(0x0008, r1=0, flags="c"), (0, "zc"))
        self.assertEqual(self.result(0x0848, r1=3), (1, "c"))
        self.assertEqual(self.result(0x0808, r1=0x80000000), (0, "zc"))
        self.assertEqual(self.result(0x1048, r1=0x80000001), (0xC0000000, "nc"))
        self.assertEqual(self.result(0x1008, r1=0x80000000), (0xFFFFFFFF, "nc"))

    def test_shifts_by_a_register(self):
        self.assertEqual(self.result(0x4088, r0=1, r1=32), (0, "zc"))
        self.assertEqual(self.result(0x4088, r0=1, r1=33), (0, "z"))
        self.assertEqual(self.result(0x4088, r0=1, r1=0x100, flags="c"), (1, "c"))
        self.assertEqual(self.result(0x40C8, r0=0x80000000, r1=32), (0, "zc"))
        self.assertEqual(self.result(0x4108, r0=0x80000000, r1=200), (0xFFFFFFFF, "nc"))
        self.assertEqual(self.result(0x41C8, r0=1, r1=1), (0x80000000, "nc"))
        self.assertEqual(self.result(0x41C8, r0=0x80000001, r1=32), (0x80000001, "nc"))

    def test_logic_keeps_carry_and_overflow(self):
        self.assertEqual(self.result(0x4008, r0=6, r1=3, flags="cv"), (2, "cv"))
        self.assertEqual(self.result(0x4308, r0=6, r1=0x80000000, flags="c"), (0x80000006, "nc"))
        self.assertEqual(self.result(0x4048, r0=6, r1=6), (0, "z"))
        self.assertEqual(self.result(0x4388, r0=7, r1=2), (5, ""))
        self.assertEqual(self.result(0x43C8, r1=0), (0xFFFFFFFF, "n"))
        self.assertEqual(self.result(0x2000, flags="ncv"), (0, "zcv"))

    def test_product_wraps(self):
        self.assertEqual(self.result(MULS_R0_R1, r0=0x10001, r1=0x10001), (0x20001, ""))

    def test_extension_and_turned_bytes(self):
        self.assertEqual(self.result(0xB208, r1=0x18000), (0xFFFF8000, ""))
        self.assertEqual(self.result(0xB248, r1=0x17F), (0x7F, ""))
        self.assertEqual(self.result(0xB248, r1=0x180), (0xFFFFFF80, ""))
        self.assertEqual(self.result(0xB288, r1=0x12345678), (0x5678, ""))
        self.assertEqual(self.result(0xB2C8, r1=0x12345678), (0x78, ""))
        self.assertEqual(self.result(0xBA08, r1=0x12345678), (0x78563412, ""))
        self.assertEqual(self.result(0xBA48, r1=0x12345678), (0x34127856, ""))
        self.assertEqual(self.result(0xBAC8, r1=0x000000FF), (0xFFFFFF00, ""))

    def test_upper_registers_and_the_stack_pointer(self):
        core = stepped(core_of(0x4688, 0x4488, 0xB082, 0x466B, registers={1: 7, 8: 1}, flags="z"), 4)
        self.assertEqual((core.registers[8], core.registers[3], flags_of(core)), (14, STACK_TOP - 8, "z"))
        core = stepped(core_of(0x468D, 0xA801, registers={1: RAM_START + 0x13}), 2)
        self.assertEqual((core.registers[13], core.registers[0]), (RAM_START + 0x10, RAM_START + 0x14))
