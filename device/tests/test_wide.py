"""Tests of what a Cortex-M3 alone has, in instructions of two half-words."""
import unittest

from device.tests.cores import CODE, DATA, STACK_TOP, flags_of, m3_core_of, stepped


class Wide(unittest.TestCase):
    def result(self, first, second, flags="", **registers):
        """Register 0 and the flags behind one instruction."""
        core = stepped(m3_core_of(first, second, registers={int(name[1:]): value for name, value in registers.items()}, flags=flags))
        return core.registers[0], flags_of(core)

    def test_constants(self):
        self.assertEqual(self.result(0xF04F, 0x10AB), (0x00AB00AB, ""))
        self.assertEqual(self.result(0xF04F, 0x20AB), (0xAB00AB00, ""))
        self.assertEqual(self.result(0xF04F, 0x30AB), (0xABABABAB, ""))
        self.assertEqual(self.result(0xF45F, 0x007F), (0x00FF0000, ""))
        self.assertEqual(self.result(0xF05F, 0x4000), (0x80000000, "nc"))
        self.assertEqual(self.result(0xF241, 0x2034), (0x1234, ""))
        self.assertEqual(self.result(0xF2C1, 0x2034, r0=0xFFFF5678), (0x12345678, ""))

    def test_sums_and_logic_with_shifts(self):
        self.assertEqual(self.result(0xEB01, 0x0082, r1=1, r2=3), (13, ""))
        self.assertEqual(self.result(0xEBB1, 0x1012, r1=4, r2=64), (0, "zc"))
        self.assertEqual(self.result(0xEBC1, 0x0002, r1=4, r2=64), (60, ""))
        self.assertEqual(self.result(0xEA61, 0x0002, r1=1, r2=0xFFFFFFF0), (0xF, ""))
        self.assertEqual(self.result(0xEA5F, 0x0031, r1=3, flags="c"), (0x80000001, "nc"))
        self.assertEqual(self.result(0xFA01, 0xF002, r1=1, r2=31), (0x80000000, ""))
        self.assertEqual(self.result(0xF201, 0x7002, r1=1), (0x703, ""))

    def test_fields_of_bits(self):
        self.assertEqual(self.result(0xF3C1, 0x1007, r1=0xABC0), (0xBC, ""))
        self.assertEqual(self.result(0xF341, 0x1007, r1=0xABC0), (0xFFFFFFBC, ""))
        self.assertEqual(self.result(0xF361, 0x100B, r0=0xFFFFFFFF, r1=0x5A), (0xFFFFF5AF, ""))
        self.assertEqual(self.result(0xF36F, 0x100B, r0=0xFFFFFFFF), (0xFFFFF00F, ""))

    def test_extension_turning_and_counting(self):
        self.assertEqual(self.result(0xFA4F, 0xF091, r1=0x8000), (0xFFFFFF80, ""))
        self.assertEqual(self.result(0xFA1F, 0xF0A1, r1=0x12345678), (0x1234, ""))
        self.assertEqual(self.result(0xFAB1, 0xF081, r1=0x00010000), (15, ""))
        self.assertEqual(self.result(0xFAB1, 0xF081, r1=0), (32, ""))
        self.assertEqual(self.result(0xFA91, 0xF0A1, r1=1), (0x80000000, ""))
        self.assertEqual(self.result(0xFA91, 0xF081, r1=0x12345678), (0x78563412, ""))

    def test_products_and_quotients(self):
        self.assertEqual(self.result(0xFB01, 0x3002, r1=5, r2=6, r3=7), (37, ""))
        self.assertEqual(self.result(0xFB01, 0x3012, r1=5, r2=6, r3=7), (0xFFFFFFE9, ""))
        self.assertEqual(self.result(0xFB01, 0xF002, r1=0x10000, r2=0x10001), (0x10000, ""))
        self.assertEqual(self.result(0xFBB1, 0xF0F2, r1=0xFFFFFFF9, r2=2), (0x7FFFFFFC, ""))
        self.assertEqual(self.result(0xFB91, 0xF0F2, r1=0xFFFFFFF9, r2=2), (0xFFFFFFFD, ""))
        self.assertEqual(self.result(0xFBB1, 0xF0F2, r1=9, r2=0), (0, ""))
        for code, both in ((0xFBA2, 0xFFFFFFFE00000001), (0xFB82, 1), (0xFBE2, 0xFFFFFFFE00000001 + (7 << 32) + 9)):
            core = stepped(m3_core_of(code, 0x0102, registers={0: 9, 1: 7, 2: 0xFFFFFFFF}))
            self.assertEqual(core.registers[1] << 32 | core.registers[0], both & (1 << 64) - 1)

    def test_loads_and_stores(self):
        for first, second, address, kept in (
                (0xF8C1, 0x0044, DATA + 0x44, DATA), (0xF841, 0x0D04, DATA - 4, DATA - 4), (0xF841, 0x0B04, DATA, DATA + 4),
                (0xF841, 0x0C04, DATA - 4, DATA), (0xF841, 0x0032, DATA + 8 * 2, DATA)):
            core = stepped(m3_core_of(first, second, registers={0: 0x8182F3F4, 1: DATA, 2: 2}))
            self.assertEqual((core.memory.load(address, 4), core.registers[1]), (0x8182F3F4, kept))
        for first, value in ((0xF891, 0xF4), (0xF8B1, 0xF3F4), (0xF991, 0xFFFFFFF4), (0xF9B1, 0xFFFFF3F4), (0xF8D1, 0x8182F3F4)):
            core = m3_core_of(first, 0x0004, registers={1: DATA})
            core.memory.store(DATA + 4, 4, 0x8182F3F4)
            self.assertEqual(stepped(core).registers[0], value)
        self.assertEqual(stepped(m3_core_of(0xF8DF, 0x0004, 0, 0, 0x5678, 0x1234)).registers[0], 0x12345678)

    def test_two_and_several(self):
        core = stepped(m3_core_of(0xE9E1, 0x2302, 0xE9D1, 0x4500, registers={1: DATA, 2: 5, 3: 6}), 2)
        self.assertEqual((core.registers[1], core.memory.load(DATA + 8, 4), core.memory.load(DATA + 12, 4)), (DATA + 8, 5, 6))
        self.assertEqual(core.registers[4:6], [5, 6])
        core = stepped(m3_core_of(0xE92D, 0x4110, 0xE8BD, 0x8011, registers={4: 1, 8: 2, 14: 0x201}))
        self.assertEqual([core.memory.load(STACK_TOP - 12 + 4 * place, 4) for place in range(3)], [1, 2, 0x201])
        core.memory.store(STACK_TOP - 4, 4, 0x301)
        stepped(core)
        self.assertEqual((core.registers[0], core.registers[4], core.address, core.registers[13]), (1, 2, 0x300, STACK_TOP))
        self.assertEqual(core.registers[14], 0x201)

    def test_address_from_the_program_counter(self):
        self.assertEqual(self.result(0xF20F, 0x0008), (CODE + 12, ""))
        self.assertEqual(self.result(0xF2AF, 0x0008), (CODE - 4, ""))
