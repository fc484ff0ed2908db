"""Tests of loads and stores in instructions of one half-word."""
import unittest

from device.tests.cores import CODE, DATA, STACK_TOP, core_of, stepped

PUSH_R0_R1_LINK, POP_R2_R3_PROGRAM = 0xB503, 0xBD0C


class Memory(unittest.TestCase):
    def test_each_width_is_stored_alone_and_loaded_back(self):
        for store, load, size in ((0x6041, 0x6841, 4), (0x8041, 0x8841, 2), (0x7041, 0x7841, 1)):
            core = core_of(store, load, registers={0: DATA, 1: 0x8899AABB})
            core.memory.ram[:] = b"\x55" * len(core.memory.ram)
            stepped(core)
            value = 0x8899AABB & (1 << 8 * size) - 1
            place = DATA - 0x20000000 + size
            self.assertEqual(core.memory.ram[place:place + size], value.to_bytes(size, "little"))
            self.assertEqual(core.memory.ram.count(0x55), len(core.memory.ram) - size)
            self.assertEqual(stepped(core).registers[1], value)

    def test_offsets_in_registers_and_signs(self):
        codes = {0x5088: None, 0x5288: None, 0x5488: None}
        for code in codes:
            core = stepped(core_of(code, registers={0: 0x8182F3F4, 1: DATA, 2: 8}))
            codes[code] = core.memory.load(DATA + 8, 4)
        self.assertEqual(list(codes.values()), [0x8182F3F4, 0xF3F4, 0xF4])
        loads = {0x5888: 0x8182F3F4, 0x5A88: 0xF3F4, 0x5C88: 0xF4, 0x5688: 0xFFFFFFF4, 0x5E88: 0xFFFFF3F4}
        for code, value in loads.items():
            core = core_of(code, registers={1: DATA, 2: 8})
            core.memory.store(DATA + 8, 4, 0x8182F3F4)
            self.assertEqual(stepped(core).registers[0], value, hex(code))

    def test_constants_and_the_stack(self):
        core = stepped(core_of(0x4801, 0xA102, 0xBF00, 0xBF00, 0x5678, 0x1234), 2)
        self.assertEqual(core.registers[:2], [0x12345678, CODE + 4 + 8])
        core = stepped(core_of(0xB084, 0x9003, 0x9903, registers={0: 77}), 3)
        self.assertEqual((core.registers[1], core.memory.load(STACK_TOP - 4, 4)), (77, 77))

    def test_push_and_pop(self):
        core = stepped(core_of(PUSH_R0_R1_LINK, registers={0: 10, 1: 11, 14: 0x201}))
        self.assertEqual(core.registers[13], STACK_TOP - 12)
        self.assertEqual([core.memory.load(STACK_TOP - 12 + 4 * place, 4) for place in range(3)], [10, 11, 0x201])
        core = stepped(core_of(PUSH_R0_R1_LINK, POP_R2_R3_PROGRAM, registers={0: 10, 1: 11, 14: 0x201}), 2)
        self.assertEqual((core.registers[2:4], core.address, core.registers[13]), ([10, 11], 0x200, STACK_TOP))

    def test_multiple_moves_its_base_unless_that_is_loaded(self):
        core = stepped(core_of(0xC006, registers={0: DATA, 1: 5, 2: 6}))
        self.assertEqual((core.registers[0], core.memory.load(DATA, 4), core.memory.load(DATA + 4, 4)), (DATA + 8, 5, 6))
        core = core_of(0xC803, registers={0: DATA})
        core.memory.store(DATA, 4, 5)
        core.memory.store(DATA + 4, 4, 6)
        self.assertEqual(stepped(core).registers[:2], [5, 6])
