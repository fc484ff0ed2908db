"""Tests of what is counted: instructions, cycles, stack and calls."""
import unittest

from device.tests.cores import CODE, DATA, STACK_TOP, core_of, m3_core_of, stepped
from device.thumb.calls import Call

CYCLES = {0x1888: 1, 0x4348: 1, 0x2001: 1, 0xB208: 1, 0xBF00: 1, 0x4600: 1, 0x4687: 2, 0x6808: 2, 0x7008: 2, 0x9000: 2, 0x4800: 2,
          0xB407: 4, 0xB501: 3, 0xBC07: 4, 0xBD01: 5, 0xC10E: 4, 0xC907: 4, 0xE7FE: 2, 0x4770: 2, 0x4780: 2, 0xD0FE: 1, 0xD1FE: 2}


class Counting(unittest.TestCase):
    def test_cycles_of_a_cortex_m0_plus(self):
        for code, cycles in CYCLES.items():
            core = core_of(code, registers={0: 0x201, 1: DATA, 13: STACK_TOP - 64, 14: 0x201})
            for place in range(4):
                core.memory.store(STACK_TOP - 64 + 4 * place, 4, 0x201)
            self.assertEqual((stepped(core).cycles, core.instructions), (cycles, 1), hex(code))
        self.assertEqual(stepped(core_of(0xF000, 0xF802)).cycles, 3)

    def test_calls_with_their_stack_and_one_inside_another(self):
        # Each function saves the link register and a second word; the outer calls the inner with 8 more bytes of stack.
        main = (0xF000, 0xF803, 0xBF00, 0xBEAB, 0xBF00)
        outer = (0xB510, 0xB082, 0xF000, 0xF802, 0xB002, 0xBD10)
        inner = (0xB510, 0xBD10)
        names = {CODE + 10: "outer", CODE + 22: "inner"}
        for make, cycles in ((core_of, (3 + 1 + 3 + 3 + 5 + 1 + 5, 3 + 5)), (m3_core_of, (None, None))):
            core = make(*main, *outer, *inner, registers={0: 0x18, 1: 0x20026}, functions=names)
            core.run(100)
            self.assertEqual(core.watch.finished(), [Call("outer", 7, cycles[0], 24), Call("inner", 2, cycles[1], 8)])
            self.assertEqual((core.instructions, core.top - core.lowest, core.host.well), (10, 24, True))

    def test_call_that_ends_in_another_function(self):
        # The watched function branches on to one that returns.
        core = core_of(0xF000, 0xF802, 0xBEAB, 0xBF00, 0xE000, 0xBF00, 0x4770, registers={0: 0x18}, functions={CODE + 8: "jumps"})
        core.run(100)
        self.assertEqual(core.watch.finished(), [Call("jumps", 2, 4, 0)])
        self.assertFalse(core.host.well)
