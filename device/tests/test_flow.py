"""Tests of branches, of both sizes."""
import unittest

from device.tests.cores import CODE, DATA, core_of, flags_of, m3_core_of, stepped

# For each condition flags that meet it and flags that do not.
CONDITIONS = (("z", ""), ("", "z"), ("c", ""), ("", "c"), ("n", ""), ("", "n"), ("v", ""), ("", "v"),
              ("c", "cz"), ("cz", "c"), ("nv", "n"), ("v", "nv"), ("", "z"), ("z", ""))


class Flow(unittest.TestCase):
    def test_each_condition_both_ways(self):
        for condition, (meets, fails) in enumerate(CONDITIONS):
            code = 0xD000 | condition << 8 | 3
            self.assertEqual(stepped(core_of(code, flags=meets)).address, CODE + 10, condition)
            self.assertEqual(stepped(core_of(code, flags=fails)).address, CODE + 2, condition)

    def test_backward_and_forward(self):
        self.assertEqual(stepped(core_of(0xD0FC, flags="z")).address, CODE - 4)
        self.assertEqual(stepped(core_of(0xE7FC)).address, CODE - 4)
        self.assertEqual(stepped(core_of(0xE010)).address, CODE + 36)

    def test_link_and_return(self):
        core = stepped(core_of(0xF000, 0xF802, registers={}))
        self.assertEqual((core.address, core.registers[14]), (CODE + 8, CODE + 5))
        core = stepped(core_of(0xF7FF, 0xFFFE))
        self.assertEqual((core.address, core.registers[14]), (CODE, CODE + 5))
        core = stepped(core_of(0x4788, registers={1: 0x201}))
        self.assertEqual((core.address, core.registers[14]), (0x200, CODE + 3))
        core = stepped(core_of(0x4770, registers={14: 0x201}))
        self.assertEqual(core.address, 0x200)
        self.assertEqual(stepped(core_of(0x4687, registers={0: 0x300})).address, 0x300)

    def test_wide_branches(self):
        self.assertEqual(stepped(m3_core_of(0xF000, 0xB802)).address, CODE + 8)
        self.assertEqual(stepped(m3_core_of(0xF43F, 0xAFFC, flags="z")).address, CODE - 4)
        self.assertEqual(stepped(m3_core_of(0xF43F, 0xAFFC)).address, CODE + 4)

    def test_compare_and_branch(self):
        cases = ((0xB118, 0, CODE + 10), (0xB118, 1, CODE + 2), (0xB918, 1, CODE + 10), (0xB918, 0, CODE + 2), (0xB318, 0, CODE + 74))
        for code, value, target in cases:
            self.assertEqual(stepped(m3_core_of(code, registers={0: value})).address, target)

    def test_branch_by_table(self):
        self.assertEqual(stepped(m3_core_of(0xE8DF, 0xF001, 0x0302, registers={1: 1})).address, CODE + 4 + 6)
        self.assertEqual(stepped(m3_core_of(0xE8DF, 0xF011, 0x0102, 0x0103, registers={1: 1})).address, CODE + 4 + 0x206)

    def test_block_runs_what_its_conditions_say_and_sets_no_flags(self):
        block = (0xBF0C, 0x3001, 0x3002, 0x3004)
        core = stepped(m3_core_of(*block, flags="z"), 4)
        self.assertEqual((core.registers[0], core.zero), (5, 0))
        self.assertEqual(stepped(m3_core_of(*block), 4).registers[0], 6)
        core = stepped(m3_core_of(0xBF08, 0x3001, flags="zc"), 2)
        self.assertEqual((core.registers[0], core.zero, core.carry), (1, 1, 1))
        core = stepped(m3_core_of(0xBF04, 0x2800, 0x3001, registers={0: 1}, flags="z"), 3)
        self.assertEqual((core.registers[0], core.address), (1, CODE + 6))

    def test_flags_to_a_register_and_back(self):
        for make in (core_of, m3_core_of):
            core = stepped(make(0xF3EF, 0x8300, 0x2000, 0x1A40, 0xF383, 0x8800, flags="nv"))
            self.assertEqual(core.registers[3], 0x90000000)
            stepped(core, 2)
            self.assertEqual(flags_of(core), "zc")
            self.assertEqual(flags_of(stepped(core)), "nv")

    def test_load_of_the_program_counter(self):
        core = m3_core_of(0xF85D, 0xFB04)
        core.registers[13] = DATA
        core.memory.store(DATA, 4, 0x201)
        stepped(core)
        self.assertEqual((core.address, core.registers[13]), (0x200, DATA + 4))
