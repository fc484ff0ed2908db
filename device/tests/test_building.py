"""Tests of how a module is made ready, of complaints, and of the copy of the kit."""
import contextlib
import io
import tempfile
import unittest
from pathlib import Path

from device import kit
from device.__main__ import main as play_main
from device.building import M0_PLUS, SMALL, START, SUPPORT, compile_c, compile_module, link, place, plain_module, program
from device.kit import NotBuilt
from device.playing import first_difference
from device.thumb.__main__ import main as run_main

MODULE = """target triple = "aarch64-unknown-linux-gnu"
define i32 @gustlantern_answer(i32 %given) #0 {
  %sum = add i32 %given, 42
  ret i32 %sum
}
attributes #0 = { nounwind "probe-stack"="inline-asm" "stack-probe-size"="3072" "target-cpu"="x86-64-v2" }
"""
FIRST = """define {{ {shape} }} @first({{ {shape} }} %given) {{
  ret {{ {shape} }} %given
}}
"""
CALLER = """#include "host.h"
uint32_t gustlantern_answer(uint32_t given);
void play(void)
{
    char text[12] = "";
    put_number(text, gustlantern_answer(1));
    host_write(text);
}
"""


class Building(unittest.TestCase):
    def setUp(self):
        temporary = tempfile.TemporaryDirectory()
        self.addCleanup(temporary.cleanup)
        self.folder = Path(temporary.name)

    def file(self, name, text):
        made = self.folder / name
        made.write_text(text)
        return made

    def test_module_for_another_computer_is_compiled_and_called(self):
        plain = plain_module(self.file("of_test.ll", MODULE))
        self.assertNotIn("x86-64", plain.read_text())
        self.assertNotIn("probe", plain.read_text())
        objects = [compile_c(source, M0_PLUS) for source in (self.file("caller.c", CALLER), START, SUPPORT)]
        made = link([compile_module(plain, M0_PLUS), *objects], place(M0_PLUS, SMALL, "of_test.elf"))
        written = io.StringIO()
        with contextlib.redirect_stdout(written):
            self.assertEqual(run_main([str(made), "--calls"]), 0)
        self.assertRegex(written.getvalue(), r"^43gustlantern_answer: 2 instructions, 3 cycles, 0 bytes of stack\nin all: ")

    def test_a_value_that_a_processor_takes_apart_otherwise_is_told(self):
        for shape in ("ptr, i64", "i8, i8", "i32, i32", "i64, ptr"):
            plain_module(self.file("kept.ll", FIRST.format(shape=shape)))
        for shape in ("i8, ptr", "i1, ptr", "ptr, ptr", "ptr, i32", "i64, ptr, ptr"):
            with self.assertRaisesRegex(NotBuilt, "^moved.ll hands on a value .*32 bits: { " + shape + " }$"):
                plain_module(self.file("moved.ll", FIRST.format(shape=shape)))

    def test_what_was_written_before_a_fault_is_told(self):
        source = self.file("stops.c", '#include "host.h"\nvoid play(void) { host_write("so far\\n"); __builtin_trap(); }\n')
        written, complaints = io.StringIO(), io.StringIO()
        with contextlib.redirect_stdout(written), contextlib.redirect_stderr(complaints):
            self.assertEqual(run_main([str(program([source], M0_PLUS))]), 1)
        self.assertEqual(written.getvalue(), "so far\n")
        self.assertRegex(complaints.getvalue(), "^defe is no instruction that is known here; instruction at 0x")

    def test_complaints_of_the_compiler_are_told(self):
        with self.assertRaisesRegex(NotBuilt, "clang failed:\n.*error"):
            compile_c(self.file("wrong.c", "int x = ;\n"), M0_PLUS)
        with self.assertRaisesRegex(NotBuilt, "can't be run"):
            kit.command(["no-such-command"])

    def test_copy_of_the_kit_has_all_of_it_and_another_clang(self):
        copy = self.folder / "kit"
        rt = kit.kit_that_keeps(copy, self.folder / "kept.bc")
        for folder in (".", "bin", "toolchain", "toolchain/bin"):
            for entry in (kit.home() / folder).iterdir():
                self.assertTrue((copy / folder / entry.name).exists(), entry.name)
        self.assertEqual(kit.command([str(rt), "doc"]), f"{copy.resolve()}/START-HERE.md\n")
        clang = copy / kit.TOOLCHAIN / "bin" / "clang"
        given, made = self.file("given.bc", MODULE), self.folder / "made.ll"
        kit.command([str(clang), "-S", "-emit-llvm", "-Wno-override-module", "-x", "ir", str(given), "-o", str(made)])
        self.assertEqual((self.folder / "kept.bc").read_text(), MODULE)

    def test_differences_are_told(self):
        self.assertEqual(first_difference("1 0 0\n", "1 0 0\n"), "")
        self.assertEqual(first_difference("1 0 0\n2 0 1\n", "1 0 0\n2 0 2\n"), "line 2 is '2 0 1', expected '2 0 2'")
        self.assertEqual(first_difference("", "1 0 0\n"), "line 1 is 'nothing', expected '1 0 0'")

    def test_commands_say_what_is_missing(self):
        complaints = io.StringIO()
        with contextlib.redirect_stderr(complaints):
            self.assertEqual(play_main(["--module", str(self.folder / "none.bc")]), 1)
            self.assertEqual(run_main([str(self.folder / "none.elf")]), 1)
        self.assertIn("none.bc", complaints.getvalue())
        self.assertIn("none.elf", complaints.getvalue())
