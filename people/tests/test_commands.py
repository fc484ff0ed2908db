"""Tests of the commands: what goes to which output, and the exit status. The program's lines are given."""
from unittest import mock

from people import checking, commands
from people.running import Failed, NotRun
from people.tests import session_w
from people.tests.commanding import Commanding
from people.tests.test_drawing import long_session


class Commands(Commanding):
    def test_a_session_prints_the_lines_and_nothing_else(self):
        self.assertEqual(self.command(self.session), (0, "\n".join(session_w.LINES) + "\n", ""))
        self.assertEqual(self.command("-", given=session_w.TEXT.encode())[1], "\n".join(session_w.LINES) + "\n")

    def test_explain_and_draw_print_text(self):
        for word, part in (("--explain", "slot 1 starts with 3:1 5:0"), ("--draw", "s..w.....=====o>--w-----!~~x~~r")):
            status, output, error = self.command(word, self.session)
            self.assertEqual((status, error), (0, ""))
            self.assertIn(part, output)

    def test_svg_writes_a_file(self):
        drawn = self.folder / "w.svg"
        self.assertEqual(self.command("--svg", str(drawn), self.session), (0, b"", ""))
        self.assertTrue(drawn.read_text(encoding="utf-8").startswith("<svg "))
        left_out = f"{drawn}: left out: events 1 to 3 and events 6 to 12; --from N and --to M show others\n"
        self.assertEqual(self.command("--svg", str(drawn), self.session, "--from", "4", "--to", "5"), (0, b"", left_out))

    def test_svg_leaves_no_file_that_is_cut_short(self):
        drawn = self.folder / "w.svg"
        self.assertEqual(self.command("--svg", str(drawn), self.session, lines=session_w.LINES[:5])[0], 1)
        self.assertFalse(drawn.exists())
        status, _, error = self.command("--svg", str(self.folder / "none" / "w.svg"), self.session, lines=AssertionError())
        self.assertEqual((status, "there is no folder" in error), (2, True))
        self.assertEqual(self.command("--svg", str(self.folder), self.session)[::2], (2, f"{self.folder}: Is a directory\n"))

    def test_long_drawings_are_limited(self):
        text, lines = long_session(1100)
        session = self.file("long.session", text)
        self.assertIn("left out: events 1001 to 1101; ", self.command("--draw", session, lines=lines)[1])
        self.assertNotIn("left out", self.command("--draw", "--to", "1101", session, lines=lines)[1])
        self.assertIn("left out: events 1 to 99; ", self.command("--draw", session, "--from", "100", "--to", "2000", lines=lines)[1])
        status, _, error = self.command("--svg", str(self.folder / "long.svg"), session, lines=lines)
        self.assertEqual((status, "left out: events 401 to 1101; " in error), (0, True))

    def test_a_section_is_shown(self):
        status, output, _ = self.command("--explain", "--from", "4", "--to", "5", self.session)
        self.assertEqual((status, [line[:6] for line in output.splitlines()]), (0, ["4 0 1 ", "5 0 65"]))
        for word in ("--explain", "--draw"):
            self.assertEqual(self.command(word, self.session, "--from", "13")[0], 2)

    def test_record_prints_the_ends(self):
        said = f"10 {session_w.END_RECORD.hex(' ').upper()}\n12 10 00 02 02 09 00 00 00 01 02 03 01 00 00 00 05 00 00 00 00\n"
        self.assertEqual(self.command("record", self.session), (0, said, ""))
        status, output, _ = self.command("record", "--raw", self.session)
        self.assertEqual((status, output[:15], len(output)), (0, session_w.END_RECORD, 35))

    def test_record_keeps_no_end_that_cannot_be(self):
        status, output, error = self.command("record", self.session, lines=session_w.LINES[:9] + ["10 0 20"] + session_w.LINES[10:])
        self.assertEqual((status, output), (1, b""))
        self.assertEqual(error, "'10 0 20' does not follow from the lines before it: its end record has 15 bytes\n")

    def test_record_of_no_ends_and_of_a_session_that_does_not_begin(self):
        self.assertEqual(self.command("record", self.file("a", "fresh 0\n"), lines=[]), (0, b"", ""))
        self.assertEqual(self.command("record", self.file("b", "start 0 3:1\n"), lines=["0 12 0"]), (0, b"", ""))

    def test_order_takes_files_and_digits(self):
        path = self.folder / "end"
        path.write_bytes(session_w.END_RECORD)
        digits = self.file("digits", "10 00 02 02 09 00 00 00 01 02\n03 01 00 00 00 05 00 00 00 00\n")
        said = "A came first: object 3 has version 0 in A and 1 in B\n"
        self.assertEqual(self.command("order", str(path), digits), (0, said, ""))
        self.assertEqual(self.command("order", "-", digits, given=session_w.END_RECORD), (0, said, ""))
        self.assertEqual(self.command("order", session_w.END_RECORD.hex(" "), digits), (0, said, ""))
        longest = "7E 00 01 02 00 00 00 00 00 18 " + " ".join(f"{number:02X} 00 00 00 00" for number in range(24))
        self.assertEqual(self.command("order", longest, digits), (0, said, ""))
        self.assertEqual(self.command("order", "0B", digits), (1, b"", "A is no end record: under 4 bytes (there are 1)\n"))
        status, _, error = self.command("order", "missing", digits)
        self.assertEqual((status, error), (2, "'missing' is no file, and not the hexadecimal digits of a record\n"))

    def test_compose_and_read(self):
        self.assertEqual(self.command("compose", self.session), (0, session_w.BYTES, ""))
        status, output, _ = self.command("read", given=session_w.BYTES)
        self.assertEqual(status, 0)
        self.assertIn("byte 122: slot 1 calls object 3: read\n", output)

    def test_read_says_what_is_no_record(self):
        path = self.folder / "end"
        path.write_bytes(session_w.END_RECORD + b"\x05\x00")
        said = ("byte 0: end record: slot 0 rolled back at tick 7, object 3 version 0\n"
                "byte 15: no record: under 4 bytes (there are 2)\n")
        self.assertEqual(self.command("read", str(path)), (1, said, ""))
        self.assertEqual(self.command("read"), (1, "byte 0: no record: under 4 bytes (there are 0)\n", ""))
        self.assertIn(f"{path}, byte 0: end", self.command("read", str(path), str(path))[1])

    def test_a_bad_line_writes_nothing(self):
        bad = self.file("bad.session", "fresh 0\nstart 300 3:1\n")
        drawn = self.folder / "bad.svg"
        for words in ([bad], ["--explain", bad], ["--draw", bad], ["--svg", str(drawn), bad], ["compose", bad]):
            status, output, error = self.command(*words)
            self.assertEqual((status, output), (2, b""))
            self.assertEqual(error, f"{bad}, line 2: start 300 3:1\n    expected start SLOT OBJECT:SUPREMUM .., "
                                    "but '300' is no number from 0 to 255\n")
        self.assertFalse(drawn.exists())

    def test_what_cannot_be_read_is_said(self):
        missing = str(self.folder / "missing")
        for words in ([missing], ["compose", missing], ["read", missing]):
            status, _, error = self.command(*words)
            self.assertEqual(status, 2)
            self.assertIn(missing, error)
        binary = self.folder / "binary"
        binary.write_bytes(b"\xff\xfe")
        self.assertEqual(self.command(str(binary))[0], 2)

    def test_many_bad_lines_are_counted(self):
        bad = self.file("bad.session", "fresh 0\n" + "begin\n" * 20000)
        status, output, error = self.command(bad)
        self.assertEqual((status, output, len(error.splitlines())), (2, b"", 21))
        self.assertTrue(error.endswith(f"\n{bad}: 19990 more bad lines\n"))
        self.assertNotIn("more", self.command(self.file("ten.session", "begin\n" * 10))[2])

    def test_a_program_that_does_not_run(self):
        self.assertEqual(self.command(self.session, lines=NotRun("not proved")), (1, b"", "not proved\n"))

    def test_a_program_that_prints_too_few_lines_or_too_many(self):
        for word in ([], ["--explain"], ["--draw"], ["record"]):
            for lines in (session_w.LINES[:7], session_w.LINES + ["13 0 0"]):
                status, output, error = self.command(*word, self.session, lines=lines)
                self.assertEqual((status, len(error.splitlines())), (1, 1), (word, error))
                self.assertEqual("cut short" in error, len(lines) == 7, error)
        self.assertEqual(self.command(self.session, lines=session_w.LINES[:7])[1], "\n".join(session_w.LINES[:7]) + "\n")

    def checked(self, lines=session_w.LINES):
        found = checking.check
        with mock.patch.object(commands, "check", lambda: found(self.folder)):
            return self.command("check", lines=lines)

    def test_check_compares_each_session(self):
        self.file("w.lines", "\n".join(session_w.LINES) + "\n")
        self.assertEqual(self.checked(), (0, "1 of 1, w: as expected\n1 passed, 0 failed\n", ""))
        status, output, _ = self.checked(lines=session_w.LINES[:6])
        self.assertEqual((status, output), (1, "1 of 1, w: line 7 is 'nothing', expected '7 0 65'\n0 passed, 1 failed\n"))
        status, output, _ = self.checked(lines=["1 4 0"] + session_w.LINES[1:])
        self.assertEqual((status, output), (1, "1 of 1, w: line 1 is '1 4 0', expected '1 0 0'\n0 passed, 1 failed\n"))

    def test_check_misses_no_file(self):
        self.file("other.lines", "")
        status, output, _ = self.checked()
        self.assertEqual(status, 1)
        self.assertEqual(output, "1 of 2, other: other.session is missing\n2 of 2, w: w.lines is missing\n0 passed, 2 failed\n")

    def test_check_goes_on_behind_a_program_that_fails(self):
        self.file("w.lines", "")
        status, output, _ = self.checked(lines=Failed(["it was ended by SIGSEGV"]))
        said = "the program 'bench' failed, and its output is cut short: it was ended by SIGSEGV"
        self.assertEqual((status, output), (1, f"1 of 1, w: {said}\n0 passed, 1 failed\n"))
