"""Tests of usage: what is wrong with words that are no command is said, and help starts nothing."""
import unittest
from unittest import mock

from people.commands import COMMANDS
from people.tests.commanding import Commanding
from people.usage import ALL, OPTIONS, USES, BadUse, form, parse

# Words that are no command, and what is said of them.
BAD_WORDS = [
    ([], f"a command or a session is missing; {ALL}"),
    (["--explain"], "./bench --explain [--from N] [--to M] SESSION: SESSION is missing"),
    (["--draw"], "./bench --draw [--from N] [--to M] SESSION: SESSION is missing"),
    (["--svg"], "./bench --svg [--from N] [--to M] FILE SESSION: FILE and SESSION are missing"),
    (["--svg", "file"], "./bench --svg [--from N] [--to M] FILE SESSION: SESSION is missing"),
    (["record"], "./bench record [--raw] SESSION: SESSION is missing"),
    (["order", "file"], "./bench order A B: B is missing"),
    (["compose"], "./bench compose SESSION: SESSION is missing"),
    (["check", "more"], "./bench check: 'more' is too much"),
    (["live", "more"], "./bench live: 'more' is too much"),
    (["order", "one", "two", "three"], "./bench order A B: 'three' is too much"),
    (["--explain", "one", "two"], "./bench --explain [--from N] [--to M] SESSION: 'two' is too much"),
    (["--what"], f"'--what' is no command; {ALL}"),
    (["--exlpain", "w"], f"'--exlpain' is no command; the closest is '--explain'; {ALL}"),
    (["draw", "w"], f"'draw' is no command and no file; the closest is '--draw'; {ALL}"),
    (["one", "two"], f"'one' is no command and no file; {ALL}"),
    (["chek"], f"'chek' is no command and no file; the closest is 'check'; {ALL}"),
    (["--draw", "w", "--from"], "--from N: N is missing"),
    (["--draw", "w", "--to", "x"], "--to M: 'x' is no event's number"),
    (["--draw", "w", "--to", "-1"], "--to M: '-1' is no event's number"),
    (["--draw", "w", "--to", "0x1"], "--to M: '0x1' is no event's number"),
    (["--draw", "w", "--to", "\u0661"], "--to M: '\u0661' is no event's number"),
    (["--draw", "w", "--from", "5", "--to", "4"], "./bench --draw [--from N] [--to M] SESSION: event 5 is behind event 4"),
    (["--draw", "w", "--form", "5"],
     "./bench --draw [--from N] [--to M] SESSION: '--form' is none of its options; the closest is '--from'"),
    (["-", "--from", "5"], "./bench SESSION: '--from' is none of its options"),
    (["-", "--explain"], "./bench SESSION: '--explain' is none of its options; --explain stands before all other words"),
    (["record", "w", "--from", "5"], "./bench record [--raw] SESSION: '--from' is none of its options"),
]


class Usage(unittest.TestCase):
    def test_what_is_wrong_is_said(self):
        for words, said in BAD_WORDS:
            with self.subTest(words=words):
                with self.assertRaises(BadUse) as raised:
                    parse(words)
                self.assertEqual(str(raised.exception), said)

    def test_options_stand_anywhere(self):
        wanted = ("--svg", ["file", "w"], {"first": 4, "last": 9})
        for words in ("--svg file w --from 4 --to 9", "--svg --from 4 --to 9 file w", "--svg file --to 9 w --from 4"):
            self.assertEqual(parse(words.split()), wanted)
        self.assertEqual(parse(["record", "-", "--raw"]), ("record", ["-"], {"raw": 1}))
        self.assertEqual(parse(["-"]), ("", ["-"], {}))
        self.assertEqual(parse(["read", "a", "b", "-"]), ("read", ["a", "b", "-"], {}))
        self.assertEqual(parse(["--draw", "w", "--from", "5", "--to", "5"])[2], {"first": 5, "last": 5})

    def test_each_command_has_its_help(self):
        self.assertEqual(set(COMMANDS), set(USES))
        for command, use in USES.items():
            for option in use.options:
                self.assertIn(f"[{option} {OPTIONS[option][0]}".rstrip(), form(command))


class Helping(Commanding):
    def test_help_fits_a_screen(self):
        status, output, _ = self.command("--help")
        self.assertEqual(status, 0)
        self.assertLess(len(output.splitlines()), 40)
        for words in (*(f"./bench {command}".rstrip() for command in USES), "raw HEX HEX .."):
            self.assertIn(words, output)

    def test_help_of_a_command_starts_nothing(self):
        for command in USES:
            for words in ([command, "--help"], ["--help", command], [command, "one", "two", "three", "-h"]):
                words = [word for word in words if word]
                with mock.patch.dict(COMMANDS, {name: mock.Mock(side_effect=AssertionError) for name in USES if name != "--help"}):
                    status, output, error = self.command(*words)
                self.assertEqual((status, error), (0, ""), words)
                self.assertTrue(output.startswith("./bench SESSION" if command in ("", "--help") else form(command)), output)
                self.assertIn("Exit status", output)
