"""Tests by programs that check themselves: limits and layout in C, the wrapper's own tests, and the examples."""
import os
import subprocess
import unittest

from library.tests.programs import EXAMPLES, FOLDER, MADE, WRAPPER, cargo, in_c


class Programs(unittest.TestCase):
    def ends_well(self, program):
        ended = subprocess.run([program], stdout=subprocess.PIPE, universal_newlines=True)
        self.assertEqual(ended.returncode, 0, ended.stdout)
        return ended.stdout

    def test_limits(self):
        self.assertRegex(self.ends_well(in_c(FOLDER / "limits.c")), r"^\d+ checks, 0 failed\n$")

    def test_places_of_the_tables(self):
        self.assertRegex(self.ends_well(in_c(FOLDER / "layout.c")), r"^\d+ checks, 0 failed\n$")

    def test_wrapper(self):
        cargo("test", WRAPPER, MADE / "rust")

    def test_wrapper_says_what_is_missing(self):
        settings = {name: value for name, value in os.environ.items() if name != "GUSTLANTERN_LIBRARY"}
        where = ["--manifest-path", str(WRAPPER / "Cargo.toml"), "--target-dir", str(MADE / "without")]
        ended = subprocess.run(["cargo", "build", "--offline", *where], env=settings, stdout=subprocess.PIPE,
                               stderr=subprocess.STDOUT, universal_newlines=True)
        self.assertNotEqual(ended.returncode, 0)
        self.assertIn("GUSTLANTERN_LIBRARY is not set", ended.stdout)

    def test_examples(self):
        for source in sorted(EXAMPLES.glob("*.c")):
            with self.subTest(example=source.stem):
                wanted = source.with_suffix(".expected").read_text(encoding="utf-8")
                self.assertEqual(self.ends_well(in_c(source)), wanted)
