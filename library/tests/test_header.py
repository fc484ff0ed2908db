"""Tests of the header alone: as C and as C++, with every warning an error."""
import shutil
import subprocess
import unittest

from library.tests.programs import HEADER

WARNINGS = ("-Wall", "-Wextra", "-Wpedantic", "-Wconversion", "-Werror")


class Header(unittest.TestCase):
    def compiles(self, compiler, language, standard):
        words = [compiler, "-x", language, f"-std={standard}", *WARNINGS, f"-I{HEADER}", "-fsyntax-only", "-"]
        ended = subprocess.run(words, input='#include "gustlantern.h"\n#include "gustlantern.h"\n', stdout=subprocess.PIPE,
                               stderr=subprocess.STDOUT, universal_newlines=True)
        self.assertEqual((ended.returncode, ended.stdout), (0, ""))

    def test_as_c(self):
        for standard in ("c99", "c11"):
            self.compiles("gcc", "c", standard)

    @unittest.skipUnless(shutil.which("g++"), "g++ is not on the PATH")
    def test_as_cpp(self):
        for standard in ("c++11", "c++17"):
            self.compiles("g++", "c++", standard)
