"""Runs the tests that need no proof; with the word 'program' those of the proved bench, which have to find it proved."""
import sys
import unittest
from pathlib import Path

from tools.counting import ROOT
from tools.needs import words_of

parser = words_of("python3 -B -m tools.tests", __doc__)
parser.add_argument("what", nargs="?", choices=("program",), help="the tests of the proved bench")
pattern = f"{parser.parse_args().what or 'test'}_*.py"
found = unittest.defaultTestLoader.discover(str(Path(__file__).resolve().parent), pattern=pattern, top_level_dir=str(ROOT))
sys.exit(not unittest.TextTestRunner().run(found).wasSuccessful())
