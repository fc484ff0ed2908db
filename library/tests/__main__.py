"""Runs all tests of the library, over a module where one is given."""
import sys
import unittest
from pathlib import Path

from library.tests import programs

FOLDER = Path(__file__).resolve().parent
ROOT = FOLDER.parent.parent

programs.given_module = Path(sys.argv[1]).resolve() if len(sys.argv) > 1 else None
found = unittest.defaultTestLoader.discover(str(FOLDER), top_level_dir=str(ROOT))
sys.exit(not unittest.TextTestRunner().run(found).wasSuccessful())
