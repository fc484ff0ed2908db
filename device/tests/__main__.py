"""Runs all tests of the device."""
import sys
import unittest
from pathlib import Path

from device import qemu

FOLDER = Path(__file__).resolve().parent
ROOT = FOLDER.parent.parent

if not qemu.installed():
    print(qemu.ABSENT, file=sys.stderr)
found = unittest.defaultTestLoader.discover(str(FOLDER), top_level_dir=str(ROOT))
sys.exit(not unittest.TextTestRunner().run(found).wasSuccessful())
