"""Tests of how the proved bench reads and writes."""
import tempfile
import unittest
from typing import List

from tools.programs import program
from tools.tests.streams import Streams


class Bench(Streams, unittest.TestCase):
    def setUp(self) -> None:
        folder = tempfile.TemporaryDirectory()
        self.addCleanup(folder.cleanup)
        self.folder = folder.name

    def words(self, lines: bytes) -> List[str]:
        return program("bench")
