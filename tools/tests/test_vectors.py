"""Tests of the verdict of tools/vectors."""
import contextlib
import io
import unittest
from importlib.machinery import SourceFileLoader
from importlib.util import module_from_spec, spec_from_loader
from typing import Callable, Dict, List, Tuple

from tools.counting import CRATES, ROOT

loader = SourceFileLoader("vectors", str(ROOT / "tools" / "vectors"))
vectors = module_from_spec(spec_from_loader(loader.name, loader))
loader.exec_module(vectors)

EXPECTED = {name: (CRATES / name / "stdout").read_text(encoding="utf-8").splitlines() for name in vectors.PROGRAMS}


class Verdict(unittest.TestCase):
    def verdict(self, change: Callable[[List[str]], List[str]], changed: str = "test_steps") -> Tuple[int, str]:
        """The status and the last line, where the lines of one program are changed."""
        printed: Dict[str, List[str]] = {**EXPECTED, changed: change(EXPECTED[changed])}
        vectors.played = lambda name, page: printed[name]
        with contextlib.redirect_stdout(io.StringIO()) as out:
            status = vectors.verdict(list(vectors.PROGRAMS))
        return status, out.getvalue().splitlines()[-1]

    def test_all_as_expected(self):
        self.assertEqual(self.verdict(lambda lines: lines), (0, f"{sum(map(len, EXPECTED.values()))} lines as expected"))

    def test_the_first_difference_is_told(self):
        for change, told in ((lambda lines: [lines[0], "other", *lines[2:]], "line 2 of test_steps is 'other', expected"),
                             (lambda lines: lines[:-1], "is 'nothing', expected"),
                             (lambda lines: [*lines, "more"], "is 'more', expected 'nothing'")):
            status, last = self.verdict(change)
            self.assertEqual(status, 1)
            self.assertIn(told, last)
