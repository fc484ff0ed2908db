"""Tests of tools/respell: the names here have its spelling, and what the prover has named keeps its own."""
import tempfile
import unittest
from importlib.machinery import SourceFileLoader
from importlib.util import module_from_spec, spec_from_loader
from pathlib import Path

from tools.counting import ROOT

loader = SourceFileLoader("respell", str(ROOT / "tools" / "respell"))
respell = module_from_spec(spec_from_loader(loader.name, loader))
loader.exec_module(respell)

LEMMA, ANSWER = "pub is-kept : ℕ → ℕ\nis-kept = twiceOf\n", "returns-in-Accepted : goal returns\nreturns-in-Accepted = is-kept\n"


class Respelling(unittest.TestCase):
    def test_nothing_is_left_to_respell_here(self):
        self.assertEqual(respell.table(str(ROOT)), {})
        self.assertEqual([path for path in respell.files(str(ROOT)) if respell.respelled(path, {}) != respell.text(path)], [])

    def test_names_of_goals_stay(self):
        with tempfile.TemporaryDirectory() as folder:
            proofs = Path(folder) / "crates" / "one" / "proofs"
            (proofs / "f").mkdir(parents=True)
            (proofs / "Kept.antt").write_text(LEMMA)
            (proofs / "f" / "Answers.antt").write_text(ANSWER)
            respell.respell(folder, respell.table(folder))
            self.assertEqual((proofs / "Kept.antt").read_text(), LEMMA.replace("is-kept", "is_kept"))
            self.assertEqual((proofs / "f" / "Answers.antt").read_text(), ANSWER.replace("is-kept", "is_kept"))
