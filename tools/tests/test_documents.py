"""Tests of what tools/documents finds wrong in a text, and of how the list of crates is read."""
import unittest
from importlib.machinery import SourceFileLoader
from importlib.util import module_from_spec, spec_from_loader
from typing import List

from tools.counting import ROOT, edits, listed, reached, uses

loader = SourceFileLoader("documents", str(ROOT / "tools" / "documents"))
documents = module_from_spec(spec_from_loader(loader.name, loader))
loader.exec_module(documents)

KNOWN = documents.words_of_sources().union(listed(), documents.OTHERS)


class Listed(unittest.TestCase):
    def test_a_static_library_is_listed_by_its_name(self):
        self.assertIn("kernel", listed())
        self.assertIn("pump", uses()["kernel"])
        self.assertIn("counters", reached(["kernel"]))


class Faults(unittest.TestCase):
    def faults(self, text: str) -> List[str]:
        crates = listed()
        programs = {crate: {edit.stem for edit in edits(crate)} for crate in crates}
        return [*documents.file_faults(text, crates, programs), *documents.name_faults(text, crates, KNOWN)]

    def test_what_is_there_is_no_fault(self):
        text = "`pump::start`, `fresh_tables`, kernel/specs/Border, `Rattle.runs.specs.Demands`, tools/compare, `rattle-kit-5b`"
        self.assertEqual(self.faults(text), [])

    def test_what_is_not_there_is_named(self):
        for text, told in (("`freshTables`", "nothing is called freshTables"),
                           ("`fresh_tables_2`", "nothing is called fresh_tables_2"),
                           ("`pump::no_such_function`", "the crate pump has no no_such_function"),
                           ("kernel/no_such_program", "there is no wrong program kernel/no_such_program"),
                           ("kernel/specs/Borders", "there is no file kernel/specs/Borders"),
                           ("Rattle.runs.specs.Demand", "there is no module Rattle.runs.specs.Demand"),
                           ("Rattle.pump.proofs.Nowhere.At", "there is no module Rattle.pump.proofs.Nowhere.At"),
                           ("tools/nothing", "there is no command tools/nothing")):
            with self.subTest(text=text):
                self.assertIn(told, self.faults(text))
