"""Tests of the notes: only a program whose sources, kit and file are as noted is not proved again."""
from tools.needs import KIT
from tools.tests.clones import Clone


class Notes(Clone):
    def setUp(self) -> None:
        super().setUp()
        self.prove("upper")
        self.known = self.calls()

    def proves_again(self, **settings: str) -> None:
        """It is proved once more, and then no more."""
        for _ in range(2):
            self.assertEqual(self.prove("upper", **settings), "")
            self.assertEqual(self.calls(), self.known + ["begin", "end"])

    def test_a_program_as_noted_starts_no_proof(self):
        self.prove("upper")
        self.assertEqual(self.calls(), self.known)

    def test_every_change_of_a_file_proves_again(self):
        for name in ("crates/lower/src/lib.rt", "crates/lower/specs/Lib.antt", "crates/upper/src/main.rt", "crates/upper/stdin", "crates.txt"):
            with self.subTest(changed=name):
                file = self.root / name
                file.write_text(file.read_text() + "# more\n")
                self.proves_again()
                self.known = self.calls()

    def test_a_file_more_or_less_proves_again(self):
        self.write("crates/lower/proofs/Lib.antt", "")
        self.proves_again()
        self.known = self.calls()
        (self.root / "crates/lower/proofs/Lib.antt").unlink()
        self.proves_again()

    def test_bytes_that_move_from_a_file_to_the_next_prove_again(self):
        self.write("crates/lower/specs/Lib.antt", "two\no")
        self.write("crates/lower/src/lib.rt", "ne\n")
        self.proves_again()

    def test_another_kit_proves_again(self):
        needs = self.root / "tools" / "needs.py"
        needs.write_text(needs.read_text().replace(KIT, "another kit"))
        self.proves_again(STAND_IN_KIT="another kit")

    def test_another_program_is_made_again(self):
        program = self.root / "crates/upper/out/upper"
        program.write_text("another\n")
        self.proves_again()
        self.assertEqual(program.read_text(), "program\n")

    def test_a_program_that_is_gone_is_made_again(self):
        program = self.root / "crates/upper/out/upper"
        program.unlink()
        self.proves_again()
        self.assertEqual(program.read_text(), "program\n")

    def test_a_source_that_changes_meanwhile_is_not_noted(self):
        self.write("crates/upper/stdin", "five\n")
        self.prove("upper", STAND_IN_CHANGES="crates/lower/src/lib.rt")
        self.write("crates/lower/src/lib.rt", "one\n")
        self.known = self.calls()
        self.proves_again()

    def test_a_crate_that_it_does_not_use_is_not_looked_at(self):
        self.write("crates/other/src/lib.rt", "")
        self.prove("upper")
        self.assertEqual(self.calls(), self.known)

    def test_what_rt_made_is_no_source(self):
        self.write("crates/lower/out/rlib/stamp", "")
        self.write("crates/upper/out/incremental/kept", "")
        self.prove("upper")
        self.assertEqual(self.calls(), self.known)

    def test_a_program_is_given_its_page(self):
        self.assertEqual((self.root / "given").read_text(), "four\n")

    def test_a_library_is_always_asked_for_and_keeps_its_stamp(self):
        stamp = self.write("crates/lower/out/rlib/stamp", "")
        for _ in range(2):
            self.prove("lower")
            self.assertTrue(stamp.exists())
        self.assertEqual(self.calls(), self.known + ["begin", "end"] * 2)
