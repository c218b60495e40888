"""That each edit which the prover has to refuse can still be applied: those of the gate, and those of tests/wrong."""
import tempfile
import unittest
from pathlib import Path

from edit_files import BadEdit, crates_of, edited, faults
from testing import TOP

CODE = "fn least(a: u8, b: u8) -> u8 {\n    if a < b { a } else { b }\n}\n"
RIGHT = "file: src/lib.rt\nold:     if a < b {\nnew:     if b < a {\n"


class Edits(unittest.TestCase):
    """The edits of this repository, and those of a small crate."""

    def setUp(self) -> None:
        """Makes a checkout with one crate and one edit that isn't in the gate."""
        room = tempfile.TemporaryDirectory()
        self.addCleanup(room.cleanup)
        self.top = Path(room.name)
        self.crate = self.top / "crates" / "small"
        self.edit = self.top / "tests" / "wrong" / "small" / "greatest.edit"
        for folder in (self.crate / "src", self.crate / "must-fail", self.edit.parent):
            folder.mkdir(parents=True)
        (self.crate / "src" / "lib.rt").write_text(CODE)
        self.edit.write_text(RIGHT)

    def test_all_apply(self) -> None:
        """Each edit applies to the code as it is."""
        self.assertEqual(faults(Path(TOP)), [])

    def test_later_pair(self) -> None:
        """A pair applies to what the earlier ones made."""
        twice = RIGHT + "old: if b < a { a }\nnew: if b < a { b }\n"
        self.assertEqual(edited(twice, self.crate), {"src/lib.rt": CODE.replace("if a < b { a }", "if b < a { b }")})

    def test_code_moved_on(self) -> None:
        """An edit is told of which the code is no longer there."""
        self.assertEqual(faults(self.top), [])
        (self.crate / "src" / "lib.rt").write_text(CODE.replace("a < b", "a <= b"))
        self.assertEqual(len(faults(self.top)), 1)
        self.assertIn("tests/wrong/small/greatest.edit: an old text stands 0 times in src/lib.rt", faults(self.top)[0])

    def test_edit_of_the_gate(self) -> None:
        """So is one of the gate."""
        (self.crate / "must-fail" / "greatest.edit").write_text(RIGHT.replace("a < b", "a > b"))
        self.assertEqual([it.split(":")[0] for it in faults(self.top)], ["crates/small/must-fail/greatest.edit"])

    def test_crate_is_gone(self) -> None:
        """And one whose crate has another name now."""
        self.crate.rename(self.top / "crates" / "other")
        self.assertEqual(len(faults(self.top)), 1)

    def test_changed(self) -> None:
        """What is proved of a crate is a change of it, and so is an edit of tests/wrong. A stored run, an edit of the gate and a page aren't."""
        changed = ["crates/low/src/lib.rt", "crates/high/specs/Inside/Words.antt", "tests/wrong/edit/one.edit"]
        same = ["crates/run/data/left.pcap", "crates/gate/must-fail/one.edit", "crates.txt", "docs/GATE.md"]
        self.assertEqual(crates_of(changed + same), {"low", "high", "edit"})

    def test_no_edits(self) -> None:
        """What is no edit can't be applied."""
        for name, text in {
            "two places": RIGHT.replace("    if a < b {", " b"),
            "nothing changed": RIGHT.replace("b < a", "a < b"),
            "no pair": "file: src/lib.rt\n",
            "no file": RIGHT.replace("lib", "main"),
            "outside": RIGHT.replace("src/lib.rt", "src/../src/lib.rt"),
            "two lines": RIGHT + "    else\n",
        }.items():
            with self.subTest(name), self.assertRaises(BadEdit):
                edited(text, self.crate)


if __name__ == "__main__":
    unittest.main()
