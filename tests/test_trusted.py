"""That docs/TRUSTED.md is current, and how tools/trusted.py reads definitions."""
import tempfile
import unittest
from pathlib import Path

from testing import TOP

import trusted  # testing says where it is

DEFINITIONS = """-- A comment.
use Rattle.below.specs.Words.{plain, ◌>>=◌, twice as double}
use Rattle.below.specs.Others as others

-- one of two
pub data Way : Type 0 where
  -- forth
  Forth : Way
  Back To : Way

abbrev pub way : Way → Way
way Forth = others.turned Back
way x = double x >>= way
"""


class Trusted(unittest.TestCase):
    """The page and its script."""

    def test_page_is_current(self) -> None:
        """The page is what the script writes."""
        if trusted.Page().text() != Path(f"{TOP}/docs/TRUSTED.md").read_text("utf-8"):
            self.fail("docs/TRUSTED.md isn't current: tools/trusted.py >docs/TRUSTED.md")

    def test_an_hour_suffices(self) -> None:
        """What decides is read in an hour, and is a part of what the statements rest on."""
        page = trusted.Page()
        deciding = {(f"Rattle.{crate}.specs.{module}") for crate, module, _ in trusted.DECIDING}
        words = {word for word in page.all if word[0] in deciding}
        self.assertEqual({word[0] for word in words}, deciding)
        self.assertLessEqual(trusted.minutes_of(words), 60)
        for less, more in zip(trusted.STATEMENTS, list(trusted.STATEMENTS)[1:]):
            self.assertLess(page.needed[less], page.needed[more])

    def test_inside_is_not_believed(self) -> None:
        """No statement rests on what stands in a folder Inside, and there are such folders."""
        page = trusted.Page()
        self.assertEqual([word for word in page.all if trusted.INSIDE in word[0]], [])
        self.assertTrue(any(trusted.INSIDE in module for module in trusted.MODULES))

    def test_constants(self) -> None:
        """A constant of the code that definitions name is told with its value, and with what its comment says."""
        self.assertIn("| gate_base | `SECOND` | 1,000,000,000 | the nanoseconds of a second |", list(trusted.Page().constants()))

    def test_reading(self) -> None:
        """Definitions without comments, constructors as their type, other names, and operators."""
        with tempfile.TemporaryDirectory() as room:
            path = Path(room) / "Ways.antt"
            path.write_text(DEFINITIONS, "utf-8")
            module = trusted.read(path)
        self.assertEqual({name: len(lines) for name, lines in module.defined.items()}, {"Way": 3, "way": 3})
        self.assertEqual(module.built, {"Forth": "Way", "Back": "Way", "To": "Way"})
        self.assertEqual(module.imported["double"], ("Rattle.below.specs.Words", "twice"))
        before = dict(trusted.MODULES)
        self.addCleanup(trusted.MODULES.update, before)
        self.addCleanup(trusted.MODULES.clear)
        below = {"plain": ["plain : ℕ"], "◌>>=◌": ["◌>>=◌ : ℕ"], "twice": ["twice : ℕ"]}
        trusted.MODULES |= {"Rattle.ways.specs.Ways": module, "Rattle.below.specs.Words": trusted.Module(below)}
        trusted.MODULES["Rattle.below.specs.Others"] = trusted.Module({"turned": ["turned : ℕ"]})
        self.assertEqual({name for _, name in trusted.below(("Rattle.ways.specs.Ways", "way"))}, {"Way", "twice", "◌>>=◌", "turned"})


if __name__ == "__main__":
    unittest.main()
