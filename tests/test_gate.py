"""That the table of docs/GATE.md is made of tools/seconds.tsv, that both have the crates of crates.txt, and that a gate is within its limit."""
import contextlib
import io
import re
import unittest
from importlib import import_module

from testing import TOOLS, TOP, said

seconds = import_module("seconds")


class Gate(unittest.TestCase):
    """The seconds of each crate."""

    def test_table(self) -> None:
        """The page has the table that the tool makes."""
        with open(f"{TOP}/docs/GATE.md", encoding="utf-8") as page:
            self.assertIn(said(f"{TOOLS}/seconds.py", "--table")[1], page.read())

    def test_crates(self) -> None:
        """Each crate has a row, in the order of crates.txt."""
        with open(f"{TOP}/crates.txt", encoding="utf-8") as crates, open(f"{TOOLS}/seconds.tsv", encoding="utf-8") as rows:
            listed = re.findall(r"^(\w+):", crates.read(), re.M)
            self.assertEqual([row.split("\t")[0] for row in rows.readlines()[1:]], listed)

    def test_limit(self) -> None:
        """The gate fits. What is a minute too long, or was no whole run, doesn't."""
        self.assertEqual(said(f"{TOOLS}/seconds.py", "--limit")[0], 0)
        rows = [["low", "9", "60", "0", "1", "30"], ["high", "9", "60", "90", "0", "0"]]
        for limit, first, is_within in ((4.0, "60", True), (3.9, "60", False), (4.0, "0", False)):
            rows[0][2] = first
            with self.subTest(limit=limit, first=first), contextlib.redirect_stdout(io.StringIO()):
                self.assertEqual(seconds.within(rows, limit), is_within)

    def test_speed(self) -> None:
        """A machine that takes twice as long has speed 0.5, by crates that are the same. Few crates, or short ones, don't tell."""
        names = "abcdef"
        before = {name: 20.0 for name in names}
        now = {name: 40.0 for name in names} | {"f": 400.0}
        self.assertEqual(seconds.speed_of(before, now, names), 0.5)
        self.assertIsNone(seconds.speed_of(before, now, names[:4]))
        self.assertIsNone(seconds.speed_of({name: 5.0 for name in names}, now, names))


if __name__ == "__main__":
    unittest.main()
