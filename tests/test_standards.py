#!/usr/bin/env python3
"""Holds docs/STANDARDS.md against the sources: each law, clause, definition, case and verdict that it names, and its counts."""
import os
import re
import unittest
from collections import Counter
from pathlib import Path

TOP = os.path.dirname(os.path.dirname(os.path.realpath(__file__)))
PAGE = f"{TOP}/docs/STANDARDS.md"
NAMED = re.compile(r"\b(law|clause|def\.|case)s? ((?:`\w+`(?: \([a-z_]+\))?(?:, | and )?)+)")


def text_of(pattern: str) -> str:
    """All files of a pattern below the crates, one behind the other."""
    return "\n".join(path.read_text("utf-8") for path in sorted(Path(f"{TOP}/crates").glob(pattern)))


class Standards(unittest.TestCase):
    """What the page of standards says."""

    page: str
    code: str
    specs: str
    rows: list[list[str]]

    @classmethod
    def setUpClass(cls) -> None:
        """Reads the page and the sources."""
        cls.page = Path(PAGE).read_text("utf-8")
        cls.code, cls.specs = text_of("*/src/**/*.rt"), text_of("*/specs/**/*.antt")
        lines = [[cell.strip() for cell in line.strip("|").split("|")] for line in cls.page.splitlines() if line.startswith("| ")]
        cls.rows = [cells for cells in lines if len(cells) >= 4 and cells[2] not in ("Met", "Kept")]

    def is_there(self, kind: str, name: str) -> bool:
        """Whether the sources have what the page names."""
        if kind == "case":
            return os.path.exists(f"{TOP}/crates/worked_cases/data/{name}.settings.toml")
        if kind == "law":
            return re.search(rf"^pub fn {name}\b", self.code, re.M) is not None
        if kind == "clause":
            return re.search(rf"^    ensures {name} \{{", self.code, re.M) is not None or re.search(rf"^  pub {name} :", self.specs, re.M) is not None
        return re.search(rf"^(?:pub |abbrev |record |data )*{name} ", self.specs, re.M) is not None

    def test_names(self) -> None:
        """Each name stands in the sources as what the page calls it."""
        found: Counter[str] = Counter()
        for kind, names in NAMED.findall(self.page):
            for name in re.findall(r"`(\w+)`", names):
                found[kind] += 1
                self.assertTrue(self.is_there(kind, name), f"no {kind} {name}")
        for kind, least in (("law", 40), ("def.", 15), ("case", 20), ("clause", 3)):
            self.assertGreaterEqual(found[kind], least, f"the page names {found[kind]} times a {kind}")

    def test_verdicts(self) -> None:
        """Each name in capitals is a verdict."""
        refusals = re.search(r"enum Refusal \{(.*?)\n\}", self.code, re.S)
        assert refusals is not None
        verdicts = set(re.findall(r"^    (\w+),", refusals[1], re.M))
        named = set(re.findall(r"`([A-Z]\w+)`", self.page)) - {"Promised", "IsKeptUntil", "InetAddress"}
        self.assertGreaterEqual(len(named), 8)
        self.assertEqual(named - verdicts, set())

    def test_counts(self) -> None:
        """The page counts its rows rightly, and each row has its evidence or its reason."""
        count = Counter(row[2].strip("*") for row in self.rows)
        said = re.search(r"have (\d+) requirements: (\d+) are met, (\d+) in part, and (\d+) not. (\d+) are chosen otherwise, and (\d+)\s", self.page)
        assert said is not None
        self.assertEqual([int(n) for n in said.groups()], [len(self.rows), *(count[word] for word in ("yes", "partly", "no", "chosen", "n/a"))])
        bare = [row for row in self.rows if not row[3] and row[2] != "**no**"]
        self.assertEqual(bare, [])


if __name__ == "__main__":
    unittest.main()
