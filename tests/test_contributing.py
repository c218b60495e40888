"""That CONTRIBUTING.md names files that are there."""
import os
import re
import unittest
from pathlib import Path

from testing import TOP

NAMED = re.compile(r"`((?:[\w-]+/)*(?:\{[\w,]+\}|[\w-]+)(?:\.(?:rt|antt|py|md|txt))?)`")


def paths_in(page: str) -> list[str]:
    """The paths that a page names, one for each part of braces."""
    found = []
    for path in NAMED.findall(page):
        front, brace, rest = path.partition("{")
        parts, _, back = rest.partition("}")
        found += [front + part + back for part in parts.split(",")] if brace else [path]
    return [path for path in found if "/" in path]


@unittest.skipUnless(os.path.isdir(f"{TOP}/crates"), "the sources aren't here")
class Contributing(unittest.TestCase):
    """The lists of files."""

    def test_paths(self) -> None:
        """Each path is a file or a folder, from the top or below crates."""
        paths = paths_in(Path(f"{TOP}/CONTRIBUTING.md").read_text("utf-8"))
        self.assertGreaterEqual(len(paths), 60)
        self.assertEqual([path for path in paths if not os.path.exists(f"{TOP}/{path}") and not os.path.exists(f"{TOP}/crates/{path}")], [])


if __name__ == "__main__":
    unittest.main()
