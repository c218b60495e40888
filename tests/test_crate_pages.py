"""That each crate has its page and its row in crates/README.md, and that the links of all pages lead somewhere."""
import os
import re
import unittest
from functools import cache
from pathlib import Path

from testing import TOP

from rendapil.crates import lines_of, uses_of

CRATES = Path(TOP) / "crates"
LINK = re.compile(r"\[[^\]]*\]\(([^)\s]+)\)")
FOLDERS = ("crates", "docs", "examples", "packaging", "python", "tests", "bench")


def pages() -> list[Path]:
    """The pages of the checkout, without what was built."""
    found = [path for folder in FOLDERS for path in (Path(TOP) / folder).rglob("*.md")]
    return sorted([*Path(TOP).glob("*.md"), *(path for path in found if "out" not in path.relative_to(TOP).parts)])


def prose_of(page: Path) -> str:
    """A page without what stands as code."""
    text = re.sub(r"^ *```.*?^ *```$", "", page.read_text("utf-8"), flags=re.M | re.S)
    return re.sub(r"`[^`\n]*`", lambda code: "x" * len(code[0]), text)


@cache
def anchors(page: Path) -> frozenset[str]:
    """What a link may name behind a page's `#`: its headings in small letters, without signs, joined by hyphens."""
    text = re.sub(r"^ *```.*?^ *```$", "", page.read_text("utf-8"), flags=re.M | re.S)
    heads = [LINK.sub(lambda link: link[0][1 : link[0].index("]")], head) for head in re.findall(r"^#+ (.*)$", text, re.M)]
    return frozenset(re.sub(r"[^\w -]", "", head.lower()).replace(" ", "-") for head in heads)


def leads_nowhere(page: Path, target: str) -> bool:
    """Whether a link of a page leads to no file, or to no heading of it."""
    if re.match(r"[a-z]+:", target):
        return False
    name, _, anchor = target.partition("#")
    file = (page.parent / name).resolve() if name else page
    return not file.exists() or bool(anchor) and anchor not in anchors(file)


@unittest.skipUnless(os.path.isdir(CRATES), "the sources aren't here")
class CratePages(unittest.TestCase):
    """The pages of the crates, and links."""

    def test_pages(self) -> None:
        """Each crate has a page under its name, which links to what the crate stands on and names what it takes of the toolchain."""
        uses = uses_of(lines_of(Path(TOP) / "crates.txt"))
        self.assertGreaterEqual(len(uses), 60)
        for name, below in uses.items():
            with self.subTest(crate=name):
                page = (CRATES / name / "README.md").read_text("utf-8")
                self.assertTrue(page.startswith(f"# {name}\n\n"))
                stands = re.search(r"^It stands on (.*?)\n(?:\n|\Z)", page, re.M | re.S)
                assert stands is not None
                found = re.findall(r"\[(\w+)\]\(\.\./\1/README\.md\)", stands[1])
                self.assertEqual(found, [one for one in below if one in uses])
                for one in below:
                    self.assertRegex(stands[1], rf"\b{one}\b")

    def test_rows(self) -> None:
        """Each crate has one row in crates/README.md."""
        rows = re.findall(r"^\| \[(\w+)\]\(\1/README\.md\) \| \S", (CRATES / "README.md").read_text("utf-8"), re.M)
        self.assertEqual(sorted(rows), sorted(lines_of(Path(TOP) / "crates.txt")))

    def test_links(self) -> None:
        """Each link within the checkout leads to a file, and to a heading of it."""
        found = [(page, target) for page in pages() for target in LINK.findall(prose_of(page))]
        self.assertGreaterEqual(len(found), 500)
        self.assertEqual([f"{page.relative_to(TOP)}: {target}" for page, target in found if leads_nowhere(page, target)], [])


if __name__ == "__main__":
    unittest.main()
