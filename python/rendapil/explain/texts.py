"""What the pages say behind a link of REPORT.md, so that the page of a run holds it."""
import re
from functools import lru_cache
from typing import NamedTuple

from rendapil.frames import words_of
from rendapil.places import TOP

MOST = 12
"""The most paragraphs and rows of a part that are shown."""


class Text(NamedTuple):
    """A part of a page: where it stands on the page of a run, its heading, and its paragraphs."""

    place: str
    heading: str
    paragraphs: list[str]


def place_of(heading: str) -> str:
    """The name of a heading in a link."""
    return re.sub(r"[^a-z0-9 -]", "", heading.lower()).strip().replace(" ", "-")


@lru_cache(maxsize=64)
def text_of(link: str) -> Text | None:
    """The part of a page to which a link leads, if it is there."""
    name, _, place = link.partition("#")
    path = TOP / "docs" / (name or "REPORT.md")
    if not place or not path.is_file():
        return None
    heading, found = "", list[str]()
    level = 0
    for line in path.read_text("utf-8").splitlines():
        marks = len(line) - len(line.lstrip("#"))
        if marks and line[marks : marks + 1] == " ":
            if heading:
                break
            if place_of(line[marks:]) == place:
                heading, level = words_of(line[marks:]), marks
        elif heading and level:
            found.append(line)
    blocks = [
        words_of(" ".join(block.split("\n")).replace(" | ", ": ").strip("| ")) for block in re.split(r"\n\n|\n(?=\||- )", "\n".join(found).strip())
    ]
    kept = [block for block in blocks if block and not re.fullmatch(r"[-:| ]+", block)]
    return Text("text-" + place, heading, kept[:MOST]) if kept else None
