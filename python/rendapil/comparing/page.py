"""The page of a comparison, written by the template page.html. Jinja escapes all that comes from the captures. Needs Debian's python3-jinja2."""
import argparse
import os
from pathlib import Path
from typing import NamedTuple

from rendapil.comparing.captures import Links
from rendapil.comparing.causes import BY_RIGHT, DIFFERENT, UNSURE, Group, Groups
from rendapil.comparing.match import Match
from rendapil.frames import time_of
from rendapil.numbers import SECOND
from rendapil.pages import STYLE, page_by, part_of

HERE = Path(__file__).resolve().parent
BARS, WIDTH, HEIGHT, MOST_ROWS = 120, 600, 40, 200
"""How many bars a picture has, its size, and the most causes that are shown."""

HEADS = {DIFFERENT: "Differences", BY_RIGHT: "Other than the reference, as a device may be", UNSURE: "Not compared"}
MEANS = {
    DIFFERENT: "These matter: the device doesn't do what the settings say.",
    BY_RIGHT: "A device may do so.",
    UNSURE: "These captures don't show whether the device is right here.",
}


class Bar(NamedTuple):
    """A bar of a picture: where it stands, how high it is, and what is told of it."""

    x: float
    y: float
    width: float
    height: float
    told: str


class Row(NamedTuple):
    """A cause with its picture."""

    group: Group
    first: str
    last: str
    bars: list[Bar]


def bars_of(group: Group, begin: int, end: int) -> list[Bar]:
    """How many frames of a cause there were, over the time of the captures."""
    width = max(1, (end - begin) // BARS + 1)
    counts = [0] * BARS
    for place, count in group.times.counts.items():
        counts[min(BARS - 1, max(0, (place * group.times.span + group.times.span // 2 - begin) // width))] += count
    most, across = max(max(counts), 1), WIDTH / BARS
    found = []
    for number, count in enumerate(counts):
        if count:
            high = max(2.0, HEIGHT * count / most)
            told = f"{count:,} from {time_of(begin + number * width)[11:-4]} on, {width / SECOND:.3g} s"
            found.append(Bar(round(number * across, 2), round(HEIGHT - high, 2), round(across - 0.5, 2), round(high, 2), told))
    return found


def page_of(words: argparse.Namespace, links: Links, match: Match, groups: Groups) -> str:
    """The page."""
    style, style_hash = part_of(STYLE, HERE / "page.css")
    files = [file for file in links.came + links.went if file.numbers]
    begin, end = min(file.first for file in files), max(file.last for file in files)
    kinds = []
    for kind, head in HEADS.items():
        rows = groups.of(kind)
        told = [Row(row, time_of(row.first)[11:-4], time_of(row.last)[11:-4], bars_of(row, begin, end)) for row in rows[:MOST_ROWS]]
        kinds.append((kind, head, MEANS[kind], sum(row.count for row in rows), told, len(rows) - len(told)))
    values = dict[str, object](
        style=style,
        style_hash=style_hash,
        settings=os.path.basename(words.settings),
        captures=[os.path.basename(path) for path in words.captures],
        begin=time_of(begin),
        end=time_of(end),
        came=sum(len(file.numbers) for file in links.came),
        counts=match.counts,
        differs=bool(groups.of(DIFFERENT)),
        kinds=kinds,
        ladders=groups.ladders,
        ladders_left_out=groups.ladders_left_out,
        left_out=sorted(links.left_out.items()),
        mended=sorted((where, count) for where, count in links.mended.items() if count),
        width=WIDTH,
        height=HEIGHT,
    )
    return page_by(HERE, values)
