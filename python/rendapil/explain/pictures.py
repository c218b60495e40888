"""Pictures of a run: where each line and area lies, in units of a picture of its own. The template page.html draws them as SVG."""
from collections import Counter
from collections.abc import Callable, Iterable, Iterator
from dataclasses import dataclass, field
from typing import NamedTuple

from rendapil.bindings import Pool
from rendapil.frames import second_of
from rendapil.numbers import SECOND, SIDES
from rendapil.explain.gathered import Parts

WIDTH, HEIGHT, LEFT, TOP, BOTTOM = 1000, 190, 62, 8, 22
"""A picture's size, and the room beside its plane."""


def clock(moment: int, digits: int = 6) -> str:
    """A moment of UTC."""
    seconds, fraction = divmod(moment, SECOND)
    text = second_of(seconds).replace("T", " ")
    return f"{text}.{fraction:09d}"[: 20 + digits] if digits else text


def span(nanoseconds: int) -> str:
    """How long something took, to three digits."""
    for size, unit in ((86400, "d"), (3600, "h"), (60, "min"), (1, "s")):
        if nanoseconds >= size * SECOND:
            return f"{nanoseconds / size / SECOND:.3g} {unit}"
    return f"{nanoseconds / 10**6:.3g} ms"


def steps(low: int, high: int, sizes: Iterable[int], most: int) -> list[int]:
    """Round numbers between two: by the smallest of some sizes that gives at most so many."""
    size = next((size for size in sizes if (high - low) // size <= most), high - low or 1)
    return list(range(-(-low // size) * size, high + 1, size))


def decimal_sizes() -> Iterator[int]:
    """1, 2, 5, 10 and so on."""
    size = 1
    while True:
        yield from (size, 2 * size, 5 * size)
        size *= 10


MINUTE, HOUR, DAY = 60 * SECOND, 3600 * SECOND, 86400 * SECOND
TIMES = [
    *(step * 10**power for power in range(9) for step in (1, 2, 5)),
    *(step * SECOND for step in (1, 2, 5, 10, 15, 30)),
    *(step * MINUTE for step in (1, 2, 5, 10, 15, 30)),
    *(step * HOUR for step in (1, 2, 3, 6, 12)),
    *(step * DAY for step in (1, 2, 5, 10, 20, 50, 100, 1000, 10000)),
]


def short_clock(moment: int, step: int) -> str:
    """A moment as it stands at an axis, by the step between two."""
    if step >= DAY:
        return clock(moment, 0)[:10]
    if step >= MINUTE:
        return clock(moment, 0)[11:16]
    digits = 0 if step >= SECOND else 3 if step >= 10**6 else 6 if step >= 1000 else 9
    return clock(moment, digits)[11:].removesuffix(".")


class Tick(NamedTuple):
    """A mark at an axis."""

    at: float
    text: str


@dataclass
class Axis:
    """From where to where a picture goes, and its marks."""

    start: int
    end: int
    is_time: bool

    def at(self, place: int, low: float = LEFT, high: float = WIDTH) -> float:
        """Where a place lies."""
        return low + (high - low) * (place - self.start) / max(1, self.end - self.start)

    def ticks(self, most: int = 8) -> list[Tick]:
        """The marks."""
        places = steps(self.start, self.end, TIMES if self.is_time else decimal_sizes(), most)
        step = places[1] - places[0] if len(places) > 1 else 1
        return [Tick(round(self.at(place), 1), short_clock(place, step) if self.is_time else f"{place:,}") for place in places]

    def name(self, start: int, end: int) -> str:
        """A part of it in words."""
        return f"{clock(start)}, for {span(end - start)}" if self.is_time else f"frames {start:,} to {end - 1:,}"


@dataclass
class Picture:
    """A picture as the template draws it: areas with a class and a path, marks of both axes, and what is told of each part."""

    name: str
    said: str
    areas: list[tuple[str, str]]
    across: list[Tick]
    up: list[Tick]
    parts: list[tuple[float, float, str]]
    lines: list[tuple[float, str]] = field(default_factory=list)
    marks: list[tuple[float, float]] = field(default_factory=list)


def height(value: float, most: int) -> float:
    """Where a value lies."""
    return HEIGHT - BOTTOM - (HEIGHT - BOTTOM - TOP) * value / max(1, most)


def ups(most: int) -> list[Tick]:
    """The marks of the axis that goes up."""
    return [Tick(round(height(value, most), 1), f"{value:,}") for value in steps(0, most, decimal_sizes(), 4)]


def box(axis: Axis, start: int, end: int, low: float, high: float) -> str:
    """A box of a path. A wide one has a gap behind it."""
    left, right = axis.at(start), axis.at(end)
    wide = max(0.4, right - left - (1 if right - left > 4 else 0))
    return f"M{left:.1f} {low:.1f}h{wide:.1f}V{high:.1f}h-{wide:.1f}z"


def stacked(name: str, said: str, parts: Parts, axis: Axis, group_of: Callable[[str], str], shown: list[str]) -> Picture:
    """How many frames of some groups each part of the run had, one group upon the other."""
    sums: list[Counter[str]] = [Counter() for _ in parts.parts]
    for one, part in zip(sums, parts.parts):
        for verdict, count in part.counts.items():
            one[group_of(verdict)] += count
    most = max((sum(one[group] for group in shown) for one in sums), default=0)
    paths: dict[str, list[str]] = {group: [] for group in shown}
    told = []
    for place, (one, part) in enumerate(zip(sums, parts.parts)):
        start, end, below = (parts.start or 0) + place * parts.width, (parts.start or 0) + (place + 1) * parts.width, 0
        for group in shown:
            if one[group]:
                paths[group].append(box(axis, start, end, height(below, most), height(below + one[group], most)))
                below += one[group]
        if below:
            counts = ", ".join(f"{count:,} {verdict}" for verdict, count in part.counts.most_common(6) if group_of(verdict) in shown)
            told.append((round(axis.at(start), 1), round(axis.at(end) - axis.at(start), 2), f"{axis.name(start, end)}: {counts}"))
    return Picture(name, said, [(group, "".join(path)) for group, path in paths.items() if path], axis.ticks(), ups(most), told)


def is_near(fixed: int, size: int) -> bool:
    """Whether the labels of both lines would lie upon each other."""
    return 0 < fixed and height(fixed, size) - height(size, size) < 30


def filled(said: str, parts: Parts, axis: Axis, side: int, pool: Pool) -> Picture:
    """How full the pool of a side was, drawn to its size."""
    top = size = pool.size
    fixed = pool.fixed
    path, told, marks = [], [], []
    for place, part in enumerate(parts.parts):
        start, end = (parts.start or 0) + place * parts.width, (parts.start or 0) + (place + 1) * parts.width
        level = part.most[side]
        path.append(f"{'M' if not place else 'L'}{axis.at(start):.1f} {height(level, top):.1f}H{min(WIDTH, axis.at(end)):.1f}")
        lost = f"; {part.empty[side]:,} frames refused as PoolEmpty" if part.empty[side] else ""
        told.append(
            (round(axis.at(start), 1), round(axis.at(end) - axis.at(start), 2), f"{axis.name(start, end)}: at most {level:,} of {size:,}{lost}")
        )
        if part.empty[side]:
            marks.append((round(axis.at(start), 1), round(max(2.0, axis.at(end) - axis.at(start)), 1)))
    line = "".join(path)
    area = f"{line}V{height(0, top):.1f}H{LEFT}z" if line else ""
    lines = [(round(height(size, top), 1), f"size {size:,}" + (f", {fixed:,} fixed" if is_near(fixed, size) else ""))]
    lines += [(round(height(fixed, top), 1), f"{fixed:,} fixed")] if fixed and not is_near(fixed, size) else []
    return Picture(f"Pool of the {SIDES[side]} realm", said, [("level", area), ("edge", line)], axis.ticks(), ups(top), told, lines, marks)
