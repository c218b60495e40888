"""The page of a plan, for both firms, written by the template page.html. Jinja escapes all that comes from captures and lists. Needs python3-jinja2."""
from ipaddress import IPv4Address, IPv4Network
from pathlib import Path
from typing import TYPE_CHECKING, NamedTuple

from rendapil.frames import second_of
from rendapil.numbers import SIDES
from rendapil.pages import STYLE, page_by, part_of
from rendapil.payloads.scan import Told, plural, told_rows
from rendapil.planning.firm import Firm, services_of

if TYPE_CHECKING:
    from rendapil.planning.command import Plan

MOST_MAPS, MOST_ROWS, CELL = 48, 500, 8
"""The most blocks that are drawn, the most rows of a table, and the size of an address in a map."""

HERE = Path(__file__).resolve().parent


class Cell(NamedTuple):
    """An address of a block that a host has: where it is drawn, whose it is, and what is told of it."""

    x: int
    y: int
    whose: str
    told: str


class Map(NamedTuple):
    """A block of 256 addresses with the hosts of both sides."""

    block: IPv4Network
    left: int
    right: int
    both: int
    cells: list[Cell]


class Static(NamedTuple):
    """A server: what its own side calls it, and what the other one does."""

    side: str
    host: str
    alias: str
    other: str
    names: str
    services: str
    clients: int


class Side(NamedTuple):
    """What is told of a firm."""

    side: str
    facts: list[tuple[str, str]]
    risks: list[tuple[str, list[Told]]]


def map_of(block: IPv4Network, firms: list[Firm]) -> Map:
    """A block as a square of 16 by 16 addresses."""
    first = int(block[0])
    cells, counts = [], {"left": 0, "right": 0, "both": 0}
    for number in range(256):
        address = first + number
        mine, theirs = (address in firm.hosts for firm in firms)
        if not mine and not theirs:
            continue
        whose = "both" if mine and theirs else "left" if mine else "right"
        counts[whose] += 1
        names = [f"{SIDES[firm.side]}: {', '.join(firm.names[address])}" for firm in firms if address in firm.names and address in firm.hosts]
        told = f"{IPv4Address(address)}, {'a host of each side' if whose == 'both' else f'a {whose} host'}" + "".join(f"; {one}" for one in names)
        cells.append(Cell(CELL * (number % 16), CELL * (number // 16), whose, told))
    return Map(block, counts["left"] + counts["both"], counts["right"] + counts["both"], counts["both"], cells)


def maps_of(firms: list[Firm]) -> tuple[list[Map], int]:
    """The blocks that are drawn: those of both sides first, and those with the most hosts. How many are left out."""
    mine, theirs = (firm.blocks_in_use() for firm in firms)
    blocks = sorted(set(mine) | set(theirs), key=lambda block: (-min(mine[block], theirs[block]), -(mine[block] + theirs[block]), block))
    return [map_of(block, firms) for block in blocks[:MOST_MAPS]], max(0, len(blocks) - MOST_MAPS)


def statics_of(plan: "Plan") -> list[Static]:
    """The servers of both sides."""
    found = []
    for side, address, alias, host in plan.statics[:MOST_ROWS]:
        names = ", ".join(plan.firms[side].names.get(address, []))
        ends = SIDES[side], str(IPv4Address(address)), str(IPv4Address(alias)), SIDES[1 - side]
        found.append(Static(*ends, names, ", ".join(list(services_of(host))[:6]), host.clients))
    return found


def side_of(plan: "Plan", firm: Firm) -> Side:
    """What is told of a firm."""
    span = f"{second_of(firm.first // 10**9).replace('T', ' ')} to {second_of(firm.last // 10**9).replace('T', ' ')} UTC" if firm.first else ""
    block, first, last = plan.pools[1 - firm.side]
    other = SIDES[1 - firm.side]
    facts = [
        ("Hosts", plural(len(firm.hosts), "host")),
        ("Servers", f"{len(firm.servers()):,} that others contact first"),
        ("Frames", plural(firm.frames, "frame") + (f", {span}" if span else "")),
        ("At one time", f"at most {firm.most:,} hosts would need an alias, had all spoken over the gateway"),
        ("Known to the others as", f"{IPv4Address(first)} to {IPv4Address(last)}: the {other} side routes {block} to the gateway"),
    ]
    facts += [("Damaged", what) for what in firm.damaged]
    facts += [("Not carried", f"{kind}: {plural(count, 'frame')}") for kind, count in firm.not_carried.most_common(8)]
    wheres = ("Between its hosts: what of them will cross breaks", "To others, as far as these will be reached over the gateway")
    return Side(SIDES[firm.side], facts, [(where, rows) for where, scan in zip(wheres, firm.scans) if (rows := told_rows(scan))])


def page_of(plan: "Plan", names: list[str], rehearsal: list[str]) -> str:
    """The page."""
    style, style_hash = part_of(STYLE, HERE / "page.css")
    maps, left_out = maps_of(plan.firms)
    alike = len(set(plan.firms[0].hosts) & set(plan.firms[1].hosts))
    values = dict[str, object](
        style=style,
        style_hash=style_hash,
        names=names,
        alike=alike,
        blocks=len([one for one in maps if one.left and one.right]),
        sides=[side_of(plan, firm) for firm in plan.firms],
        maps=maps,
        maps_left_out=left_out,
        cell=CELL,
        statics=statics_of(plan),
        statics_count=len(plan.statics),
        rehearsal=rehearsal,
        settings="\n".join(plan.settings(names)),
        plural=plural,
    )
    return page_by(HERE, values)
