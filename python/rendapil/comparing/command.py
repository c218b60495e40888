"""Does a real device translate as the settings say? Its captures on both links are held against what the
proved program sends for the same frames. Says what differs, by cause."""
import argparse
import contextlib
import json
import os
import sys
import tempfile
from collections.abc import Iterator
from dataclasses import asdict, dataclass
from ipaddress import IPv4Address

from rendapil.check.settings import document_of
from rendapil.comparing.bindings import Clock, Learnt, clock_of
from rendapil.comparing.captures import Links, shifted
from rendapil.comparing.causes import BY_RIGHT, DIFFERENT, UNSURE, Group, Groups
from rendapil.comparing.judge import Judge, Options, delays_of
from rendapil.comparing.match import Match
from rendapil.comparing.ports import undo_ports
from rendapil.document import Document
from rendapil.ending import ended, put_in_place, refuse_overwriting
from rendapil.files import IN, OUT, shown
from rendapil.frames import time_of
from rendapil.numbers import SECOND, SIDES
from rendapil.places import TOP
from rendapil.readers import records
from rendapil.sayings import Fault

SHOWN, MOST_CUTS = 40, 64
"""The most causes of a kind that are shown as text, and how often aliases may change hands."""

HEADS = {DIFFERENT: "Differences", BY_RIGHT: "Other than the reference, as a device may be", UNSURE: "Not compared"}


def mac_of(text: str) -> bytes:
    """A MAC address."""
    octets = bytes.fromhex(text.replace(":", "").replace("-", "").replace(".", ""))
    if len(octets) != 6:
        raise ValueError(text)
    return octets


def parsed() -> argparse.Namespace:
    """The words of the command."""
    end = "The status is 0 where nothing differs that matters, 1 where something does, and 2 where the words are wrong or a file can't be read."
    parser = argparse.ArgumentParser(prog="rendapil compare", description=__doc__, epilog=end)
    parser.add_argument("settings", metavar="SETTINGS", help="the settings that the device was to follow")
    forms = "LEFT RIGHT, both directions of each link; or LEFT_IN RIGHT_IN LEFT_OUT RIGHT_OUT; or one file of both links, with --left and --right"
    parser.add_argument("captures", metavar="CAPTURE", nargs="+", help=forms)
    parser.add_argument("--left", metavar="INTERFACE", help="the interface of the left link in a file of both links")
    parser.add_argument("--right", metavar="INTERFACE", help="that of the right link")
    for side in SIDES:
        parser.add_argument(
            f"--{side}-mac",
            metavar="MAC",
            type=mac_of,
            action="append",
            default=[],
            help=f"the device's MAC address on the {side} link, where it can't be found. May stand several times",
        )
    parser.add_argument(
        "--clocks", metavar="SECONDS", type=float, help="by how much the right link's stamps are ahead, in place of what the frames show"
    )
    parser.add_argument("--window", metavar="SECONDS", type=float, default=2.0, help="how long a frame may stay in the device (2)")
    parser.add_argument("--any-ttl", action="store_true", help="the device needn't lower the TTL by 1")
    parser.add_argument("--any-port", action="store_true", help="the device may change ports, and have hosts share an alias (NAPT)")
    parser.add_argument(
        "--lossy", action="store_true", help="the captures may miss frames: those that are lost, or that nobody sent, are no differences"
    )
    parser.add_argument("--keep", metavar="FOLDER", help="keep the files of the reference's run there, for rendapil explain")
    parser.add_argument("--json", action="store_true", help="write all as JSON")
    parser.add_argument("--json-lines", action="store_true", help="write a line of JSON for each cause, and one in front with the counts")
    parser.add_argument("--html", metavar="FILE", help="also write a page with pictures to FILE")
    parser.add_argument("--program", help=argparse.SUPPRESS)
    return parser.parse_args()


def read_links(words: argparse.Namespace, settings: Document, room: str) -> Links:
    """Reads the captures, as many as there are."""
    links = Links(settings, room, (words.left_mac, words.right_mac))
    files = words.captures
    if len(files) == 4 and len({os.path.realpath(file) for file in files}) == 4:
        for side in (0, 1):
            links.read_way(side, IN, files[side])
            links.read_way(side, OUT, files[2 + side])
    elif len(files) in (2, 4):
        for side in (0, 1):
            links.read_both(side, files[side])
    elif len(files) == 1 and words.left and words.right:
        for side in (0, 1):
            links.read_both(side, files[0], (words.left, words.right)[side])
    elif len(files) == 1:
        names = sorted({record.interface for record in records(files[0])})
        raise Fault(f"one capture needs --left and --right, of its interfaces {', '.join(map(shown, names)) or 'none'}")
    else:
        raise Fault(f"{len(files)} captures: give one, two or four")
    links.close()
    if links.are_swapped():
        raise Fault("left and right are swapped: each capture has the aliases of the other link. Name the other one first")
    idle = [side for side in (0, 1) if not links.came[side].numbers]
    for side in idle:
        print(
            f"rendapil compare: no frame goes to the device on the {SIDES[side]}. Is this the capture of that link, and are left and right in their order?",
            file=sys.stderr,
        )
    if len(idle) == 2:
        raise Fault("no frame goes to the device: there is nothing to compare")
    if not any(file.numbers for file in links.went):
        print(
            "rendapil compare: no frame comes from the device. Are these captures of what came to it alone? Give those of what it sent too.",
            file=sys.stderr,
        )
    return links


# Telling.


def tell_group(row: Group) -> None:
    """A cause."""
    print(f"\n{row.count:8}  {row.cause}")
    if row.where:
        print(f"          first at {time_of(row.first)[11:-4]}: {row.where}")
    if row.device:
        print(f"          device sends     {row.device}")
    if row.reference:
        print(f"          reference sends  {row.reference}")


def tell(links: Links, found: "Compared", clock: Clock) -> None:
    """All of it as text."""
    match, groups, moved, misses = found.match, found.groups, found.moved, found.misses
    counts = match.counts
    print(
        f"{sum(len(file.numbers) for file in links.came)} frames came, the device sent {counts['device']} and the reference {counts['reference']}: {counts['equal']} are equal."
    )
    print(f"{len(found.learnt.chosen)} hosts have an alias.", end=" ")
    if delays := delays_of(match):
        print(
            "Frames stayed in the device for {} in the middle, 99 of 100 for at most {}, and one for {}.".format(
                *(f"{one / 1000:,.0f} µs" for one in delays)
            ),
            end="",
        )
    print()
    if clock:
        gains = f", and gains {3600 * clock.gain:+.3f} s in an hour" if clock.gain else ""
        print(f"The right link's clock is {clock.ahead / SECOND:.6f} s ahead{gains}: its stamps were moved.")
    if found.parts > 1:
        print(f"Aliases went from one host to another: {found.parts} times were compared, each by itself.")
    if any(moved):
        print(f"{moved[0]} flows had another port, and {moved[1]} hosts shared an alias: compared as if not.")
    if misses:
        print(
            f"The captures miss frames: {misses} times that is certain. So frames that are lost, or that nobody sent, aren't taken for differences. tcpdump -B 65536 misses fewer."
        )
    for what, count in sorted(links.left_out.items()):
        print(f"{count:8}  frames left out: {what}")
    for where, count in sorted(links.mended.items()):
        if count:
            print(f"{count:8}  checksums were left to the card, on the {where}: computed")
    for kind, head in HEADS.items():
        rows = groups.of(kind)
        if rows:
            print(f"\n{head}: {sum(row.count for row in rows)}")
        for row in rows[:SHOWN]:
            tell_group(row)
        if len(rows) > SHOWN:
            print(f"\nand {len(rows) - SHOWN} causes more: --json gives all")
    print("\n" + ("The device differs from the reference." if groups.of(DIFFERENT) else "No difference that matters."))


def cause_row(row: Group) -> dict[str, object]:
    """A cause as JSON."""
    told = {name: value for name, value in asdict(row).items() if name != "times"}
    return {**told, "first_time": time_of(row.first), "last_time": time_of(row.last)}


def tell_lines(match: Match, groups: Groups, apart: int) -> None:
    """A line of JSON for each cause, as Suricata's eve.json has them, and one in front of them."""
    print(json.dumps({"event_type": "compared", **dict(match.counts), "differs": bool(groups.of(DIFFERENT)), "clocks_apart": apart}))
    for kind in HEADS:
        for row in groups.of(kind):
            print(json.dumps({"event_type": "cause", **cause_row(row)}))


def tell_json(links: Links, learnt: Learnt, match: Match, groups: Groups, apart: int) -> None:
    """All of it as JSON."""
    causes = [cause_row(row) for kind in HEADS for row in groups.of(kind)]
    aliases = [
        {"side": SIDES[side], "host": str(IPv4Address(host)), "alias": str(IPv4Address(alias))} for (side, host), alias in learnt.chosen.items()
    ]
    whole = {
        "counts": dict(match.counts),
        "left_out": dict(links.left_out),
        "mended": dict(links.mended),
        "clocks_apart": apart,
        "verdicts": dict(match.verdicts),
    }
    print(json.dumps({**whole, "delays": delays_of(match), "aliases": aliases, "causes": causes}, indent=1))


@contextlib.contextmanager
def folder(kept: str | None, inputs: list[str]) -> Iterator[str]:
    """A folder for the files of the reference: one that is kept, or not. What is read is in another one."""
    if kept:
        os.makedirs(kept, exist_ok=True)
        for one in inputs:
            if os.path.samefile(os.path.dirname(one) or ".", kept):
                raise Fault(f"{shown(one)} is in the folder of --keep, where it might be overwritten: give another folder")
        yield kept
    else:
        with tempfile.TemporaryDirectory(prefix="rendapil-") as room:
            yield room


def compared(words: argparse.Namespace, settings: Document, links: Links, learnt: Learnt, room: str) -> "Compared":
    """Compares the captures of a time in which no alias changes hands."""
    learnt.choose(settings)
    moved = undo_ports(settings, links, learnt) if words.any_port else (0, 0)
    paths = os.path.join(room, "settings.toml"), os.path.join(room, "by-use.toml")
    for name, is_by_use in zip(paths, (False, True)):
        with open(name, "w", encoding="utf-8") as out:
            out.write(learnt.settings_text(settings, is_by_use))
    options = Options(
        words.any_ttl, words.lossy, round(words.window * SECOND), [words.program] if words.program else [str(TOP / "rendapil"), "--quiet"], room
    )
    judge = Judge(settings, links, learnt, options)
    return Compared(learnt, judge.judge(*paths), judge.groups, moved, judge.misses)


def learnt_from(links: Links, words: argparse.Namespace) -> Learnt:
    """Which aliases the captures show."""
    learnt = Learnt()
    learnt.learn(links, not words.any_port)
    return learnt


@dataclass
class Compared:
    """What a comparison found."""

    learnt: Learnt
    match: Match
    groups: Groups
    moved: tuple[int, int]
    misses: int
    parts: int = 1

    def merge(self, other: "Compared") -> None:
        """Takes what a later time showed."""
        self.learnt.chosen = {**other.learnt.chosen, **self.learnt.chosen}
        self.match.counts += other.match.counts
        self.match.verdicts += other.match.verdicts
        self.match.delays += other.match.delays
        self.groups.merge(other.groups)
        self.moved = self.moved[0] + other.moved[0], self.moved[1] + other.moved[1]
        self.misses, self.parts = self.misses + other.misses, self.parts + 1


def compared_by_parts(words: argparse.Namespace, settings: Document, links: Links, room: str) -> Compared:
    """Compares. Where aliases change hands, each time between two changes by itself."""
    learnt = learnt_from(links, words)
    if not learnt.votes and all(file.numbers for file in links.went):
        raise Fault("no frame that went out is one that came: are these the links of one device, at one time, and are left and right in their order?")
    changes = [] if words.any_port else learnt.changes()
    if not changes:
        return compared(words, settings, links, learnt, room)
    parts = [part for part in links.parts(links.quiet_moments(changes)[:MOST_CUTS], room) if any(file.numbers for file in part.came)]
    whole, *others = (compared(words, settings, part, learnt_from(part, words), os.path.dirname(part.came[0].path)) for part in parts)
    for other in others:
        whole.merge(other)
    return whole


def compare(words: argparse.Namespace) -> int:
    """Compares, and tells. 1 where something differs."""
    if words.html:
        from rendapil.pages import refuse_without_jinja

        refuse_without_jinja()
    inputs = [words.settings, *words.captures]
    refuse_overwriting([words.html] if words.html else [], inputs)
    settings, _ = document_of(words.settings)
    with folder(words.keep, inputs) as room:
        links = read_links(words, settings, room)
        clock = clock_of(links) if words.clocks is None else Clock(0, round(words.clocks * SECOND))
        if clock:
            for file in (links.came[1], links.went[1]):
                shifted(file, lambda moment: -clock.at(moment))
        found = compared_by_parts(words, settings, links, room)
        match = found.match
        if not match.counts["device"] and not match.counts["reference"]:
            most = ", ".join(verdict for verdict, _ in match.verdicts.most_common(3))
            raise Fault(f"neither the device nor the reference sent anything on, so there is nothing to compare. The reference says {most}")
        if words.html:
            from rendapil.comparing.page import page_of

            put_in_place(words.html, page_of(words, links, match, found.groups))
        if words.json_lines:
            tell_lines(match, found.groups, clock.ahead)
        elif words.json:
            tell_json(links, found.learnt, match, found.groups, clock.ahead)
        else:
            tell(links, found, clock)
        return int(bool(found.groups.of(DIFFERENT)))


def main() -> int:
    """Reads the words, and does it. The status."""
    return ended("compare", lambda: compare(parsed()), 2)


if __name__ == "__main__":
    sys.exit(main())
