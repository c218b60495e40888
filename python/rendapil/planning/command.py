"""Which addresses of two networks overlap, which settings a gateway between them needs, and which of their
applications would break. Takes ordinary captures of each network, from before there is a gateway, or lists of its hosts. Writes the settings."""
import argparse
import heapq
import os
import shlex
import sys
from collections.abc import Iterator
from contextlib import suppress
from ipaddress import IPv4Address, IPv4Network

from rendapil.numbers import SIDES
from rendapil.ending import ended, fail, put_in_place, refuse_overwriting
from rendapil.files import FORMS, Damaged, Record, shown
from rendapil.frames import second_of
from rendapil.inputs import files_of
from rendapil.payloads.scan import lines_of, plural, told_rows
from rendapil.planning.firm import MOST_HOSTS, TABLES, Firm, Machine, services_of
from rendapil.planning.inventories import inventory
from rendapil.readers import PACKED, PCAPNG, whole_records
from rendapil.sayings import Fault
from rendapil.public import public_blocks
from rendapil.settings_text import oid_table, pool_table, same_line, static_table
from rendapil.trying.two_realms import CANDIDATES, block_of

WRITTEN = "# Written by rendapil plan"
SHOWN, STATICS, SERVICES = 20, 2000, 4
"""The most rows of a table, statics, and services of a host that are told."""

MOST = 65_534


class Plan:
    """The settings of a gateway between two firms."""

    def __init__(self, firms: list[Firm], is_same: bool) -> None:
        self.firms = firms
        own = [block for firm in firms for block in firm.blocks if not block.is_private]
        self.same = public_blocks(own) if is_same else []
        self.pools: list[tuple[IPv4Network, int, int]] = []
        self.statics: list[tuple[int, int, int, Machine]] = []
        taken: set[IPv4Network] = set()
        for side in (0, 1):
            self._choose(side, taken)
            self._name(side)

    def wanted(self, side: int) -> int:
        """How many addresses the pool of a side should have: twice those that its hosts need at one time, and room for statics."""
        firm = self.firms[1 - side]
        return min(MOST, max(2 * firm.most, len(firm.servers()) + firm.most, 30))

    def _choose(self, side: int, taken: set[IPv4Network]) -> None:
        """Chooses a pool in which neither firm has an address."""
        used = {address >> 8 for firm in self.firms for address in firm.seen}
        for block in CANDIDATES:
            fits = block.num_addresses - 2 >= self.wanted(side) and not any(block.overlaps(one) for one in [*taken, *self.same])
            first, last = int(block[0]) >> 8, int(block[-1]) >> 8
            if fits and not any(first <= one <= last for one in used) and not any(block.overlaps(one) for firm in self.firms for one in firm.blocks):
                taken.add(block)
                self.pools.append((block, int(block[1]), int(block[-2])))
                return
        raise Fault(f"no block is free for a pool of {self.wanted(side)} addresses in the {SIDES[side]} realm: choose one by hand")

    def _name(self, side: int) -> None:
        """Gives the servers of the other firm aliases in the pool of a side, with their own last numbers where these are free."""
        _, first, last = self.pools[side]
        free = set(range(first, last + 1))
        for address, host in self.firms[1 - side].servers()[: min(STATICS, (last - first + 1) // 2)]:
            wanted = first - 1 + address % 256
            alias = wanted if wanted in free else min(free)
            free.remove(alias)
            self.statics.append((1 - side, address, alias, host))

    def settings(self, names: list[str]) -> Iterator[str]:
        """The settings, with what each line rests on."""
        yield f"{WRITTEN} from {' and '.join(names)}. Look at each line before you use it.\n"
        if self.same:
            yield "# Public addresses mean the same hosts in both realms. Take out those that one of the firms uses for hosts of its own."
            if shared := sorted(set(self.firms[0].outside) & set(self.firms[1].outside)):
                yield f"# Both firms used {len(shared):,} of them: {', '.join(str(IPv4Address(one)) for one in shared[:8])}{' and more' if len(shared) > 8 else ''}."
            yield same_line(self.same)
        fragments = sum(firm.fragments for firm in self.firms)
        yield f"# {plural(fragments, 'fragment')} seen." + ("" if fragments else " Large pings and DNS answers may still come in fragments.")
        yield 'fragments = "join"\n'
        for side, (block, first, last) in enumerate(self.pools):
            firm = self.firms[1 - side]
            yield f"# Hosts of the {SIDES[1 - side]} realm are known on the {SIDES[side]} by these addresses: route {block} to the gateway there. {plural(len(firm.hosts), 'host')} spoke,"
            yield f"# of which {firm.most:,} would have had an alias at one time, had all of them spoken over the gateway, and {len(firm.servers()):,} serve{'s' if len(firm.servers()) == 1 else ''} others."
            yield pool_table(side, first, last)
        for side, address, alias, host in self.statics:
            services = list(services_of(host))
            more = f", and {len(services) - SERVICES} more" if len(services) > SERVICES else ""
            called = f"{', '.join(self.firms[side].names[address])}: " if address in self.firms[side].names else ""
            yield f"# {called}serves {plural(host.clients, 'host')}: {', '.join(services[:SERVICES])}{more}"
            yield static_table(side, address, alias)
        for side, firm in enumerate(self.firms):
            if others := firm.servers(False):
                named = ", ".join(str(IPv4Address(address)) for address, _ in others[:8])
                yield f"# {plural(len(others), 'host')} of the {SIDES[side]} realm answered on high ports, as clients do in media and games: {named}{' and more' if len(others) > 8 else ''}."
                yield "# Each needs a static too if the other realm contacts it first.\n"
        for name, (prefix, skip) in TABLES.items():
            if count := sum(firm.tables[name] for firm in self.firms):
                yield f"# {name} was walked: {plural(count, 'message')}\n{oid_table(prefix, skip)}"


# What is told.


def tell_firms(firms: list[Firm]) -> None:
    """What was seen of both."""
    for firm in firms:
        for what in firm.damaged:
            print(f"{SIDES[firm.side]}: {what}")
        span = f", {second_of(firm.first // 10**9).replace('T', ' ')} to {second_of(firm.last // 10**9).replace('T', ' ')} UTC" if firm.first else ""
        spoke = "spoke, or stand in a list" if any(host.is_listed for host in firm.hosts.values()) else "spoke"
        print(
            f"{SIDES[firm.side]}: {plural(len(firm.hosts), 'host')} of its own {spoke}, {len(firm.servers()):,} of them serve{'s' if len(firm.servers()) == 1 else ''} others. {plural(firm.frames, 'frame')}{span}"
        )
        if not firm.hosts:
            print(f"  no address of this capture is private: say which are the firm's own by --{SIDES[firm.side]} BLOCK")
        if len(firm.hosts) >= MOST_HOSTS:
            print(f"  it has more hosts than a pool has addresses: only the first {MOST_HOSTS:,} are known")
        if firm.two_cards:
            print(
                f"  two network cards sent from each of {len(firm.two_cards):,} addresses, such as {IPv4Address(min(firm.two_cards))}: on several links a router "
                "does that. If these are captures of both networks, each such address counts as one host here and is two"
            )


def tell_overlap(firms: list[Firm]) -> None:
    """Which blocks both firms use."""
    mine, theirs = (firm.blocks_in_use() for firm in firms)
    both = sorted(set(mine) & set(theirs), key=lambda block: -min(mine[block], theirs[block]))
    alike = len(set(firms[0].hosts) & set(firms[1].hosts))
    print(
        f"\nOverlap: {plural(len(both), 'block')} of 256 addresses with hosts of both, and {alike:,} address{'' if alike == 1 else 'es'} of two hosts"
    )
    if both:
        print(f"{'Block':20}{'Left hosts':>12}{'Right hosts':>12}{'Same address':>14}")
    for block in both[:SHOWN]:
        hosts = [{address for address in firm.hosts if address >> 8 == int(block[0]) >> 8} for firm in firms]
        print(f"{block!s:20}{len(hosts[0]):12,}{len(hosts[1]):12,}{len(hosts[0] & hosts[1]):14,}")
    if len(both) > SHOWN:
        print(f"and {len(both) - SHOWN} blocks more")


def tell_pools(plan: Plan) -> None:
    """How large the pools have to be."""
    print("\nPools")
    for side, (block, first, last) in enumerate(plan.pools):
        firm = plan.firms[1 - side]
        at = f", first at {second_of(firm.level.most_at // 10**9).replace('T', ' ')}" if firm.level.most else ""
        fixed = sum(one[0] == 1 - side for one in plan.statics)
        print(
            f"{SIDES[side]} pool: {IPv4Address(first)} to {IPv4Address(last)}, {last - first + 1:,} addresses for {plural(len(firm.hosts), 'host')} of the {SIDES[1 - side]} realm, {fixed} of them fixed. "
            f"If all spoke over the gateway, at most {firm.most:,} would need one at one time{at}"
        )


def tell_not_carried(firms: list[Firm]) -> None:
    """What stays in its realm, whatever the settings are."""
    kinds = sorted(set().union(*(firm.not_carried for firm in firms)))
    print("\nWhat no gateway of this kind carries")
    for kind in kinds:
        print(
            "  "
            + kind
            + ": "
            + ", ".join(f"{plural(firm.not_carried[kind], 'frame')} on the {SIDES[firm.side]}" for firm in firms if firm.not_carried[kind])
        )
    if not kinds:
        print("  nothing of that kind was seen")


def tell_risks(firms: list[Firm]) -> None:
    """Which applications of both carry addresses."""
    for firm, other in zip(firms, firms[::-1]):
        firm.compare(other)
        if firm.changed:
            print(
                f"\n{SIDES[firm.side].capitalize()}: the gateway changes the addresses in "
                + ", ".join(f"{name} ({plural(count, 'frame')})" for name, count in firm.changed.most_common())
            )
        for scan, where in zip(
            firm.scans, ("between its hosts. What of them will cross breaks", "to others, as far as these will be reached over the gateway")
        ):
            if scan.scanned and (where.startswith("between") or told_rows(scan)):
                _, *lines = lines_of(scan)
                print(f"\n{SIDES[firm.side].capitalize()}: addresses in payloads {where}")
                print(*(line for line in lines if line), sep="\n")


# The command.


def parsed() -> argparse.Namespace:
    """The words of the command."""
    end = "The status is 0, or 1 where a file can't be read, no settings fit or the rehearsal has a refused frame, or 2 where the words are wrong."
    parser = argparse.ArgumentParser(prog="rendapil plan", description=__doc__, epilog=end)
    what = "network: a capture, a folder of captures, or a list of hosts (nmap -oG, DHCP leases, CSV; flows as nfdump -o csv)"
    for side in SIDES:
        parser.add_argument(f"{side}_file", metavar=side.upper(), nargs="?", help=f"the {side} {what}")
    for side in SIDES:
        parser.add_argument(
            f"--{side}",
            metavar="WORD",
            nargs="+",
            default=[],
            help=f"blocks of the {side} firm's own addresses (all private ones), and more of its files",
        )
    parser.add_argument("--no-same", action="store_true", help="public addresses don't mean the same hosts in both realms: they get aliases")
    parser.add_argument(
        "--write", "--out", metavar="SETTINGS", dest="out", default="rendapil-plan.toml", help="where the settings go (rendapil-plan.toml)"
    )
    parser.add_argument("--html", metavar="FILE", help="also write a page for both firms to FILE")
    parser.add_argument("--rehearse", action="store_true", help="run the proved program over calls of all clients to the servers of the other firm")
    return parser.parse_args()


def words_of(words: list[str], first: str | None) -> tuple[list[IPv4Network], list[str]]:
    """The blocks and the files of a side. A word that is no block is a file."""
    blocks: list[IPv4Network] = []
    files = [first] if first else []
    for word in words:
        try:
            blocks.append(block_of(word))
        except (argparse.ArgumentTypeError, ValueError):
            files.append(word)
    return blocks, files


def frames_of(path: str, firm: Firm) -> Iterator[Record]:
    """The frames of a capture. What is wrong behind the last one is noted."""
    number = 0
    try:
        for number, record in enumerate(whole_records(path), 1):
            yield record
    except Damaged as error:
        firm.damaged.append(f"{shown(path)} is damaged behind frame {number}: {error}")


def is_capture(path: str) -> bool:
    """Whether a file is a capture by its first bytes, and no list."""
    with open(path, "rb") as file:
        front = file.read(4)
    return front in FORMS or front == PCAPNG or front[:2] == PACKED


def files_in(path: str) -> list[str]:
    """The files that a word names: itself, or the captures of a folder."""
    try:
        return files_of(path)
    except Fault as error:
        raise Fault(f"{shown(path)}: {error}") from None


def look(firm: Firm, paths: list[str]) -> None:
    """Looks at the captures and lists of a firm. Frames of several captures are taken in the order of their moments."""
    files = [file for path in paths for file in files_in(path)]
    captures = [file for file in files if is_capture(file)]
    firm.look(heapq.merge(*(frames_of(file, firm) for file in captures), key=lambda record: record.moment))
    for file in files:
        if file not in captures:
            firm.read(inventory(file))
    if not firm.hosts and not firm.outside:
        raise Fault(f"the {SIDES[firm.side]} side has no host with an IPv4 address: {', '.join(map(shown, paths))}")


def refuse_foreign(path: str) -> None:
    """Ends where the settings would be written over a file of somebody else."""
    if os.path.exists(path) and not os.path.samefile(path, "/dev/null") and os.path.isfile(path):
        with open(path, "rb") as file:
            if not file.read(len(WRITTEN)).startswith(WRITTEN.encode()):
                raise Fault(f"{shown(path)} is there and wasn't written by plan: give another name by --out")


def refuse_page(words: argparse.Namespace, paths: list[str]) -> None:
    """Ends where the page would be written over the settings, or over what is read."""
    if words.html and (os.path.isfile(words.html) or not os.path.exists(words.html)):
        if os.path.realpath(words.html) == os.path.realpath(words.out):
            raise Fault(f"{shown(words.html)} is to have the settings, and the page too: give another name by --html")
        refuse_overwriting([words.html], [file for path in paths for file in files_in(path)])


def refuse_one_side_twice(left: list[str], right: list[str]) -> None:
    """Ends where a side has no file, or both have the same one."""
    for side, paths in zip(SIDES, (left, right)):
        if not paths:
            fail("plan", f"the {side} side has no file: name a capture or a list of hosts of each network", 2)
    for one in left:
        for other in right:
            with suppress(OSError):
                if os.path.samefile(one, other):
                    raise Fault(f"{shown(one)} is given for both sides: each network needs a capture of its own")


def tell_zones(plan: Plan) -> None:
    """Which names have to be looked up through the gateway."""
    for side, address, alias, host in plan.statics:
        if any(port == 53 for _, port in host.answered):
            print(
                f"{SIDES[1 - side].capitalize()} hosts that look up names of the {SIDES[side]} firm ask {IPv4Address(alias)} ({IPv4Address(address)} there)"
            )
    for side, firm in enumerate(plan.firms):
        if zones := sorted({name.partition(".")[2] for names in firm.names.values() for name in names if "." in name}):
            print(
                f"Names of the {SIDES[side]} firm that DNS answers of its own gave: in {', '.join(zones[:SHOWN])}{' and more' if len(zones) > SHOWN else ''}"
            )


def plan_it(words: argparse.Namespace) -> int:
    """Looks at both networks, writes the settings, and tells. The status."""
    if words.html:
        from rendapil.pages import refuse_without_jinja

        refuse_without_jinja()
    refuse_foreign(words.out)
    sides = [words_of(more, first) for more, first in ((words.left, words.left_file), (words.right, words.right_file))]
    (_, left), (_, right) = sides
    refuse_one_side_twice(left, right)
    refuse_page(words, left + right)
    firms = [Firm(side, blocks) for side, (blocks, _) in enumerate(sides)]
    for firm, (_, paths) in zip(firms, sides):
        look(firm, paths)
    plan: Plan | None = None
    why: Fault | None = None
    try:
        plan = Plan(firms, not words.no_same)
    except Fault as error:
        why = error
    names = [shown(os.path.basename(path.rstrip("/"))) for path in left + right]
    if plan:
        text = "".join(f"{line}\n" for line in plan.settings([name.encode("ascii", "backslashreplace").decode() for name in names]))
        put_in_place(words.out, text)
    tell_firms(firms)
    tell_overlap(firms)
    if plan:
        tell_pools(plan)
    tell_not_carried(firms)
    tell_risks(firms)
    if why or not plan:
        raise why or Fault("no settings fit")
    return finish(words, plan, names)


def finish(words: argparse.Namespace, plan: Plan, names: list[str]) -> int:
    """Tells which names need the gateway, rehearses, and writes the page, where these are asked for. The status."""
    print()
    tell_zones(plan)
    rehearsal: list[str] = []
    status = 0
    if words.rehearse:
        from rendapil.planning.rehearsal import rehearse

        done = rehearse(plan.firms, [one[:3] for one in plan.statics], [(first, last) for _, first, last in plan.pools], words.out)
        rehearsal, status = list(done.told()), int(bool(done.refused))
        print("Rehearsal: " + "\n".join(rehearsal))
    if words.html:
        from rendapil.planning.page import page_of

        put_in_place(words.html, page_of(plan, names, rehearsal))
        print(f"{shown(words.html)} is a page for both firms")
    print(f"{shown(words.out)} has the settings, with {plural(len(plan.statics), 'static')}. Next: rendapil check {shlex.quote(shown(words.out))}")
    return status


def main() -> int:
    """Reads the words, and does it. The status."""
    words = parsed()
    return ended("plan", lambda: plan_it(words))


if __name__ == "__main__":
    sys.exit(main())
