"""Writes settings of a ruleset of nftables that does twice NAT, as `nft -j list ruleset` gives it: its static
translations, by map or by rule. What it can't tell is in comments."""
import argparse
import json
import sys
from collections.abc import Iterator
from ipaddress import AddressValueError, IPv4Address, summarize_address_range

from rendapil.ending import ended
from rendapil.exporting.command import device
from rendapil.files import shown
from rendapil.numbers import SIDES
from rendapil.sayings import Fault
from rendapil.settings_text import pool_table, static_table

LONGEST = 1 << 26
"""How long a ruleset may be."""

Pairs = list[tuple[int, int]]


def address_of(value: object) -> int | None:
    """An IPv4 address of a ruleset."""
    try:
        return int(IPv4Address(value)) if isinstance(value, str) else None
    except AddressValueError:
        return None


def pairs_in(elements: object) -> Iterator[tuple[int, int]]:
    """The pairs of addresses of a map."""
    for element in elements if isinstance(elements, list) else ():
        one, other = element if isinstance(element, list) and len(element) == 2 else (None, None)
        first, second = address_of(one.get("elem", {}).get("val") if isinstance(one, dict) else one), address_of(other)
        if first is not None and second is not None:
            yield first, second


class Ruleset:
    """What a ruleset translates: by the device of a link the destinations of what comes in there, each with the host that is meant."""

    def __init__(self, entries: list[dict[str, object]], left: str, right: str) -> None:
        self._sides = {left: 0, right: 1}
        self._maps = {found.get("name"): list(pairs_in(found.get("elem"))) for one in entries if isinstance(found := one.get("map"), dict)}
        self.hosts: tuple[dict[int, int], dict[int, int]] = {}, {}
        """By side the hosts that have a static, each with its alias."""

        self.unread = 0
        for one in entries:
            if isinstance(rule := one.get("rule"), dict):
                self._take(rule.get("expr"))

    def _take(self, expressions: object) -> None:
        """Takes a rule."""
        side: int | None = None
        matched: int | None = None
        for one in expressions if isinstance(expressions, list) else ():
            match one:
                case {"match": {"left": {"meta": {"key": "iifname" | "iif"}}, "right": str(name)}}:
                    side = self._sides.get(name)
                case {"match": {"left": {"payload": {"field": "daddr"}}, "right": value}}:
                    matched = address_of(value)
                case {"dnat": {"addr": to}}:
                    self._note(side, matched, to)

    def _note(self, side: int | None, matched: int | None, to: object) -> None:
        """Notes that what comes from a side for an alias goes to a host of the other one."""
        pairs: Pairs = []
        match to:
            case {"map": {"key": {"payload": {"field": "daddr"}}, "data": str(name)}}:
                pairs = self._maps.get(name.removeprefix("@"), [])
            case {"map": {"key": {"payload": {"field": "daddr"}}, "data": {"set": elements}}}:
                pairs = list(pairs_in(elements))
            case _ if matched is not None and (host := address_of(to)) is not None:
                pairs = [(matched, host)]
        if side is None or not pairs:
            self.unread += 1
            return
        for alias, host in pairs:
            self.hosts[1 - side].setdefault(host, alias)


def pool_around(aliases: list[int]) -> tuple[int, int]:
    """The least block that has all aliases, without its first and its last address where it has more."""
    low, high = min(aliases), max(aliases)
    size = max(8, 1 << (high - low).bit_length())
    first = low & -size
    while first + size - 2 < high or first + 1 > low:
        size *= 2
        first = low & -size
    return first + 1, first + size - 2


def settings_of(ruleset: Ruleset, name: str) -> Iterator[str]:
    """The settings."""
    yield f"# Written by rendapil import nftables of {name}. Look at each line before you use it."
    yield "# Pools are the least blocks that have all aliases: give them the size that you route to the gateway."
    if ruleset.unread:
        yield f"# {ruleset.unread} rules with dnat weren't understood: they name no device of --left and --right, or no single address."
    yield ""
    for side in (0, 1):
        aliases = list(ruleset.hosts[1 - side].values())
        if not aliases:
            raise Fault(f"the ruleset has no static translation for what comes from the {SIDES[side]} device: name it by --{SIDES[side]}")
        first, last = pool_around(aliases)
        blocks = ", ".join(map(str, summarize_address_range(IPv4Address(first - 1), IPv4Address(last + 1))))
        yield f"# {blocks}\n" + pool_table(side, first, last)
    for side in (0, 1):
        for host, alias in sorted(ruleset.hosts[side].items()):
            yield static_table(side, host, alias)


def import_rules(words: argparse.Namespace) -> int:
    """Reads the ruleset and writes settings. The status."""
    with sys.stdin.buffer if words.rules == "-" else open(words.rules, "rb") as file:
        octets = file.read(LONGEST + 1)
    try:
        entries = json.loads(octets)["nftables"]
    except (ValueError, LookupError, TypeError, RecursionError):
        raise Fault(f"{shown(words.rules)} isn't what 'nft -j list ruleset' writes") from None
    known = [one for one in entries if isinstance(one, dict)] if isinstance(entries, list) else []
    print("\n".join(settings_of(Ruleset(known, words.left, words.right), shown(words.rules))))
    return 0


def parsed() -> argparse.Namespace:
    """The words of the command."""
    end = "The status is 0, or 1 where the ruleset can't be read or has no such translation, or 2 where the words are wrong."
    parser = argparse.ArgumentParser(prog="rendapil import", description=__doc__, epilog=end)
    parser.add_argument("kind", metavar="KIND", choices=("nftables",), help="nftables")
    parser.add_argument("rules", metavar="RULES", help="what 'nft -j list ruleset' wrote, or - for standard input")
    for side, name in zip(SIDES, ("eth0", "eth1")):
        parser.add_argument(f"--{side}", metavar="DEVICE", type=device, default=name, help=f"the device of the {side} link ({name})")
    return parser.parse_args()


def main() -> int:
    """Reads the words, and does it. The status."""
    return ended("import", lambda: import_rules(parsed()))


if __name__ == "__main__":
    sys.exit(main())
