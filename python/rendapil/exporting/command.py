"""Writes the rules with which a Linux gateway does the twice NAT of these settings, as far as Linux can: nftables
has the translation, iproute2 the routes. Comments say what Linux doesn't do. For other routers it writes the statics alone, untried."""
import argparse
import re
import sys
from ipaddress import IPv4Address

from rendapil.bindings import pool_of
from rendapil.check.settings import document_of
from rendapil.document import Document, Side
from rendapil.ending import ended
from rendapil.files import shown
from rendapil.numbers import SIDES

DEVICE = re.compile(r"[A-Za-z0-9_.:@-]{1,15}")
"""Names of devices that nft and ip take."""

CANNOT = """\
# What Linux doesn't do, and the reference does (rendapil compare tells it of your captures):
# - DNS: it translates no answers and no reverse names. Let a name server give each realm the aliases, as dnsmasq --alias does.
# - SNMP: its helper is wrong where both realms have the same addresses. So it isn't used here.
# - FTP: an address is translated only where its line begins a segment, and isn't the first line of a connection. A line that comes in pieces is
#   dropped. A segment that no longer fits the MTU is lost.
# - It sends ICMP errors by itself (time exceeded, unreachable), and gives the errors of routers the alias of the host that is meant."""

DYNAMIC = """\
# Hosts without a static: Linux picks an alias of the range by the host's address. So two hosts may share one (then a port may change), and nobody
# can call these hosts first. The reference gives each host an alias of its own. Give a host that matters a static."""


def pairs_of(settings: Document, side: Side) -> list[tuple[str, str]]:
    """The hosts of a realm that have a static, each with its alias."""
    return [(row["host"], row["alias"]) for row in settings.get("static", []) if row["side"] == side]


def free_range(settings: Document, side: Side) -> tuple[int, int] | None:
    """The longest range of a pool that no static has: aliases of hosts of the other realm."""
    first, last = pool_of(settings, side)
    taken = sorted(int(IPv4Address(alias)) for _, alias in pairs_of(settings, SIDES[1 - SIDES.index(side)]))
    bounds = [first - 1, *taken, last + 1]
    begin, end = max(((low + 1, high - 1) for low, high in zip(bounds, bounds[1:])), key=lambda one: one[1] - one[0])
    return (begin, end) if begin <= end else None


def range_text(begin: int, end: int) -> str:
    """A range as nft writes it."""
    return f"{IPv4Address(begin)}-{IPv4Address(end)}" if begin < end else str(IPv4Address(begin))


# nftables.


def map_lines(name: str, comment: str, pairs: list[tuple[str, str]]) -> list[str]:
    """A map of addresses."""
    elements = [f"        elements = {{ {', '.join(f'{one} : {other}' for one, other in pairs)} }}"] if pairs else []
    return [f"    # {comment}", f"    map {name} {{", "        type ipv4_addr : ipv4_addr", *elements, "    }", ""]


def maps_of(settings: Document, side: Side) -> list[str]:
    """The maps of the hosts that are known on a side."""
    other = SIDES[1 - SIDES.index(side)]
    pairs = pairs_of(settings, other)
    hosts = map_lines(f"{other}_host", f"Which {other} host an alias on the {side} stands for.", [(alias, host) for host, alias in pairs])
    return hosts + map_lines(f"{other}_alias", f"What a {other} host is called on the {side}.", pairs)


def nftables(settings: Document, words: argparse.Namespace) -> list[str]:
    """The rules for nft -f."""
    same = settings.get("same", [])
    lines = ["#!/usr/sbin/nft -f", f"# Written by rendapil export nftables of {shown(words.settings)}.", CANNOT]
    lines += [f'define {side} = "{getattr(words, side)}"' for side in SIDES]
    lines += ["", "table ip rendapil", "delete table ip rendapil", "table ip rendapil {"]
    lines += ["    ct helper ftp_control {", '        type "ftp" protocol tcp', "    }", ""]
    if same:
        lines += ["    # The same hosts in both realms.", "    set same {", "        type ipv4_addr", "        flags interval"]
        lines += [f"        elements = {{ {', '.join(same)} }}", "    }", ""]
    lines += [line for side in SIDES for line in maps_of(settings, side)]
    lines += [
        "    # Nobody may speak as an alias: the reference refuses that as SourceInPool.",
        "    chain sources_checked {",
        "        type filter hook prerouting priority raw; policy accept;",
    ]
    lines += [f"        iifname ${side} ip saddr {range_text(*pool_of(settings, side))} drop" for side in SIDES]
    lines += ["    }", "", "    chain helpers {", "        type filter hook prerouting priority mangle; policy accept;"]
    lines += ['        iifname { $left, $right } tcp dport 21 ct helper set "ftp_control"', "    }", "", "    chain destinations {"]
    lines += ["        type nat hook prerouting priority dstnat; policy accept;"]
    lines += [f"        iifname ${side} dnat to ip daddr map @{other}_host" for side, other in zip(SIDES, reversed(SIDES))] + ["    }", ""]
    lines += ["    chain sources {", "        type nat hook postrouting priority srcnat; policy accept;"]
    if same:
        lines.append("        ip saddr @same accept")
    for side, other in zip(SIDES, reversed(SIDES)):
        lines.append(f"        iifname ${side} snat to ip saddr map @{side}_alias")
    dynamic = [(side, free_range(settings, other)) for side, other in zip(SIDES, reversed(SIDES))]
    lines += ["        " + line for line in DYNAMIC.split("\n")] if any(free for _, free in dynamic) else []
    lines += [f"        iifname ${side} snat to {range_text(*free)} persistent" for side, free in dynamic if free]
    lines += [
        "    }",
        "",
        "    # Only what goes to an alias or to a host of both realms is sent on: the reference refuses all else as NoBinding.",
        "    chain sent_on {",
    ]
    lines += [
        "        type filter hook forward priority filter; policy accept;",
        "        iifname != { $left, $right } accept",
        "        ct state invalid drop",
    ]
    lines += ["        ct state established,related accept", "        ct status dnat accept"]
    if same:
        lines.append("        ip daddr @same accept")
    return [*lines, "        drop", "    }", "}"]


# iproute2.


def iproute2(settings: Document, words: argparse.Namespace) -> list[str]:
    """The routes, as a shell script: what comes from one link leaves by the other one, whatever its address is."""
    lines = ["#!/bin/sh", f"# Written by rendapil export iproute2 of {shown(words.settings)}. Run it as root, before nft -f.", "set -e"]
    lines += ["modprobe -a nf_nat_ftp nf_conntrack_ftp 2>/dev/null || true # where they are modules"]
    lines += ["sysctl -qw net.ipv4.ip_forward=1 net.ipv4.conf.all.rp_filter=0 net.ipv4.conf.all.send_redirects=0"]
    lines += ["# The path filter takes a source that both realms have for a forged one."]
    lines += [f"sysctl -qw net.ipv4.conf.{getattr(words, side)}.rp_filter=0 net.ipv4.conf.{getattr(words, side)}.send_redirects=0" for side in SIDES]
    for number, (side, other) in enumerate(zip(SIDES, reversed(SIDES))):
        table, via = words.table + number, getattr(words, f"{other}_via")
        way = f"via {via} " if via else ""
        lines += [f"# What comes from the {side} goes to the {other}" + ("." if via else ", where all hosts are on the link.")]
        lines += [f"ip rule del pref {words.table + number} 2>/dev/null || true"]
        lines += [f"ip rule add pref {words.table + number} iif {getattr(words, side)} lookup {table}"]
        lines += [f"ip route replace default {way}dev {getattr(words, other)}{'' if via else ' scope link'} table {table}"]
    first = {side: range_text(*pool_of(settings, side)) for side in SIDES}
    lines += [f"# In the {side} realm, route {first[side]} to this gateway." for side in SIDES]
    return lines


# Routers of others: statics alone, as their documents spell them.

UNTRIED = "UNTRIED: no such router was at hand. These lines have the documented syntax, and nobody has loaded them. Hold the router against 'rendapil compare'."


def cisco(settings: Document, words: argparse.Namespace) -> list[str]:
    """The statics as Cisco's IOS has them: the left realm is the inside."""
    lines = [f"! Written by rendapil export cisco of {shown(words.settings)}.", f"! {UNTRIED}", "! Statics alone: no pools, no `same`, no routes."]
    lines += [f"interface {words.left}", " ip nat inside", f"interface {words.right}", " ip nat outside"]
    for side, way in zip(SIDES, ("inside", "outside")):
        lines += [f"ip nat {way} source static {host} {alias}" for host, alias in pairs_of(settings, side)]
    return lines


def junos(settings: Document, words: argparse.Namespace) -> list[str]:
    """The statics as Juniper's Junos has them on an SRX: zones are called left and right."""
    lines = [f"# Written by rendapil export junos of {shown(words.settings)}.", f"# {UNTRIED}", "# Statics alone: no pools, no `same`, no routes."]
    lines += [f"set security zones security-zone {side} interfaces {getattr(words, side)}" for side in SIDES]
    for side, other in zip(SIDES, reversed(SIDES)):
        rules = f"set security nat static rule-set {side}-hosts"
        pairs = pairs_of(settings, side)
        lines += [f"{rules} from zone {other}"] if pairs else []
        for number, (host, alias) in enumerate(pairs, 1):
            lines += [f"{rules} rule r{number} match destination-address {alias}/32", f"{rules} rule r{number} then static-nat prefix {host}/32"]
    return lines


KINDS = {"nftables": nftables, "iproute2": iproute2, "cisco": cisco, "junos": junos}


def device(text: str) -> str:
    """The name of a device."""
    if not DEVICE.fullmatch(text):
        raise argparse.ArgumentTypeError(f"{shown(text)} is no name of a device")
    return text


def parsed() -> argparse.Namespace:
    """The words of the command."""
    end = "The status is 0, or 1 where the settings can't be read or have a fault, or 2 where the words are wrong."
    parser = argparse.ArgumentParser(prog="rendapil export", description=__doc__, epilog=end)
    parser.add_argument("kind", metavar="KIND", choices=KINDS, help="nftables or iproute2; or cisco or junos, which are untried")
    parser.add_argument("settings", metavar="SETTINGS", help="the settings")
    for side, name in zip(SIDES, ("eth0", "eth1")):
        parser.add_argument(f"--{side}", metavar="DEVICE", type=device, default=name, help=f"the device of the {side} link ({name})")
        parser.add_argument(
            f"--{side}-via",
            metavar="ADDRESS",
            type=IPv4Address,
            help=f"iproute2: the router behind which the {side} realm is. Without it all its hosts are on the link",
        )
    parser.add_argument("--table", metavar="NUMBER", type=int, default=101, help="iproute2: the first of two numbers of tables and rules (101)")
    return parser.parse_args()


def export(words: argparse.Namespace) -> int:
    """Writes the rules. The status."""
    print("\n".join(KINDS[words.kind](document_of(words.settings)[0], words)))
    return 0


def main() -> int:
    """Reads the words, and does it. The status."""
    return ended("export", lambda: export(parsed()))


if __name__ == "__main__":
    sys.exit(main())
