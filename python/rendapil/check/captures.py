"""Which frames of two captures a gateway refuses whatever it knows by then, and the command that mends it. As a module that is run, with SETTINGS
LEFT_IN RIGHT_IN, it tells at most two lines. 'rendapil check SETTINGS LEFT_IN RIGHT_IN' says more of the same."""
import hashlib
import os
import shlex
import struct
import sys
from collections import Counter
from collections.abc import Iterator
from dataclasses import dataclass, field
from ipaddress import IPv4Address
from itertools import islice
from typing import TYPE_CHECKING

from rendapil.any_capture import IPV4, TAGS
from rendapil.document import Side, faultless
from rendapil.files import ETHERNET, FORMS, RECORD, Damaged, NoStamp, Record, TooLong, pcap_records, shown
from rendapil.inputs import Fed, opened
from rendapil.kinds import by_head
from rendapil.numbers import SECOND, SIDES
from rendapil.packet import SUM_AT, Packet, is_host, is_private
from rendapil.payloads.applications import BREAKS
from rendapil.payloads.kept import ALIAS, HOST, MAYBE, PRIVATE, Meaning, Meant
from rendapil.payloads.scan import Scan, example_of

if TYPE_CHECKING:
    from rendapil.check.settings import Realms

LOOKED_AT, BRIEFLY = 20_000, 4_000
"""How many frames of a capture are looked at, and how many behind a run."""


def unreadable(head: bytes, old: str) -> str:
    """Why a file isn't a capture that the gateway reads, and the command that makes it one, by its first bytes."""
    kind = by_head(head, old)
    if not kind:
        return "is no capture: Magic. Are the words in their order?"
    if kind.command:
        return f"{kind.what}: {kind.fault}. {kind.verb} it: {kind.command}"
    if kind.fault == "Link":
        return f"{kind.what}: {kind.fault}. Capture on an Ethernet interface or a tun device"
    return f"{kind.what}: {kind.fault}" if kind.fault else ""


@dataclass
class Looked:
    """What was seen in the first frames of a capture: how many there are, how many of each kind, what their payloads say, and a digest of their bytes."""

    scan: Scan | None = None
    total: int = 0
    count: Counter[str] = field(default_factory=Counter)
    digest: bytes = b""
    fault: str = ""


def look_at(path: str, side: Side, realms: "Realms", most: int) -> Looked:
    """Looks at the first frames of a capture. `realms` are the settings."""
    scan, digest = Scan(meaning_by(realms), True), hashlib.sha256()
    looked = Looked(scan)
    with opened(path) as file:
        head = file.read(24)
        if fault := unreadable(head, shlex.quote(path)):
            return Looked(fault=fault)
        order, unit = form = FORMS[head[:4]]
        records = pcap_records(file, form, struct.unpack(order + "I", head[20:])[0], SECOND // unit)
        try:
            for looked.total, frame in enumerate(islice(records, most), 1):
                digest.update(struct.pack("<II", len(frame.octets), frame.length) + frame.octets)
                kind = kind_of(frame, side, realms)
                looked.count[kind] += 1
                if kind == "good":
                    datagram = frame.octets[14:] if frame.link == ETHERNET else frame.octets
                    scan.take(looked.total, SIDES.index(side), datagram, [datagram])
        except NoStamp:
            looked.fault = f"has a stamp that is none in its record {looked.total + 1}: Stamp. 'rendapil try' reads it"
        except TooLong:
            looked.fault = f"has more than {RECORD} bytes in its record {looked.total + 1}: RecordTooLong. It isn't whole: copy it again"
        except Damaged:
            looked.fault = f"ends inside its record {looked.total + 1}: Torn. Keep the whole ones: editcap -F pcap {shlex.quote(path)} NEW"
    looked.digest = digest.digest()
    if isinstance(file, Fed) and file.damage:
        looked.fault = f"is damaged: {file.damage}"
    return looked


def meaning_by(realms: "Realms") -> Meaning:
    """Whom addresses mean by the settings alone."""
    names: tuple[tuple[dict[int, int], dict[int, int]], ...] = ({}, {}), ({}, {})
    for side, host, alias in realms.statics:
        number = 0 if side == "left" else 1
        names[number][0][int(host)] = int(alias)
        names[1 - number][1][int(alias)] = int(host)

    def meaning(side: int, address: int) -> Meant | None:
        if not is_host(address) or realms.is_in_same(IPv4Address(address)):
            return None
        if realms.is_in_pool("right" if side else "left", IPv4Address(address)):
            return Meant(ALIAS, names[side][1].get(address, 0))
        known = names[side][0].get(address, 0)
        return Meant(HOST, known) if known else Meant(PRIVATE, 0) if is_private(address) else None

    return meaning


def kind_of(frame: Record, side: Side, realms: "Realms") -> str:
    """What the gateway has to say of a frame: the first of the reasons that are looked for, in the order in which it looks for them."""
    octets = frame.octets
    if not octets:
        return "heartbeat"
    if frame.length > len(octets):
        return "cut"
    if frame.link == ETHERNET:
        if octets[12:14] in TAGS:
            return "tags"
        octets = octets[14:] if octets[12:14] == IPV4 else b""
    if len(octets) < 20 or octets[0] >> 4 != 4 or octets[0] & 15 < 5:
        return "other"
    packet, mended = Packet(octets), Packet(octets)
    if not packet.is_whole:
        return "cut"
    mended.mend()
    if mended.octets[10:12] != packet.octets[10:12]:
        return "sums"
    if packet.is_fragment and realms.document.get("fragments") != "join":
        return "fragments"
    source, destination = map(IPv4Address, (packet.source, packet.destination))
    if not (is_host(packet.source) and is_host(packet.destination)) or packet.protocol not in SUM_AT:
        return "other"
    if mended.octets != packet.octets:
        return "sums"
    if realms.is_in_pool(side, source):
        return "own"
    if realms.is_in_pool(side, destination) or realms.is_in_same(destination):
        return "good"
    return "swapped" if realms.is_in_pool("right" if side == "left" else "left", destination) else "far"


def mends(side: Side, path: str, realms: "Realms") -> dict[str, tuple[str, str]]:
    """For each kind what is told of it, and what mends it."""
    old = shlex.quote(path)
    first, last = (IPv4Address(end) for end in realms.pools[side])
    only = f"tshark -r {old} -F pcap -w NEW -Y 'ip.dst >= {first} && ip.dst <= {last}'"
    return {
        "tags": ("have a VLAN tag: NotIpv4", f"Take one tag away: editcap -F pcap -L -C 12:4 {old} NEW"),
        "cut": ("are cut: Snapped", "Capture whole frames: tcpdump -s 0 -w NEW -i INTERFACE"),
        "fragments": ("are fragments: Fragment", 'Let the gateway join them, by the settings: fragments = "join"'),
        "own": (f"come from the {side} pool: SourceInPool", f"A gateway sent them. Keep what hosts sent: {only}"),
        "swapped": ("go to the other realm's pool: NoBinding", "Are left and right swapped?"),
        "far": (f"go to addresses outside the {side} pool and same: NoBinding", f"Make two realms of an ordinary capture: rendapil try {old}"),
        "sums": ("have a wrong checksum: BadSum or BadHeaderSum", "Before you capture, let the kernel fill them in: ethtool -K INTERFACE tx off"),
    }


def told(paths: list[str], realms: "Realms", most: int = LOOKED_AT) -> Iterator[str]:
    """A line for each kind of frames that will be refused, with the command that mends it, the gravest first."""
    if not paths:
        return
    found: list[Looked] = []
    for side, path in zip(SIDES, paths):
        try:
            found.append(look_at(path, side, realms, most))
        except OSError as error:
            found.append(Looked(fault=f"can't be read: {error.strerror}"))
        except ValueError as error:  # a folder that has other files
            found.append(Looked(fault=f"can't be read: {str(error).partition(': ')[2]}"))
    one, other = found
    if is_one_capture(paths, found):
        yield f"{shown(paths[0])} and {shown(paths[1])} are one capture: each has to have what the hosts of its own realm sent. Make both: rendapil try {shown(shlex.quote(paths[0]))}"
    swapped = [each.count["swapped"] * 2 > each.total for each in found]
    if any(swapped) and all(is_swapped or not (each.total or each.fault) for is_swapped, each in zip(swapped, found)):
        yield (
            f"left and right are swapped: {one.count['swapped'] + other.count['swapped']} of {one.total + other.total} frames go to the other realm's pool. "
            f"Name {shown(paths[1])} before {shown(paths[0])}"
        )
        one.count["swapped"] = other.count["swapped"] = 0
    for side, path, looked in zip(SIDES, paths, found):
        if looked.fault:
            yield f"{shown(path)}: it {shown(looked.fault)}"
        which = f"of the first {looked.total}" if looked.total == most else f"of {looked.total}"
        known = mends(side, path, realms)
        if looked.count["own"] == looked.total:  # no frame is one that hosts sent for sure
            known["own"] = (known["own"][0], "Choose a pool in which the realm has no hosts, if these are its own. Otherwise a gateway sent them")
        for kind, count in looked.count.most_common():
            if kind in known and count:
                yield f"{shown(path)}: {count} {which} frames {known[kind][0]}. {shown(known[kind][1])}"
    for path, looked in zip(paths, found):
        if looked.scan:
            yield from islice(told_of_payloads(path, looked.scan), 5)


def told_of_payloads(path: str, scan: Scan) -> Iterator[str]:
    """A line for each application that will break since its payloads carry addresses."""
    for row in scan.rows():
        if row.weight == BREAKS and row.sure != MAYBE:
            yield f"{shown(path)}: payloads of {row.app.name} carry addresses that the gateway leaves alone: {example_of(row.sites[0], True)}. What helps: {row.app.of.todo}"


def is_one_capture(paths: list[str], found: list[Looked]) -> bool:
    """Whether both captures are one file, or have the same frames."""
    is_one = all(map(os.path.exists, paths)) and os.path.samefile(*paths) and os.path.isfile(paths[0])
    return is_one or found[0].total > 0 and found[0].digest == found[1].digest


def main() -> None:
    """Tells the two gravest lines. Says nothing where it can't look."""
    from rendapil.check.settings import LIMIT, Realms, read

    settings, *paths = sys.argv[1:4]
    with open(settings, "rb") as file:
        document, faults = read(file.read(LIMIT + 1))
    if not faults and all(map(os.path.isfile, paths)):
        for line in islice(told(paths, Realms(faultless(document)), BRIEFLY), 2):
            print(line)


if __name__ == "__main__":
    main()
