"""Lists of hosts in place of captures, since not everybody may capture: what `nmap -oG` writes, leases of DHCP (dnsmasq, ISC, Kea), flow records as nfdump
writes them with `-o csv`, and any table of hosts as CSV."""
import csv
import re
from collections.abc import Iterable, Iterator
from datetime import UTC, datetime
from ipaddress import AddressValueError, IPv4Address
from typing import NamedTuple

from rendapil.files import shown
from rendapil.numbers import SECOND, TCP, UDP
from rendapil.packet import ICMP
from rendapil.sayings import Fault

LOOKED_AT, LONGEST = 1 << 16, 1 << 14
"""How much of a file tells what it is, and how long a line of it may be."""

PROTOCOLS = {"tcp": TCP, "udp": UDP, "icmp": ICMP}
ADDRESSES = ("address", "ip", "ip address", "ip-address", "ip_address", "ipv4", "ipv4 address")
NAMES = ("name", "hostname", "host name", "host", "client-hostname", "fqdn")
FLOWS = (
    {"moment": "ts", "source": "sa", "destination": "da", "port": "sp", "far_port": "dp", "protocol": "pr"},
    {"moment": "firstseen", "source": "srcaddr", "destination": "dstaddr", "port": "srcport", "far_port": "dstport", "protocol": "proto"},
)
"""The columns of a record of a flow, as older and newer nfdumps call them."""

NMAP = re.compile(r"Host: (\S+) \(([^)]*)\)(?:\t(?:Ports: (.*?)|Status: \w+))?(?:\t|$)")
DNSMASQ = re.compile(r"\d+ (?:[0-9a-f]{2}[:-])+[0-9a-f]{2} (\S+) (\S+) \S+", re.I)
ISC_LEASE, ISC_NAME = re.compile(r"\s*lease (\S+) \{"), re.compile(r'\s*client-hostname "([^"]*)";')
TEXT_NAME = re.compile(r"[A-Za-z0-9_.-]{1,253}")


class Listed(NamedTuple):
    """A host of a list: its address, its name or nothing, and the services that it was seen to offer, by protocol and port."""

    address: int
    name: str
    services: tuple[tuple[int, int], ...] = ()


class Flow(NamedTuple):
    """A record of a flow: when it began in nanoseconds, and between whom."""

    moment: int
    protocol: int
    source: int
    port: int
    destination: int
    far_port: int


def address_of(text: str | None) -> int | None:
    """An IPv4 address, if that is what stands there."""
    try:
        return int(IPv4Address((text or "").strip()))
    except AddressValueError:
        return None


def listed(address: str | None, name: str | None = "", services: tuple[tuple[int, int], ...] = ()) -> Iterator[Listed]:
    """A host of a list, if it has an IPv4 address."""
    if (number := address_of(address)) is not None:
        yield Listed(number, name if name and TEXT_NAME.fullmatch(name) else "", services)


def by_nmap(lines: Iterable[str]) -> Iterator[Listed]:
    """The hosts that `nmap -oG` found, with their open ports."""
    for line in lines:
        if found := NMAP.match(line):
            ports = [entry.strip().split("/") for entry in (found[3] or "").split(",")]
            services = [
                (PROTOCOLS[one[2]], int(one[0])) for one in ports if len(one) > 2 and one[1] == "open" and one[2] in PROTOCOLS and one[0].isdigit()
            ]
            yield from listed(found[1], found[2], tuple(services))


def by_isc(lines: Iterable[str]) -> Iterator[Listed]:
    """The hosts of dhcpd.leases (ISC)."""
    address, name = "", ""
    for line in lines:
        if found := ISC_LEASE.match(line):
            address, name = found[1], ""
        elif found := ISC_NAME.match(line):
            name = found[1]
        elif line.strip() == "}" and address:
            yield from listed(address, name)
            address = ""


def by_dnsmasq(lines: Iterable[str]) -> Iterator[Listed]:
    """The hosts of dnsmasq.leases."""
    for line in lines:
        if found := DNSMASQ.match(line):
            yield from listed(found[1], found[2] if found[2] != "*" else "")


def by_csv(lines: Iterable[str]) -> Iterator[Listed | Flow]:
    """The hosts of a table with a column of addresses, or the flows of a table as nfdump writes it."""
    rows = csv.reader(lines)
    heads = [head.strip().lower() for head in next(rows, [])]
    for columns in FLOWS:
        if set(columns.values()) <= set(heads):
            yield from flows_of(rows, {name: heads.index(column) for name, column in columns.items()})
            return
    address = next(heads.index(head) for head in ADDRESSES if head in heads)
    name = next((heads.index(head) for head in NAMES if head in heads), -1)
    for row in rows:
        if len(row) > max(address, name):
            yield from listed(row[address], row[name].strip() if name >= 0 else "")


def flows_of(rows: Iterable[list[str]], at: dict[str, int]) -> Iterator[Flow]:
    """The flows of rows whose columns are known."""
    for row in rows:
        if len(row) <= max(at.values()):
            continue
        source, destination = address_of(row[at["source"]]), address_of(row[at["destination"]])
        protocol = PROTOCOLS.get(row[at["protocol"]].strip().lower())
        ports = [row[at[name]].strip().partition(".")[0] for name in ("port", "far_port")]
        if source is None or destination is None or protocol is None or not all(one.isdigit() and int(one) < 65_536 for one in ports):
            continue
        yield Flow(moment_of(row[at["moment"]]), protocol, source, int(ports[0]), destination, int(ports[1]))


def moment_of(text: str) -> int:
    """A time as nfdump writes it, in nanoseconds. 0 where it isn't one."""
    try:
        return round(datetime.fromisoformat(text.strip()).replace(tzinfo=UTC).timestamp() * 1000) * (SECOND // 1000)
    except ValueError:
        return 0


def lines_of(path: str) -> Iterator[str]:
    """The lines of a text. What is longer than a line may be is cut."""
    with open(path, encoding="utf-8", errors="replace") as file:
        while line := file.readline(LONGEST):
            yield line.rstrip("\r\n")


def inventory(path: str) -> Iterator[Listed | Flow]:
    """What a list of hosts or flows says. Fault where it is none."""
    with open(path, "rb") as file:
        front = file.read(LOOKED_AT)
    text = front.decode("utf-8", "replace")
    first = next((line for line in text.splitlines() if line.strip()), "")
    if b"\0" in front or not first:
        raise Fault(f"{shown(path)} is {'empty' if not front else 'neither a capture nor a list of hosts'}")
    if re.search("^Host: .*\t(Ports|Status): ", text, re.M):
        return by_nmap(lines_of(path))
    if re.search(r"^lease \S+ \{", text, re.M):
        return by_isc(lines_of(path))
    if DNSMASQ.match(first):
        return by_dnsmasq(lines_of(path))
    heads = {head.strip().lower() for head in first.split(",")}
    if any(set(columns.values()) <= heads for columns in FLOWS) or heads & set(ADDRESSES):
        return by_csv(line for line in lines_of(path) if line.strip())
    raise Fault(f"{shown(path)} is neither a capture nor a list of hosts: PLAN.md names those that are read")
