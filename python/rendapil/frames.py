"""What a frame says, in words: for the page of a run, its capture with comments and its lines of JSON. All that stands in a capture may be
hostile: `plain` of files.py makes text of it that has no control characters."""
import re
import struct
from dataclasses import dataclass
from datetime import datetime, timezone
from functools import lru_cache
from typing import NamedTuple

from rendapil.dns import LABELS, Names
from rendapil.files import Record, plain
from rendapil.numbers import DNS_PORT, FTP_PORT, SECOND, TCP, UDP
from rendapil.places import TOP

PROTOCOLS = {1: "ICMP", TCP: "TCP", UDP: "UDP"}
TYPES = {1: "A", 2: "NS", 5: "CNAME", 6: "SOA", 12: "PTR", 15: "MX", 16: "TXT", 28: "AAAA", 33: "SRV", 41: "OPT", 252: "AXFR", 255: "ANY"}
FLAGS = "FSRPAUEC"
SECRET, HIDDEN = re.compile(rb"(?i)^(PASS|ACCT) .*", re.DOTALL), "(hidden)"
"""A line of FTP that gives a password, and what is shown in place of it."""


@dataclass(slots=True)
class Event:
    """A frame of an incoming capture with its line of the report, and the frames that went out for it. `datagram` and `images` are their IPv4
    datagrams, if they have any."""

    number: int
    side: int
    moment: int
    verdict: str
    frame: Record
    datagram: bytes
    sent: list[Record]
    images: list[bytes]
    is_heartbeat: bool = False


@lru_cache(maxsize=64)
def second_of(seconds: int) -> str:
    """A second of UTC."""
    return f"{datetime.fromtimestamp(seconds, timezone.utc):%Y-%m-%dT%H:%M:%S}"


def time_of(moment: int) -> str:
    """A moment as RFC 3339 writes it, with all of its digits."""
    seconds, fraction = divmod(moment, SECOND)
    return f"{second_of(seconds)}.{fraction:09d}Z"


@lru_cache(maxsize=8192)
def address_of(octets: bytes) -> str:
    """An address. ValueError where there are other than four octets."""
    one, two, three, four = octets
    return f"{one}.{two}.{three}.{four}"


@lru_cache(maxsize=8192)
def way_of(ends: bytes) -> str:
    """Source and destination, by eight octets."""
    return f"{address_of(ends[:4])} -> {address_of(ends[4:])}"


def ways(datagram: bytes) -> str:
    """Source and destination."""
    return way_of(datagram[12:20])


class Segment:
    """A TCP segment. A datagram that holds less than a TCP header is none: ValueError."""

    def __init__(self, datagram: bytes) -> None:
        head = (datagram[0] & 15) * 4
        self.payload = b""
        if datagram[9] != TCP or int.from_bytes(datagram[6:8]) & 0x3FFF or len(datagram) < head + 20:
            raise ValueError("no whole TCP segment")
        ports = struct.unpack_from(">HHIIBB", datagram, head)
        self.port, self.far_port, self.sequence, self.acknowledgement, offset, self.bits = ports
        self.payload = datagram[head + (offset >> 4) * 4 : int.from_bytes(datagram[2:4])]

    @property
    def flags(self) -> str:
        """The flags as letters."""
        return "".join(letter for bit, letter in enumerate(FLAGS) if self.bits >> bit & 1)


def ftp_lines(payload: bytes) -> list[str]:
    """The lines of a part of an FTP control connection. What follows PASS and ACCT isn't told."""
    lines = payload.split(b"\n")
    shown = [SECRET.sub(rb"\1 (hidden)", line.removesuffix(b"\r")) for line in lines]
    return list(map(plain, shown[:-1] if not lines[-1] else shown))


def dns_name(labels: list[bytes]) -> str:
    """A name as it is written."""
    return plain(b".".join(labels)) or "."


def dns_lines(message: bytes) -> list[str]:
    """A DNS message in words: what it asks, and its records."""
    try:
        number, bits, questions, *records = struct.unpack_from(">6H", message)
        names = Names(message, LABELS)
        at, lines = 12, [f"{'answer' if bits >> 15 else 'question'} {number:#06x}"]
        for place in range(min(questions + sum(records), 40)):
            labels, at = names.read(at)
            kind = struct.unpack_from(">H", message, at)[0]
            text = f"{dns_name(labels)} {TYPES.get(kind, f'TYPE{kind}')}"
            at += 4
            if place >= questions:
                ttl, size = struct.unpack_from(">IH", message, at)
                at += 6 + size
                data = message[at - size : at]
                if kind == 1 and size == 4:
                    text += f" {address_of(data)}"
                elif kind in (2, 5, 12):
                    text += f" {dns_name(names.read(at - size)[0])}"
                text += f", TTL {ttl}" if kind != 41 else ""
            lines.append(text)
        more = questions + sum(records) - 40
        return lines + ([f"and {more} records more"] if more > 0 else [])
    except (struct.error, ValueError, IndexError):
        return [f"a DNS message of {len(message)} bytes"]


SPOKEN = (FTP_PORT.to_bytes(2), DNS_PORT.to_bytes(2))
"""Ports whose payloads are told in words."""


def may_speak(datagram: bytes) -> bool:
    """Whether a datagram may be one of which `spoken` tells something. Most aren't."""
    if len(datagram) < 20:  # of an outgoing capture that isn't as the gateway left it
        return False
    head = (datagram[0] & 15) * 4
    return datagram[head : head + 2] in SPOKEN or datagram[head + 2 : head + 4] in SPOKEN


def spoken(datagram: bytes) -> list[str]:
    """What a datagram says in words, if it is of an FTP control connection or of DNS over UDP."""
    if not may_speak(datagram) or int.from_bytes(datagram[6:8]) & 0x3FFF:
        return []
    try:
        if datagram[9] == TCP:
            segment = Segment(datagram)
            return ftp_lines(segment.payload) if FTP_PORT in (segment.port, segment.far_port) and segment.payload else []
        if datagram[9] == UDP and DNS_PORT in struct.unpack_from(">HH", datagram, 20):
            return dns_lines(datagram[28:])
    except (ValueError, IndexError, struct.error):
        pass
    return []


def ends(datagram: bytes) -> dict[str, object]:
    """Protocol, addresses and ports of a datagram, by the names that Suricata gives them."""
    words: dict[str, object] = {"proto": PROTOCOLS.get(datagram[9], str(datagram[9]))}
    words |= {"src_ip": address_of(datagram[12:16]), "dest_ip": address_of(datagram[16:20])}
    head = (datagram[0] & 15) * 4
    if int.from_bytes(datagram[6:8]) & 0x1FFF == 0 and len(datagram) >= head + 4:
        one, other = struct.unpack_from(">HH", datagram, head)
        if datagram[9] in (TCP, UDP):
            words |= {"src_port": one, "dest_port": other}
        elif datagram[9] == 1:
            words |= {"icmp_type": one >> 8, "icmp_code": one & 255}
    return words


# What REPORT.md says of each verdict.


class Verdict(NamedTuple):
    """A reason why a frame is refused, under which heading it stands, what it means and what to do."""

    group: str
    means: str
    todo: str
    links: tuple[tuple[str, str], ...] = ()


def words_of(markdown: str) -> str:
    """Text without links and marks."""
    return re.sub(r"\[([^]]*)\]\([^)]*\)", r"\1", markdown).replace("`", "").replace("**", "").strip()


def parts_of(markdown: str) -> tuple[tuple[str, str], ...]:
    """Text in parts, each with the link that it has, or nothing."""
    parts = re.split(r"\[([^]]*)\]\(([^)]*)\)", markdown)
    texts = [part.replace("`", "").replace("**", "") for part in parts]
    found = [(texts[at], "") for at in range(0, len(texts), 3)]
    links = [(texts[at], parts[at + 1]) for at in range(1, len(texts), 3)]
    return tuple(one for pair in zip(found, [*links, ("", "")]) for one in pair if one[0])


def verdicts_of() -> dict[str, Verdict]:
    """The tables of REPORT.md, by verdict."""
    group, found = "", {}
    with open(TOP / "docs/REPORT.md", encoding="utf-8") as file:
        for line in file:
            if line.startswith("### "):
                group = line[4:].strip()
            elif row := re.match(r"\| `(\w+)` \| \d+ \| (.*) \| (.*) \|$", line):
                found[row[1]] = Verdict(group, words_of(row[2]), words_of(row[3]), parts_of(row[3]))
    return found


# What changed.


class Piece(NamedTuple):
    """A part of a line, and whether it changed."""

    text: str
    changed: bool


def alike(line: str, other: str) -> int:
    """How many characters two lines begin with alike, where no number is parted. Lines are long, and halving is quick."""
    front, most = 0, min(len(line), len(other))
    while front < most:
        middle = (front + most + 1) // 2
        if line[front:middle] == other[front:middle]:
            front = middle
        else:
            most = middle - 1
    while front and line[front - 1].isdecimal() and any(one[front : front + 1].isdecimal() for one in (line, other)):
        front -= 1
    return front


def changed_pieces(line: str, other: str) -> list[Piece]:
    """A line in three parts: what is alike in front, what isn't, and what is alike behind."""
    front = alike(line, other)
    behind = len(line) - alike(line[front:][::-1], other[front:][::-1])
    parts = line[:front], line[front:behind], line[behind:]
    return [Piece(part, place == 1) for place, part in enumerate(parts) if part]


def compared(lines: list[str], others: list[str]) -> list[list[Piece]]:
    """Lines, with what is other than in those of the other side."""
    if len(lines) == len(others):
        return [changed_pieces(*pair) for pair in zip(lines, others)]
    return [[Piece(line, line not in others)] for line in lines]
