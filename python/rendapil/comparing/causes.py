"""Why what a real device sent isn't what the reference sends, in an operator's words. A function for each rule."""
import re
import struct
from collections.abc import Callable, Iterable
from collections import Counter
from dataclasses import dataclass, field
from ipaddress import IPv4Address
from typing import NamedTuple

from rendapil.numbers import SECOND, TCP, UDP
from rendapil.comparing.bindings import identity
from rendapil.comparing.captures import ports
from rendapil.comparing.match import Came, Due, Match, Sent, is_tracked, mended
from rendapil.packet import ICMP
from rendapil.files import plain
from rendapil.frames import FLAGS, PROTOCOLS, dns_lines, ways

DIFFERENT, BY_RIGHT, UNSURE = "different", "by right", "not compared"
"""What a cause is: a difference that matters, one that a device may have, or what these captures don't allow to compare."""

SERVICES = {21: "FTP", 53: "DNS", 161: "SNMP", 162: "SNMP"}
ERRORS = {3: "destination unreachable", 4: "source quench", 5: "redirect", 11: "time exceeded", 12: "parameter problem"}

PASSED = {"NoBinding", "SourceInPool", "BadSum", "BadHeaderSum", "NotUnicast", "TtlSpent", "BadHeader"}
"""The refusals of the reference that a device has to share. In the others it may know more, or less, than the reference."""

SHOWN, MOST_SPANS, MOST_LADDERS = 160, 400, 40
"""How much of a text is shown, and the most spans of time of a cause, and ladders, that are kept."""


@dataclass
class Times:
    """How many frames of a cause there were in each span of time. The spans grow, so that there are few."""

    span: int = SECOND // 1000
    counts: Counter[int] = field(default_factory=Counter)

    def add(self, moment: int, count: int) -> None:
        """Takes frames of a moment."""
        self.counts[moment // self.span] += count
        if len(self.counts) > MOST_SPANS:
            self.span *= 2
            old, self.counts = self.counts, Counter()
            for place, many in old.items():
                self.counts[place // 2] += many


class Rung(NamedTuple):
    """A line or message of a connection: as it came, as the device sent it on, and as the reference does."""

    came: str
    device: str
    reference: str

    @property
    def is_equal(self) -> bool:
        """Whether both sent the same."""
        return self.device == self.reference


@dataclass
class Ladder:
    """What one host of a connection said, line by line."""

    name: str
    where: str
    rungs: list[Rung]

    @property
    def differing(self) -> int:
        """How many lines the device sent otherwise."""
        return sum(not one.is_equal for one in self.rungs)


@dataclass(slots=True)
class Group:
    """The frames with one cause: how many, the first and the last, when, and what both sent for the first one."""

    cause: str
    kind: str
    first: int
    where: str
    device: str
    reference: str
    count: int = 0
    last: int = 0
    times: Times = field(default_factory=Times)


class Groups:
    """All causes that were found, and the ladders of connections in which lines or messages differ."""

    def __init__(self) -> None:
        self.rows: dict[str, Group] = {}
        self.ladders: list[Ladder] = []
        self.ladders_left_out = 0

    def add_ladder(self, ladder: Ladder) -> None:
        """Takes a ladder, where there is room for it."""
        if len(self.ladders) < MOST_LADDERS:
            self.ladders.append(ladder)
        else:
            self.ladders_left_out += 1

    def add(self, cause: str, kind: str, moment: int, where: str, device: str = "", reference: str = "", count: int = 1) -> None:
        """Takes a frame, or several."""
        row = self.rows.get(cause)
        if not row:
            row = self.rows[cause] = Group(cause, kind, moment, where, device, reference)
        if moment < row.first:
            row.first, row.where, row.device, row.reference = moment, where, device, reference
        row.count += count
        row.times.add(moment, count)
        row.last = max(row.last, moment)

    def merge(self, other: "Groups") -> None:
        """Takes what was found elsewhere."""
        for ladder in other.ladders:
            self.add_ladder(ladder)
        self.ladders_left_out += other.ladders_left_out
        for cause, row in other.rows.items():
            known = self.rows.setdefault(cause, row)
            if known is not row:
                for place, count in row.times.counts.items():
                    known.times.add(place * row.times.span, count)
                known.count, known.last = known.count + row.count, max(known.last, row.last)

    def of(self, kind: str) -> list[Group]:
        """Those of a kind, the most frequent first."""
        return sorted((row for row in self.rows.values() if row.kind == kind), key=lambda row: (-row.count, row.first))


# What a datagram says.


def transport(datagram: bytes) -> bytes:
    """What follows the header."""
    return datagram[(datagram[0] & 15) * 4 :]


def payload(datagram: bytes) -> bytes:
    """What follows the header of UDP or TCP."""
    octets = transport(datagram)
    return octets[(octets[12] >> 4) * 4 :] if datagram[9] == TCP and len(octets) >= 20 else octets[8:]


def service(datagram: bytes) -> str:
    """What it is of: a service that is translated, or a protocol."""
    octets, protocol = transport(datagram), datagram[9]
    if protocol in (TCP, UDP) and len(octets) >= 4:
        one, other = struct.unpack_from(">HH", octets)
        name = SERVICES.get(other) or SERVICES.get(one)
        if name and (protocol == TCP) == (name == "FTP"):
            return name
        if name == "DNS":
            return "DNS over TCP"
    if protocol == ICMP and octets:
        return "ICMP errors" if octets[0] in ERRORS else "ping"
    return PROTOCOLS.get(protocol, f"protocol {protocol}")


def ends(datagram: bytes) -> str:
    """Addresses and ports in words."""
    octets = transport(datagram)
    if datagram[9] in (TCP, UDP) and len(octets) >= 4:
        one, other = struct.unpack_from(">HH", octets)
        return f"{IPv4Address(datagram[12:16])}:{one} -> {IPv4Address(datagram[16:20])}:{other}"
    return ways(datagram)


def spoken(datagram: bytes) -> str:
    """What it says, in short."""
    text = service(datagram)
    if text == "DNS":
        return "; ".join(dns_lines(payload(datagram)))[:SHOWN]
    octets = transport(datagram)
    if datagram[9] == TCP and len(octets) >= 20:
        sequence, acknowledgement, _, flags = struct.unpack_from(">IIBB", octets, 4)
        letters = "".join(letter for bit, letter in enumerate(FLAGS) if flags >> bit & 1)
        said = f" {plain(payload(datagram)[:60])}" if text == "FTP" and payload(datagram) else f", {len(payload(datagram))} octets"
        return f"{ends(datagram)} {letters} seq {sequence} ack {acknowledgement}{said}"
    return f"{ends(datagram)}, {len(datagram)} octets" + (
        f", ICMP type {octets[0]} code {octets[1]}" if datagram[9] == ICMP and len(octets) > 1 else ""
    )


def parts_that_differ(one: bytes, other: bytes) -> tuple[str, str]:
    """The first octets that differ, and their place: as an address, where they may be one."""
    place = next((at for at, pair in enumerate(zip(one, other)) if pair[0] != pair[1]), min(len(one), len(other)))
    begin = max(0, place - 4)
    return (
        f"{len(one)} octets, at {place}: .. {one[begin : place + 12].hex(' ')}",
        f"{len(other)} octets, at {place}: .. {other[begin : place + 12].hex(' ')}",
    )


# Rules for a frame of the device and one of the reference that belong together: each gives a cause, its kind, and what both sent, or nothing.

Verdict = tuple[str, str, str, str] | None


def addresses_differ(due: Due, sent: Sent) -> Verdict:
    """An address that isn't translated, or is translated otherwise."""
    came, one, other = due.came.datagram, due.datagram, sent.datagram
    if service(one) == "ICMP errors" and one[12:16] != other[12:16] != came[12:16]:
        return "ICMP errors: their source isn't the alias of the host that sent them", DIFFERENT, ends(other), ends(one)
    for at, name in ((12, "source"), (16, "destination")):
        if one[at : at + 4] != other[at : at + 4]:
            is_kept = other[at : at + 4] == came[at : at + 4]
            cause = f"{name} address isn't translated" if is_kept else f"{name} address is translated otherwise than in most frames"
            return cause, DIFFERENT, ends(other), ends(one)
    return None


def ports_differ(due: Due, sent: Sent) -> Verdict:
    """Another port of TCP or UDP, or another identifier of an echo."""
    if ports(due.datagram) != ports(sent.datagram):
        cause = f"port changed: {PROTOCOLS[due.datagram[9]]}" if due.datagram[9] != ICMP else "identifier of a ping changed"
        return cause, DIFFERENT, ends(sent.datagram), ends(due.datagram)
    return None


def is_like_dns(one: bytes, other: bytes) -> bool:
    """Whether two messages of DNS differ in the TTL of records alone."""
    return [re.sub(r", TTL \d+", "", line) for line in dns_lines(one)] == [re.sub(r", TTL \d+", "", line) for line in dns_lines(other)]


def dns_differs(due: Due, sent: Sent) -> Verdict:
    """A message of DNS that isn't translated, or otherwise."""
    came, one, other = (payload(datagram) for datagram in (due.came.datagram, due.datagram, sent.datagram))
    if service(due.datagram) != "DNS" or one == other or len(one) < 4:
        return None
    kind = "answers" if one[2] & 128 else "questions"
    shown = "; ".join(dns_lines(other)[1:])[:SHOWN], "; ".join(dns_lines(one)[1:])[:SHOWN]
    if is_like_dns(one, other) and len(one) == len(other):
        return "DNS: the TTL of translated records isn't 0", BY_RIGHT, *shown
    return f"DNS {kind} aren't translated" if other == came else f"DNS {kind} are translated otherwise", DIFFERENT, *shown


def snmp_differs(due: Due, sent: Sent) -> Verdict:
    """A message of SNMP that isn't translated, or otherwise."""
    came, one, other = (payload(datagram) for datagram in (due.came.datagram, due.datagram, sent.datagram))
    if service(due.datagram) != "SNMP" or one == other:
        return None
    return (
        "SNMP: addresses aren't translated" if other == came else "SNMP: addresses are translated otherwise",
        DIFFERENT,
        *parts_that_differ(other, one),
    )


def quoted_differs(due: Due, sent: Sent) -> Verdict:
    """The packet in an ICMP error."""
    came, one, other = (transport(datagram) for datagram in (due.came.datagram, due.datagram, sent.datagram))
    if service(due.datagram) != "ICMP errors" or one[4:] == other[4:] or min(map(len, (one, other))) < 36:
        return None
    inner, inner_sent, inner_came = (octets[8:] for octets in (one, other, came))
    if inner_sent[12:20] != inner[12:20]:
        cause = (
            "ICMP errors: the packet in them isn't translated"
            if inner_sent[12:20] == inner_came[12:20]
            else "ICMP errors: the packet in them is translated otherwise"
        )
        return cause, DIFFERENT, ways(inner_sent), ways(inner)
    if len(one) != len(other):
        return "ICMP errors: they quote more or less of the packet", BY_RIGHT, f"{len(other)} octets", f"{len(one)} octets"
    if inner_sent[20:24] != inner[20:24]:
        return "ICMP errors: a port of the packet in them is another one", DIFFERENT, *parts_that_differ(inner_sent, inner)
    return "ICMP errors: a checksum, TTL or number of the packet in them is another one", BY_RIGHT, *parts_that_differ(inner_sent, inner)


def tcp_head_differs(due: Due, sent: Sent) -> Verdict:
    """A field of a TCP header."""
    one, other = transport(due.datagram), transport(sent.datagram)
    if due.datagram[9] != TCP or min(len(one), len(other)) < 20:
        return None
    for at, name in ((4, "sequence"), (8, "acknowledgement")):
        if by := (int.from_bytes(other[at : at + 4]) - int.from_bytes(one[at : at + 4]) + (1 << 31)) % (1 << 32) - (1 << 31):
            return f"TCP: {name} numbers off" + (f" by {by:+d}" if abs(by) < 10_000 else ""), DIFFERENT, spoken(sent.datagram), spoken(due.datagram)
    if (one[13] ^ other[13]) & ~8:
        return "TCP: flags changed", DIFFERENT, spoken(sent.datagram), spoken(due.datagram)
    if one[20 : (one[12] >> 4) * 4] != other[20 : (other[12] >> 4) * 4]:
        is_mss = one[20:22] == other[20:22] == b"\x02\x04" and one[24:] == other[24:]
        cause, kind = ("TCP: the MSS of a SYN is another one", BY_RIGHT) if is_mss else ("TCP: options changed", DIFFERENT)
        return cause, kind, other[20 : (other[12] >> 4) * 4].hex(" "), one[20 : (one[12] >> 4) * 4].hex(" ")
    if one[14:16] != other[14:16]:
        return "TCP: window changed", DIFFERENT, f"window {int.from_bytes(other[14:16])}", f"window {int.from_bytes(one[14:16])}"
    return None


def payload_differs(due: Due, sent: Sent) -> Verdict:
    """Octets of the payload."""
    one, other = payload(due.datagram), payload(sent.datagram)
    return (f"payload changed: {service(due.datagram)}", DIFFERENT, *parts_that_differ(other, one)) if one != other else None


def head_differs(due: Due, sent: Sent) -> Verdict:
    """A field of the IPv4 header."""
    one, other = due.datagram, sent.datagram
    if one[1] != other[1]:
        return "DSCP or ECN changed", BY_RIGHT, f"{other[1]:#04x}", f"{one[1]:#04x}"
    if one[6] & 0x40 != other[6] & 0x40:
        return "'don't fragment' changed", BY_RIGHT, "kept" if other[6] & 0x40 else "cleared", "kept" if one[6] & 0x40 else "cleared"
    return None


def no_sum(due: Due, sent: Sent) -> Verdict:
    """UDP without a checksum."""
    if due.datagram[9] == UDP and (transport(due.datagram)[6:8] == b"\0\0") != (transport(sent.datagram)[6:8] == b"\0\0"):
        return "UDP: a checksum was left out or put in", BY_RIGHT, transport(sent.datagram)[6:8].hex(), transport(due.datagram)[6:8].hex()
    return None


RULES: tuple[Callable[[Due, Sent], Verdict], ...] = (
    addresses_differ,
    ports_differ,
    dns_differs,
    snmp_differs,
    quoted_differs,
    tcp_head_differs,
    payload_differs,
    head_differs,
    no_sum,
)
"""The rules, in the order in which they are asked."""


def sum_differs(sent: Sent) -> str:
    """Which checksum of a frame of the device is wrong, if one is."""
    right = mended(sent)
    if not right:
        return ""
    return (
        "checksum of the IPv4 header wrong"
        if right.datagram[10:12] != sent.datagram[10:12]
        else f"checksum wrong: {PROTOCOLS.get(sent.datagram[9], 'other')}"
    )


# Which frames belong together.

Key = Callable[[bytes], bytes | None]


def by_flow(datagram: bytes) -> bytes | None:
    """By addresses, and all that a gateway leaves as it is."""
    return None if is_tracked(datagram) else datagram[12:20] + identity(datagram)


def by_identity(datagram: bytes) -> bytes | None:
    """By that alone: the addresses differ."""
    return identity(datagram)


def by_one_address(at: int) -> Key:
    """By an address, and what a gateway leaves as it is without the ports."""
    return lambda datagram: datagram[at : at + 4] + identity(datagram, False)


def by_number(datagram: bytes) -> bytes | None:
    """By addresses, ports and the identification, which most devices keep. TCP by its length too: it may be cut."""
    size = datagram[2:4] if datagram[9] == TCP else b""
    return None if is_tracked(datagram) else datagram[9:10] + datagram[12:20] + ports(datagram) + datagram[4:6] + size


def by_ends(datagram: bytes) -> bytes | None:
    """By addresses and ports, in their order. TCP by its sequence number too."""
    if datagram[9] == TCP:
        return None if is_tracked(datagram) else datagram[12:20] + transport(datagram)[:8] + datagram[2:4]
    return datagram[9:10] + datagram[12:20] + ports(datagram)


KEYS: tuple[Key, ...] = (by_flow, by_identity, by_one_address(12), by_one_address(16), by_number, by_ends)


def pairs(match: Match, is_apart: Callable[[int, bytes], bool]) -> Iterable[tuple[Due, Sent]]:
    """Takes those out of what is left that belong together. TCP in which the device chooses the numbers is for those who compare octets."""
    for key in KEYS:
        table: dict[tuple[int, bytes], list[Due]] = {}
        for due in match.due:
            if not is_apart(1 - due.came.side, due.datagram) and (one := key(due.datagram)) is not None:
                table.setdefault((1 - due.came.side, one), []).append(due)
        gone: set[int] = set()
        left = []
        for sent in match.sent:
            one = None if is_apart(sent.side, sent.datagram) else key(sent.datagram)
            alike = table.get((sent.side, one), []) if one is not None else []
            near = [due for due in alike[:8] if abs(due.came.moment - sent.moment) <= match.window]
            if key is by_identity or is_tracked(sent.datagram):
                near = [due for due in near if due.datagram[12:20] != sent.datagram[12:20]]
            if not near:
                left.append(sent)
                continue
            due = near[0]
            alike.remove(due)
            gone.add(id(due))
            yield due, sent
        match.sent = left
        match.due = [due for due in match.due if id(due) not in gone]


class Refused:
    """What the reference refused."""

    def __init__(self, refused: Iterable[Came]) -> None:
        whole = [came for came in refused if len(came.datagram) >= 28]
        self._passed = {(1 - came.side, identity(came.datagram)): came for came in whole}
        self._answered = {(came.side, came.datagram[4:6] + came.datagram[9:10] + came.datagram[12:20]) for came in whole}

    def passed_as(self, sent: Sent) -> Came | None:
        """The frame that the device sent on nevertheless, if it is one."""
        return self._passed.get((sent.side, identity(sent.datagram)))

    def is_answer(self, sent: Sent) -> bool:
        """Whether it is an ICMP error for a frame that the reference refused: the device's own, whatever its source is."""
        inner = transport(sent.datagram)[8:]
        return service(sent.datagram) == "ICMP errors" and (sent.side, inner[4:6] + inner[9:10] + inner[12:20]) in self._answered
