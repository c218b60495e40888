"""Which DNS answers the gateway changed in a run, by zone: each name with an address that it had, and the one that it got."""
import struct
from collections.abc import Iterator
from dataclasses import dataclass, field
from ipaddress import IPv4Address
from typing import NamedTuple

from rendapil.dns import LABELS, Names
from rendapil.frames import Event, dns_name
from rendapil.numbers import DNS_PORT, SIDES, TCP, UDP

DNS = DNS_PORT.to_bytes(2)

ZONES, NAMES = 500, 200
"""The most zones, and names of a zone, that are kept."""


class Named(NamedTuple):
    """A name in an answer, with its address where it came from and where it went to, and the realm that asked."""

    name: str
    came: int
    went: int
    side: int


@dataclass(slots=True)
class Zone:
    """The answers of a zone that were changed, and its names."""

    answers: int = 0
    names: dict[str, Named] = field(default_factory=dict)


def addresses_in(message: bytes) -> Iterator[tuple[str, int]]:
    """The names of a DNS message that have addresses: those of A records, and reverse names with what they stand for."""
    questions, *records = struct.unpack_from(">4H", message, 4)
    names, at = Names(message, LABELS), 12
    for place in range(min(questions + sum(records), 200)):
        labels, at = names.read(at)
        kind = struct.unpack_from(">H", message, at)[0]
        at += 4
        if place >= questions:
            size = struct.unpack_from(">H", message, at + 4)[0]
            at += 6 + size
            if kind == 1 and size == 4:
                yield dns_name(labels), int.from_bytes(message[at - 4 : at])


def zone_of(name: str) -> str:
    """The zone of a name, as users think of it: its last two labels, or three below a country."""
    labels = name.rstrip(".").split(".")
    count = 3 if len(labels) > 2 and len(labels[-1]) == 2 and len(labels[-2]) <= 3 else 2
    return ".".join(labels[-count:])


class Changes:
    """Gathers the DNS answers that were changed, event by event."""

    def __init__(self) -> None:
        self.answers = self.segments = self.more = 0
        self.zones: dict[str, Zone] = {}

    def take(self, event: Event) -> None:
        """Takes an event of a run."""
        came = event.datagram
        if event.verdict != "pass" or not event.images or len(came) < 28 or came[9] not in (TCP, UDP):
            return
        head = (came[0] & 15) * 4
        if came[head : head + 2] != DNS and came[head + 2 : head + 4] != DNS or came[6] & 0x3F or came[7]:
            return
        went = event.images[0]
        if len(came) < head + 4 or len(went) < 28:
            return
        if came[9] == TCP:
            parts = [one[head + (one[head + 12] >> 4) * 4 : int.from_bytes(one[2:4])] for one in (came, went) if len(one) >= head + 20]
            if len(parts) == 2 and parts[0] != parts[1]:
                is_whole = all(len(part) > 14 and int.from_bytes(part[:2]) == len(part) - 2 for part in parts)
                if is_whole and parts[0][4] & 0x80:
                    self._note(parts[0][2:], parts[1][2:], event.side)
                else:
                    self.segments += 1
        elif came[head + 8 :] != went[head + 8 :] and came[head + 10 : head + 11] >= b"\x80":
            self._note(came[head + 8 :], went[head + 8 :], event.side)

    def _note(self, came: bytes, went: bytes, side: int) -> None:
        """Notes an answer that was changed."""
        self.answers += 1
        try:
            pairs = [Named(name, one, other, 1 - side) for (name, one), (_, other) in zip(addresses_in(came), addresses_in(went)) if one != other]
        except (struct.error, ValueError, IndexError):
            pairs = []
        noted = set()
        for one in pairs:
            zone = self.zones.get(name := zone_of(one.name))
            if not zone and len(self.zones) < ZONES:
                zone = self.zones[name] = Zone()
            if not zone:
                self.more += 1
                continue
            zone.answers += name not in noted
            noted.add(name)
            if len(zone.names) < NAMES:
                zone.names.setdefault(one.name, one)

    def rows(self) -> list[tuple[str, int, list[Named]]]:
        """The zones, with the most answers first."""
        return [
            (name, zone.answers, list(zone.names.values())) for name, zone in sorted(self.zones.items(), key=lambda one: (-one[1].answers, one[0]))
        ]


SHOWN = 20
"""The most zones that are told as text."""


def lines_of(changes: Changes) -> Iterator[str]:
    """The same for an operator. Nothing where nothing was changed."""
    if not changes.answers and not changes.segments:
        return
    of_tcp = f", and {changes.segments} segment{'' if changes.segments == 1 else 's'} of DNS over TCP" if changes.segments else ""
    yield f"DNS answers that the gateway changed: {changes.answers}{of_tcp}"
    for name, answers, names in changes.rows()[:SHOWN]:
        first = names[0]
        more = f", and {len(names) - 1} name{'' if len(names) == 2 else 's'} more" if len(names) > 1 else ""
        yield f"{answers:8}  {name}: {said_of(first)}{more}"
    if len(changes.zones) > SHOWN:
        yield f"and {len(changes.zones) - SHOWN} zones more: --json gives them"


def said_of(one: Named) -> str:
    """What became of a name."""
    return f"{one.name} {IPv4Address(one.came)} became {IPv4Address(one.went)} for the {SIDES[one.side]} realm"
