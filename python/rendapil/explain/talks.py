"""Who speaks with whom in a run, with both names of each host, and what was refused of it."""
from collections import Counter
from dataclasses import dataclass
from ipaddress import IPv4Address

from rendapil.frames import PROTOCOLS, Event
from rendapil.numbers import TCP, UDP
from rendapil.payloads.applications import by_port

TALKS, SHOWN, ENDS = 20_000, 100, 4096
"""The most conversations that are counted and that are shown, and the most ends by which they are found."""


@dataclass(slots=True)
class Talk:
    """A conversation: the left host and the right one, each by its own address and by what the other realm calls it, and how much was said."""

    left: tuple[int, int]
    right: tuple[int, int]
    service: str
    frames: int = 0
    octets: int = 0

    def names(self, side: int) -> str:
        """A host by both names."""
        own, alias = self.right if side else self.left
        return f"{IPv4Address(own)}" + (f" ({IPv4Address(alias)})" if alias != own else "")


class Talks:
    """Counts the conversations of a run, by hosts and service."""

    def __init__(self) -> None:
        self.more = 0
        self.fragments: Counter[str] = Counter()
        self._talks: dict[tuple[bytes, bytes, int, int], Talk] = {}
        self._found: dict[bytes, Talk] = {}

    def take(self, event: Event) -> None:
        """Takes an event: what passed."""
        if event.verdict != "pass" or not event.images:
            return
        came, went = event.datagram, event.images[0]
        # Frames between the same ends are of the same conversation: most are found by that.
        ends = bytes((event.side, came[0], came[6], came[7], came[9])) + came[12:24] + went[12:20]
        talk = self._found.get(ends)
        if not talk:
            if not (talk := self._talk(event.side, came, went)):
                self.more += 1
                return
            if len(self._found) >= ENDS:
                self._found.clear()
            self._found[ends] = talk
        talk.frames += 1
        talk.octets += len(came)

    def _talk(self, side: int, came: bytes, went: bytes) -> Talk | None:
        """The conversation of a datagram, where there is room for it."""
        head, protocol = (came[0] & 15) * 4, came[9]
        port = 0
        if protocol in (TCP, UDP) and not (came[6] & 0x1F or came[7]):
            _, port = by_port(protocol, int.from_bytes(came[head : head + 2]), int.from_bytes(came[head + 2 : head + 4]))
        left, right = (came[12:16] + went[12:16], went[16:20] + came[16:20]) if side == 0 else (went[16:20] + came[16:20], came[12:16] + went[12:16])
        key = (left, right, protocol, port)
        talk = self._talks.get(key)
        if not talk and len(self._talks) < TALKS:
            known = by_port(protocol, port, 65_535)[0] if port else None
            service = PROTOCOLS.get(protocol, str(protocol)) + (f" {port}" if port else "") + (f", {known.name}" if known else "")
            ends = [(int.from_bytes(one[:4]), int.from_bytes(one[4:])) for one in (left, right)]
            talk = self._talks[key] = Talk(ends[0], ends[1], service)
        return talk

    def rows(self) -> tuple[list[Talk], int]:
        """Those with the most frames, and how many there are."""
        return sorted(self._talks.values(), key=lambda one: (-one.frames, one.left, one.right))[:SHOWN], len(self._talks)
