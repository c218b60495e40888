"""What is odd in a capture as a whole: frames that are there twice, connections of which one direction is missing, and tunnels whose inside isn't seen."""
from collections import Counter

from rendapil.numbers import TCP, UDP
from rendapil.packet import Packet

RECENT, PAIRS, FEW, SAMPLE = 2048, 20_000, 8, 120
"""How many frames are looked back for the same one, how many connections are followed, how many frames are too few to be told, and how many octets of a
datagram that isn't TCP's are compared: those of a tunnel have the headers of the inner one in front."""

TUNNELS = {(UDP, 4789): "VXLAN", (UDP, 8472): "VXLAN", (UDP, 6081): "GENEVE", (UDP, 2152): "GTP", (UDP, 3544): "Teredo", (UDP, 1701): "L2TP"}
PROTOCOLS = {4: "IP in IP", 41: "IPv6 in IPv4", 47: "GRE", 94: "IP in IP"}


class Oddities:
    """Counts what is odd."""

    def __init__(self) -> None:
        self.doubled = self.looked_at = 0
        self.tunnels: Counter[str] = Counter()
        self._recent: dict[int, int] = {}
        self._ways: dict[bytes, int] = {}
        self._noted: set[bytes] = set()

    def take(self, packet: Packet) -> None:
        """Takes a datagram."""
        octets, head, protocol = packet.octets, packet.head, packet.protocol
        self.count(bytes(octets[: head + SAMPLE] + octets[-8:]), head, protocol == TCP and packet.total > head + 20)
        if protocol != TCP:
            if name := self._tunnel(packet):
                self.tunnels[name] += 1
        elif not packet.flags & 0x1FFF and len(octets) >= head + 4:
            ends = bytes(octets[12:20] + octets[head : head + 4])
            if ends not in self._noted:
                if len(self._noted) < 2 * PAIRS:
                    self._noted.add(ends)
                self._note_way(ends[:4] + ends[8:10], ends[4:8] + ends[10:])

    def count(self, octets: bytes, head: int, has_payload: bool) -> None:
        """Takes a datagram, of which its header, SAMPLE octets behind it and the last 8 are enough, and counts it where the same one was there shortly
        before. A segment of TCP is known by 16. One without payload may come again if it has no number, and so may any other datagram."""
        self.looked_at += 1
        if not has_payload and octets[4:6] == b"\0\0":
            return
        key = hash(octets[2:8] + octets[9:10] + octets[12 : head + (16 if octets[9] == TCP else SAMPLE)] + octets[-8:])
        self.doubled += key in self._recent
        self._recent[key] = 1
        if len(self._recent) > 2 * RECENT:
            for old in list(self._recent)[:RECENT]:
                del self._recent[old]

    @staticmethod
    def _tunnel(packet: Packet) -> str:
        """The tunnel that a datagram is of."""
        if packet.protocol == 47 and bytes(packet.octets[packet.head + 2 : packet.head + 4]) in (b"\x88\xbe", b"\x22\xeb"):
            return "ERSPAN in GRE"
        if packet.protocol == UDP and not packet.flags & 0x1FFF and len(packet.octets) >= packet.head + 4:
            return TUNNELS.get((UDP, packet.number(packet.head + 2)), "")
        return PROTOCOLS.get(packet.protocol, "")

    def _note_way(self, one: bytes, other: bytes) -> None:
        """Notes that a connection has frames in this direction."""
        key = min(one, other) + max(one, other)
        way = 1 if one < other else 2
        if key in self._ways:
            self._ways[key] |= way
        elif len(self._ways) < PAIRS:
            self._ways[key] = way

    @property
    def is_one_way(self) -> bool:
        """Whether most connections of TCP have one direction alone."""
        return 2 * sum(way != 3 for way in self._ways.values()) > len(self._ways)

    def lines(self) -> list[str]:
        """What is odd, in words."""
        found = []
        if 10 * self.doubled > self.looked_at and self.doubled >= FEW:
            found.append(
                f"{self.doubled} frames are there twice, as a router sees them that captures on all its interfaces: all numbers count both. Capture on one interface"
            )
        if self._ways and self.is_one_way:
            found.append("most connections of TCP have one direction alone: the answers are missing. Capture where both directions pass")
        for name, count in self.tunnels.most_common():
            is_mirror = name.startswith("ERSPAN")
            what, todo = ("a mirror", ". Capture at its source, or take the mirrored frames out") if is_mirror else ("a tunnel", "")
            found.append(
                f"{count} {'frame is' if count == 1 else 'frames are'} of {what}, {name}: only its two ends are looked at, and the hosts inside it aren't seen{todo}"
            )
        return found
