"""IPv4 datagrams that are changed in place, and their checksums."""
import struct

from rendapil.numbers import ETHERNET, TCP, UDP

ICMP = 1
ICMP_ERRORS = (3, 4, 11, 12)
SUM_AT = {ICMP: 2, TCP: 16, UDP: 6}
HEADER = struct.Struct(">BxHxxHxBxxII")


def datagram_of(frame: bytes, link: int) -> bytes:
    """The IPv4 datagram of a frame, or nothing."""
    if link == ETHERNET:
        frame = frame[14:] if frame[12:14] == b"\x08\x00" else b""
    return frame if len(frame) >= 20 and frame[0] >> 4 == 4 else b""


def is_host(address: int) -> bool:
    """Whether it is the address of one host."""
    return address >> 24 not in (0, 127) and address >> 24 < 224


def is_private(address: int) -> bool:
    """Whether an address is of a private block, or of one for carriers."""
    return address >> 24 == 10 or address >> 20 == 0xAC1 or address >> 16 == 0xC0A8 or address >> 22 == 0x191


FOLDS = [(bits, (1 << bits) - 1) for bits in (6144, 3072, 1536, 768)]
LONG = 256
"""By how many bits the number that long octets are is folded, and from how many octets on that is faster than a division."""


def rest_of(octets: bytes) -> int:
    """What is left of octets, as one number, by 0xFFFF. A fold by a multiple of 16 bits doesn't change it."""
    number = int.from_bytes(octets) << 8 * (len(octets) & 1)
    if len(octets) >= LONG:
        for bits, low in FOLDS:
            number = (number >> bits) + (number & low)
    return number % 0xFFFF


def total_of(octets: bytes) -> int:
    """The ones' complement sum of octets."""
    return rest_of(octets) or (0xFFFF if any(octets) else 0)


def header_sum(head: bytes) -> int:
    """The checksum of an IPv4 header, whatever stands in its place."""
    return ~total_of(head[:10] + bytes(2) + head[12:]) & 0xFFFF


def adjusted(old_sum: int, old: int, new: int) -> int:
    """A checksum after a change, by the sums of what was there and is there now (RFC 1624): a wrong one stays as wrong as it was."""
    total = 0x1FFFE - old_sum - old + new
    return 0xFFFF - (total % 0xFFFF or (0xFFFF if total else 0))


class Packet:
    """An IPv4 datagram that is changed in place, its sums with it. What is known of its header is that of its beginning."""

    __slots__ = ("destination", "flags", "head", "octets", "protocol", "source", "total")
    total: int
    flags: int
    protocol: int
    source: int
    destination: int

    def __init__(self, octets: bytes) -> None:
        self.octets = bytearray(octets)
        size: int
        size, self.total, self.flags, self.protocol, self.source, self.destination = HEADER.unpack_from(octets)
        self.head = (size & 15) * 4

    def number(self, at: int, size: int = 2) -> int:
        """A number in it."""
        return int.from_bytes(self.octets[at : at + size])

    @property
    def is_fragment(self) -> bool:
        """Whether it is a part of a datagram."""
        return bool(self.flags & 0x3FFF)

    @property
    def is_whole(self) -> bool:
        """Whether all of it was kept."""
        return len(self.octets) >= self.total >= self.head

    @property
    def is_icmp_error(self) -> bool:
        """Whether it is an ICMP error that holds the beginning of a datagram."""
        octets, head = self.octets, self.head
        is_error = self.protocol == ICMP and not self.flags & 0x1FFF and len(octets) >= head + 28
        return is_error and octets[head] in ICMP_ERRORS and octets[head + 8] >> 4 == 4

    def _sum_place(self) -> int | None:
        """Where its transport's checksum is, if it has one."""
        at = SUM_AT.get(self.protocol)
        if at is None or self.flags & 0x1FFF or len(self.octets) < self.head + at + 2:
            return None
        if self.protocol == UDP and not self.number(self.head + at):
            return None
        return self.head + at

    def put(self, at: int, new: bytes) -> None:
        """Writes octets at an even place, and adjusts the sums that count them."""
        octets = self.octets
        old, total = total_of(octets[at : at + len(new)]), total_of(new)
        octets[at : at + len(new)] = new
        if at < self.head:
            octets[10:12] = adjusted(octets[10] << 8 | octets[11], old, total).to_bytes(2)
        place = self._sum_place()
        if place is not None and (at >= self.head or self.protocol != ICMP):
            fixed = adjusted(octets[place] << 8 | octets[place + 1], old, total)
            octets[place : place + 2] = (fixed or (0xFFFF if self.protocol == UDP else 0)).to_bytes(2)

    def mend(self) -> bool:
        """Computes the sums of a whole datagram anew, as a sender without offloading would. Where only its first fragment is there, and the
        header's sum is wrong, or UDP's is that of the pseudo header, which offloading leaves, it has none then, as UDP allows. Says whether one was wrong.
        """
        before = bytes(self.octets)
        self.octets[10:12] = header_sum(bytes(self.octets[: self.head])).to_bytes(2)
        place = self._sum_place()
        if place is not None and self.is_whole and not self.is_fragment:
            self.octets[place : place + 2] = bytes(2)
            payload = bytes(self.octets[self.head : self.total])
            pseudo = b"" if self.protocol == ICMP else self.octets[12:20] + struct.pack(">HH", self.protocol, len(payload))
            total = ~total_of(bytes(pseudo) + payload) & 0xFFFF
            self.octets[place : place + 2] = (total or (0xFFFF if self.protocol == UDP else 0)).to_bytes(2)
        elif place is not None and self.protocol == UDP:  # the first fragment: the others aren't there to be counted
            length = self.octets[self.head + 4 : self.head + 6]
            is_offloaded = self.number(place) == total_of(self.octets[12:20] + struct.pack(">H", UDP) + length)
            if is_offloaded or before[10:12] != self.octets[10:12]:
                self.octets[place : place + 2] = bytes(2)
        return before != bytes(self.octets)
