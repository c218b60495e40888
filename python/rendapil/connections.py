"""TCP connections, and of those of FTP control and DNS the streams of both hosts."""
import struct
from collections.abc import Iterator
from dataclasses import dataclass
from typing import TYPE_CHECKING

from rendapil.numbers import ACK, DNS_PORT, FIN, FTP_PORT, LONG_TIMEOUT, SYN, TCP_HOLD

if TYPE_CHECKING:
    from rendapil.bindings import Binding


def signed(number: int) -> int:
    """A difference of sequence numbers."""
    return (number + (1 << 31)) % (1 << 32) - (1 << 31)


class Stream:
    """The octets of one host in one realm: the number of the next, and of DNS those that belong to no whole message yet."""

    def __init__(self) -> None:
        self.next: int | None = None
        self.rest = b""

    def take(self, segment: bytes) -> bytes:
        """What is new in a segment without RST. A SYN that comes again changes nothing."""
        sequence, flags = struct.unpack_from(">I", segment, 24)[0], segment[33]
        payload = segment[20 + (segment[32] >> 4) * 4 : int.from_bytes(segment[2:4])]
        if flags & SYN:
            if self.next is None:
                self.next = (sequence + 1) % (1 << 32)
        elif self.next is not None and (new := signed(sequence + len(payload) - self.next)) > 0:
            self.next = (self.next + new) % (1 << 32)
            return payload[-new:]
        return b""

    def messages(self, new: bytes) -> Iterator[bytes]:
        """The DNS messages that new octets complete."""
        self.rest += new
        while len(self.rest) >= 2 and len(self.rest) >= (end := 2 + int.from_bytes(self.rest[:2])):
            message, self.rest = self.rest[2:end], self.rest[end:]
            yield message


class Session:
    """What is kept of an FTP control connection or a connection of DNS over TCP: by the side of each host, its stream as it comes and as it goes
    on, and the bindings of the addresses that it has named."""

    def __init__(self, port: int) -> None:
        self.port = port
        self.comes, self.goes = (Stream(), Stream()), (Stream(), Stream())
        self.named: "tuple[dict[Binding, None], dict[Binding, None]]" = ({}, {})


@dataclass(slots=True)
class Connection:
    """A TCP connection. `acknowledged`, `seen` and `again` have the bit of each side from which an ACK, a segment and a further segment came."""

    session: Session | None
    end: int = 0
    acknowledged: int = 0
    seen: int = 0
    again: int = 0
    is_closing: bool = False

    @property
    def is_established(self) -> bool:
        """Whether both hosts have acknowledged, and neither has said that it ends."""
        return self.acknowledged == 3 and not self.is_closing

    def is_ended_by(self, side: int, reset: bytes) -> bool:
        """Whether a reset that passed ends it. A session goes on where the reset is older than its last octet."""
        number = self.session.comes[side].next if self.session else None
        return number is None or signed(struct.unpack_from(">I", reset, 24)[0] - number) >= 0

    def note(self, side: int, flags: int) -> int:
        """Notes a segment, and says for how long it holds."""
        bit = 1 << side
        self.again |= self.seen & bit
        self.seen |= bit
        if flags & ACK:
            self.acknowledged |= bit
        self.is_closing |= bool(flags & FIN)
        return LONG_TIMEOUT if self.is_established else TCP_HOLD


def connection_begun(known: Connection | None, segment: bytes) -> Connection:
    """The connection of a segment that passed, by what was known of it."""
    is_first = segment[33] & (SYN | ACK) == SYN
    if known and not (known.is_closing and not known.session and is_first):
        return known
    port = int.from_bytes(segment[22:24])
    return Connection(Session(port) if not known and is_first and port in (FTP_PORT, DNS_PORT) else None)
