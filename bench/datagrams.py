"""Datagrams and captures, for the scripts that make some."""
import struct
from collections.abc import Iterable, Iterator

Event = tuple[str, bytes]
"""A side and a frame that comes from it."""

RAW, ETHERNET = 101, 1
"""The link types of captures of bare datagrams and of Ethernet frames."""

# Settings of both realms, with bare datagrams.
REALMS = """
left = { pool_first = "192.168.200.1", pool_last = "192.168.200.254", link = "raw" }
right = { pool_first = "172.16.9.1", pool_last = "172.16.9.254", link = "raw" }
"""


def quad(text: str) -> bytes:
    """The octets of an address."""
    return bytes(int(part) for part in text.split("."))


def checksum(octets: bytes) -> int:
    """The checksum of octets."""
    octets += bytes(len(octets) % 2)
    total: int = sum(struct.unpack(f">{len(octets) // 2}H", octets))
    while total > 0xFFFF:
        total = (total & 0xFFFF) + (total >> 16)
    return total ^ 0xFFFF


def datagram(protocol: int, source: str, destination: str, payload: bytes, place: int) -> bytes:
    """A datagram whose payload has its checksum, or 0 so far, at this place."""
    pseudo = b"" if protocol == 1 else quad(source) + quad(destination) + struct.pack(">BBH", 0, protocol, len(payload))
    # A UDP checksum of 0 would say that there is none.
    total = checksum(pseudo + payload) or (0xFFFF if protocol == 17 else 0)
    payload = payload[:place] + struct.pack(">H", total) + payload[place + 2 :]
    head = struct.pack(">BBHHHBBH", 0x45, 0, 20 + len(payload), 1, 0, 64, protocol, 0) + quad(source) + quad(destination)
    return head[:10] + struct.pack(">H", checksum(head)) + head[12:] + payload


def udp(source: str, port: int, destination: str, far_port: int, payload: bytes) -> bytes:
    """A datagram of UDP."""
    return datagram(17, source, destination, struct.pack(">HHHH", port, far_port, 8 + len(payload), 0) + payload, 6)


def icmp(source: str, destination: str, kind: int, code: int, rest: bytes) -> bytes:
    """A message of ICMP."""
    return datagram(1, source, destination, struct.pack(">BBH", kind, code, 0) + rest, 2)


def tcp(
    source: str,
    port: int,
    destination: str,
    far_port: int,
    flags: int,
    sequence: int,
    acknowledgement: int,
    payload: bytes = b"",
    options: bytes = b"",
) -> bytes:
    """A segment of TCP."""
    header = struct.pack(">HHIIBBHHH", port, far_port, sequence, acknowledgement, 5 + len(options) // 4 << 4, flags, 8192, 0, 0)
    return datagram(6, source, destination, header + options + payload, 16)


def fragments(whole: bytes, size: int) -> Iterator[bytes]:
    """The fragments of a datagram without options, each but the last with so many octets of its payload, a multiple of 8."""
    payload = whole[20:]
    for start in range(0, len(payload), size):
        part = payload[start : start + size]
        more = 0x2000 if start + size < len(payload) else 0
        head = (
            whole[:2] + struct.pack(">H", 20 + len(part)) + whole[4:6] + struct.pack(">H", more | start // 8) + whole[8:10] + bytes(2) + whole[12:20]
        )
        yield head[:10] + struct.pack(">H", checksum(head)) + head[12:] + part


def record(seconds: int, microseconds: int, octets: bytes) -> bytes:
    """A record of such a capture."""
    return struct.pack("<IIII", seconds, microseconds, len(octets), len(octets)) + octets


def head(link: int = RAW) -> bytes:
    """The head of a little-endian capture with microseconds."""
    return struct.pack("<IHHiIII", 0xA1B2C3D4, 2, 4, 0, 0, 262144, link)


def write_run(folder: str, settings: str, records: Iterable[bytes], right: Iterable[bytes] = (), *, link: int = RAW) -> None:
    """Writes the settings, a left capture of these records, and a right one, without any where none are given."""
    with open(f"{folder}/settings.toml", "w") as text:
        text.write(settings)
    for side, whole in (("left", records), ("right", right)):
        with open(f"{folder}/{side}.pcap", "wb") as out:
            out.write(head(link))
            out.writelines(whole)


def paced(frames: Iterable[bytes], second: int) -> Iterator[bytes]:
    """Records of frames, so many of them a second."""
    for number, frame in enumerate(frames):
        seconds, fraction = divmod(number, second)
        yield record(seconds + 1, fraction, frame)


class Session:
    """The segments of a TCP connection of a left host to a right one, each as its own realm sees it.

    Each side's octets must keep their number on their way. A frame is a side, left or right, and its octets."""

    def __init__(self, port: int, far_port: int, host: tuple[str, str], other: tuple[str, str]) -> None:
        # The client's address and the other host's alias in the left realm, the server's and the client's alias in the right one.
        self.ends = {"left": (host[0], port, other[0], far_port), "right": (other[1], far_port, host[1], port)}
        self.next = {"left": 1000, "right": 5000}

    def frame(self, side: str, flags: int, octets: bytes = b"", options: bytes = b"") -> Event:
        """The next segment of a side."""
        far = "right" if side == "left" else "left"
        sequence, acknowledgement = self.next[side], self.next[far] if flags & 16 else 0
        self.next[side] += len(octets) + (1 if flags & 2 else 0)
        return side, tcp(*self.ends[side], flags, sequence, acknowledgement, octets, options)

    def opens(self) -> Iterator[Event]:
        """The handshake."""
        yield self.frame("left", 2)
        yield self.frame("right", 18)
        yield self.frame("left", 16)

    def says(self, side: str, octets: bytes) -> Iterator[Event]:
        """The octets in pieces of 1,400 at most, and their acknowledgement."""
        for start in range(0, len(octets), 1400):
            yield self.frame(side, 24, octets[start : start + 1400])
        yield self.frame("right" if side == "left" else "left", 16)
