"""What an office says, as an ordinary capture of it: names are looked up, pages are read, files are copied, and some log in by FTP."""
import random
import struct
from collections.abc import Iterator

import datagrams
from datagrams import ETHERNET, quad

CLIENTS, SERVERS, STEP, STAYS, BULK = 1000, 40, 50, 0x4000, 120
"""How many hosts of each realm there are, how many microseconds lie between frames, the flag that forbids fragments, and the segments of a long answer."""

NOISE = random.Random(1).randbytes(1 << 20)
PAGE = (
    b"HTTP/1.1 200 OK\r\nServer: nginx/1.22.1\r\nContent-Type: text/html\r\nContent-Length: 5400\r\n\r\n<html><head><title>Orders</title></head>"
    + b'<tr><td>41.50</td><td><a href="/orders/4711?page=2">4,711 of 12,000</a></td><td>2026-12-02</td></tr>\n' * 56
)


def sum_of(octets: bytes) -> int:
    """The sum of octets as a checksum counts them."""
    return int.from_bytes(octets + bytes(len(octets) & 1)) % 0xFFFF


class Link:
    """The frames of a link, which get their stamps in turn."""

    def __init__(self) -> None:
        self.number = 0

    def frame(self, protocol: int, ends: tuple[bytes, bytes], payload: bytes, place: int) -> bytes:
        """A record of a datagram whose payload has 0 where its checksum belongs."""
        source, destination = ends
        self.number += 1
        total = sum_of(payload) + sum_of(source + destination) + protocol + len(payload)
        payload = payload[:place] + ((0xFFFF - total % 0xFFFF) or 0xFFFF).to_bytes(2) + payload[place + 2 :]
        head = struct.pack(">BBHHHBBH", 0x45, 0, 20 + len(payload), self.number & 0xFFFF, STAYS, 64, protocol, 0) + source + destination
        head = head[:10] + (0xFFFF - sum_of(head)).to_bytes(2) + head[12:]
        octets = b"\2\0" + destination + b"\2\0" + source + b"\x08\0" + head + payload
        moment = divmod(self.number * STEP, 1_000_000)
        return struct.pack("<4I", 1_700_000_000 + moment[0], moment[1], len(octets), len(octets)) + octets

    def udp(self, ends: tuple[bytes, bytes], ports: tuple[int, int], octets: bytes) -> bytes:
        """A datagram of UDP."""
        return self.frame(17, ends, struct.pack(">4H", *ports, 8 + len(octets), 0) + octets, 6)


class Dialogue:
    """A connection of TCP of a client to a server."""

    def __init__(self, link: Link, ends: tuple[bytes, bytes], ports: tuple[int, int]) -> None:
        self._link, self._ends, self._ports, self._next = link, ends, ports, [1000, 5000]

    def says(self, side: int, flags: int, octets: bytes = b"") -> bytes:
        """A segment of the client (0) or the server (1)."""
        ends, ports = (self._ends[side], self._ends[1 - side]), (self._ports[side], self._ports[1 - side])
        numbers = self._next[side], self._next[1 - side] if flags & 16 else 0
        self._next[side] += len(octets) + bool(flags & 3)
        return self._link.frame(6, ends, struct.pack(">HHIIBBHHH", *ports, *numbers, 0x50, flags, 8192, 0, 0) + octets, 16)

    def opens(self) -> Iterator[bytes]:
        """Its three first segments."""
        yield from (self.says(0, 2), self.says(1, 18), self.says(0, 16))

    def sends(self, side: int, octets: bytes) -> Iterator[bytes]:
        """Octets in segments, of which each second one is acknowledged."""
        for number, at in enumerate(range(0, len(octets), 1400)):
            yield self.says(side, 24, octets[at : at + 1400])
            if number % 2 or at + 1400 >= len(octets):
                yield self.says(1 - side, 16)

    def ends(self) -> Iterator[bytes]:
        """Its three last segments."""
        yield from (self.says(0, 17), self.says(1, 17), self.says(0, 16))


def named(number: int, address: bytes = b"") -> bytes:
    """A question for the address of a server, or the answer."""
    question = b"\x06server\x06office\x07example\0\0\1\0\1"
    head = struct.pack(">6H", number & 0xFFFF, 0x8180 if address else 0x0100, 1, bool(address), 0, 0)
    return head + question + (b"\xc0\x0c\0\1\0\1\0\0\x0e\x10\0\4" + address if address else b"")


def visits(link: Link, number: int) -> Iterator[bytes]:
    """A client opens a connection, of which each fourth looks up a name before: mostly for a page, now and then for a login or an encrypted copy."""
    client, server = quad(f"10.1.{number % CLIENTS // 250}.{number % 250 + 1}"), quad(f"10.2.0.{number % SERVERS + 10}")
    ends, port = (client, server), 32_768 + number % 28_000
    names = (client, quad("10.2.0.1"))
    if number % 4 == 0:
        yield link.udp(names, (port, 53), named(number))
        yield link.udp(names[::-1], (53, port), named(number, server))
    far_port = 21 if number % 50 == 7 else 443 if number % 12 == 5 else 80
    dialogue = Dialogue(link, ends, (port, far_port))
    yield from dialogue.opens()
    if far_port == 21:
        yield from dialogue.sends(1, b"220 ready\r\n")
        yield from dialogue.sends(0, b"USER someone\r\n")
        yield from dialogue.sends(0, b"PORT %s,156,64\r\n" % b",".join(b"%d" % one for one in client))
        yield from dialogue.sends(1, b"200 ok\r\n")
    elif far_port == 443:
        at = number * 1400 % (1 << 19)
        yield from dialogue.sends(0, b"\x16\x03\x01\x02\x00\x01\x00\x01\xfc\x03\x03" + NOISE[at : at + 500])
        yield from dialogue.sends(1, NOISE[at : at + 1400 * BULK])
    else:
        yield from dialogue.sends(0, b"GET /orders/%d HTTP/1.1\r\nHost: server.office.example\r\nUser-Agent: Mozilla/5.0\r\n\r\n" % number)
        yield from dialogue.sends(1, PAGE)
    yield from dialogue.ends()


def frames_of_office(frames: int) -> Iterator[bytes]:
    """So many records of frames."""
    link, number = Link(), 0
    while True:
        for record in visits(link, number):
            if not frames:
                return
            frames -= 1
            yield record
        number += 1


def write_office(path: str, frames: int) -> None:
    """Writes a capture of so many frames."""
    with open(path, "wb", 1 << 18) as out:
        out.write(datagrams.head(ETHERNET))
        out.writelines(frames_of_office(frames))
