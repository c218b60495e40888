"""DNS and SNMP messages, and sessions of DNS, for the scripts that measure. Both hosts have fixed bindings."""
import struct
from collections.abc import Callable, Iterator

from datagrams import REALMS, Event, Session, quad, udp

SETTINGS = (
    REALMS
    + """static = [
    { side = "left", host = "10.0.0.5", alias = "172.16.9.1" },
    { side = "left", host = "10.0.0.6", alias = "172.16.9.2" },
    { side = "right", host = "10.0.0.5", alias = "192.168.200.1" },
]
"""
)
WIDE = SETTINGS.replace("192.168.200.254", "192.168.203.254").replace("172.16.9.254", "172.16.12.254")
HOST, OTHER = "10.0.0.5", "192.168.200.1"
QUESTION = b"\x03ftp\x05south\x07example\x03org\0" + struct.pack(">HH", 1, 1)
NAME_OF_OTHER = b"\x011\x03200\x03168\x03192\x07in-addr\x04arpa\0" + struct.pack(">HH", 12, 1)


def resource(name: bytes, kind: int, data: bytes = b"") -> bytes:
    """A record."""
    return name + struct.pack(">HHIH", kind, 1, 3600, len(data)) + data


def address(host: str) -> bytes:
    """An A record of the name of the question."""
    return resource(b"\xc0\x0c", 1, quad(host))


ASKS = udp(HOST, 40000, OTHER, 53, struct.pack(">6H", 7, 0x0100, 1, 0, 0, 0) + QUESTION)
ASKS_NAME = udp(HOST, 40000, OTHER, 53, struct.pack(">6H", 7, 0x0100, 1, 0, 0, 0) + NAME_OF_OTHER)
TELLS = udp(HOST, 53, OTHER, 40000, struct.pack(">6H", 7, 0x8180, 1, 2, 0, 0) + QUESTION + address("10.0.0.5") + address("10.0.0.6"))


def framed(message: bytes) -> bytes:
    """A message of DNS over TCP: behind its length."""
    return struct.pack(">H", len(message)) + message


def unit(kind: int, records: int, body: bytes) -> bytes:
    """A message over TCP about the question."""
    return framed(struct.pack(">6H", 7, kind, 1, records, 0, 0) + QUESTION + body)


def named(first: int) -> bytes:
    """A message that names 256 hosts."""
    return unit(0x8180, 256, b"".join(address(f"10.1.{first}.{last}") for last in range(256)))


PLAIN_QUESTION = unit(0x0100, 0, b"")
PLAIN_ANSWER = unit(0x8180, 2, address("10.0.0.5") + address("10.0.0.6"))


def session(port: int) -> Session:
    """A connection of both hosts to a port."""
    return Session(40000, port, (HOST, "172.16.9.1"), (OTHER, "10.0.0.5"))


def questions() -> Iterator[Event]:
    """A question and its answer, each of which acknowledges the other."""
    way = session(53)
    yield from way.opens()
    while True:
        yield way.frame("left", 24, PLAIN_QUESTION)
        yield way.frame("right", 24, PLAIN_ANSWER)


def acknowledgements(port: int, left: bytes = b"", right: bytes = b"") -> Callable[[], Iterator[Event]]:
    """Bare ones of the client, behind what both sides have said."""

    def events() -> Iterator[Event]:
        way = session(port)
        yield from way.opens()
        yield from way.says("right", right)
        yield from way.says("left", left)
        while True:
            yield way.frame("left", 16)

    return events


# SNMP (RFC 3416): an answer, whose bindings are of identifiers.


def element(tag: int, content: bytes) -> bytes:
    """An element of BER."""
    length = bytes([len(content)]) if len(content) < 128 else struct.pack(">BH", 0x82, len(content))
    return bytes([tag]) + length + content


def identifier(*arcs: int) -> bytes:
    """An object identifier."""
    octets = bytes([arcs[0] * 40 + arcs[1]])
    for arc in arcs[2:]:
        octets += bytes([arc]) if arc < 128 else bytes([128 | arc >> 7, arc & 127])
    return element(6, octets)


def reads(bindings: bytes) -> bytes:
    """A datagram with an answer."""
    answer = element(2, b"\7") + element(2, b"\0") + element(2, b"\0") + element(0x30, bindings)
    return udp(HOST, 161, OTHER, 40000, element(0x30, element(2, b"\1") + element(4, b"public") + element(0xA2, answer)))


def ruled(*prefixes: tuple[int, ...]) -> str:
    """Settings with a rule for each of these prefixes of identifiers."""
    return SETTINGS + "".join(f'[[oid]]\nprefix = "{".".join(map(str, prefix))}"\nskip = 1\n' for prefix in prefixes)
