"""Addresses in messages of routers, of mobile networks, of probes and of devices: behind octets that tell them, or at places that the message's kind tells."""
import re
from collections.abc import Callable, Iterator
from functools import partial

from rendapil.payloads import structures
from rendapil.payloads.addresses import FIELD, Field, Find
from rendapil.payloads.applications import BREAKS, TELLS
from rendapil.payloads.structures import MOST, NODE, PEERS_TOLD, ROUTE, ROUTER, SEEN, all_behind, at_place

TUNNEL = Field("where a tunnel ends", BREAKS)
SUBSCRIBER = Field("the address of a subscriber inside the tunnel", TELLS)
HOST_IP = Field("Host-IP-Address or another attribute that is told", TELLS)
RECORDED = Field("an address in a record of a flow", TELLS)
AGENT = Field("the agent that sends the records", TELLS)
ANSWERS = Field("where answers and telegrams go", BREAKS)
FORWARDED = Field("the sender of a message that was forwarded, to which receivers answer", BREAKS)
CARE_OF = Field("a home agent or a care-of address", BREAKS)
LISTED = Field("an address in a list of clients or peers", TELLS)
EVENTS = Field("where the client connects for events", BREAKS)
LOCATOR = Field("a locator: participants send there", BREAKS)
PROXIED = Field("the PROXY protocol tells the client and its server", TELLS)
IDENTITY = Field("the socket address of a device", TELLS)

Pattern = tuple[re.Pattern[bytes], Field]


def behind(pattern: bytes, field: Field) -> Pattern:
    """A pattern that an address follows."""
    return re.compile(pattern, re.DOTALL), field


BEHIND: dict[str, list[Pattern]] = {
    "GTP, PFCP": [
        behind(rb"\x85\x00\x04|\x57\x00\x09[\x00-\x0f][\x80-\xbf].{4}|\x57\x00\x19[\x00-\x0f][\xc0-\xff].{4}", TUNNEL),
        behind(rb"\x00\x3c\x00\x05\x00|\x00\x39\x00\x0d\x02.{8}|\x00\x15\x00\x09\x01.{4}|\x00\x54\x00\x0a[\x01-\x03]\x00.{4}", TUNNEL),
        behind(rb"\x80\x00\x06\xf1\x21|\x4f\x00\x05[\x00-\x0f]\x01|\x00\x5d\x00\x05[\x02\x06]", SUBSCRIBER),
    ],
    "Diameter": [behind(rb"\x00\x00\x0e\x00\x01|\x00\x00\x12.{4}\x00\x01", HOST_IP)],
    "DDS": [behind(rb"\x01\x00\x00\x00..\x00{14}|\x00\x00\x00\x01\x00\x00..\x00{12}", LOCATOR)],
    "EtherNet/IP": [behind(rb"\x00\x02..(?=.{4}\x00{8})", IDENTITY)],
    "Firebird": [behind(rb"\x00\x00\x00[\x08\x10](?:\x02\x00|\x00\x02)..", EVENTS)],
    "IAX2": [behind(rb"\x12\x10(?:\x02\x00|\x00\x02)..", SEEN)],
    "SOME/IP": [behind(rb"\x00\x09[\x04\x14\x24]\x00", NODE)],
}
"""What stands before an address, by application."""


def told_behind(patterns: list[Pattern], payload: bytes) -> Iterator[Find]:
    """The addresses behind each of these."""
    for pattern, field in patterns:
        yield from all_behind(payload, pattern, field)


def knx(payload: bytes) -> Iterator[Find]:
    """Endpoints of control and of data in KNXnet/IP."""
    if payload[:2] == b"\x06\x10" and int.from_bytes(payload[4:6]) <= len(payload):
        yield from all_behind(payload, re.compile(rb"\x08[\x01\x02]"), ANSWERS)


TOLD_TO_HUB = re.compile(rb" I4(\d{1,3}(?:\.\d{1,3}){3})(?=[ \n])")


def adc(payload: bytes) -> Iterator[Find]:
    """I4 of a client's INF in ADC, as text behind the field's name."""
    for count, one in enumerate(TOLD_TO_HUB.finditer(payload) if payload[1:5] == b"INF " else ()):
        octets = [int(part) for part in one[1].split(b".")]
        if count < MOST and max(octets) < 256:
            yield Find(FIELD, one.start(1), one.end(1), int.from_bytes(bytes(octets)), field=PEERS_TOLD)


def bacnet(payload: bytes) -> Iterator[Find]:
    """The sender of a message that was forwarded, and the tables of a BBMD (annex J)."""
    if payload[:1] != b"\x81" or int.from_bytes(payload[2:4]) != len(payload):
        return
    if payload[1] == 4:
        yield from at_place(payload, 4, FORWARDED)
    elif payload[1] in (1, 3, 7):
        for at in range(4, min(len(payload), 1500) - 9, 10):
            yield from at_place(payload, at, FORWARDED)


EXTENSIONS = (b"\x20", b"\x21", b"\x22", b"\x83", b"\x84", b"\x88")
"""What may follow the fixed part of a registration."""


def mobile_ip(payload: bytes) -> Iterator[Find]:
    """The home address, the home agent and the care-of address of a registration (RFC 5944)."""
    for kind, places, size in ((1, (4, 8, 12), 24), (3, (4, 8), 20)):
        if payload[:1] == bytes([kind]) and payload[size : size + 1] in EXTENSIONS:
            for at in places:
                yield from at_place(payload, at, CARE_OF)


def flow_records(payload: bytes) -> Iterator[Find]:
    """Records of NetFlow 5, those of 9 and of IPFIX whose template stands in the same message, and the agent of sFlow 5."""
    version = int.from_bytes(payload[:2])
    if version == 5 and len(payload) == 24 + 48 * int.from_bytes(payload[2:4]):
        for at in range(24, min(len(payload), 1500) - 47, 48):
            for place in (at, at + 4, at + 8):
                yield from at_place(payload, place, RECORDED)
    elif version in (9, 10):
        yield from templated(payload, 20 if version == 9 else 16, 0 if version == 9 else 2)
    elif payload[:8] == b"\0\0\0\5\0\0\0\1":
        yield from at_place(payload, 8, AGENT)


ADDRESSES_OF_FLOWS = {8, 12, 15, 18, 44, 45, 130, 149, 225, 226}
"""Fields of templates that are IPv4 addresses: the ends of a flow, next hops, the exporter, and the ends behind a NAT."""


def templated(payload: bytes, at: int, template: int) -> Iterator[Find]:
    """The addresses of records whose template stands before them in the message."""
    templates: dict[int, list[tuple[int, int]]] = {}
    while at + 4 <= len(payload):
        kind, size = int.from_bytes(payload[at : at + 2]), int.from_bytes(payload[at + 2 : at + 4])
        body = payload[at + 4 : at + max(size, 4)]
        if kind == template:
            templates.update(templates_in(body))
        elif fields := templates.get(kind):
            yield from records_in(payload, at + 4, min(at + size, len(payload)), fields)
        at += max(size, 4)


def templates_in(body: bytes) -> Iterator[tuple[int, list[tuple[int, int]]]]:
    """Each template of a set: its number, and the kind and size of each field."""
    at = 0
    while at + 4 <= len(body):
        number, count = int.from_bytes(body[at : at + 2]), int.from_bytes(body[at + 2 : at + 4])
        at += 4
        fields = []
        for _ in range(min(count, (len(body) - at) // 4)):
            kind, size = int.from_bytes(body[at : at + 2]), int.from_bytes(body[at + 2 : at + 4])
            at += 8 if kind & 0x8000 else 4
            fields.append((kind, size))
        yield number, fields


def records_in(payload: bytes, at: int, end: int, fields: list[tuple[int, int]]) -> Iterator[Find]:
    """The addresses of records of fixed size. No field is empty, so the work goes by the octets of the records."""
    size = sum(width for _, width in fields)
    if not fields or any(width in (0, 0xFFFF) for _, width in fields):
        return
    while at + size <= end:
        for kind, width in fields:
            if kind in ADDRESSES_OF_FLOWS and width == 4:
                yield from at_place(payload, at, RECORDED)
            at += width


def teredo(payload: bytes) -> Iterator[Find]:
    """The client's address as its server sees it, with each bit turned (RFC 4380, 5.1.1)."""
    at = 13 if payload[:2] == b"\0\1" else 0
    if payload[at : at + 2] == b"\0\0" and len(payload) >= at + 8:
        yield Find(FIELD, at + 4, at + 8, int.from_bytes(payload[at + 4 : at + 8]) ^ 0xFFFFFFFF, False, SEEN)


PLACES_OF_NTP = {0: (0,), 1: (0, 4), 2: (0, 4), 3: (0, 4), 20: (16,), 42: (16, 20)}
"""Where an item has addresses, by the request of ntpdc: lists of peers, and of clients."""


def ntp(payload: bytes) -> Iterator[Find]:
    """Lists of peers and of clients in the private mode of ntpd."""
    if len(payload) < 8 or payload[0] & 0x87 != 0x87 or payload[2] not in (0, 2, 3):
        return
    count, size = int.from_bytes(payload[4:6]), int.from_bytes(payload[6:8])
    if not size or 8 + count * size > len(payload):
        return
    for at in range(8, 8 + count * size, size):
        for place in PLACES_OF_NTP.get(payload[3], ()):
            yield from at_place(payload, at + place, LISTED)


def ldp(payload: bytes) -> Iterator[Find]:
    """The identifier of the router in front of each PDU, and what its messages have (RFC 5036)."""
    at = 0
    while payload[at : at + 2] == b"\0\1" and at + 10 <= len(payload):
        end = at + 4 + int.from_bytes(payload[at + 2 : at + 4])
        yield from at_place(payload, at + 4, ROUTER)
        at += 10
        while at + 8 <= min(end, len(payload)):
            size = int.from_bytes(payload[at + 2 : at + 4])
            yield from elements(payload, at + 8, min(at + 4 + size, len(payload)))
            at += 4 + size


def elements(payload: bytes, at: int, end: int) -> Iterator[Find]:
    """The addresses in the elements of a message of LDP: transport addresses, a session's receiver, lists of addresses, and prefixes."""
    while at + 4 <= end:
        kind, size = int.from_bytes(payload[at : at + 2]) & 0x3FFF, int.from_bytes(payload[at + 2 : at + 4])
        if kind == 0x401:
            yield from at_place(payload, at + 4, ROUTE)
        elif kind == 0x500:
            yield from at_place(payload, at + 12, ROUTER)
        elif kind == 0x101:
            for place in range(at + 6, min(at + 4 + size, end) - 3, 4):
                yield from at_place(payload, place, ROUTE)
        elif kind == 0x100 and payload[at + 4 : at + 7] == b"\2\0\1":
            yield from structures.prefixes(payload, at + 7, min(at + 4 + size, end), 1)
        at += 4 + size


PROXY_2 = b"\r\n\r\n\0\r\nQUIT\n"
"""How version 2 of the PROXY protocol begins."""


def proxied(payload: bytes) -> Iterator[Find]:
    """The ends of the connection that a proxy took, in front of what it passes on."""
    if payload[13:14] in (b"\x11", b"\x12"):
        yield from at_place(payload, 16, PROXIED)
        yield from at_place(payload, 20, PROXIED)


def olsr(payload: bytes) -> Iterator[Find]:
    """The originators of messages, their neighbours, interfaces and networks (RFC 3626)."""
    at = 4 if int.from_bytes(payload[:2]) == len(payload) else len(payload)
    while at + 12 <= len(payload) and (size := int.from_bytes(payload[at + 2 : at + 4])) >= 12:
        end, kind = min(at + size, len(payload)), payload[at] & 127
        yield from at_place(payload, at + 4, ROUTER)
        if kind in (1, 73):
            yield from links(payload, at + 16, end, 4 if kind == 1 else 8)
        elif kind in (2, 74, 3, 4):
            for place in range(at + (12 if kind in (3, 4) else 16), end - 3, {4: 8, 74: 8}.get(kind, 4)):
                yield from at_place(payload, place, ROUTE)
        at += size


def links(payload: bytes, at: int, end: int, step: int) -> Iterator[Find]:
    """The neighbours in a HELLO, link by link."""
    while at + 4 <= end and (size := int.from_bytes(payload[at + 2 : at + 4])) >= 4:
        for place in range(at + 4, min(at + size, end) - 3, step):
            yield from at_place(payload, place, ROUTE)
        at += size


DECODERS: dict[str, Callable[[bytes], Iterator[Find]]] = {
    **structures.DECODERS,
    **{name: partial(told_behind, patterns) for name, patterns in BEHIND.items()},
    "KNXnet/IP": knx,
    "BACnet": bacnet,
    "Direct Connect": adc,
    "Mobile IP": mobile_ip,
    "flow records": flow_records,
    "tunnels of packets": teredo,
    "NTP": ntp,
    "MSDP, LDP": ldp,
    "Babel, OLSR": olsr,
}
"""What finds addresses in the messages of an application."""
