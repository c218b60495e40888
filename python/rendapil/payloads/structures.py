"""Addresses in binary messages whose form tells where they stand. What is found so needs no further evidence."""
import re
import struct
from collections.abc import Callable, Iterator
from contextlib import suppress

from rendapil.dns import LABELS, Names
from rendapil.payloads.addresses import FIELD, Field, Find
from rendapil.payloads.applications import BREAKS, TELLS

MOST = 256
"""The most addresses of a message."""

TICKET = Field("a ticket that is valid only from these addresses", BREAKS)
DISPLAY = Field("the manager connects to the display at this address", BREAKS)
ACCESS = Field("an access list of hosts: who may use the display", BREAKS, "", "xauth in place of xhost")
PEERS = Field("peers connect to the peers that are told", BREAKS, "BitTorrent")
OWN = Field("the address that a peer sees", TELLS, "BitTorrent")
NEXT_HOP = Field("NEXT_HOP: routes lead there", BREAKS)
PREFIX = Field("the prefix of a route", TELLS)
ROUTER = Field("the identifier of a router", TELLS)
RELAY = Field("the relay, to which the server answers", BREAKS)
LEASE = Field("a lease, or what the client shall use", BREAKS)
NAS = Field("NAS-IP-Address or another attribute that is told", TELLS)
LOGIN = Field("the access server connects the user to it", BREAKS)
NAMED = Field("the address of a name", BREAKS)
HINT = Field("a hint of an HTTPS record, to which browsers connect", BREAKS)
SUBNET = Field("the client's subnet, or a list of addresses", TELLS)
SENDER = Field("the address of the sender, to which receivers answer", BREAKS)
TOWER = Field("the endpoint mapper tells where a service is", BREAKS)
TO_CONNECT = Field("whom the proxy shall connect to", BREAKS)
NAMED_TO_PROXY = Field("a host of the proxy's realm, which the proxy shall connect to", TELLS)
BOUND = Field("where the proxy listens or sends", BREAKS)
SEEN = Field("the address of the connection that the proxy made", TELLS)
CHECKED = Field("the client's address, which the server compares with that of the packet", BREAKS)
ROUTE = Field("routes lead to it", BREAKS)
NODE = Field("the address of a node, to which others connect", BREAKS)
INTERFACE = Field("an interface for multichannel: clients fall back on the first connection", TELLS)
RPC_BOUND = Field("where the server of a domain is", BREAKS)
PEERS_TOLD = Field("peers connect to the peers that are told", BREAKS)
MATCHED = Field("a rule matches the address", TELLS)
VIRTUAL = Field("the virtual address of a group of routers", TELLS)
CERTIFIED = Field("a certificate is valid for the address", TELLS)
SERVERS = Field("servers, to which players connect", BREAKS)


def at_place(payload: bytes, at: int, field: Field) -> Iterator[Find]:
    """The address at a place, where it is there."""
    if 0 <= at <= len(payload) - 4 and (address := int.from_bytes(payload[at : at + 4])):
        yield Find(FIELD, at, at + 4, address, False, field)


def all_behind(payload: bytes, pattern: re.Pattern[bytes], field: Field) -> Iterator[Find]:
    """The addresses that stand behind each match. Four letters are a word, and no address."""
    for count, one in enumerate(pattern.finditer(payload)):
        if count < MOST and not payload[one.end() : one.end() + 4].isalpha():
            yield from at_place(payload, one.end(), field)


def compact(payload: bytes, at: int, end: int, size: int, field: Field) -> Iterator[Find]:
    """Addresses with ports, one behind the other: each stands at the end of a part of so many octets."""
    for place in range(at, min(end, len(payload), at + size * MOST) - size + 1, size):
        yield from at_place(payload, place + size - 6, field)


HOST_ADDRESS = re.compile(rb"\xa0\x03\x02\x01\x02\xa1\x06\x04\x04")


def kerberos(payload: bytes) -> Iterator[Find]:
    """HostAddress: a kind, which is 2, and an octet string (RFC 4120, 5.2.5)."""
    return all_behind(payload, HOST_ADDRESS, TICKET)


def xdmcp(payload: bytes) -> Iterator[Find]:
    """Request has the connection addresses of the display; ForwardQuery the client's."""
    if len(payload) < 8 or payload[:2] != b"\0\1":
        return
    code = int.from_bytes(payload[2:4])
    if code == 7:
        at = 9 + 2 * payload[8]
        count, at = (payload[at], at + 1) if at < len(payload) else (0, at)
        for _ in range(count):
            size = int.from_bytes(payload[at : at + 2])
            if size == 4:
                yield from at_place(payload, at + 2, DISPLAY)
            at += 2 + size
    elif code == 4 and payload[6:8] == b"\0\4":
        yield from at_place(payload, 8, DISPLAY)


CHANGE_HOSTS = re.compile(
    rb"\x6d[\x00\x01](?:\x00\x03\x00\x00\x00\x04|\x03\x00\x00\x00\x04\x00)|\x6d[\x00\x01](?:\x00\x03|\x03\x00)\x00.(?:\x00\x04|\x04\x00)", re.DOTALL
)
LIST_HOSTS = re.compile(rb"\x01[\x00\x01].{2}.{4}(?:\x00[\x01-\x20]|[\x01-\x20]\x00)\x00{22}\x00.(?:\x00\x04|\x04\x00)", re.DOTALL)


def x11(payload: bytes) -> Iterator[Find]:
    """ChangeHosts, and the answer to ListHosts, of hosts of the Internet's family."""
    yield from all_behind(payload, CHANGE_HOSTS, ACCESS)
    if one := LIST_HOSTS.match(payload):
        at = one.end()
        while at + 4 <= len(payload):
            yield from at_place(payload, at, ACCESS)
            at += 4
            while at + 4 <= len(payload) and (payload[at] or payload[at + 2 : at + 4] not in (b"\0\4", b"\4\0")):
                at += 4 + (-(-max(payload[at + 2 : at + 4]) // 4)) * 4
            at += 4


PEERS_KEY, NODES_KEY = re.compile(rb"(?:5:peers|5:added|6:values)l?(\d{1,5}):"), re.compile(rb"5:nodes(\d{1,5}):")
SEEN_KEY = re.compile(rb"(?:6:yourip4|2:ip6|11:external ip4):")


def bittorrent(payload: bytes) -> Iterator[Find]:
    """Compact peers and nodes in bencoded answers (BEP 5, 11, 23), and in the answers of trackers over UDP (BEP 15)."""
    for one in PEERS_KEY.finditer(payload):
        at, size = one.end(), int(one[1])
        if one[0].startswith(b"6:valuesl"):
            while payload[at - 2 : at] == b"6:" and size == 6:
                yield from at_place(payload, at, PEERS)
                at += 8
        elif size % 6 == 0:
            yield from compact(payload, at, at + size, 6, PEERS)
    for one in NODES_KEY.finditer(payload):
        if int(one[1]) % 26 == 0:
            yield from compact(payload, one.end(), one.end() + int(one[1]), 26, PEERS)
    yield from all_behind(payload, SEEN_KEY, OWN)
    if payload[:4] == b"\0\0\0\1" and len(payload) >= 26 and len(payload) % 6 == 2:
        yield from compact(payload, 20, len(payload), 6, PEERS)
    if len(payload) >= 98 and payload[8:12] == b"\0\0\0\1":
        yield from at_place(payload, 84, PEERS)


def prefixes(message: bytes, at: int, end: int, safi: int) -> Iterator[Find]:
    """The prefixes of routes. Those of virtual networks have a label and a distinguisher in front."""
    while at < min(end, len(message)):
        front = 11 if safi == 128 else 0
        bits = message[at] - 8 * front
        size = -(-bits // 8)
        if not 0 <= bits <= 32:
            return
        begin = at + 1 + front
        if address := int.from_bytes(message[begin : begin + size].ljust(4, b"\0")):
            yield Find(FIELD, begin, begin + size, address, False, PREFIX)
        at = begin + size


def attribute(message: bytes, kind: int, at: int, end: int) -> Iterator[Find]:
    """The addresses in an attribute of a path (RFC 4271, 4456, 4760)."""
    if kind == 3:
        yield from at_place(message, at, NEXT_HOP)
    elif kind == 7:
        yield from at_place(message, end - 4, ROUTER)
    elif kind in (9, 10):
        for place in range(at, min(end, at + 4 * MOST) - 3, 4):
            yield from at_place(message, place, ROUTER)
    elif kind in (14, 15) and message[at : at + 2] == b"\0\x01":
        safi, size = message[at + 2], message[at + 3] if kind == 14 else -1
        if size in (4, 12):
            yield from at_place(message, at + size, NEXT_HOP)
        yield from prefixes(message, at + 5 + size if kind == 14 else at + 3, end, safi)


def update(message: bytes) -> Iterator[Find]:
    """The addresses in UPDATE: routes that end, attributes, and routes."""
    at = 21 + int.from_bytes(message[19:21])
    yield from prefixes(message, 21, at, 1)
    end = at + 2 + int.from_bytes(message[at : at + 2])
    at += 2
    while at + 3 < min(end, len(message)):
        long = message[at] >> 4 & 1
        size = int.from_bytes(message[at + 2 : at + 3 + long])
        yield from attribute(message, message[at + 1], at + 3 + long, min(at + 3 + long + size, len(message)))
        at += 3 + long + size
    yield from prefixes(message, end, len(message), 1)


MARKER = b"\xff" * 16


def bgp(payload: bytes) -> Iterator[Find]:
    """The identifier in OPEN, and what UPDATE has, message by message. A segment may begin within a message."""
    at = payload.find(MARKER)
    while 0 <= at <= len(payload) - 19:
        size, kind = struct.unpack_from(">HB", payload, at + 16)
        if kind == 1:
            yield from at_place(payload, at + 24, ROUTER)
        elif kind == 2:
            with suppress(IndexError):
                yield from (one._replace(at=one.at + at, end=one.end + at) for one in update(payload[at : at + size]))
        at = at + size if size >= 19 and payload.startswith(MARKER, at + size) else payload.find(MARKER, at + 19)


DHCP_ADDRESSES = {28: LEASE, 92: LEASE, 50: LEASE, 54: LEASE, 3: LEASE, 5: LEASE, 6: LEASE, 42: LEASE, 44: LEASE, 69: LEASE, 118: LEASE, 150: LEASE}


def dhcp(payload: bytes) -> Iterator[Find]:
    """The addresses in the head of BOOTP, and in the options that have some (RFC 2131, 2132)."""
    if len(payload) < 44 or payload[0] not in (1, 2) or payload[2] > 16 or payload[3] > 16:
        return
    for at, field in ((12, LEASE), (16, LEASE), (20, LEASE), (24, RELAY)):
        yield from at_place(payload, at, field)
    at = 240 if payload[236:240] == b"\x63\x82\x53\x63" else len(payload)
    while at + 1 < len(payload) and payload[at] != 255:
        code, size = payload[at], payload[at + 1]
        if not code:
            at += 1
            continue
        if field_of_option := DHCP_ADDRESSES.get(code):
            for place in range(at + 2, at + 2 + size - 3, 4):
                yield from at_place(payload, place, field_of_option)
        elif code == 82:
            yield from relay_options(payload, at + 2, at + 2 + size)
        at += 2 + size


def relay_options(payload: bytes, at: int, end: int) -> Iterator[Find]:
    """Link selection, and server identifier override, of a relay's option."""
    while at + 1 < min(end, len(payload)):
        if payload[at] in (5, 11) and payload[at + 1] == 4:
            yield from at_place(payload, at + 2, RELAY)
        at += 2 + payload[at + 1]


RADIUS_ADDRESSES = {4: NAS, 8: NAS, 14: LOGIN, 23: NAS}


def radius(payload: bytes) -> Iterator[Find]:
    """Attributes that are addresses (RFC 2865)."""
    at = 20 if 20 <= int.from_bytes(payload[2:4]) <= len(payload) else len(payload)
    while at + 6 <= len(payload) and payload[at + 1] >= 2:
        if payload[at + 1] == 6 and payload[at] in RADIUS_ADDRESSES:
            yield from at_place(payload, at + 2, RADIUS_ADDRESSES[payload[at]])
        at += payload[at + 1]


def records_of(message: bytes) -> Iterator[tuple[int, int, int]]:
    """Type, place and size of what each record of a DNS message has."""
    try:
        questions, *records = struct.unpack_from(">4H", message, 4)
        names, at = Names(message, LABELS), 12
        for place in range(min(questions + sum(records), 200)):
            _, at = names.read(at)
            kind = struct.unpack_from(">H", message, at)[0]
            at += 4
            if place >= questions:
                size = struct.unpack_from(">H", message, at + 4)[0]
                at += 6 + size
                yield kind, at - size, size
    except (struct.error, ValueError, IndexError):
        return


def answers(message: bytes) -> Iterator[Find]:
    """The addresses of names, in DNS that isn't changed, in mDNS and LLMNR, and in NetBIOS."""
    for kind, at, size in records_of(message):
        if kind == 1 and size == 4:
            yield from at_place(message, at, NAMED)
        elif kind == 32 and size % 6 == 0:
            for place in range(at + 2, at + size, 6):
                yield from at_place(message, place, NAMED)
        else:
            yield from left_alone(message, kind, at, size)


def left_alone(message: bytes, kind: int, at: int, size: int) -> Iterator[Find]:
    """The addresses in a record of DNS of a type that the gateway doesn't change: hints (RFC 9460), subnets (RFC 7871), lists (RFC 3123)."""
    data = message[at : at + size]
    if kind in (64, 65):
        for one in re.finditer(rb"\x00\x04\x00([\x04\x08\x0c\x10])", data):
            for place in range(at + one.end(), at + one.end() + one[1][0], 4):
                yield from at_place(message, place, HINT)
    elif kind == 41:
        for one in re.finditer(rb"\x00\x08\x00\x08\x00\x01\x20.", data, re.DOTALL):
            yield from at_place(message, at + one.end(), SUBNET)
    elif kind == 42:
        for one in re.finditer(rb"\x00\x01.[\x04\x84]", data, re.DOTALL):
            yield from at_place(message, at + one.end(), SUBNET)


def dns(payload: bytes) -> Iterator[Find]:
    """What the gateway leaves alone in DNS on port 53: over TCP behind the length."""
    for shift in (0, 2):
        message = payload[shift:]
        if len(message) > 16 and (not shift or int.from_bytes(payload[:2]) <= len(payload) - 2):
            for kind, at, size in records_of(message):
                yield from (one._replace(at=one.at + shift, end=one.end + shift) for one in left_alone(message, kind, at, size))


def dns_elsewhere(payload: bytes) -> Iterator[Find]:
    """All addresses in DNS that the gateway doesn't look into: over TCP behind the length."""
    shift = 2 if int.from_bytes(payload[:2]) == len(payload) - 2 else 0
    yield from (one._replace(at=one.at + shift, end=one.end + shift) for one in answers(payload[shift:]))


def netbios_datagram(payload: bytes) -> Iterator[Find]:
    """The sender's address (RFC 1002, 4.4)."""
    if len(payload) > 14 and payload[0] in range(0x10, 0x17) and payload[1] < 16 and (payload[14] == 32 or payload[0] > 0x12):
        yield from at_place(payload, 4, SENDER)


def ms_rpc(payload: bytes) -> Iterator[Find]:
    """The floor of a tower that has an address, and bindings of objects."""
    return all_behind(payload, re.compile(rb"\x01\x00\x09\x04\x00"), TOWER)


def socks(payload: bytes) -> Iterator[Find]:
    """Whom to connect to, and where the proxy listens (RFC 1928)."""
    if payload[:1] == b"\x04" and len(payload) >= 9 and payload[1] in (1, 2) and payload[-1] == 0:
        yield from at_place(payload, 4, TO_CONNECT)
    elif payload[:1] == b"\x05" and len(payload) == 10 and payload[2:4] == b"\0\1":
        yield from at_place(payload, 4, TO_CONNECT if payload[1] in (1, 2, 3) else BOUND)


MAPPED = bytes(10) + b"\xff\xff"
IN_IPV6 = re.compile(re.escape(MAPPED))


def mapped(payload: bytes) -> Iterator[Find]:
    """Addresses that are mapped into IPv6: what stands before them is told by none else."""
    return (one._replace(field=None) for one in all_behind(payload, IN_IPV6, ROUTER))


def bitcoin(payload: bytes) -> Iterator[Find]:
    """The peers that others are told."""
    if payload[4:8] == b"addr":
        yield from all_behind(payload, IN_IPV6, PEERS_TOLD)


def hsrp(payload: bytes) -> Iterator[Find]:
    """The virtual address, of both versions (RFC 2281)."""
    if payload[:1] == b"\0" and len(payload) >= 20 and payload[1] < 3 and payload[2] in (0, 1, 2, 4, 8, 16):
        yield from at_place(payload, 16, VIRTUAL)
    elif payload[:3] == b"\x01\x28\x02" and payload[5:6] == b"\x04":
        yield from at_place(payload, 26, VIRTUAL)


def openflow(payload: bytes) -> Iterator[Find]:
    """What rules match: in the fixed form of version 1.0, and as fields of later ones."""
    at = 0
    while payload[at : at + 1] == b"\x01" and at + 8 <= len(payload):
        if payload[at + 1] in (11, 14):
            yield from at_place(payload, at + 36, MATCHED)
            yield from at_place(payload, at + 40, MATCHED)
        at += max(8, int.from_bytes(payload[at + 2 : at + 4]))
    yield from all_behind(payload, re.compile(rb"\x80\0(?:[\x16\x18\x2c\x2e]\x04|[\x17\x19\x2d\x2f]\x08)"), MATCHED)


def lisp(payload: bytes) -> Iterator[Find]:
    """Hosts and locators of a mapping, each behind its family (RFC 6830)."""
    return all_behind(payload, re.compile(rb"\0\0\0\x01"), ROUTE)


def pcp(payload: bytes) -> Iterator[Find]:
    """The client's address in a request (RFC 6887), and the external one in answers."""
    if payload[:1] == b"\x02" and payload[8:20] == MAPPED:
        yield from at_place(payload, 20, CHECKED)
    elif payload[:2] == b"\0\x80" and len(payload) == 12:
        yield from at_place(payload, 8, CHECKED)


def rip(payload: bytes) -> Iterator[Find]:
    """Routes and their next hops (RFC 2453)."""
    is_rip = payload[:1] in (b"\1", b"\2") and payload[1:2] in (b"\1", b"\2")
    for at in range(4, min(len(payload), 504) - 19 if is_rip else 0, 20):
        if payload[at : at + 2] == b"\0\2":
            yield from at_place(payload, at + 4, ROUTE)
            yield from at_place(payload, at + 12, ROUTE)


def cassandra(payload: bytes) -> Iterator[Find]:
    """Values and events of the kind inet."""
    yield from all_behind(payload, re.compile(rb"\x00\x00\x00\x04"), NODE)
    if payload[4:5] == b"\x0c" and payload[0] & 0xF8 == 0x80:
        yield from all_behind(payload, re.compile(rb"(?<=[A-Z])\x04"), NODE)


def ceph(payload: bytes) -> Iterator[Find]:
    """Addresses of entities: a size of 16, a family and a port before the address."""
    yield from all_behind(payload, re.compile(rb"\x10\x00\x00\x00\x02\x00.{2}", re.DOTALL), NODE)
    yield from all_behind(payload, re.compile(rb"\x00\x00\x00\x00\x00\x02.{2}(?=.{4}\x00{8})", re.DOTALL), NODE)


def smb(payload: bytes) -> Iterator[Find]:
    """The interfaces of a server: a family of 2 and a port of 0 before the address, behind the speed of a link."""
    if b"\xfeSMB" in payload[:8] and payload[16:18] == b"\x0b\0":
        yield from all_behind(payload, re.compile(rb"[\x01-\x03]\x00\x00\x00(?:\x00\x00\x00\x00)?.{8}\x02\x00\x00\x00", re.DOTALL), INTERFACE)


def nis(payload: bytes) -> Iterator[Find]:
    """The answer to a binding of a domain: its status, the address and the port."""
    body = len(payload) - 12
    if body >= 24 and payload[body : body + 4] == b"\0\0\0\1":
        yield from at_place(payload, body + 4, RPC_BOUND)


def game_servers(payload: bytes) -> Iterator[Find]:
    """Servers in the answer of a master."""
    if payload.startswith(b"\xff\xff\xff\xffgetserversResponse"):
        yield from all_behind(payload, re.compile(rb"\\"), SERVERS)
    elif payload.startswith(b"\xff\xff\xff\xff\x66\n"):
        yield from compact(payload, 6, len(payload), 6, SERVERS)


def tls(payload: bytes) -> Iterator[Find]:
    """The addresses for which a certificate is valid."""
    if payload[:1] == b"\x16" or b"\x06\x03\x55\x1d\x11" in payload:
        yield from all_behind(payload, re.compile(rb"\x87\x04"), CERTIFIED)


DECODERS: dict[str, Callable[[bytes], Iterator[Find]]] = {
    "Kerberos": kerberos,
    "XDMCP": xdmcp,
    "X11": x11,
    "BitTorrent": bittorrent,
    "BGP": bgp,
    "DHCP": dhcp,
    "RADIUS": radius,
    "DNS": dns,
    "DNS on another port than 53": dns_elsewhere,
    "mDNS, LLMNR": answers,
    "NetBIOS names": answers,
    "NetBIOS datagrams": netbios_datagram,
    "MS-RPC": ms_rpc,
    "SOCKS": socks,
    "PCP, NAT-PMP": pcp,
    "RIP": rip,
    "Cassandra": cassandra,
    "Ceph": ceph,
    "SMB": smb,
    "NIS": nis,
    "lists of game servers": game_servers,
    "TLS": tls,
    "Bitcoin": bitcoin,
    "HSRP": hsrp,
    "LISP": lisp,
    "OpenFlow": openflow,
    "DNS over TLS": tls,
}
"""What finds addresses in the messages of an application."""
