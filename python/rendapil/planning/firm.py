"""What ordinary captures of one firm's network, or lists of its hosts, show of it: its hosts, who of them serves whom, and what a gateway to another
network has to know."""
import heapq
import struct
from collections import Counter
from collections.abc import Iterable, Iterator
from contextlib import suppress
from dataclasses import dataclass, field
from ipaddress import IPv4Network

from rendapil.any_capture import whole_of
from rendapil.dns import named_in
from rendapil.files import ETHERNET, Record
from rendapil.numbers import ACK, CHANGED, DNS_PORT, FIN, LONG_TIMEOUT, NAME_HOLD, PING_HOLD, RST, SYN, TCP, TCP_HOLD, UDP, UDP_TIMEOUT
from rendapil.packet import ICMP, Packet, is_host, is_private
from rendapil.payloads.applications import by_port
from rendapil.payloads.kept import HOST, PRIVATE, Meant
from rendapil.payloads.scan import Scan
from rendapil.planning.inventories import Flow, Listed
from rendapil.planning.names import named_hosts

MOST_HOSTS, MOST_CLIENTS, MOST_FLOWS = 65_536, 256, 200_000
"""The most hosts of a firm that are known, clients of a service that are counted, and flows of which it is known who began."""

TABLES = {
    "ipAddrTable": ("1.3.6.1.2.1.4.20.1", 1),
    "ipRouteTable": ("1.3.6.1.2.1.4.21.1", 1),
    "ipNetToMediaTable": ("1.3.6.1.2.1.4.22.1", 2),
    "atTable": ("1.3.6.1.2.1.3.1.1", 3),
    "tcpConnTable": ("1.3.6.1.2.1.6.13.1", 1),
    "ipCidrRouteTable": ("1.3.6.1.2.1.4.24.4.1", 1),
    "inetCidrRouteTable": ("1.3.6.1.2.1.4.24.7.1", 3),
    "ipAddressPrefixTable": ("1.3.6.1.2.1.4.32.1", 4),
    "ipAddressTable": ("1.3.6.1.2.1.4.34.1", 3),
    "ipNetToPhysicalTable": ("1.3.6.1.2.1.4.35.1", 4),
    "tcpConnectionTable": ("1.3.6.1.2.1.6.19.1", 3),
    "udpEndpointTable": ("1.3.6.1.2.1.7.7.1", 3),
}
"""The tables of MIB-II, and of RFC 4292, 4293, 4022 and 4113, whose rows are named by addresses: the front of their identifiers, and how many arcs come
before the address. In those of the RFCs a kind of address and its length are among these."""

PROTOCOLS = {
    2: "IGMP",
    4: "IP in IP",
    41: "IPv6 in IP",
    47: "GRE",
    50: "ESP",
    51: "AH",
    88: "EIGRP",
    89: "OSPF",
    103: "PIM",
    112: "VRRP",
    132: "SCTP",
}
PORTS = struct.Struct(">HH")
HOLDS = {UDP: UDP_TIMEOUT, ICMP: PING_HOLD}
"""How long an alias lasts behind a frame. Of TCP it depends on its flags."""


def arcs_of(prefix: str) -> bytes:
    """The front of an object identifier as SNMP writes it. All arcs of the tables are below 128."""
    first, second, *others = map(int, prefix.split("."))
    return bytes([40 * first + second, *others])


@dataclass
class Machine:
    """A host of the firm: its frames, the clients of each service, which of these it answers, and when its alias would end. `card` is the MAC address
    that its first frame came from, and `is_listed` says that a list of hosts names it."""

    frames: int = 0
    card: bytes = b""
    is_listed: bool = False
    services: dict[tuple[int, int], set[int]] = field(default_factory=dict)
    answered: set[tuple[int, int]] = field(default_factory=set)
    end: int = 0

    @property
    def is_server(self) -> bool:
        """Whether it serves something on a port that is known or low, or on one that many others use."""
        return any(
            port < 1024 or by_port(protocol, port, 65_535)[0] or len(self.services.get((protocol, port), ())) > 2 for protocol, port in self.answered
        )

    @property
    def clients(self) -> int:
        """How many hosts it serves."""
        return len(set().union(*(self.services[one] for one in self.answered if one in self.services)))


class Level:
    """How many hosts would have an alias at one time, if all of them spoke over the gateway: the most, and when first."""

    def __init__(self) -> None:
        self._ends: list[tuple[int, int]] = []
        self.most = self.most_at = 0

    def use(self, address: int, host: Machine, moment: int, hold: int) -> None:
        """Notes a use of a host's alias, which then lasts for so long."""
        if host.end <= moment:
            heapq.heappush(self._ends, (moment + hold, address))
        host.end = max(host.end, moment + hold)

    def drop(self, moment: int, hosts: dict[int, Machine]) -> None:
        """Drops the aliases that have ended, and notes how many are left."""
        while self._ends and self._ends[0][0] <= moment:
            _, address = heapq.heappop(self._ends)
            if hosts[address].end > moment:
                heapq.heappush(self._ends, (hosts[address].end, address))
        if len(self._ends) > self.most:
            self.most, self.most_at = len(self._ends), moment


class Firm:
    """What is seen of a firm. Its own hosts are those in `blocks`, or those with private addresses. `damaged` names the files that end within a frame, each
    with what is wrong, and `two_cards` are own addresses that two network cards sent from."""

    def __init__(self, side: int, blocks: Iterable[IPv4Network]) -> None:
        self.side, self.blocks = side, list(blocks)
        self.hosts: dict[int, Machine] = {}
        self.seen: set[int] = set()
        self.outside: set[int] = set()
        self.not_carried: Counter[str] = Counter()
        self.tables: Counter[str] = Counter()
        self.frames = self.fragments = self.first = self.last = 0
        self.level = Level()
        self.scans = Scan(self._meaning, True), Scan(self._meaning, True)
        self.changed: Counter[str] = Counter()
        self.names: dict[int, list[str]] = {}
        self.damaged: list[str] = []
        self.two_cards: set[int] = set()
        self._begun: dict[tuple[int, int, int, int, int], bool] = {}

    def is_own(self, address: int) -> bool:
        """Whether an address is one of the firm's."""
        return any(IPv4Network(address).subnet_of(block) for block in self.blocks) if self.blocks else is_private(address)

    def _meaning(self, _: int, address: int) -> Meant | None:
        """Whom an address means in the firm."""
        if not is_host(address) or not self.is_own(address):
            return None
        return Meant(HOST if address in self.hosts else PRIVATE, 0)

    @property
    def most(self) -> int:
        """How many of its hosts may need an alias at one time. Of those of a list nobody knows when they speak."""
        return max(self.level.most, sum(host.is_listed for host in self.hosts.values()))

    def look(self, records: Iterable[Record]) -> None:
        """Looks at a capture."""
        for number, record in enumerate(records, 1):
            datagram, _ = whole_of(record.link, record.octets)
            self.frames += 1
            if not datagram:
                self.not_carried[no_ipv4(record)] += 1
                continue
            self.first, self.last = self.first or record.moment, max(self.last, record.moment)
            packet = Packet(datagram)
            self._take(number, record.moment, packet)
            if record.link == ETHERNET and (host := self.hosts.get(packet.source)):
                card = record.octets[6:12]
                host.card = host.card or card
                if host.card != card and len(self.two_cards) < MOST_HOSTS:
                    self.two_cards.add(packet.source)

    def read(self, rows: Iterable[Listed | Flow]) -> None:
        """Takes a list of hosts or of flows."""
        for row in rows:
            if isinstance(row, Flow):
                self._take_flow(row)
            elif is_host(row.address) and self.is_own(row.address) and (row.address in self.hosts or len(self.hosts) < MOST_HOSTS):
                self.seen.add(row.address)
                host = self.hosts.setdefault(row.address, Machine())
                host.is_listed = True
                for service in row.services[:1024]:
                    host.answered.add(service)
                    host.services.setdefault(service, set())
                self._name(row.address, row.name)

    def _take_flow(self, flow: Flow) -> None:
        """Takes the record of a flow, as if it were a frame of it."""
        self.frames += 1
        self.first, self.last = self.first or flow.moment, max(self.last, flow.moment)
        if not is_host(flow.source) or not is_host(flow.destination):
            self.not_carried["broadcast and multicast"] += 1
            return
        self._note(flow.source, True)
        self._note(flow.destination, False)
        for address in (flow.source, flow.destination):
            if host := self.hosts.get(address):
                self.level.use(address, host, flow.moment, HOLDS.get(flow.protocol, TCP_HOLD))
        if flow.protocol in (TCP, UDP):
            self._note_flow(flow.protocol, (flow.source, flow.port), (flow.destination, flow.far_port), 0)
        self.level.drop(flow.moment, self.hosts)

    def _name(self, address: int, name: str) -> None:
        """Notes what a host is called."""
        if name and (address in self.names or len(self.names) < MOST_HOSTS):
            known = self.names.setdefault(address, [])
            if name not in known and len(known) < 3:
                known.append(name)

    def _take(self, number: int, moment: int, packet: Packet) -> None:
        """Takes a datagram."""
        ends = packet.source, packet.destination
        if not all(map(is_host, ends)):
            self.not_carried[f"broadcast and multicast{kind_of(packet)}"] += 1
            return
        self.fragments += packet.is_fragment
        is_outside = not all(map(self.is_own, ends))
        for address, speaks in zip(ends, (True, False)):
            self._note(address, speaks)
        if why := not_carried(packet):
            self.not_carried[why] += 1
            return
        self._note_use(packet, moment)
        if packet.protocol in (TCP, UDP) and not packet.flags & 0x1FFF and len(packet.octets) >= packet.head + 8:
            self._note_service(packet)
            self._note_names(packet, moment)
            if not packet.is_fragment:
                octets = bytes(packet.octets)
                self.scans[is_outside].take(number, self.side, octets, [octets])
        self.level.drop(moment, self.hosts)

    def _note(self, address: int, speaks: bool) -> None:
        """Notes that an address is in use, and whether it speaks."""
        if len(self.seen) < 1 << 20:
            self.seen.add(address)
        if not self.is_own(address):
            if len(self.outside) < MOST_HOSTS:
                self.outside.add(address)
        elif speaks and (address in self.hosts or len(self.hosts) < MOST_HOSTS):
            host = self.hosts.setdefault(address, Machine())
            host.frames += 1

    def _note_use(self, packet: Packet, moment: int) -> None:
        """Notes for how long the host that sends would keep its alias."""
        hold = HOLDS.get(packet.protocol, TCP_HOLD)
        if packet.protocol == TCP and len(packet.octets) >= packet.head + 14 and packet.octets[packet.head + 13] & (SYN | ACK | FIN | RST) == ACK:
            hold = LONG_TIMEOUT
        for address in (packet.source, packet.destination):
            if host := self.hosts.get(address):
                self.level.use(address, host, moment, hold)

    def _note_service(self, packet: Packet) -> None:
        """Notes who serves whom: by the SYN of a connection, or by who spoke first."""
        port, far_port = PORTS.unpack_from(packet.octets, packet.head)
        has_flags = packet.protocol == TCP and len(packet.octets) >= packet.head + 14
        flags = packet.octets[packet.head + 13] & (SYN | ACK) if has_flags else 0
        self._note_flow(packet.protocol, (packet.source, port), (packet.destination, far_port), flags)

    def _note_flow(self, protocol: int, sender: tuple[int, int], receiver: tuple[int, int], flags: int) -> None:
        """The same by the ends of a datagram, each with its port, and by SYN and ACK."""
        (source, port), (destination, far_port) = sender, receiver
        for one in (port, far_port):
            if (protocol, one) in CHANGED and (of := by_port(protocol, one, 65_535)[0]):
                self.changed[of.name] += 1
        key = (protocol, source, port, destination, far_port)
        back = (protocol, destination, far_port, source, port)
        if flags == SYN:
            self._begun[key] = True
        elif flags == SYN | ACK:
            self._begun[back] = True
        if key not in self._begun and back not in self._begun:
            known, server_port = by_port(protocol, port, far_port)
            self._begun[back if known and server_port == port != far_port else key] = True
        if len(self._begun) > MOST_FLOWS:
            self._begun.clear()
            return
        is_client = key in self._begun
        server, service, client = (destination, (protocol, far_port), source) if is_client else (source, (protocol, port), destination)
        if host := self.hosts.get(server):
            clients = host.services.get(service)
            if clients is None and len(host.services) < 1024:
                clients = host.services[service] = set()
            if clients is not None and len(clients) < MOST_CLIENTS:
                clients.add(client)
            if not is_client and len(host.answered) < 1024:
                host.answered.add(service)

    def _note_names(self, packet: Packet, moment: int) -> None:
        """Notes the hosts that a DNS message names, and the tables that an SNMP message walks."""
        ports = PORTS.unpack_from(packet.octets, packet.head)
        payload = bytes(packet.octets[packet.head + 8 : packet.total])
        if packet.protocol == UDP and DNS_PORT in ports:
            for address, name in named_hosts(payload):
                if self.is_own(address):
                    self._name(address, name)
            with suppress(ValueError, LookupError, struct.error):
                for octets in named_in(payload):
                    if host := self.hosts.get(address := int.from_bytes(octets)):
                        self.level.use(address, host, moment, NAME_HOLD)
        elif packet.protocol == UDP and (161 in ports or 162 in ports):
            for name, (prefix, _) in TABLES.items():
                self.tables[name] += arcs_of(prefix) in payload

    # What is told.

    def servers(self, is_sure: bool = True) -> list[tuple[int, Machine]]:
        """The hosts that serve others, those with the most clients first; or those that only look as if they did."""
        found = [(address, host) for address, host in self.hosts.items() if (host.clients or host.is_listed) and host.is_server == is_sure]
        found = [one for one in found if one[1].answered]
        return sorted(found, key=lambda one: (-one[1].clients, one[0]))

    def compare(self, other: "Firm") -> None:
        """Notes where an address that was found in a payload is another host in the other firm."""
        for site in (site for scan in self.scans for app in scan.apps.values() for site in app.sites.values()):
            site.example = site.example._replace(is_other=site.example.address in other.hosts)

    def blocks_in_use(self) -> Counter[IPv4Network]:
        """How many hosts speak in each block of 256 addresses."""
        return Counter(IPv4Network((address & ~255, 24)) for address in self.hosts)


def no_ipv4(record: Record) -> str:
    """What a frame without a datagram of IPv4 is."""
    kinds = {b"\x08\x06": "ARP", b"\x86\xdd": "IPv6"}
    found = kinds.get(record.octets[12:14], "") if record.link == ETHERNET else ""
    return found or "neither IPv4 nor ARP nor IPv6, or cut within its header"


def kind_of(packet: Packet) -> str:
    """Of which application a datagram of UDP is, by its port."""
    if packet.protocol != UDP or packet.flags & 0x1FFF or len(packet.octets) < packet.head + 8:
        return f" of protocol {packet.protocol}" + (f" ({PROTOCOLS[packet.protocol]})" if packet.protocol in PROTOCOLS else "")
    known, _ = by_port(UDP, *PORTS.unpack_from(packet.octets, packet.head))
    return f": {known.name}" if known else " of other applications"


def not_carried(packet: Packet) -> str:
    """Why no gateway carries a datagram, whatever its settings."""
    if packet.protocol not in (ICMP, TCP, UDP):
        return f"protocol {packet.protocol}" + (f" ({PROTOCOLS[packet.protocol]})" if packet.protocol in PROTOCOLS else "")
    return "IP options" if packet.head > 20 else ""


def services_of(host: Machine) -> Iterator[str]:
    """What a host serves: those services first that have the most clients."""
    for service in sorted(host.answered, key=lambda one: (-len(host.services.get(one, ())), one)):
        protocol, port = service
        known, _ = by_port(protocol, port, 65_535)
        yield f"{port}/{'tcp' if protocol == TCP else 'udp'}" + (f" {known.name}" if known else "") + f" ({len(host.services.get(service, ()))})"
