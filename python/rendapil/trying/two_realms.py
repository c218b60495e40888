"""One ordinary capture as the two captures that a gateway between two realms would take: what if these hosts were two realms?

A frame stands in the capture of its sender's realm, with its stamp, source and payload. Its destination becomes the alias of the receiver. In FTP
control connections and DNS over TCP the receiver's acknowledgements are moved to what the gateway will have sent it, since a receiver acknowledges
that. Nothing else of what hosts would have done otherwise behind a gateway is known."""
import argparse
import struct
from collections import Counter
from collections.abc import Iterable, Iterator
from contextlib import suppress
from dataclasses import dataclass, field
from ipaddress import IPv4Address, IPv4Network, collapse_addresses
from typing import NamedTuple

from rendapil.any_capture import whole_of, why_none
from rendapil.bindings import Binding, Bindings
from rendapil.dns import named_in
from rendapil.document import Document, RealmTable, StaticTable
from rendapil.files import RAW_IP, Record, bare_head, record_head, shown
from rendapil.numbers import CHANGED, DNS_PORT, FTP_PORT, SIDES, SYN, TCP, UDP
from rendapil.packet import ICMP, Packet, adjusted, is_host, rest_of, total_of
from rendapil.settings_text import pool_table, same_line, static_table
from rendapil.streams import TRACKED
from rendapil.trying.needs import Needs
from rendapil.trying.oddities import Oddities
from rendapil.trying.spoken import Spoken

CANDIDATES = [
    *map(IPv4Network, ("192.168.200.0/24", "172.31.200.0/24", "10.200.0.0/24", "198.18.0.0/24", "198.19.0.0/24")),
    *map(IPv4Network, ("192.168.192.0/20", "172.31.0.0/16", "10.200.0.0/16", "198.18.0.0/16", "198.19.0.0/16", "100.64.0.0/16", "100.65.0.0/16")),
]
"""Blocks for pools, from small to large."""

HOSTS, SAID = 10_000, 1 << 26
"""The most hosts of a capture that are taken, so that the settings aren't too long, and the most bytes of its FTP and DNS that are followed."""

BOTH, NOBODY = 2, 3
PORTS = struct.Struct(">HH")

KNOWN, FLOWS = 1 << 17, 1 << 14
"""The most addresses and pairs of hosts, and the most flows, of which it is kept what is known of them."""


@dataclass
class Host:
    """A host: its realm, what it is called in the other one, and whether another host spoke to it before it spoke."""

    side: int
    alias: int
    contacted_first: bool
    frames: int = 0
    ports: Counter[str] = field(default_factory=Counter)


class Pair(NamedTuple):
    """What holds for all datagrams from one host to another: why they don't cross, if they don't; the hosts of both that are kept; those of these without
    a static, each with its realm; and the one that is spoken to."""

    why: str
    hosts: tuple[Host, ...] = ()
    by_use: tuple[tuple[int, int], ...] = ()
    receiver: Host | None = None


class Way(NamedTuple):
    """What holds for all frames from one host to another that cross: their side, what the receiver is called there, if that never changes, and the sums
    of its address and of its alias."""

    side: int
    alias: bytes
    old: int
    new: int


PLAIN, FRONT = 0x45, struct.Struct(">BxHxxHxBHII")
"""How a datagram without options begins, and what is read of its header: its length, flags, protocol, checksum and ends."""


def is_plain_segment(octets: bytes) -> bool:
    """Whether it is a whole segment of TCP without options of IPv4."""
    return (
        len(octets) >= 40
        and octets[0] == PLAIN
        and octets[9] == TCP
        and not (octets[6] & 0x3F or octets[7])
        and len(octets) == octets[2] << 8 | octets[3]
    )


def plainly_moved(octets: bytes, way: Way, is_mended: bool) -> bytes:
    """A datagram as the gateway takes it, where that has another destination and nothing else: a whole one of UDP or TCP, of no connection that is
    followed, and with right sums where wrong ones are mended. Most frames are such ones. Nothing for all others."""
    begin, size, flags, protocol, of_header, source, _ = FRONT.unpack_from(octets)
    if begin != PLAIN or flags & 0x3FFF or size != len(octets):
        return b""
    if protocol == TCP and size >= 40:
        at = 36
        port, far_port = PORTS.unpack_from(octets, 20)
        if port in TRACKED or far_port in TRACKED:
            return b""
    elif protocol == UDP and size >= 28 and octets[26:28] != b"\0\0":
        at = 26
    else:
        return b""
    of_payload = octets[at] << 8 | octets[at + 1]
    if is_mended:
        # Both sums are right where the header's octets and the others add up to nothing, with what the pseudo header has. 0xFFFF is another 0.
        pseudo = way.old + source + protocol + size - 20
        if (
            of_header == 0xFFFF
            or int.from_bytes(octets[:20]) % 0xFFFF
            or (rest_of(octets) + pseudo) % 0xFFFF
            or of_payload == 0xFFFF
            and protocol == TCP
        ):
            return b""
    header_sum, payload_sum = adjusted(of_header, way.old, way.new), adjusted(of_payload, way.old, way.new)
    if protocol == UDP:
        payload_sum = payload_sum or 0xFFFF
    front = octets[:10], header_sum.to_bytes(2), octets[12:16], way.alias, octets[20:at]
    return b"".join((*front, payload_sum.to_bytes(2), octets[at + 2 :]))


def block_of(text: str) -> IPv4Network:
    """A block of addresses, by any address of it."""
    try:
        return IPv4Network(text, strict=False)
    except ValueError:
        raise argparse.ArgumentTypeError(f"{shown(text)} is no block of IPv4 addresses, such as 10.1.0.0/16") from None


def fill(packet: Packet) -> bool:
    """Fills up a datagram that the capture has cut with zeros, and computes its sums anew. Says whether the gateway can do without what was cut: it
    reads no fragment's rest, no payload of FTP, DNS and SNMP, and of an ICMP error the head that it holds and eight octets."""
    octets, head = packet.octets, packet.head
    needed = {TCP: 20, UDP: 8, ICMP: 36 if packet.is_icmp_error else 8}.get(packet.protocol)
    if needed is None or packet.is_fragment or packet.total < len(octets) or len(octets) < head + needed:
        return False
    if packet.protocol != ICMP and any((packet.protocol, packet.number(head + at)) in CHANGED for at in (0, 2)):
        return False
    octets.extend(bytes(packet.total - len(octets)))
    packet.mend()
    return True


class TwoRealms:
    """The hosts of a capture as two realms: those in the blocks of `left`, and all others. With `pool` each pool has so many addresses, and only
    hosts that others contact first have a static."""

    def __init__(self, left: Iterable[IPv4Network], same: Iterable[IPv4Network], is_mended: bool, pool: int = 0, is_filled: bool = True) -> None:
        self.left, self.same, self.is_mended, self.pool, self.is_filled = list(left), list(same), is_mended, pool, is_filled
        self.hosts: dict[int, Host] = {}
        self.pools: list[tuple[int, int]] = []
        self.left_out: Counter[str] = Counter()
        self.mended = self.filled = self.lines = self.crossed = 0
        self.needs, self.oddities = Needs(), Oddities()
        self._sides: dict[int, int] = {}
        self._pairs: dict[bytes, Pair] = {}
        self._flows: dict[bytes, tuple[Pair, str]] = {}
        self._spoken: dict[tuple[int, int, int, int], list[Spoken | None]] = {}
        self._said = 0
        self._bound: dict[tuple[int, int], Binding] = {}
        self._table: Bindings

    def side_of(self, address: int) -> int:
        """The realm of a host, or BOTH where it means the same host in both realms, or NOBODY where it isn't the address of one."""
        side = self._sides.get(address)
        if side is None:
            whole = IPv4Address(address)
            side = (
                NOBODY
                if not is_host(address)
                else BOTH
                if any(whole in block for block in self.same)
                else int(not any(whole in block for block in self.left))
            )
            if len(self._sides) < KNOWN:
                self._sides[address] = side
        return side

    def _stays(self, packet: Packet) -> str:
        """Why a datagram doesn't cross the gateway, if it doesn't."""
        one, other = self.side_of(packet.source), self.side_of(packet.destination)
        if NOBODY in (one, other):
            return "not between two hosts (broadcast, multicast)"
        if one == other:
            return "between two hosts that mean the same in both realms" if one == BOTH else f"between two hosts of the {SIDES[one]} realm"
        return ""

    # What is there.

    def survey(self, frames: Iterable[Record], is_all: bool = True) -> None:
        """Looks at all frames once: who is there, who spoke first, and what is said over FTP and in DNS over TCP."""
        for frame in frames:
            datagram, _ = whole_of(frame.link, frame.octets)
            if not datagram:
                self.left_out[why_none(frame)] += 1
                continue
            is_segment = is_plain_segment(datagram)
            if is_segment and (flow := self._flows.get(datagram[12:24])):
                self._take_again(flow, datagram, frame.moment)
                continue
            packet = Packet(datagram)
            self.oddities.take(packet)
            is_error = packet.protocol == ICMP and packet.is_icmp_error  # it tells of other hosts too, and each time of other ones
            pair = not is_error and self._pairs.get(datagram[12:20]) or self._pair(packet, is_error)
            if is_segment:
                self._note_flow(datagram, pair)
            if pair.why:
                self.left_out[pair.why] += 1
                continue
            for host in pair.hosts:
                host.frames += 1
            self.crossed += 1
            self.needs.take(packet, frame.moment, self.hosts, self.side_of, pair.by_use)
            self._hear(packet, pair.receiver)
        if is_all:
            self.settle()

    def _note_flow(self, datagram: bytes, pair: Pair) -> None:
        """Notes what holds for all plain segments with the ends of this one, unless its connection is followed."""
        port, far_port = PORTS.unpack_from(datagram, 20)
        if port not in TRACKED and far_port not in TRACKED:
            if len(self._flows) >= FLOWS:
                self._flows.clear()
            self._flows[datagram[12:24]] = pair, f"{far_port}/tcp" if far_port < port else ""

    def _take_again(self, flow: tuple[Pair, str], datagram: bytes, moment: int) -> None:
        """Takes a further segment of a flow. Most frames are such ones."""
        (why, hosts, by_use, receiver), served = flow
        self.oddities.count(datagram, 20, len(datagram) > 40)
        if why:
            self.left_out[why] += 1
            return
        self.crossed += 1
        for host in hosts:
            host.frames += 1
        if by_use:
            self.needs.use(by_use, datagram[33], moment)
        if served and receiver and len(receiver.ports) < 64:
            receiver.ports[served] += 1

    def settle(self) -> None:
        """Chooses pools and aliases for those who are there."""
        if self.crossed:
            self._choose_pools()
            self._name()

    def _pair(self, packet: Packet, is_error: bool) -> Pair:
        """What holds for all datagrams between the ends of this one, of which it is the first, or is an ICMP error."""
        if why := self._stays(packet) or self._note(packet):
            pair = Pair(why)
        else:
            both = packet.source, packet.destination
            hosts = [(one, self.hosts[one]) for one in both if one in self.hosts]
            by_use = ((host.side, address) for address, host in hosts if not host.contacted_first)
            pair = Pair("", tuple(host for _, host in hosts), tuple(by_use), self.hosts.get(packet.destination))
        if not is_error and len(self._pairs) < KNOWN:
            self._pairs[bytes(packet.octets[12:20])] = pair
        return pair

    def _note(self, packet: Packet) -> str:
        """Notes both hosts of a datagram, and those that an ICMP error tells of. Says why there is no room for them, if so."""
        ends = [(packet.source, False), (packet.destination, True)]
        told: list[tuple[int, bool]] = []
        if packet.is_icmp_error:
            told = [(address, True) for at in (20, 24) if is_host(address := packet.number(packet.head + at, 4))]
        ends, told = ([end for end in some if self.side_of(end[0]) != BOTH] for some in (ends, told))
        if len(self.hosts) > HOSTS - 4 and any(address not in self.hosts for address, _ in ends + told):
            return f"of hosts after the first {HOSTS:,}"
        for address, is_spoken_to in ends + told:
            if address not in self.hosts:
                self.hosts[address] = Host(self.side_of(address), 0, is_spoken_to)
        for address, _ in told:
            self.hosts[address].frames += 1
        return ""

    def _hear(self, packet: Packet, receiver: Host | None) -> None:
        """Notes the server of a conversation, and what is said on FTP control connections and in DNS over TCP."""
        if packet.protocol not in (TCP, UDP) or packet.is_fragment or len(packet.octets) < packet.head + 8:
            return
        port, far_port = PORTS.unpack_from(packet.octets, packet.head)
        if receiver and far_port < port and len(receiver.ports) < 64:
            receiver.ports[f"{far_port}/{'tcp' if packet.protocol == TCP else 'udp'}"] += 1
        if packet.protocol != TCP or not (port in TRACKED or far_port in TRACKED) or min(len(packet.octets), packet.total) < packet.head + 20:
            return
        segment = packet.octets[packet.head : packet.total]
        sequence, offset, flags = packet.number(packet.head + 4, 4), segment[12] >> 4, segment[13]
        is_client = far_port in TRACKED
        key = (packet.source, port, packet.destination, far_port) if is_client else (packet.destination, far_port, packet.source, port)
        payload = bytes(segment[offset * 4 :])
        self._said += len(payload) + 200
        if self._said > SAID:
            return
        speakers = self._spoken.setdefault(key, [None, None])
        if flags & SYN and speakers[not is_client] is None:
            speakers[not is_client] = Spoken(sequence)
        elif speaker := speakers[not is_client]:
            speaker.add(sequence, payload)

    # Names.

    def _choose_pools(self) -> None:
        """Chooses pools that no host lies in."""
        taken = [*map(IPv4Network, self.hosts), *self.same, *self.left]
        for side in (0, 1):
            fixed = sum(host.side != side and (host.contacted_first or not self.pool) for host in self.hosts.values())
            if self.pool and fixed > self.pool:
                raise ValueError(
                    f"{fixed} hosts of the {SIDES[1 - side]} realm are contacted before they speak and need a static: --pool has to be {fixed} at least"
                )
            wanted = self.pool or 2 * fixed
            fits = (block for block in CANDIDATES if block.num_addresses - 2 >= wanted and not any(block.overlaps(one) for one in taken))
            block = next(fits, None)
            if block is None:
                raise ValueError(
                    f"no block is free for a pool of {max(1, wanted)} addresses: --left, --same or hosts of the capture lie in each of those that 'try' knows"
                )
            self.pools.append((int(block[1]), int(block[self.pool or -2])))
            taken.append(block)

    def _name(self) -> None:
        """Chooses an alias for each host that has a static: with the host's own last number, where that is free."""
        for side, (first, last) in enumerate(self.pools):
            free = set(range(first, last + 1))
            least = iter(range(first, last + 1))
            for address, host in sorted(self.hosts.items(), key=lambda pair: (-pair[1].frames, pair[0])):
                if host.side == side or self.pool and not host.contacted_first:
                    continue
                wanted = first - 1 + address % 256
                host.alias = wanted if wanted in free else next(one for one in least if one in free)
                free.remove(host.alias)
        left, right = (RealmTable(pool_first=str(IPv4Address(first)), pool_last=str(IPv4Address(last)), link="raw") for first, last in self.pools)
        rows = [
            StaticTable(side=SIDES[one.side], host=str(IPv4Address(address)), alias=str(IPv4Address(one.alias)))
            for address, one in self.hosts.items()
            if one.alias
        ]
        same = [str(block) for block in self.same]
        self._table = Bindings(Document(left=left, right=right, static=rows, same=same), lambda one: self._bound.update({(one.side, one.host): one}))

    def _alias(self, address: int, moment: int, speaks: bool = False) -> int:
        """What a host is called in the other realm: by its static, or by the alias that it has, or had last. A host that speaks gets one."""
        host = self.hosts.get(address)
        if not host or host.alias:
            return host.alias if host else address
        known = self._bound.get((host.side, address))
        if speaks and not (known and known.lives(moment)):
            try:
                return self._table.pools[1 - host.side].least_free(moment)
            except LookupError:
                return 0
        return known.alias if known else 0

    # The frames that cross.

    def crossing(self, frames: Iterable[Record]) -> Iterator[tuple[int, Record]]:
        """The frames as the gateway takes them, each with its side. Of two frames with one stamp it takes the left one first, so a left one that stands
        behind gets a later stamp."""
        latest, before = 0, 0
        ways: dict[bytes, Way | None] = {}
        for frame in frames:
            datagram, length = whole_of(frame.link, frame.octets)
            if not datagram:
                continue
            ends = datagram[12:20]
            way = ways[ends] if ends in ways else self._way(Packet(datagram))
            if len(ways) < KNOWN:
                ways[ends] = way
            if way:
                latest, before = max(frame.moment, latest + (way.side < before)), way.side
                octets = way.alias and plainly_moved(datagram, way, self.is_mended) or self._moved(datagram, way.side, latest)
                yield way.side, Record(latest, RAW_IP, octets, max(length, len(octets)))

    def _way(self, packet: Packet) -> Way | None:
        """What holds for all frames between the ends of this one, if they cross."""
        ends = one, other = packet.source, packet.destination
        is_full = len(self.hosts) > HOSTS - 4
        if self._stays(packet) or is_full and not all(end in self.hosts or self.side_of(end) == BOTH for end in ends):
            return None
        side = 1 - self.side_of(other) if self.side_of(one) == BOTH else self.side_of(one)
        alias = b"" if self.pool else (self._alias(other, 0) or other).to_bytes(4)
        return Way(side, alias, total_of(other.to_bytes(4)), total_of(alias))

    def _moved(self, datagram: bytes, side: int, moment: int) -> bytes:
        """A datagram as the gateway takes it, whatever it is."""
        packet = Packet(datagram)
        if self.is_filled and not packet.is_whole and fill(packet):
            self.filled += 1
        elif self.is_mended and packet.is_whole:
            self.mended += packet.mend()
        source = self._alias(packet.source, moment, True)
        self._move(packet, moment)
        if packet.is_icmp_error:
            self._move_inner(packet, moment)
        receiver = packet.destination
        packet.put(16, (self._alias(receiver, moment) or receiver).to_bytes(4))
        if self.pool and source:
            self._follow(side, moment, packet, source, receiver)
        return bytes(packet.octets)

    def _follow(self, side: int, moment: int, packet: Packet, source: int, receiver: int) -> None:
        """Tells the table what the gateway will make of a datagram. What a DNS message names gets the least free aliases, as in one that is cut."""
        known = self._bound.get((1 - side, receiver))
        if receiver in self.hosts and not (known and known.lives(moment)) or packet.is_fragment:
            return
        came = bytes(packet.octets)
        image = came[:12] + source.to_bytes(4) + receiver.to_bytes(4) + came[20:]
        if packet.protocol == UDP and len(came) >= 40 and DNS_PORT in (packet.number(packet.head), packet.number(packet.head + 2)):
            image = image[:32] + bytes(8)
        self._table.event(side, moment, "pass", came, [image])

    def _move(self, packet: Packet, moment: int) -> None:
        """Moves the acknowledgement in an FTP control connection or DNS over TCP."""
        at = packet.head
        if packet.protocol != TCP or packet.is_fragment or len(packet.octets) < at + 20 or not packet.octets[at + 13] & 16:
            return
        port, far_port = PORTS.unpack_from(packet.octets, at)
        if port not in TRACKED and far_port not in TRACKED:
            return
        key, is_client = (packet.source, port, packet.destination, far_port), True
        if key not in self._spoken:
            key, is_client = (packet.destination, far_port, packet.source, port), False
        if other := self._spoken.get(key, [None, None])[is_client]:
            if not other.is_found:
                alias = self._alias(packet.destination, moment) or packet.destination
                self.lines += other.find(key[3] == FTP_PORT, is_client, packet.destination, alias)
            packet.put(at + 8, other.acknowledged(packet.number(at + 8, 4)).to_bytes(4))

    def _move_inner(self, packet: Packet, moment: int) -> None:
        """The datagram in an ICMP error as its sender's realm knows it: whom it came from by the alias."""
        inner = Packet(bytes(packet.octets[packet.head + 8 :]))
        if inner.source in self.hosts and (alias := self._alias(inner.source, moment)):
            inner.put(12, alias.to_bytes(4))
        packet.put(packet.head + 8, bytes(inner.octets[: len(packet.octets) - packet.head - 8]))

    # What is told.

    def public_names(self) -> list[IPv4Network]:
        """The public addresses that are named in DNS over TCP, as 16 blocks at most."""
        found: set[bytes] = set()
        for (_, _, _, port), speakers in self._spoken.items():
            for message in (one for speaker in speakers if speaker and port == DNS_PORT for one in speaker.messages()):
                with suppress(ValueError, LookupError, struct.error):
                    found.update(named_in(message[2:]))
        public = [address for octets in found if (address := IPv4Address(octets)).is_global]
        for bits in (32, 24, 16, 8):
            blocks = {IPv4Network((int(address), bits), strict=False) for address in public}
            if len(blocks) <= 16:
                break
        return sorted(collapse_addresses(blocks))[:16]

    def public_seen(self) -> int:
        """How many public addresses of the capture mean the same in both realms."""
        return sum(side == BOTH and IPv4Address(address).is_global for address, side in self._sides.items())

    def settings(self) -> str:
        """The settings for such a gateway."""
        which = (
            "Only hosts that others contact first have a static"
            if self.pool
            else "Each host has a static, so that the captures fit. Only hosts that others contact first need one"
        )
        lines = ["# Written by rendapil try.", f"# {which}.", ""]
        if self.same:
            lines.append(same_line(self.same))
        lines += ['fragments = "join"', ""]
        for side, (first, last) in enumerate(self.pools):
            lines += [f"# Hosts of the {SIDES[1 - side]} realm are known on the {SIDES[side]} by these addresses.", pool_table(side, first, last)]
        is_long = len(self.hosts) > 2000
        for address, host in sorted(self.hosts.items(), key=lambda pair: (not pair[1].contacted_first, pair[1].side, pair[0])):
            if host.alias:
                served = ", ".join(name for name, _ in host.ports.most_common(3))
                why = f"contacted first{', at ' + served if served else ''}" if host.contacted_first else "speaks first: could do without"
                lines += [] if is_long else [f"# {why}; {host.frames} frames"]
                lines.append(static_table(host.side, address, host.alias))
        return "\n".join(lines)


def write_captures(paths: list[str], frames: Iterable[tuple[int, Record]]) -> list[int]:
    """Writes the frames of both sides as captures of bare datagrams with nanoseconds, each in the order of its stamps. Says how many they are."""
    counts = [0, 0]
    files = [open(path, "wb", 1 << 18) for path in paths]
    try:
        for file in files:
            file.write(bare_head())
        for side, (moment, _, octets, length, *_) in frames:
            files[side].write(record_head(moment, len(octets), length) + octets)
            counts[side] += 1
    finally:
        for file in files:
            file.close()
    return counts
