"""The captures of a real device's two links, as they come: each direction by itself, or both in one file, as pcap or pcapng. They become four captures
of bare datagrams, what came in and what went out on each side, of which the first two are inputs for a run."""
import copy
import heapq
import os
import struct
import sys
from array import array
from collections import Counter
from collections.abc import Callable, Iterable, Iterator
from dataclasses import dataclass, field
from typing import NamedTuple

from rendapil.any_capture import PLAIN, datagram_in, with_length
from rendapil.bindings import Blocks, pool_of
from rendapil.document import Document
from rendapil.files import ETHERNET, IN, LOCAL, OUT, RAW_IP, UNKNOWN, Damaged, Record, bare_head, record_head, shown
from rendapil.numbers import SECOND, SIDES, TCP, UDP
from rendapil.packet import ICMP, Packet, header_sum
from rendapil.progress import Progress
from rendapil.readers import records, whole_records

ENDS = struct.Struct(">II")
"""The addresses of a datagram."""

LOOKED_AT, JOIN_ROOM, KNOWN = 100_000, 1024, 100_000
"""The most frames by which the device's MAC addresses are found, the most datagrams that are joined at once, and the most pairs of addresses that are
known at once."""

WITHOUT_OPTIONS = PLAIN[2:]
"""How most datagrams begin."""


# Which way a frame goes.


@dataclass
class Realm:
    """What the settings say of a side's addresses, and the MAC addresses of the device on its link."""

    side: int
    first: int
    last: int
    same: Blocks
    macs: set[bytes] = field(default_factory=set)

    def is_far(self, octets: bytes) -> bool:
        """Whether an address is an alias of the other realm's hosts here."""
        return self.first <= int.from_bytes(octets) <= self.last

    def way(self, record: Record, by_addresses: int) -> int:
        """The way of a frame: by the capture, by the device's MAC addresses, or by the addresses of its datagram."""
        _, link, octets, _, _, way = record
        if way != UNKNOWN:
            return way
        if link == ETHERNET and self.macs:
            return OUT if octets[6:12] in self.macs else IN if octets[:6] in self.macs else LOCAL
        return by_addresses

    def way_by_addresses(self, source: bytes, destination: bytes) -> int:
        """The way of datagrams by their addresses alone."""
        if self.is_far(destination):
            return IN
        if self.is_far(source):
            return OUT
        ends = int.from_bytes(source) in self.same, int.from_bytes(destination) in self.same
        return {(True, False): OUT, (False, True): IN}.get(ends, LOCAL)

    def find_macs(self, frames: Iterable[Record]) -> None:
        """Finds the device's MAC addresses: frames from aliases have them as source, and frames to aliases as destination."""
        seen: Counter[bytes] = Counter()
        for _, record in zip(range(LOOKED_AT), frames):
            datagram = datagram_in(record.link, record.octets) if record.link == ETHERNET else b""
            if datagram:
                source, destination = self.is_far(datagram[12:16]), self.is_far(datagram[16:20])
                seen[record.octets[6:12] if source else record.octets[:6]] += source != destination
        most = max(seen.values(), default=0)
        self.macs = {mac for mac, count in seen.items() if count and count * 20 >= most and not mac[0] & 1}


# Bare datagrams.


def frames_of(path: str) -> Iterator[tuple[int, Record]]:
    """The frames of a capture by their numbers. What is wrong behind the last one is told."""
    number = 0
    try:
        for number, record in enumerate(whole_records(path), 1):
            yield number, record
    except Damaged as error:
        print(f"rendapil compare: {shown(path)} is damaged behind frame {number}: {error}", file=sys.stderr)


def bare(link: int, octets: bytes) -> tuple[bytes, str]:
    """The datagram of a frame without what its link put behind it, and why it can't be compared, if it can't."""
    at = 14 if link == ETHERNET else 0
    is_plain = octets[12:15] == PLAIN if link == ETHERNET else link == RAW_IP and octets[:1] == WITHOUT_OPTIONS
    if is_plain and len(octets) >= at + 20 and 20 <= (total := octets[at + 2] << 8 | octets[at + 3]) <= len(octets) - at:
        return octets[at : at + total], ""
    datagram = with_length(datagram_in(link, octets))
    if not datagram:
        return b"", "no IPv4 (ARP, IPv6)"
    total = datagram[2] << 8 | datagram[3]
    if total < (datagram[0] & 15) * 4:
        return b"", "a header that contradicts itself"
    if len(datagram) < total:
        return b"", "cut by the capture: record with tcpdump -s 0"
    return datagram[:total], ""


def is_left_to_card(datagram: bytes, total: int) -> bool:
    """Whether a network card fills in the checksum: what stands there is that of the pseudo header, as offloading leaves it. `total` is the sum of the
    addresses."""
    protocol, head = datagram[9], (datagram[0] & 15) * 4
    at = head + (16 if protocol == TCP else 6)
    if datagram[10:12] == b"\0\0":
        return True
    if protocol not in (TCP, UDP) or len(datagram) < at + 2 or datagram[6] & 0x3F or datagram[7]:
        return False
    rest = (datagram[at] << 8 | datagram[at + 1]) - total - protocol
    return not rest % 0xFFFF or not (rest - len(datagram) + head) % 0xFFFF


class Ends(NamedTuple):
    """What holds for all datagrams of a link between the same addresses: whether one of these is an alias of the link, or one of the other link's alone,
    the way by them, and their sum."""

    is_own: bool
    is_other: bool
    way: int
    total: int


class Joiner:
    """Joins fragments, so that devices may cut datagrams as they like."""

    def __init__(self) -> None:
        self._parts: dict[bytes, tuple[dict[int, bytes], list[int], bytearray]] = {}

    def take(self, datagram: bytes) -> bytes:
        """The datagram that a fragment makes whole, if it does."""
        key, head = datagram[4:6] + datagram[9:10] + datagram[12:20], (datagram[0] & 15) * 4
        place = int.from_bytes(datagram[6:8])
        if key not in self._parts and len(self._parts) >= JOIN_ROOM:
            del self._parts[next(iter(self._parts))]
        parts, end, first = self._parts.setdefault(key, ({}, [], bytearray()))
        parts[(place & 0x1FFF) * 8] = datagram[head:]
        if not place & 0x2000:
            end[:] = [(place & 0x1FFF) * 8 + len(datagram) - head]
        if not place & 0x1FFF:
            first[:] = datagram[:head]
        whole = b"".join(parts[at] for at in sorted(parts))
        if not end or not first or len(whole) < end[0]:
            return b""
        del self._parts[key]
        first[2:4], first[6:8] = (len(first) + len(whole)).to_bytes(2), bytes([first[6] & 0x40, 0])
        first[10:12] = header_sum(bytes(first)).to_bytes(2)
        return bytes(first) + whole


NANOSECONDS, BUFFER = b"\x4d\x3c\xb2\xa1", 1 << 18
"""The first bytes of a capture of bare datagrams, and the room for what is read and written of it."""


@dataclass
class Bare:
    """A capture of bare datagrams with the numbers that their frames had in the file of the user."""

    path: str
    name: str
    numbers: "array[int]" = field(default_factory=lambda: array("I"))
    first: int = 0
    last: int = 0

    def __post_init__(self) -> None:
        self._file = open(self.path, "wb", BUFFER)
        self._write = self._file.write
        self._write(bare_head())

    def put(self, moment: int, number: int, datagram: bytes) -> None:
        """Writes a datagram."""
        size = len(datagram)
        self._write(record_head(moment, size, size) + datagram)
        self.numbers.append(number)
        if moment > self.last:
            self.last = moment
        if not self.first:
            self.first = moment

    def close(self) -> None:
        """Writes the rest."""
        self._file.close()


class Links:
    """The four captures of bare datagrams: `came` and `went`, each by side."""

    def __init__(self, settings: Document, room: str, macs: tuple[list[bytes], list[bytes]]) -> None:
        same = Blocks(settings.get("same", []))
        self.realms = [Realm(side, *pool_of(settings, SIDES[side]), same, set(macs[side])) for side in (0, 1)]
        self.left_out: Counter[str] = Counter()
        self.of_own, self.of_other = [0, 0], [0, 0]
        """By side, how many of its first frames are to or from an alias of its link, and of the other one's alone."""

        self.mended: Counter[str] = Counter()
        self.came, self.went = ([Bare(os.path.join(room, f"{side}-{way}.pcap"), "") for side in SIDES] for way in ("in", "device-out"))

    def read_way(self, side: int, way: int, path: str) -> None:
        """Takes a file in which all frames go one way."""
        self._take(side, path, way)

    def read_both(self, side: int, path: str, interface: str = "") -> None:
        """Takes a file, or an interface of it, in which frames go both ways."""
        realm = self.realms[side]
        if not realm.macs:
            realm.find_macs(one for one in records(path) if not interface or one.interface == interface)
        self._take(side, path, UNKNOWN, interface)

    def _take(self, side: int, path: str, only: int, interface: str = "") -> None:
        """Takes the frames of a file: of one way, or of both with `only` unknown."""
        realm, joiner = self.realms[side], Joiner()
        files = self.came[side], self.went[side]
        for file, way in zip(files, (IN, OUT)):
            file.name = path if only in (UNKNOWN, way) else file.name
        told = Progress("compare", f"frames of {os.path.basename(path)} are read")
        known: dict[bytes, Ends] = {}
        for number, record in frames_of(path):
            told.tell(number)
            moment, link, octets, _, of, _ = record
            if interface and of != interface:
                continue
            datagram, why = bare(link, octets)
            if why:
                self.left_out[f"{why}, on the {SIDES[side]}"] += 1
                continue
            ends = known.get(datagram[12:20]) or self._ends(side, datagram[12:20], known)
            if number <= LOOKED_AT:
                self.of_own[side] += ends[0]
                self.of_other[side] += ends[1]
            way = only if only != UNKNOWN else realm.way(record, ends[2])
            if way == LOCAL:
                self.left_out[f"neither to nor from the device, on the {SIDES[side]}"] += 1
                continue
            if is_left_to_card(datagram, ends[3]):
                packet = Packet(datagram)
                self.mended[f"{SIDES[side]} {'out' if way else 'in'}"] += packet.mend()
                datagram = bytes(packet.octets)
            if way == OUT and (datagram[6] & 0x3F or datagram[7]) and not (datagram := joiner.take(datagram)):
                continue
            files[way].put(moment, number, datagram)

    def _ends(self, side: int, ends: bytes, known: dict[bytes, Ends]) -> Ends:
        """What holds between these addresses. It is kept while there is room."""
        source, destination, realm = ends[:4], ends[4:], self.realms[side]
        own, other = (any(map(one.is_far, (source, destination))) for one in (realm, self.realms[1 - side]))
        found = Ends(own, other and not own, realm.way_by_addresses(source, destination), sum(ENDS.unpack(ends)) % 0xFFFF)
        if len(known) < KNOWN:
            known[ends] = found
        return found

    def are_swapped(self) -> bool:
        """Whether each capture has the aliases of the other link, and neither those of its own."""
        mine, theirs = (count for count in (self.of_own, self.of_other))
        return all(theirs[side] > 10 * mine[side] for side in (0, 1) if mine[side] or theirs[side]) and any(theirs)

    def quiet_moments(self, spans: list[tuple[int, int]]) -> list[int]:
        """A moment in each span, in the middle of its longest silence. Spans that have a moment already get no other."""
        moments = heapq.merge(*((moment for moment, _ in frames(file.path)) for file in self.came + self.went))
        best = [(0, last) for _, last in spans]
        before = 0
        for moment in moments:
            for place, (first, last) in enumerate(spans):
                if first < moment and before < last:
                    silence = min(moment, last) - max(before, first)
                    best[place] = max(best[place], (silence, min(moment, last) - silence // 2))
            before = moment
        found: list[int] = []
        for (first, last), (_, at) in zip(spans, best):
            if not any(first < one <= last for one in found):
                found.append(at)
        return sorted(found)

    def parts(self, cuts: list[int], room: str) -> "list[Links]":
        """The captures cut at these moments."""
        found = []
        for number, (begin, end) in enumerate(zip([0, *cuts], [*cuts, 1 << 63])):
            folder = os.path.join(room, f"part-{number}")
            os.makedirs(folder, exist_ok=True)
            part = copy.copy(self)
            part.came, part.went = ([cut_out(file, folder, begin, end) for file in files] for files in (self.came, self.went))
            found.append(part)
        return found

    def close(self) -> None:
        """Writes the rest of all four."""
        for file in self.came + self.went:
            file.close()


def frames(path: str) -> Iterator[tuple[int, bytes]]:
    """Stamps and datagrams of a capture of bare datagrams with nanoseconds, as this tool and the reference write them."""
    heads = struct.Struct("<3I4x").unpack
    with open(path, "rb", BUFFER) as file:
        if file.read(24)[:4] != NANOSECONDS:
            raise ValueError(f"{path} isn't a capture that the reference writes")
        read = file.read
        while len(head := read(16)) == 16:
            seconds, fraction, size = heads(head)
            if len(datagram := read(size)) < size:
                return
            yield seconds * SECOND + fraction, datagram


def cut_out(file: Bare, folder: str, begin: int, end: int) -> Bare:
    """The frames of a capture from one moment to another."""
    part = Bare(os.path.join(folder, os.path.basename(file.path)), file.name)
    for number, (moment, datagram) in zip(file.numbers, frames(file.path)):
        if begin <= moment < end:
            part.put(moment, number, datagram)
    part.close()
    return part


def shifted(file: Bare, by: Callable[[int], int]) -> None:
    """Moves all stamps of a capture, each by what it is moved by."""
    with open(file.path, "r+b") as octets:
        whole = bytearray(octets.read())
        at = 24
        while at + 16 <= len(whole):
            seconds, fraction, size = struct.unpack_from("<3I", whole, at)
            moment = seconds * SECOND + fraction
            struct.pack_into("<2I", whole, at, *divmod(max(0, moment + by(moment)), SECOND))
            at += 16 + size
        octets.seek(0)
        octets.write(whole)
    file.first, file.last = (moment + by(moment) for moment in (file.first, file.last))


def ports(datagram: bytes) -> bytes:
    """The ports of TCP or UDP, or what an echo is called by."""
    head = (datagram[0] & 15) * 4
    return (
        datagram[head : head + 4]
        if datagram[9] in (TCP, UDP)
        else datagram[head : head + 2] + datagram[head + 4 : head + 8]
        if datagram[9] == ICMP
        else b""
    )
