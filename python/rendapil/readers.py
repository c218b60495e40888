"""The frames of a capture, as pcap or pcapng, packed by gzip or not, with the names of their interfaces and their ways where the file has these."""
import gzip
import struct
import zlib
from collections.abc import Iterator
from io import BufferedReader, FileIO
from typing import NamedTuple

from rendapil.any_capture import SLL, SLL2
from rendapil.files import FORMS, IN, LOCAL, OUT, UNKNOWN, Damaged, Record, pcap_records, shown
from rendapil.numbers import SECOND

SECTION, INTERFACE, OLD_PACKET, SIMPLE_PACKET, PACKET = 0x0A0D0D0A, 1, 2, 3, 6
"""Types of blocks of pcapng."""

PCAPNG, PACKED = b"\x0a\x0d\x0d\x0a", b"\x1f\x8b"
"""The first bytes of a pcapng file, and of one that is packed by gzip."""

BY_EXPLAIN = b"rendapil explain"
"""The program that the head of a capture names which `explain` wrote."""

MOST = 1 << 24
"""The most bytes of a block: those of a packed file may be a million times as many as the file has."""

CHUNK = 1 << 20
"""How many bytes are read at once."""

END, NAME, FLAGS, UNIT, AHEAD = 0, 2, 2, 9, 14
"""Options: the last one; an interface's name and a packet's flags; the unit of an interface's stamps, and the seconds that they lack."""


class NoCapture(ValueError):
    """A file that is no capture."""


def opened(path: str) -> BufferedReader | gzip.GzipFile:
    """A capture, unpacked if it is packed by gzip."""
    file = BufferedReader(FileIO(path), 1 << 18)
    return gzip.GzipFile(fileobj=file) if file.peek(2)[:2] == PACKED else file


def records(path: str) -> Iterator[Record]:
    """The frames of a capture, up to the last one that is whole."""
    try:
        yield from whole_records(path)
    except Damaged:
        return


def whole_records(path: str) -> Iterator[Record]:
    """The frames of a capture. Damaged where it goes on otherwise."""
    with opened(path) as file:
        try:
            front = file.peek(4)[:4]
            if front == PCAPNG:
                yield from of_pcapng(file)
            elif front in FORMS:
                yield from of_pcap(file)
            else:
                raise NoCapture(f"{shown(path)} is no capture")
        except (EOFError, OSError, zlib.error) as error:
            raise Damaged(f"what gzip packed is damaged: {error}") from None


Source = BufferedReader | gzip.GzipFile


def of_pcap(file: Source) -> Iterator[Record]:
    """The frames of a pcap file."""
    head = file.read(24)
    if len(head) < 24:
        raise Damaged("it ends within its head")
    form = FORMS[head[:4]]
    link = struct.unpack(form[0] + "I", head[20:])[0] & 0xFFFF
    records = pcap_records(file, form, link)
    if link not in (SLL, SLL2):
        return records
    return (one._replace(interface=interface, way=way) for one in records for interface, way in [cooked(link, one.octets)])


def cooked(link: int, octets: bytes) -> tuple[str, int]:
    """Interface and way of a frame that `tcpdump -i any` has recorded."""
    kind = octets[10:11] if link == SLL2 else octets[1:2]
    interface = str(int.from_bytes(octets[4:8])) if link == SLL2 else ""
    return interface, OUT if kind == b"\x04" else IN if kind == b"\0" else LOCAL


# pcapng.


class Interface(NamedTuple):
    """An interface of a section: its link, its name, how many units its stamps count a second, and how many seconds they lack."""

    link: int
    name: str
    unit: int
    ahead: int


def blocks(file: Source) -> Iterator[tuple[str, int, bytes, int, int]]:
    """The byte order and the type of each block, and where its body stands in some octets that have it: they are read many blocks at once."""
    order, octets, at, read, heads = "<", b"", 0, file.read, struct.Struct("<II").unpack_from
    while True:
        room = len(octets) - at
        kind, size = heads(octets, at) if room >= 12 else (0, 0)
        if kind == SECTION:
            order = "<" if octets[at + 8 : at + 12] == b"\x4d\x3c\x2b\x1a" else ">"
            heads = struct.Struct(order + "II").unpack_from
            size = heads(octets, at)[1]
        if room >= 12 and (size < 12 or size % 4 or size > MOST):
            raise Damaged(f"a block says that it has {size} bytes")
        if room < max(12, size):
            more = read(max(CHUNK, size - room))
            if not more and not room:
                return
            if len(more) + room < max(12, size):
                raise Damaged("it ends within a block")
            octets, at = octets[at:] + more, 0
            continue
        yield order, kind, octets, at + 8, at + size - 4
        at += size


def options(body: bytes, order: str) -> dict[int, bytes]:
    """The options at the end of a block."""
    at, found = 0, dict[int, bytes]()
    while at + 4 <= len(body):
        code, size = struct.unpack_from(order + "HH", body, at)
        if code == END:
            break
        found[code] = body[at + 4 : at + 4 + size]
        at += 4 + size + -size % 4
    return found


def interface_of(order: str, body: bytes, number: int) -> Interface:
    """An interface by its block."""
    if len(body) < 8:
        raise Damaged("an interface has no link")
    said = options(body[8:], order)
    power = (said.get(UNIT) or b"\x06")[0]
    ahead = said.get(AHEAD, b"")
    return Interface(
        struct.unpack_from(order + "H", body)[0],
        said.get(NAME, b"").decode(errors="replace") or str(number),
        2 ** (power & 127) if power & 128 else 10**power,
        struct.unpack(order + "q", ahead)[0] if len(ahead) == 8 else 0,
    )


def of_pcapng(file: Source) -> Iterator[Record]:
    """The frames of a pcapng file."""
    for of, stamp, octets, length, flags in packets(file):
        yield record_of(of, stamp, octets, length, flags)


def packets(file: Source) -> Iterator[tuple[Interface, int, bytes, int, int]]:
    """The packets of a pcapng file: the interface, the stamp in its units, the octets, the length on the wire, and the flags."""
    interfaces: list[Interface] = []
    heads = {order: struct.Struct(order + "5I").unpack_from for order in "<>"}
    for order, kind, octets, at, end in blocks(file):
        if kind in (PACKET, OLD_PACKET) and end - at >= 20:
            place, high, low, kept, length = heads[order](octets, at)
            if kind == OLD_PACKET:  # its interface has 16 bits, and beside it stands how many packets were lost
                place = place & 0xFFFF if order == "<" else place >> 16
            at += 20
            if place >= len(interfaces) or at + kept > end:
                raise Damaged("a packet says that it is longer than its block, or of no interface")
            behind = at + kept + -kept % 4
            flags = flags_of(octets[behind:end], order) if behind < end else 0
            yield interfaces[place], high << 32 | low, octets[at : at + kept], length, flags
        elif kind == SECTION:
            interfaces = []
        elif kind == INTERFACE:
            interfaces.append(interface_of(order, octets[at:end], len(interfaces)))
        elif kind in (OLD_PACKET, SIMPLE_PACKET, PACKET):
            raise Damaged("it has packets without stamps, or too short for one: editcap -F pcap makes others of them")


def flags_of(said: bytes, order: str) -> int:
    """Which way a packet went, by its options: 1 in, 2 out."""
    return int.from_bytes(options(said, order).get(FLAGS, b""), "little" if order == "<" else "big") & 3


def record_of(of: Interface, stamp: int, octets: bytes, length: int, flags: int) -> Record:
    """A frame of an interface."""
    moment = stamp * SECOND // of.unit + of.ahead * SECOND
    if of.link in (SLL, SLL2):
        index, way = cooked(of.link, octets)
        return Record(moment, of.link, octets, length, index or of.name, way)
    return Record(moment, of.link, octets, length, of.name, (UNKNOWN, IN, OUT, UNKNOWN)[flags])
