"""The datagrams in the frames of any link that python3-scapy knows."""
import logging
from importlib import import_module

from rendapil.files import Record
from rendapil.numbers import TCP

IPV4 = b"\x08\x00"
TAGS = (b"\x81\x00", b"\x88\xa8", b"\x91\x00")
"""The types of Ethernet frames that have a VLAN tag."""

PLAIN = IPV4 + b"\x45"
"""What most Ethernet frames have behind their addresses: a datagram without options."""

OTHERS = (b"\x88\x64", b"\x88\x47")
"""Types in which scapy looks for a datagram: PPPoE and MPLS."""

RAW, NULL, SLL, SLL2 = (12, 14, 101, 228), (0, 108), 113, 276


def datagram_in(link: int, octets: bytes) -> bytes:
    """The IPv4 datagram of a frame with all that follows it, or nothing. VLAN tags and other heads lie in front of it."""
    if link == 1:
        at = 12
        while octets[at : at + 2] in TAGS:
            at += 4
        kind = octets[at : at + 2]
        if kind != IPV4:
            return found_by_scapy(link, octets) if kind in OTHERS or int.from_bytes(kind) <= 1500 and octets[at + 2 : at + 4] == b"\xaa\xaa" else b""
        at += 2
    elif link in NULL:
        at = 4 if 2 in (octets[:1] + octets[3:4]) else len(octets)
    elif link == SLL or link == SLL2:
        at, kind = (16, octets[14:16]) if link == SLL else (20, octets[:2])
        while kind in TAGS:
            at, kind = at + 4, octets[at + 2 : at + 4]
        at = at if kind == IPV4 else len(octets)
    elif link in RAW:
        at = 0
    else:
        return found_by_scapy(link, octets)
    found = octets[at:]
    return found if len(found) >= 20 and found[0] >> 4 == 4 and found[0] & 15 >= 5 else b""


def why_none(frame: Record) -> str:
    """Why a frame has no datagram: three reasons that a user wants apart, and others."""
    octets, at = frame.octets, 12
    if frame.link == 1:
        while octets[at : at + 2] in TAGS:
            at += 4
        kind = octets[at : at + 2]
    elif frame.link in (SLL, SLL2):
        kind = octets[14:16] if frame.link == SLL else octets[:2]
    else:
        first = octets[:1] if frame.link in RAW else octets[4:5]
        kind = IPV4 if first[:1] and first[0] >> 4 == 4 else b"\x86\xdd" if first[:1] and first[0] >> 4 == 6 else b""
    if kind == IPV4:
        return "IPv4 that is cut within its header, or damaged"
    return {b"\x86\xdd": "IPv6", b"\x08\x06": "ARP"}.get(kind, "no IPv4")


def with_length(datagram: bytes) -> bytes:
    """A datagram with its length: a card that segments leaves the length 0."""
    if datagram and datagram[2:4] == b"\0\0" and datagram[9] == TCP and len(datagram) < 1 << 16:
        return datagram[:2] + len(datagram).to_bytes(2) + datagram[4:]
    return datagram


def whole_of(link: int, octets: bytes) -> tuple[bytes, int]:
    """The datagram of a frame without what its link put behind it, and its length on the wire."""
    if link == 1 and octets[12:15] == PLAIN and len(octets) >= 34 and (total := int.from_bytes(octets[16:18])) >= 20:
        return octets[14 : 14 + total], total
    datagram = with_length(datagram_in(link, octets))
    total = int.from_bytes(datagram[2:4])
    return datagram[:total] if total >= 20 else datagram, max(total, 20)


def found_by_scapy(link: int, octets: bytes) -> bytes:
    """The same, for a link or a head that scapy knows, where it is there. Of tunnels only the outer datagram counts."""
    try:
        logging.getLogger("scapy").setLevel(logging.CRITICAL)  # what it says of a frame has bytes of that frame
        from scapy.config import conf
        from scapy.layers import inet, inet6, l2

        for name in ("scapy.contrib.mpls", "scapy.layers.dot11", "scapy.layers.ppp"):  # which tell what is in their frames
            import_module(name)
    except ImportError:
        return b""
    try:
        layer = conf.l2types[link](octets) if link in conf.l2types.num2layer else None
        while layer:
            if isinstance(layer, inet.IP):
                found = bytes(layer.original)
                return found if len(found) >= 20 and found[0] >> 4 == 4 and found[0] & 15 >= 5 else b""
            if isinstance(layer, (inet6.IPv6, l2.ARP)):
                return b""
            layer = layer.payload
    except Exception:  # noqa: BLE001: whatever scapy meets in a frame that is damaged, it has no datagram for us
        pass
    return b""
