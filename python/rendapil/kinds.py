"""What a file is by its first bytes, and the command that makes it a capture that the gateway reads."""
import struct
from typing import NamedTuple

from rendapil.files import ETHERNET, FORMS, RAW_IP

HEADS = {
    b"\x0a\x0d\x0d\x0a": "a pcapng file",
    b"\x34\xcd\xb2\xa1": "a capture with longer record heads",
    b"\xa1\xb2\xcd\x34": "a capture with longer record heads",
}
PACKED = {b"\x1f\x8b": ("gzip", "gunzip -c"), b"\x28\xb5\x2f\xfd": ("zstd", "zstd -dc"), b"\xfd\x37\x7a\x58": ("xz", "xz -dc")}
LOOPBACK, BARE, COOKED = ", loopback", ", IPv4 alone", ", as tcpdump -i any gives it"
LINKS = {
    **{0: (LOOPBACK, "-L -C 4 -T rawip "), 108: (LOOPBACK, "-L -C 4 -T rawip "), 12: (BARE, "-T rawip "), 228: (BARE, "-T rawip ")},
    **{113: (COOKED, "-L -C 16 -T rawip "), 276: (COOKED, "-L -C 20 -T rawip ")},
}
"""What a link is, and what editcap is told to make bare IPv4 of it."""


class Kind(NamedTuple):
    """What a file is, the name of the fault that it is as a capture (none: it is one), and what mends it: a verb and a command."""

    what: str
    fault: str = ""
    verb: str = ""
    command: str = ""


def by_head(head: bytes, old: str) -> Kind | None:
    """The kind of a file of this name, by its first 24 bytes. None where it is no capture of any kind."""
    if not head:
        return Kind("is empty", "NoHead")
    for begin, (what, command) in PACKED.items():
        if head.startswith(begin):
            return Kind(f"is packed by {what}", "Magic", "Unpack", f"{command} {old} >NEW")
    if head[:4] in HEADS:
        return Kind(f"is {HEADS[head[:4]]}", "Magic", "Convert", f"editcap -F pcap {old} NEW")
    if head[:4] not in FORMS:
        return None
    if len(head) < 24:
        return Kind("has no whole head", "NoHead")
    link: int = struct.unpack(FORMS[head[:4]][0] + "I", head[20:24])[0]
    if link in (ETHERNET, RAW_IP):
        return Kind("is a capture")
    if link & 0xFFFF == ETHERNET:
        return Kind("has Ethernet frames with check sequences", "Link", "Convert", f"editcap -F pcap {old} NEW")
    if link in LINKS:
        what, words = LINKS[link]
        return Kind(f"has link type {link}{what}", "Link", "Convert", f"editcap -F pcap {words}{old} NEW")
    return Kind(f"has link type {link}", "Link")
