"""What in a payload looks like an IPv4 address: text in several forms, four octets, arcs of an object identifier, and the attributes of STUN."""
import re
from collections.abc import Iterator
from ipaddress import IPv4Address
from typing import NamedTuple

from rendapil.frames import SECRET

HITS = 64
"""The most hits of four octets in a payload."""

DOTS, RUN = re.compile(rb"\.[0-9]{1,3}\.[0-9]{1,3}\.[0-9]"), re.compile(rb"[0-9]{1,3}(?:\.[0-9]{1,3}){3,}")
COMMAS, SIX = re.compile(rb",[0-9]{1,3},[0-9]{1,3},[0-9]{1,3},"), re.compile(rb"(?<![0-9,])[0-9]{1,3}(?:,[0-9]{1,3}){5}(?![0-9,])")
"""What is searched first, since it begins with an octet that is found at once, and what it has to be a part of: it begins up to three digits before."""

WIDE = re.compile(rb"(?<![0-9.]\x00)(?:[0-9]\x00){1,3}(?:\.\x00(?:[0-9]\x00){1,3}){3}(?![0-9.]\x00)")
ESCAPED = re.compile(rb"(?i)(?<![0-9])[0-9]{1,3}(?:%2e[0-9]{1,3}){3}(?![0-9])")
REVERSE = re.compile(
    rb"(?i)(?:[\x01-\x03.]|^)?([0-9]{1,3})[\x01-\x03.]([0-9]{1,3})[\x01-\x03.]([0-9]{1,3})[\x01-\x03.]([0-9]{1,3})[\x07.]in-addr[\x04.]arpa"
)
DCC = re.compile(rb"DCC [A-Z]+ \S+ ([0-9]{8,10}) [0-9]+")
ENDS, USER = re.compile(rb"[\r\n\x00]"), re.compile(rb"//[^/@\s]*@")
"""What ends a line, and who stands in front of a host in a URL."""
COOKIE = b"\x21\x12\xa4\x42"

TEXT, ORDERED, LITTLE, ARCS, XORED, FIELD = "text", "four octets", "four octets, the last first", "arcs of an identifier", "STUN", "field"


def number_of(parts: list[bytes]) -> int:
    """The address of four decimal numbers, or 0."""
    octets = list(map(int, parts))
    return int.from_bytes(bytes(octets)) if max(octets) < 256 and not any(len(part) > 1 and part[:1] == b"0" for part in parts) else 0


class Field(NamedTuple):
    """What an address in a message is for: in words, what it means for an application, which one that is where it isn't that of the flow, and what helps
    where that isn't what helps the application."""

    says: str
    weight: str
    application: str = ""
    todo: str = ""


class Find(NamedTuple):
    """An address in a payload: its form, its place, where it ends, the address, whether it may be a version, by what stands before it, and what it is
    for, where the message tells it."""

    form: str
    at: int
    end: int
    address: int
    is_vague: bool = False
    field: Field | None = None


def may_have_text(payload: bytes) -> bool:
    """Whether a payload may have an address as text."""
    return bool(DOTS.search(payload) or COMMAS.search(payload) or b".\0" in payload or b"%2" in payload or b"in-addr" in payload)


def texts_in(payload: bytes, decimal: bool = False) -> Iterator[Find]:
    """The addresses that stand in a payload as text."""
    if first := DOTS.search(payload):
        for one in RUN.finditer(payload, max(0, first.start() - 3)):
            yield from dotted(payload, one)
    if first := COMMAS.search(payload):
        for one in SIX.finditer(payload, max(0, first.start() - 3)):
            yield Find(TEXT, one.start(), one.end(), number_of(one[0].split(b",")[:4]))
    if b".\0" in payload:
        for one in WIDE.finditer(payload):
            yield Find(TEXT, one.start(), one.end(), number_of(one[0].replace(b"\0", b"").split(b".")))
    if b"%2" in payload:
        for one in ESCAPED.finditer(payload):
            yield Find(TEXT, one.start(), one.end(), number_of(re.split(rb"(?i)%2e", one[0])))
    if b"in-addr" in payload:
        for one in REVERSE.finditer(payload):
            yield Find(TEXT, one.start(1), one.end(), number_of(list(one.groups())[::-1]))
    if decimal:
        for one in DCC.finditer(payload):
            yield Find(TEXT, one.start(1), one.end(1), min(int(one[1]), 0xFFFFFFFF))


def dotted(payload: bytes, one: re.Match[bytes]) -> Iterator[Find]:
    """The address of numbers that are joined by dots: of four, or of six as rpcbind writes an address with a port. Others are versions or
    identifiers."""
    parts, before, behind = one[0].split(b"."), payload[max(0, one.start() - 2) : one.start()], payload[one.end() : one.end() + 9]
    if len(parts) not in (4, 6) or before[-1:].isdigit() or before[-1:] == b"." or behind[:1].isdigit() or behind.lower().startswith(b".in-addr"):
        return
    address = number_of(parts[:4])
    is_port = re.match(rb":[0-9]{2,5}(?![0-9.])", behind)
    is_vague = len(parts) == 4 and not is_port and (before[-1:].isalpha() or before[-1:] in (b"_", b"/") and before != b"//")
    if address:
        yield Find(TEXT, one.start(), one.end(), address, is_vague)


def octets_in(payload: bytes, prefixes: list[bytes]) -> Iterator[Find]:
    """The four octets in a payload that begin with one of these, or end with them the other way round."""
    find, left = payload.find, HITS
    for prefix in prefixes:
        at = find(prefix)
        while at >= 0 and left:
            if at + 4 <= len(payload) and payload[at : at + 4] != 4 * payload[at : at + 1]:  # what fills up isn't an address
                yield Find(ORDERED, at, at + 4, int.from_bytes(payload[at : at + 4]))
            left -= 1
            at = find(prefix, at + 1)


def turned_in(payload: bytes, ends: list[bytes]) -> Iterator[Find]:
    """These addresses, which stand in the payload with their last octet first."""
    for turned in ends:
        at = payload.find(turned)
        if turned != turned[::-1]:
            yield Find(LITTLE, at, at + 4, int.from_bytes(turned[::-1]))


def arcs_in(payload: bytes, ends: list[bytes]) -> Iterator[Find]:
    """These addresses as arcs of an object identifier, where that isn't the same as four octets."""
    for end in ends:
        arcs = b"".join(bytes([octet]) if octet < 128 else bytes([0x81, octet & 127]) for octet in end)
        at = payload.find(arcs)
        if len(arcs) > 4 and at >= 0:
            yield Find(ARCS, at, at + len(arcs), int.from_bytes(end))


def stun_in(payload: bytes) -> Iterator[Find]:
    """The addresses in a STUN message."""
    at = 20
    while at + 12 <= len(payload):
        kind, size = int.from_bytes(payload[at : at + 2]), int.from_bytes(payload[at + 2 : at + 4])
        if size == 8 and payload[at + 5] == 1:
            octets = payload[at + 8 : at + 12]
            is_xored = kind in (0x12, 0x16, 0x20, 0x8020) and payload[4:8] == COOKIE
            if is_xored or kind in (1, 2, 4, 5, 11, 0x11, 0x12, 0x8023, 0x802B, 0x802C):
                yield Find(XORED, at + 8, at + 12, int.from_bytes(octets) ^ (int.from_bytes(COOKIE) if is_xored else 0))
        at += 4 + size + -size % 4


# In words.


def line_before(payload: bytes, one: Find) -> bytes:
    """What stands before an address in text, on its line."""
    return ENDS.split(payload[max(0, one.at - 512) : one.at])[-1]


def keyword(payload: bytes, one: Find) -> bytes:
    """The first word of the line that has an address, at most 12 octets of it."""
    return re.split(rb"[\s:=]", line_before(payload, one)[-40:])[0][:12]


def words_at(payload: bytes, one: Find) -> str:
    """What stands in a payload around an address."""
    if one.form == TEXT:
        front = line_before(payload, one) if b"\0" not in payload[one.at : one.end] else b""
        front = b"(hidden) " if SECRET.match(front) else USER.sub(b"//(hidden)@", front)[-40:]
        return "".join(chr(octet) if 32 <= octet < 127 else "." for octet in front + payload[one.at : one.end].replace(b"\0", b""))
    if one.form == FIELD:
        return f"{one.field.says if one.field else 'mapped into IPv6'}: {IPv4Address(one.address)}"
    if one.form == XORED:
        return f"a STUN attribute has {IPv4Address(one.address)}"
    octets = payload[one.at : one.end].hex(" ")
    return f"octets {one.at} to {one.end - 1} of the payload are {octets}, {IPv4Address(one.address)}" + (
        " with the last first" if one.form == LITTLE else ""
    )
