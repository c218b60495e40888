"""Whether an address is followed that a payload of any application tells. Evidence is a connection that its reader then opens to it, or the form in which
it stands: a URI, or an address with a port that isn't that of the connection itself. Lines for people, and pairs of ends, aren't such forms."""
import re
from typing import NamedTuple

from rendapil.payloads.addresses import ORDERED, TEXT, Field, Find, line_before
from rendapil.payloads.applications import BREAKS, UNSURE
from rendapil.payloads.kept import ITSELF, PRIVATE, App, Site

TODO = "names in place of addresses, a proxy, or both ends in one realm"
FOLLOWED = Field("its reader then opened a connection to it", BREAKS, "", TODO)
URI = Field("a URI of a host of the sender's realm", BREAKS, "", TODO)
ENDPOINT = Field("an address with a port, where it isn't the connection's own", BREAKS, "", TODO)
SOCKET = Field("a socket address, with a port that isn't the connection's own", BREAKS, "", TODO)
BY_FORM = (URI, ENDPOINT, SOCKET)
"""What is told by its form alone, and so is likely and not sure."""

MET, TOLD, SOON, LATER = 20_000, 4, 4, 40
"""The most pairs of ends that are known, addresses that a reader was told of a host and that are kept, and among how many connections of the reader the
one has to be: for an application that is known to tell addresses only, and for others."""

SCHEME = re.compile(rb"([A-Za-z][\w+.-]{1,24}):/{2,3}(?:[^\s/@\"'<>]{1,60}@)?\[?$")
PORT = re.compile(rb"\]?(?:[:#$]|['\"]?\s?[,:]\s?['\"]?|\$port\$|['\"]?\s*,\s*['\"]?\w{0,12}[pP]ort['\"]?\s*[:=]\s*['\"]?)(\d{1,5})(?![\d.])")
PROSE = re.compile(
    rb"(?:[A-Za-z]{2,}[ ,:]+){2}\W{0,2}$|\d\d:\d\d:\d\d|^[A-Za-z-]*(?:Host|Via|From|For|IP|Client|Peer|Remote|Source|Agent|Received)\s*:", re.I
)
PAIR = re.compile(rb"\d\s*(?:->|<->|=>|<-|<=>)\s*$")
ARROW = re.compile(rb"(?::\d{1,5})?\s*(?:->|<->|=>|<-|<=>)")
"""What stands before an address in a line for people, and around one in a pair of ends."""

WEB_SCHEMES = (b"http", b"https", b"ftp")


class Ends(NamedTuple):
    """The ports of a datagram's sender and of its receiver."""

    source: int
    destination: int


def form_of(payload: bytes, one: Find, role: str, ends: Ends) -> Field | None:
    """What the form of an address tells that means the sender, a host of its realm, or a private one that isn't known: a link of the web may lead to such a
    one by its reader's own name."""
    if one.form == ORDERED:
        return socket_at(payload, one, ends)
    if one.form != TEXT or b"\0" in payload[one.at : one.end]:
        return None
    before, behind = line_before(payload, one)[-90:], payload[one.end : one.end + 40]
    if PROSE.search(before) or PAIR.search(before) or ARROW.match(behind):
        return None
    port = PORT.match(behind)
    number = int(port[1]) if port else 0
    is_own = role == ITSELF and number in (0, ends.source)
    if scheme := SCHEME.search(before):
        return None if (is_own or role == PRIVATE) and scheme[1].lower() in WEB_SCHEMES else URI
    return ENDPOINT if port and not is_own and 0 < number < 65536 else None


def socket_at(payload: bytes, one: Find, ends: Ends) -> Field | None:
    """Four octets behind a family of 2 and a port: a structure that programs send as it stands in memory."""
    front = payload[max(0, one.at - 4) : one.at]
    if len(front) < 4 or front[:2] not in (b"\2\0", b"\0\2", b"\x10\2"):
        return None
    port = int.from_bytes(front[2:])
    return SOCKET if port >= 1024 and port not in ends and payload[one.end : one.end + 8] == bytes(8) else None


class Told(NamedTuple):
    """An address that a reader was told: where it stands, what stands around it, and how many connections the reader had opened before."""

    app: App
    site: Site
    front: bytes
    behind: bytes
    opened: int


class Followed:
    """Knows which addresses readers were told, and which connections they open."""

    def __init__(self) -> None:
        self._told: dict[bytes, list[Told]] = {}
        self._met: dict[bytes, None] = {}
        self._opened: dict[bytes, int] = {}

    def tell(self, reader: bytes, app: App, site: Site, payload: bytes, one: Find) -> None:
        """Notes that a host was told an address of the other realm: both ends by their own addresses."""
        key = reader + one.address.to_bytes(4)
        told = self._told.setdefault(key, [])
        if len(told) >= TOLD:
            del told[0]
        told.append(Told(app, site, payload[max(0, one.at - 24) : one.at], payload[one.end : one.end + 40], self._opened.get(reader, 0)))
        if len(self._told) > MET:
            self._told.clear()

    def open(self, reader: bytes, host: bytes, port: bytes) -> None:
        """Notes that a host opens a connection to another one's port: what told it so was followed."""
        key = reader + host
        if key + port in self._met:
            return
        if len(self._met) >= MET:
            self._met.clear()
        self._met[key + port] = None
        count = self._opened[reader] = self._opened.get(reader, 0) + 1
        if len(self._opened) > MET:
            self._opened.clear()
        for told in self._told.pop(key, ()):
            if count - told.opened <= (SOON if told.app.of.weight != UNSURE else LATER) and has_port(told, port):
                mark(told)


def has_port(told: Told, port: bytes) -> bool:
    """Whether a port stands at the address: as text behind it, or as two octets on one side of it, in either order."""
    if told.site.form == TEXT:
        found = PORT.match(told.behind)
        if found and int(found[1]) == int.from_bytes(port):
            return True
    if told.app.of.weight != UNSURE:
        return False
    near = [told.front[-2:], told.front[-4:-2], told.behind[:2], told.behind[2:4]]
    if told.site.form == TEXT:  # a counted string has its length between, and fills up
        near += [told.front[-8:-6], told.front[-6:-4]]
    return any(two in (port, port[::-1]) for two in near)


def mark(told: Told) -> None:
    """Tells of the place that it is followed."""
    app, site = told.app, told.site
    if site.weight != BREAKS:
        app.told[BREAKS] += site.frames
        app.told_flows[BREAKS] += len(site.flows)
    site.weight, site.is_followed = BREAKS, True
    if not site.use or site.use in BY_FORM:
        site.use = FOLLOWED
