"""Applications whose payloads carry addresses that go on untranslated: which, where, and how sure that is. An address in a payload means a host in
the realm of its sender. In the other realm it means another host, or nobody, unless it is changed too.

Text is found by its form, and so are the fields of messages whose form is known. Four octets may be there by chance, so they count only with evidence:
they follow the address of their sender from host to host, or stand at one place again and again, or are too rare to be there by chance. Addresses near
those of hosts, which no host has, tell how often chance finds one. What is kept has a limit, however long the run is and whoever made up its frames."""
from collections import Counter
from collections.abc import Iterator
from ipaddress import IPv4Address
from typing import NamedTuple

from rendapil.numbers import CHANGED, FTP_PORT, SIDES, TCP, UDP
from rendapil.frames import Event
from rendapil.packet import ICMP, is_private
from rendapil.payloads.addresses import (
    COOKIE,
    FIELD,
    LITTLE,
    ORDERED,
    TEXT,
    XORED,
    Field,
    Find,
    arcs_in,
    keyword,
    may_have_text,
    octets_in,
    stun_in,
    texts_in,
    turned_in,
    words_at,
)
from rendapil.payloads.applications import BREAKS, BY_NAME, BY_PORT, COPES, HIDDEN, TELLS, UNSURE, Application, application_of, said_in
from rendapil.payloads.fields import WEB, Place, field_of
from rendapil.payloads.followed import BY_FORM, Ends, Followed, form_of
from rendapil.payloads.kept import (
    ALIAS,
    APPS,
    BLOCK,
    BLOCKS,
    FAR,
    FLOWS,
    HOST,
    ITSELF,
    LIKELY,
    LONG,
    MAYBE,
    PEER,
    PEER_OWN,
    PLAIN,
    PREFIXES,
    PRIVATE,
    ROLES,
    SITES,
    SURE,
    VALUES,
    WEIGHTS,
    App,
    Example,
    Flow,
    Meaning,
    Meant,
    Row,
    Site,
    Trials,
    is_rare,
    meaning_in,
)
from rendapil.payloads.behind import DECODERS, PROXY_2, proxied
from rendapil.payloads.structures import BOUND, MAPPED, NAMED_TO_PROXY, SEEN, TO_CONNECT, mapped

__all__ = ["HOST", "MAYBE", "Meant", "Scan", "example_of", "lines_of", "meaning_in", "summary_of", "told_rows"]


SEALED = {one.name for one in BY_NAME.values() if one.weight == HIDDEN} | {"TLS", "QUIC"}
"""Applications that can't be read behind their first messages."""

CARRIED, NOT_CARRIED = (ICMP, TCP, UDP), ("Protocol", "TtlSpent")
"""Protocols that the gateway carries, and verdicts of frames of one that the gateway refuses: neighbours often send them with a TTL of 1."""

SEALED_AFTER = 8
"""How many payloads of such a flow are looked into."""

BY_PORTS = ("TLS", "QUIC")
"""Names that are told apart by the port of the server, as those without a name are."""

METHODS = (b"GET ", b"POST", b"HEAD", b"PUT ", b"CONN", b"PROP")
UPNP = b"schemas-upnp-org"
NOTED = 1000
"""The most frames of a place whose addresses are held against the connections that follow."""

LATEST = 8
"""The most finds of the last frame that are kept for its line or comment."""


class Left(NamedTuple):
    """An address that was left in a frame: of which application, what it means, the words around it, the address and what the other realm calls it."""

    application: str
    weight: str
    words: str
    address: int
    known_as: int


class Aim(NamedTuple):
    """What is looked for in flows: how addresses begin, some from their last octet, and how many hosts these could mean."""

    prefixes: list[bytes]
    turned: tuple[bytes, ...]
    weight: int


class Scan:
    """Looks into payloads. `meaning` tells whom an address means. `is_before` says that there is no gateway yet: it will change what it knows."""

    def __init__(self, meaning: Meaning, is_before: bool = False) -> None:
        self._meaning, self.is_before = meaning, is_before
        self.apps: dict[tuple[str, int, int], App] = {}
        self.refused: Counter[int] = Counter()
        self.latest: list[Left] = []
        self._unnamed = Trials()
        self._flows: dict[bytes, Flow] = {}
        self._opened: dict[bytes, None] = {}
        self._followed = Followed()
        self._blocks: tuple[dict[bytes, set[bytes]], ...] = ({}, {})
        self._ranked: tuple[list[bytes], ...] = ()  # these blocks by side, those with the most hosts first, as long as no host comes
        self._aims: dict[tuple[int, tuple[bytes, ...]], Aim] = {}
        self.scanned = 0

    def event(self, event: Event) -> None:
        """Takes an event of a run: what passed, and which protocols were refused."""
        self.latest = []
        if event.verdict == "pass" and event.datagram:
            self.take(event.number, event.side, event.datagram, event.images)
        elif event.verdict in NOT_CARRIED and event.datagram and event.datagram[9] not in CARRIED:
            self.refused[event.datagram[9]] += 1

    def take(self, number: int, side: int, came: bytes, sent: list[bytes]) -> None:
        """Takes a datagram that went on from a side, and what it became."""
        is_joined = bool((came[6] & 0x3F or came[7]) and sent)
        whole = sent[0] if is_joined else came
        protocol, head = whole[9], (whole[0] & 15) * 4
        if protocol == TCP:
            if len(whole) < head + 20:
                return
            at = head + (whole[head + 12] >> 4) * 4
        elif protocol == UDP:
            at = head + 8
        else:
            return
        payload = whole[at : whole[2] << 8 | whole[3]]
        if not payload and (protocol != TCP or whole[head + 13] & 18 != 2):
            return
        key = came[12:20] + whole[head : head + 4] + whole[9:10]
        if not payload:
            self._followed.open(key[:4], sent[0][16:20] if sent else key[4:8], key[10:12])
            if len(self._opened) < FLOWS:
                self._opened[key] = None
            return
        flow = self._flows.get(key) or self._begun(key, side, payload, sent)
        flow.frames += 1
        self.scanned += 1
        flow.app.frames += 1
        if flow.frames > SEALED_AFTER and flow.app.of.name in SEALED:
            return
        if not flow.frames & (flow.frames - 1):  # as more hosts become known
            self._aim(flow, key, side, sent)
        self._look(flow, key, number, side, payload, sent, is_joined)

    def _look(self, flow: Flow, key: bytes, number: int, side: int, payload: bytes, sent: list[bytes], is_joined: bool) -> None:
        """Looks into a payload, and notes what is found."""
        app = flow.app
        app.trials += len(payload) * flow.weight
        if not app.of.name:
            app.together.count += len(payload) * flow.weight
        if payload[:4] in METHODS or app.of.name in ("SOCKS", "RTSP") and not flow.is_served:
            flow.asked = payload[:LONG]
        finds = self._finds(flow, payload)
        if flow.is_changed:
            if app.of.name == "FTP" and flow.is_served and payload[:3] == b"234":  # the answer to AUTH that lets TLS begin (RFC 4217, 4)
                self._app(BY_NAME["FTP over TLS"], TCP, FTP_PORT).flows += 1
            # What a fragment was a part of isn't known before it was changed.
            finds = list(self._unchanged(flow, key, finds, payload, sent)) if finds and not is_joined else []
        if finds:
            self._note(flow, key, number, side, payload, finds, sent[0][16:20] if sent else key[4:8])

    def _begun(self, key: bytes, side: int, payload: bytes, sent: list[bytes]) -> Flow:
        """A flow that is new, or of which too little was seen. Both directions of a connection are one application."""
        port, far_port, protocol = int.from_bytes(key[8:10]), int.from_bytes(key[10:12]), key[12]
        back = (sent[0][16:20] + sent[0][12:16] if sent else key[4:8] + key[:4]) + key[10:12] + key[8:10] + key[12:]
        other = self._flows.get(back)
        of, server = application_of(protocol, port, far_port, payload[:LONG])
        if other:
            of, server = (other.app.of, other.server) if other.app.of.name and not (of.name and of.weight == HIDDEN) else (of, other.server)
        elif (protocol, server) not in BY_PORT and (key in self._opened or back in self._opened):
            server = far_port if key in self._opened else port
        if protocol == UDP and not other:
            self._followed.open(key[:4], back[:4], key[10:12])
        app = self._app(of, protocol, server)
        if len(self._flows) >= FLOWS:
            for old in list(self._flows)[: FLOWS // 2]:
                del self._flows[old]
            self._opened.clear()
        is_changed = (protocol, far_port) in CHANGED or (protocol, port) in CHANGED
        flow = self._flows[key] = Flow(app, server, port == server, is_changed, back)
        app.flows += not other
        if other and not other.app.of.name and of.name:
            self._rename(other, of)
        for end in (key[:4], key[4:8]):
            if is_private(int.from_bytes(end)) and (end[:2] in self._blocks[side] or len(self._blocks[side]) < BLOCKS):
                hosts = self._blocks[side].setdefault(end[:2], set())
                if end not in hosts and len(hosts) < BLOCK:
                    hosts.add(end)
                    self._ranked = ()
        return flow

    def _rename(self, flow: Flow, of: Application) -> None:
        """Gives a flow without a name the application that a later payload tells."""
        flow.app.flows -= 1
        flow.app = self._app(of, flow.app.protocol, flow.server)
        flow.app.flows += 1

    def _app(self, of: Application, protocol: int, port: int) -> App:
        """What is known of an application: those without a name are told apart by their ports, as long as there is room."""
        is_named = bool(of.name) and of.name not in BY_PORTS
        key = (of.name, protocol, 0 if is_named else port)
        if key not in self.apps and len(self.apps) >= APPS and not is_named:
            key = (of.name, protocol, 0)
        if key not in self.apps:
            self.apps[key] = App(of, protocol, port if key[2] or is_named else 0, Trials() if is_named else self._unnamed)
        return self.apps[key]

    def _aim(self, flow: Flow, key: bytes, side: int, sent: list[bytes]) -> None:
        """Chooses what is looked for in a flow: the blocks of its ends, and those in which most hosts of its realm are. That is the same for all flows
        between these ends, as long as no host comes."""
        ends = (key[:4], key[4:8], sent[0][16:20]) if sent else (key[:4], key[4:8])
        if not self._ranked:
            self._ranked = tuple(sorted(blocks, key=lambda one: -len(blocks[one])) for blocks in self._blocks)
            self._aims.clear()
        if not (aim := self._aims.get((side, ends))):
            if len(self._aims) >= FLOWS:
                self._aims.clear()
            aim = self._aims[side, ends] = self._aim_of(side, ends)
        flow.prefixes, flow.turned, flow.weight = aim

    def _aim_of(self, side: int, ends: tuple[bytes, ...]) -> Aim:
        """What is looked for in the flows between these ends."""
        mine, theirs = self._ranked[side], self._ranked[1 - side]
        prefixes = list(dict.fromkeys([end[:2] for end in ends] + mine[:4] + theirs[:2]))[:PREFIXES]
        left, right = self._blocks
        weight = sum(max(1, len(left.get(prefix, ())), len(right.get(prefix, ()))) for prefix in prefixes)
        return Aim(prefixes, tuple(dict.fromkeys(end[::-1] for end in ends)), weight)

    @staticmethod
    def _finds(flow: Flow, payload: bytes) -> list[Find]:
        """What looks like an address in a payload. Most have nothing of that kind, and are told by a few searches."""
        name = flow.app.of.name
        if name == "STUN, TURN" or payload[4:8] == COOKIE and payload[0] < 64:
            return list(stun_in(payload))
        finds = list(texts_in(payload, name == "IRC")) if may_have_text(payload) or name == "IRC" else []
        if decoder := DECODERS.get(name):
            finds += decoder(payload)
        elif name in WEB and b":peers" in payload:
            finds += DECODERS["BitTorrent"](payload)
        if payload.startswith(PROXY_2):
            finds += proxied(payload)
        if MAPPED in payload and not any(one.form == FIELD for one in finds):
            finds += mapped(payload)
        if prefixes := [prefix for prefix in flow.prefixes if prefix in payload]:
            finds += octets_in(payload, prefixes)
        if turned := [end for end in flow.turned if end in payload]:
            finds += turned_in(payload, turned)
        if name == "SNMP":
            finds += arcs_in(payload, [one[::-1] for one in flow.turned])
        return finds

    def _unchanged(self, flow: Flow, key: bytes, finds: list[Find], payload: bytes, sent: list[bytes]) -> Iterator[Find]:
        """Those finds that stand in what went out too. Before there is a gateway: what an FTP connection says of third hosts."""
        if self.is_before:
            yield from (one for one in finds if flow.app.of.name == "FTP" and one.form == TEXT and one.address.to_bytes(4) not in (key[:4], key[4:8]))
            return
        went = b""
        for image in sent:
            head = (image[0] & 15) * 4
            size = 8 if image[9] == UDP else (image[head + 12] >> 4) * 4 if len(image) >= head + 20 else 0
            went += image[head + size : int.from_bytes(image[2:4])] if size else b""
        if went == payload:
            yield from finds
            return
        left = Counter((one.form, one.address) for one in self._finds(flow, went))
        for one in finds:
            if left[one.form, one.address] > 0:
                left[one.form, one.address] -= 1
                yield one

    def _note(self, flow: Flow, key: bytes, number: int, side: int, payload: bytes, finds: list[Find], image: bytes) -> None:
        """Notes what was found in a frame that went on to this address."""
        plain = [(one.at, one.end) for one in finds if one.form in PLAIN]
        told: dict[tuple[App, str], None] = {}
        for one in finds:
            meant = self._meant(one.address, side, key, int.from_bytes(image))
            if not meant or meant.role == PRIVATE and one.form not in PLAIN:
                if one.form == ORDERED:
                    self._note_stray(flow.app, one, side)
                continue
            if one.is_vague and meant.role not in (ITSELF, PEER) or one.form not in PLAIN and any(at <= one.at < end for at, end in plain):
                continue
            app, found = self._use(flow, payload, one, meant)
            if not found and app.of.weight == UNSURE and meant.role in (ITSELF, HOST, PRIVATE):
                found = form_of(payload, one, meant.role, Ends(int.from_bytes(key[8:10]), int.from_bytes(key[10:12])))
            weight = found.weight if found else default_of(app.of, meant.role)
            site = self._site(app, flow, key, side, number, payload, one._replace(field=found), meant, weight)
            if site:
                if site.last != number:
                    site.last = number
                    site.frames += 1
                if len(site.values) < VALUES:
                    site.values.add(one.address)
                if len(site.flows) < VALUES:
                    site.flows.add(key)
                is_known = site.is_followed or weight == BREAKS and one.form in PLAIN and found not in BY_FORM
                if meant.role in (ITSELF, HOST) and not is_known and site.frames <= NOTED:
                    self._followed.tell(image, app, site, payload, one)
            if one.form in PLAIN:
                told[app, weight] = None
                if len(self.latest) < LATEST:
                    self.latest.append(Left(app.name, weight, words_at(payload, one._replace(field=found)), one.address, meant.known_as))
        for app, weight in told:
            app.told[weight] += 1
            app.told_flows[weight] += (app.of.name, weight) not in flow.told
            flow.told.add((app.of.name, weight))

    def _use(self, flow: Flow, payload: bytes, one: Find, meant: Meant) -> tuple[App, Field | None]:
        """Of which application a find is, and what its address is for. HTTP carries other applications, and others have STUN between."""
        of, protocol = flow.app.of, flow.app.protocol
        if one.form == XORED:
            of = BY_NAME["STUN, TURN"]
        elif of.name in WEB and UPNP in payload:
            of = BY_NAME["SSDP, UPnP"]
        elif not of.name and (name := said_in(protocol, payload[:LONG])):
            of = BY_NAME[name]
            self._rename(flow, of)
        used = one.field
        if used is BOUND and asked_of(self._flows, flow)[1:2] == b"\x01":
            used = SEEN
        if used is TO_CONNECT and meant.role not in (ITSELF, HOST, ALIAS):
            used = NAMED_TO_PROXY
        if not used and one.form == TEXT:
            used = field_of(Place(of.name, payload, one, flow.is_served, meant.role not in (ITSELF, HOST, ALIAS), asked_of(self._flows, flow)))
        if used and used.application:
            of = BY_NAME[used.application]
        return (flow.app if of is flow.app.of else self._counted(of, flow)), used

    def _counted(self, of: Application, flow: Flow) -> App:
        """An application that stands in the flows of another one. Its payloads count once."""
        app = self._app(of, flow.app.protocol, flow.server)
        app.flows = max(app.flows, 1)
        app.frames += 1
        return app

    def _site(self, app: App, flow: Flow, key: bytes, side: int, number: int, payload: bytes, one: Find, meant: Meant, weight: str) -> Site | None:
        """The place of a find, where there is room for it."""
        where = one.field.says if one.form == FIELD and one.field else keyword(payload, one) if one.form == TEXT else one.at
        place = (flow.is_served, meant.role, one.form, where, weight)
        site = app.sites.get(place)
        if site:
            return site
        if len(app.sites) >= SITES and (app.more % 64 or not self._make_room(app)):
            app.more += 1
            return None
        other = self._meaning(1 - side, one.address)
        is_other = bool(other and other.role == HOST)
        source, destination = int.from_bytes(key[:4]), int.from_bytes(key[4:8])
        example = Example(number, side, source, destination, words_at(payload, one), one.address, meant.known_as, is_other)
        site = app.sites[place] = Site(one.form, meant.role, one.at, example, weight, one.field)
        return site

    @staticmethod
    def _make_room(app: App) -> bool:
        """Drops the places that were met once, of octets. Says whether there is room then."""
        for place in [place for place, site in app.sites.items() if site.frames == 1 and site.form in (ORDERED, LITTLE)]:
            del app.sites[place]
            app.more += 1
        return len(app.sites) < SITES

    def _meant(self, address: int, side: int, key: bytes, image: int) -> Meant | None:
        """Whom an address means in a payload."""
        meant = self._meaning(side, address)
        if address == int.from_bytes(key[:4]):
            return Meant(ITSELF, meant.known_as) if meant else None
        if address == int.from_bytes(key[4:8]):
            return Meant(PEER, image if image != address else 0) if meant else None
        if meant and address == image:
            return Meant(PEER_OWN, address)
        return meant

    def _note_stray(self, app: App, one: Find, side: int) -> None:
        """Notes four octets of a block in use that no host has, and that a near one has: so often chance finds an address."""
        if one.address & 255 in (0, 255) or len(app.strays) > SITES:
            return
        if any((near := self._meaning(side, one.address + step)) and near.role != PRIVATE for step in (-4, -3, -2, -1, 1, 2, 3, 4)):
            app.strays[one.at] += 1

    # What is told.

    def rows(self) -> list[Row]:
        """The applications that carry addresses, the gravest first."""
        found = [row for app in self.apps.values() if (row := row_of(app))]
        return sorted(found, key=lambda row: (row.sure == MAYBE, WEIGHTS.index(row.weight), row.sure != SURE, -row.frames))

    def hidden(self) -> list[App]:
        """The applications that are known to carry addresses, and can't be read, and those inside TLS and QUIC that tell nothing."""
        sealed = [app for app in self.apps.values() if app.of.weight == HIDDEN or app.of.name in ("TLS", "QUIC") and not row_of(app)]
        return sorted((app for app in sealed if app.flows > 0), key=lambda app: (app.of.weight != HIDDEN, -app.frames))


def asked_of(flows: dict[bytes, Flow], flow: Flow) -> bytes:
    """The last request of the other direction."""
    return flows[flow.back].asked if flow.back in flows else b""


def default_of(of: Application, role: str) -> str:
    """What an address means for an application where nothing more is known of it: that of an end of the connection, as the other end calls itself,
    only tells whom a message is for."""
    return TELLS if of.weight == BREAKS and role in (PEER, PEER_OWN) else of.weight


def row_of(app: App) -> Row | None:
    """What is told of an application, if it carries addresses: of the gravest of what they mean, if that is likely at least."""
    if app.of.weight == HIDDEN:
        return None
    found = [(site, degree) for site in app.sites.values() if (degree := degree_of(app, site))]
    if not found:
        return None
    likely = [pair for pair in found if pair[1] != MAYBE] or found
    weight = min((site.weight for site, _ in likely), key=WEIGHTS.index)
    chosen = [pair for pair in likely if pair[0].weight == weight]
    sure = min((degree for _, degree in chosen), key=(SURE, LIKELY, MAYBE).index)
    sites = [site for site, degree in chosen if degree == sure]
    is_plain = any(site.form in PLAIN for site in sites)
    flows = app.told_flows[weight] if is_plain else len(set().union(*(site.flows for site in sites)))
    frames = app.told[weight] if is_plain else max(site.frames for site in sites)
    others = [site for site, degree in found if degree != MAYBE and site not in sites] if is_plain else []
    ranked = [
        sorted(some, key=lambda one: (WEIGHTS.index(one.weight), ROLES.index(one.role), one.form not in PLAIN, -one.frames))
        for some in (sites, others)
    ]
    return Row(app, weight, sure, flows, frames, ranked[0] + ranked[1])


def degree_of(app: App, site: Site) -> str:
    """How sure it is that a place has addresses, or nothing where chance may have put them there."""
    if site.is_followed:
        return SURE
    if site.use in BY_FORM:
        return LIKELY
    if site.form in PLAIN:
        return SURE
    if site.form == LITTLE and len(site.values) < 2:
        return MAYBE if site.frames >= 3 and is_rare(app) else ""
    if app.strays[site.at] >= site.frames:
        return ""
    if len(site.values) > 1 and (site.role in (ITSELF, PEER, PEER_OWN) or site.frames >= 4):
        return SURE
    if site.frames >= 3:
        return LIKELY
    if is_rare(app):
        return LIKELY if app.of.name else MAYBE
    return ""


# In words.


def example_of(site: Site, is_before: bool = False) -> str:
    """An example in words."""
    one = site.example
    here, there, address = SIDES[one.side], SIDES[1 - one.side], IPv4Address(one.address)
    text = f"frame {one.number}, {here} {IPv4Address(one.source)} to {IPv4Address(one.destination)}: {one.words}"
    if site.role in (PEER_OWN, FAR):
        return f"{text}. So the {there} realm calls a host of its own, which the {here} one reaches only by an alias"
    if site.role == PRIVATE:
        return f"{text}. {address} " + ("isn't known here" if is_before else f"has no alias in the {there} realm")
    known = f", which the {there} realm knows as {IPv4Address(one.known_as)}" if one.known_as else ""
    return f"{text}{known}" + (f". There {address} is another host" if one.is_other else "")


def plural(count: int, name: str) -> str:
    """So many of something."""
    return f"{count:,} {name}{'' if count == 1 else 's'}"


MEANS = {
    BREAKS: "others connect to what it says",
    UNSURE: "nobody knows whether others connect to it",
    TELLS: "the address is told, and seldom used",
    COPES: "the protocol expects a NAT",
    HIDDEN: "it can't be read",
}
"""What an address in a payload does."""

NOBODY = "no known application"

REFUSED = {
    2: ("IGMP", "no multicast over the gateway"),
    4: ("IP in IP", "another tunnel, over UDP or TCP"),
    33: ("DCCP", "DCCP over UDP (RFC 6773)"),
    41: ("IPv6 in IPv4", "another tunnel, over UDP or TCP"),
    46: ("RSVP", "no reservations over the gateway"),
    47: ("GRE", "end the tunnel before the gateway, or another one over UDP or TCP. A mirror (ERSPAN): capture at its source"),
    54: ("NHRP", "end the tunnel before the gateway"),
    50: ("ESP of IPsec", "NAT traversal (UDP 4500), or end the tunnel before the gateway"),
    51: ("AH of IPsec", "ESP with NAT traversal (UDP 4500)"),
    88: ("EIGRP", "a static route to the pool in each realm"),
    89: ("OSPF", "a static route to the pool in each realm"),
    94: ("IP in IP", "another tunnel, over UDP or TCP"),
    97: ("EtherIP", "another tunnel, over UDP or TCP"),
    103: ("PIM", "no multicast over the gateway"),
    112: ("VRRP", "routers of a group in one realm"),
    108: ("IPComp", "no compression of packets"),
    113: ("PGM", "no multicast over the gateway"),
    115: ("L2TP without UDP", "L2TP over UDP"),
    132: ("SCTP", "SCTP over UDP (RFC 6951), or TCP"),
    136: ("UDP-Lite", "UDP"),
    137: ("MPLS in IP", "MPLS over UDP (RFC 7510)"),
    139: ("HIP", "HIP over UDP (RFC 9028)"),
    240: ("pfsync", "both firewalls in one realm"),
}
"""Protocols that the gateway refuses, by number: their name, and what helps."""

EXAMPLES = 3
"""How many examples are told of an application."""


class Told(NamedTuple):
    """What is told of an application. `chance` is how many finds chance would give, where some of them are of four octets."""

    application: str
    weight: str
    sure: str
    means: str
    frames: int
    flows: int
    payloads: int
    chance: float | None
    examples: list[str]
    todo: str


def told_rows(scan: Scan) -> list[Told]:
    """The applications whose payloads carry addresses, the protocols that the gateway refuses, and the applications that are known to carry some and can't
    be read: the gravest first."""
    found = [told_row(scan, row) for row in scan.rows()]
    refused = [refused_row(protocol, count) for protocol, count in scan.refused.most_common()]
    place = next((place for place, row in enumerate(found) if row.weight != BREAKS or row.sure == MAYBE), len(found))
    found[place:place] = refused
    for app in scan.hidden():
        is_known = app.of.weight == HIDDEN
        carries = app.of.carries if is_known else "what is inside may tell addresses"
        todo = app.of.todo if is_known else "ask which application it is, and test it through the gateway"
        found.append(Told(app.name, HIDDEN, "", MEANS[HIDDEN], app.frames, app.flows, app.frames, None, [carries], todo))
    return found


def told_row(scan: Scan, row: Row) -> Told:
    """What is told of an application."""
    app, first = row.app, row.sites[0]
    is_plain = all(site.form in PLAIN for site in row.sites)
    says = first.use.says if first.use else app.of.carries if row.weight == app.of.weight else ""
    means = (MEANS[row.weight] if app.of.name or row.weight == BREAKS else NOBODY) + (f": {says}" if says else "")
    chance = None if is_plain else float(f"{row.chance:.2g}")
    examples = [example_of(site, scan.is_before) for site in row.sites[:EXAMPLES]]
    todo = first.use.todo if first.use and first.use.todo else app.of.todo
    return Told(app.name, row.weight, row.sure, means, row.frames, row.flows, app.frames, chance, examples, todo)


def refused_row(protocol: int, count: int) -> Told:
    """What is told of a protocol that the gateway refuses."""
    name, todo = REFUSED.get(protocol, ("", "another protocol, over UDP or TCP"))
    name = f"{name}, IP protocol {protocol}" if name else f"IP protocol {protocol}"
    return Told(name, BREAKS, SURE, "the gateway refuses it", count, 0, count, None, ["it doesn't pass: only ICMP, TCP and UDP do"], todo)


def summary_of(scan: Scan, rows: list[Told], cut: int = 0) -> str:
    """How much was looked at, and of how many applications nothing is told. So many frames were cut by the capture."""
    if not scan.scanned:
        return "No payload passed, so none was looked at"
    if cut:
        return f"{said_of(scan, rows)}. {plural(cut, 'frame')} {'was' if cut == 1 else 'were'} cut by the capture: what stood behind the cut can't be judged"
    return said_of(scan, rows)


def said_of(scan: Scan, rows: list[Told]) -> str:
    """The same of what was looked at."""
    looked = f"{plural(scan.scanned, 'payload')} of {plural(len(scan.apps), 'application')} {'was' if scan.scanned == 1 else 'were'} looked at"
    if not rows:
        return f"{looked}, and none was found"
    return f"{looked}. Nothing is told of {len(scan.apps) - len(rows):,} of them" if len(scan.apps) > len(rows) else looked


def lines_of(scan: Scan, cut: int = 0) -> Iterator[str]:
    """The same for an operator."""
    rows = told_rows(scan)
    yield "Addresses in payloads that the gateway leaves alone, by application"
    if rows:
        yield f"\n{'Frames':>8}{'Flows':>7}  Application"
    for row in rows:
        chance = "" if row.chance is None else f"; chance would give {row.chance:g} in its {plural(row.payloads, 'payload')}"
        yield f"{row.frames:8}{row.flows:7}  {row.application}: {row.sure + ', ' if row.sure else ''}{row.means}{chance}"
        yield from (f"{'':17}{one}" for one in row.examples)
        if row.weight != COPES and row.todo:
            yield f"{'':17}To do: {row.todo}"
    yield summary_of(scan, rows, cut)
