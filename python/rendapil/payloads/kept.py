"""What a scan of payloads keeps: flows, applications, and the places at which their messages have an address."""
from collections import Counter
from collections.abc import Callable
from dataclasses import dataclass, field
from typing import NamedTuple

from rendapil.bindings import Bindings
from rendapil.numbers import TCP
from rendapil.packet import is_host, is_private
from rendapil.payloads.addresses import FIELD, TEXT, XORED, Field
from rendapil.payloads.applications import BREAKS, COPES, HIDDEN, TELLS, UNSURE, Application

FLOWS, APPS, SITES, VALUES, PREFIXES, BLOCKS, BLOCK = 20_000, 300, 200, 4, 8, 256, 1000
"""The most flows and applications that are known at once, places of an application, values and flows of a place, blocks of 65,536 addresses that are
looked for in a flow, such blocks of a realm, and hosts of one that are counted."""

LONG = 600
"""So many octets of a payload tell which application it is of."""

ITSELF, HOST, PRIVATE, PEER, ALIAS, PEER_OWN, FAR = ROLES = ("sender", "host", "private", "receiver", "alias", "receiver's own", "far host")
"""Whom an address means: the sender, another host of its realm, nobody who is known there; the receiver or another host of the other realm by an alias;
or the same two by the address that they have in their own realm. The gravest come first."""

SURE, LIKELY, MAYBE = "sure", "likely", "maybe"
RARE = 0.001
"""Where chance gives fewer finds than this, a single find counts."""

WEIGHTS = [BREAKS, UNSURE, TELLS, HIDDEN, COPES]
"""What an address means, the gravest first."""

PLAIN = (TEXT, XORED, FIELD)
"""Forms that chance doesn't make."""


class Meant(NamedTuple):
    """Whom an address means where it is written: one of the roles, and what the other realm calls this host, or 0."""

    role: str
    known_as: int


Meaning = Callable[[int, int], Meant | None]
"""Whom an address means that a host of a side writes. None where it means the same host in both realms, or is no host's."""


def meaning_in(table: Bindings) -> Meaning:
    """Whom addresses mean in a run, by its bindings."""

    def meaning(side: int, address: int) -> Meant | None:
        if not is_host(address) or table.is_same(address):
            return None
        if alias := table.pools[side].holders.get(address):
            return Meant(ALIAS, alias.host)
        if own := table.held_by(side, address):
            return Meant(HOST, own.alias)
        if far := table.held_by(1 - side, address):
            return Meant(FAR, far.alias)
        if address in table.pools[1 - side].holders:  # so its reader calls a host of the sender's realm: that is right there
            return None
        return Meant(PRIVATE, 0) if is_private(address) else None

    return meaning


# What is kept.


class Example(NamedTuple):
    """Where an address was found: the frame's number and side, the ends of its datagram, what stands there, the address and whom it means."""

    number: int
    side: int
    source: int
    destination: int
    words: str
    address: int
    known_as: int
    is_other: bool


@dataclass(slots=True)
class Site:
    """A place where messages of an application have an address. `is_followed`: its reader opened a connection to it."""

    form: str
    role: str
    at: int
    example: Example
    weight: str
    use: Field | None = None
    frames: int = 0
    last: int = 0
    is_followed: bool = False
    values: set[int] = field(default_factory=set)
    flows: set[bytes] = field(default_factory=set)


@dataclass(slots=True)
class Trials:
    """How many places were looked at, each as often as there are hosts that it could mean."""

    count: float = 0.0


class App:
    """What was seen of an application: on one port of servers, or of one name. `together` counts for all ports without a name: of many ports one has a
    find by chance."""

    def __init__(self, of: Application, protocol: int, port: int, together: Trials) -> None:
        self.of, self.protocol, self.port, self.together = of, protocol, port, together
        self.flows = self.frames = self.more = 0
        self.told: Counter[str] = Counter()
        self.told_flows: Counter[str] = Counter()
        self.trials = 0.0
        self.sites: dict[tuple[object, ...], Site] = {}
        self.strays: Counter[int] = Counter()

    @property
    def name(self) -> str:
        """Its name, with its protocol and port where it has none that is known."""
        where = f"{'TCP' if self.protocol == TCP else 'UDP'}" + (f" port {self.port}" if self.port else " on many ports")
        return f"{self.of.name}, {where}" if self.of.name else where


@dataclass(slots=True)
class Flow:
    """What goes from one end to another: its application, whether the server sends it, what is looked for in it, the flow that goes back, the last
    request, and for which applications and weights an address was told in it."""

    app: App
    server: int
    is_served: bool
    is_changed: bool
    back: bytes
    prefixes: list[bytes] = field(default_factory=list)
    turned: tuple[bytes, ...] = ()
    weight: int = 0
    frames: int = 0
    asked: bytes = b""
    told: set[tuple[str, str]] = field(default_factory=set)


class Row(NamedTuple):
    """An application that carries addresses: what that means, how sure it is, in how many flows and frames at least, and where, the gravest first."""

    app: App
    weight: str
    sure: str
    flows: int
    frames: int
    sites: list[Site]

    @property
    def chance(self) -> float:
        """How many finds of four octets one would expect by chance."""
        return chance_of(self.app)


def is_rare(app: App) -> bool:
    """Whether chance gives so few finds that a single one counts."""
    return max(chance_of(app), app.together.count / 2**32) < RARE


def chance_of(app: App) -> float:
    """How many finds of four octets one would expect by chance: if octets were random, or by the places at which an address near a host's was found that
    no host has."""
    return max(app.trials / 2**32, len(app.strays) / 8)
