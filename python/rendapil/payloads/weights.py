"""What an application is, and what an address in its payload means."""
from typing import NamedTuple

BREAKS, UNSURE, TELLS, COPES, HIDDEN = "breaks", "unsure", "tells", "copes", "hidden"
"""What an address in a payload means for an application: others connect to it, or go by it; nobody knows, since the application isn't known; they only
read it; the protocol expects a NAT; or nobody can read it."""


class Application(NamedTuple):
    """An application, its TCP and UDP ports, what an address in its payload means where no rule of `fields` says it, where it stands, and what helps."""

    name: str
    tcp: tuple[int, ...]
    udp: tuple[int, ...]
    weight: str
    carries: str
    todo: str


MEMBERS = "names in place of addresses, that DNS resolves in each realm, or a proxy"
ROUTERS = "no routing protocol over the gateway: a static route to the pool in each realm"
"""What helps several applications."""
