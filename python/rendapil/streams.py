"""The octets that one host of a connection sends: what stands in them is found here for those who follow FTP and DNS over TCP."""
from collections.abc import Iterable, Iterator

from rendapil.numbers import DNS_PORT, FTP_PORT

TRACKED = (FTP_PORT, DNS_PORT)
"""The ports whose TCP connections the gateway follows octet by octet. It cuts and numbers their segments in its own way."""


def whole_of_parts(parts: Iterable[tuple[int, bytes]]) -> bytes:
    """All octets up to the first gap. Each part has its place, and they come by their places."""
    whole = bytearray()
    for place, octets in parts:
        if place <= len(whole) < place + len(octets):
            whole += octets[len(whole) - place :]
    return bytes(whole)


def messages_in(octets: bytes) -> Iterator[bytes]:
    """The messages of DNS, each with the two bytes of its length. The last one may be cut."""
    at = 0
    while at + 2 <= len(octets):
        end = at + 2 + int.from_bytes(octets[at : at + 2])
        yield octets[at:end]
        at = end
