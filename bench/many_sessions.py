"""many_sessions.py FOLDER [KINDS [SESSIONS]]: writes settings and two raw captures with so many sessions that stay open, 4,096 where
none is given, whose ports take turns through KINDS: 21 and 53 where none are given.

A client of FTP says a PORT line in each of its own; in each of DNS a question and its answer go by, which names two hosts."""
import struct
import sys
from collections.abc import Iterator

from datagrams import REALMS, Event, Session, quad, record, write_run

folder = sys.argv[1]
kinds = [int(port) for port in (sys.argv[2] if len(sys.argv) > 2 else "21,53").split(",")]
count = int(sys.argv[3]) if len(sys.argv) > 3 else 4096
SETTINGS = (
    REALMS
    + """static = [
    { side = "left", host = "10.0.0.5", alias = "172.16.9.1" },
    { side = "right", host = "10.0.0.5", alias = "192.168.200.1" },
    { side = "right", host = "10.0.0.6", alias = "192.168.200.2" },
]
"""
)
QUESTION = b"\x03ftp\x05south\x07example\x03org\0" + struct.pack(">HH", 1, 1)


def unit(kind: int, hosts: list[str]) -> bytes:
    """A message over TCP that names hosts."""
    answers = b"".join(struct.pack(">HHHIH", 0xC00C, 1, 1, 3600, 4) + quad(host) for host in hosts)
    message = struct.pack(">6H", 7, kind, 1, len(hosts), 0, 0) + QUESTION + answers
    return struct.pack(">H", len(message)) + message


def session(number: int) -> Iterator[Event]:
    """A session by its number."""
    port = kinds[number % len(kinds)]
    way = Session(10000 + number, port, ("10.0.0.5", "172.16.9.1"), ("192.168.200.1", "10.0.0.5"))
    yield from way.opens()
    if port == 53:
        yield from way.says("left", unit(0x0100, []))
        yield from way.says("right", unit(0x8180, ["10.0.0.5", "10.0.0.6"]))
    else:
        yield way.frame("left", 24, b"PORT 10,0,0,5,156,64\r\n")


frames = [frame for number in range(count) for frame in session(number)]
sides = [
    [record(number // 1000000 + 1, number % 1000000, octets) for number, (side, octets) in enumerate(frames) if side == of]
    for of in ("left", "right")
]
write_run(folder, SETTINGS, *sides)
