"""The workloads of `bench/run`: settings and two captures."""
from collections.abc import Callable, Iterator
from functools import partial
from itertools import cycle, islice

from datagrams import ETHERNET, REALMS, paced, record, tcp, udp, write_run

STATICS = """static = [
    { side = "left", host = "10.0.0.5", alias = "172.16.9.1" },
    { side = "right", host = "10.0.0.5", alias = "192.168.200.1" },
]
"""
SETTINGS = REALMS + STATICS
OVER_ETHERNET = (
    """
left = { pool_first = "192.168.200.1", pool_last = "192.168.200.254", link = "ethernet",
    gateway_mac = "02:00:00:00:00:01", next_mac = "02:00:00:00:00:02" }
right = { pool_first = "172.16.9.1", pool_last = "172.16.9.254", link = "ethernet",
    gateway_mac = "02:00:00:00:01:01", next_mac = "02:00:00:00:01:02" }
"""
    + STATICS
)
LENGTHS = (60, 576, 60, 1400)


def filling(length: int) -> bytes:
    """So many octets."""
    return bytes(i * 7 & 255 for i in range(length))


def from_one_side(folder: str, frames: int, lengths: tuple[int, ...] = LENGTHS) -> None:
    """UDP of one host, in turns of these lengths: half of it 60 octets, a quarter 576 and a quarter 1,400."""
    kinds = [udp("10.0.0.5", 4000, "192.168.200.1", 4001, filling(length - 28)) for length in lengths]
    write_run(folder, SETTINGS, paced(islice(cycle(kinds), frames), 1000000))


def over_ethernet(folder: str, frames: int) -> None:
    """The same in Ethernet frames."""
    front = bytes.fromhex("020000000001 020000000005 0800")
    kinds = [front + udp("10.0.0.5", 4000, "192.168.200.1", 4001, filling(length - 28)) for length in LENGTHS]
    write_run(folder, OVER_ETHERNET, paced(islice(cycle(kinds), frames), 1000000), link=ETHERNET)


def from_both_sides(folder: str, frames: int) -> None:
    """UDP and TCP of 253 hosts and, to every second frame, an answer: two thirds of the frames from the left."""

    def kinds(host: str, far: str) -> Iterator[bytes]:
        for length in LENGTHS:
            yield udp(host, 4000, far, 4001, filling(length - 28))
            yield tcp(host, 4000, far, 4001, 24, 1, 1, filling(length - 40))

    hosts = ["10.0.0.5"] + [f"10.0.1.{number}" for number in range(1, 253)]
    asked = [list(kinds(host, "192.168.200.1")) for host in hosts]
    answered = [list(kinds("10.0.0.5", f"172.16.9.{number + 1}")) for number in range(253)]
    sides: tuple[list[bytes], list[bytes]] = ([], [])
    for turn in range(frames * 2 // 3):
        moment = divmod(2 * turn, 1000000)
        sides[0].append(record(moment[0] + 1, moment[1], asked[turn % 253][turn // 253 % 8]))
        if turn % 2:
            sides[1].append(record(moment[0] + 1, moment[1] + 1, answered[turn % 253][turn // 253 % 8]))
    write_run(folder, SETTINGS, *sides)


WORKLOADS: dict[str, Callable[[str, int], None]] = {
    "UDP, one side": from_one_side,
    "the same over Ethernet": over_ethernet,
    "UDP and TCP of 253 hosts, both sides": from_both_sides,
    **{f"UDP of {length:,} octets, one side": partial(from_one_side, lengths=(length,)) for length in (60, 576, 1400)},
}
