"""Who speaks with whom in an ordinary capture, and the command that makes two realms of it."""
import os
import subprocess
import tempfile
from collections import Counter
from ipaddress import IPv4Network, collapse_addresses
from itertools import islice

from rendapil.any_capture import datagram_in, why_none
from rendapil.files import shown
from rendapil.packet import Packet, is_host
from rendapil.program import used
from rendapil.public import public_blocks
from rendapil.sayings import Fault, quoted
from rendapil.trying.reading import records
from rendapil.trying.oddities import Oddities
from rendapil.trying.telling import counted, verdicts_in
from rendapil.trying.two_realms import TwoRealms, write_captures

PAIRS, REHEARSED = 20_000, 100_000
"""The most pairs of hosts that are counted, and the most frames of a capture that are tried before it is asked for."""

Pairs = Counter[tuple[IPv4Network, IPv4Network]]


class Heard:
    """How many frames go between which two hosts, how many have no room in this, and what the others are."""

    def __init__(self, capture: str) -> None:
        self.pairs: Pairs = Counter()
        self.others: Counter[str] = Counter()
        self.more = self.frames = 0
        self.oddities = Oddities()
        found: Counter[tuple[int, int]] = Counter()
        for frame in records(capture):
            self.frames += 1
            datagram = datagram_in(frame.link, frame.octets)
            if not datagram:
                self.others[why_none(frame)] += 1
                continue
            self.oddities.take(Packet(datagram))
            ends = int.from_bytes(datagram[12:16]), int.from_bytes(datagram[16:20])
            if not all(map(is_host, ends)):
                self.others[
                    "IPv4 of loopback addresses"
                    if ends[0] >> 24 == ends[1] >> 24 == 127
                    else "IPv4 that isn't between two hosts (broadcast, multicast)"
                ] += 1
                continue
            pair = min(ends), max(ends)
            if pair in found or len(found) < PAIRS:
                found[pair] += 1
            else:
                self.more += 1
        self.pairs = Counter({(IPv4Network(one), IPv4Network(other)): count for (one, other), count in found.items()})

    def nothing(self) -> str:
        """What there is, where nothing is between two hosts."""
        if not self.frames:
            return "has no IPv4 between two hosts, since it has no frame"
        if set(self.others) == {"IPv4 of loopback addresses"}:
            return "has loopback addresses alone (127.0.0.1): capture between two machines"
        return "has no IPv4 between two hosts: " + ", ".join(f"{counted(count, 'frame')} of {what}" for what, count in self.others.most_common())


def between_blocks(hosts: Pairs) -> Pairs:
    """The same between blocks of 256 addresses."""
    found: Pairs = Counter()
    for (one, other), count in hosts.items():
        low, high = sorted((one.supernet(8), other.supernet(8)))
        found[low, high] += count
    return found


def parted(pairs: Pairs) -> tuple[list[IPv4Network], int]:
    """Blocks for one realm, so that many frames cross, and how many then do: the block of the most, and each further one that makes them more.
    Private blocks come first."""
    weights: dict[IPv4Network, Counter[IPv4Network]] = {}
    for (one, other), count in pairs.items():
        if one != other:
            weights.setdefault(one, Counter())[other] += count
            weights.setdefault(other, Counter())[one] += count
    left: set[IPv4Network] = set()
    crossing = 0
    for block in sorted(weights, key=lambda one: (not one.is_private, -weights[one].total(), one))[:1000]:
        gain = sum(-count if other in left else count for other, count in weights[block].items())
        if gain > 0 and (not left or block.is_private == next(iter(left)).is_private) and len(left) < 32:
            left.add(block)
            crossing += gain
    return list(collapse_addresses(left)), crossing


def rehearsed(capture: str, left: list[IPv4Network], program: str, is_public_same: bool) -> tuple[int, int, int] | None:
    """How many of the first frames were taken, how many went to the gateway, and how many passed. Nothing where the program isn't built."""
    if not os.access(program, os.X_OK):
        return None
    realms = TwoRealms(left, public_blocks(left) if is_public_same else [], True)
    frames = 0
    for frames, frame in enumerate(islice(records(capture), REHEARSED), 1):
        realms.survey([frame], False)
    try:
        realms.settle()
    except ValueError:
        return None
    with tempfile.TemporaryDirectory(prefix="rendapil-") as room:
        names = [f"{room}/{name}" for name in ("settings.toml", "left", "right", "left-out", "right-out", "report")]
        with open(names[0], "w", encoding="ascii") as file:
            file.write(realms.settings())
        counts = write_captures(names[1:3], realms.crossing(islice(records(capture), REHEARSED)))
        done = subprocess.run([program, "run", *names], stdout=subprocess.DEVNULL, stderr=subprocess.DEVNULL, check=False)
        return (frames, sum(counts), verdicts_in(names[5])["pass"]) if done.returncode == 0 else None


def tell_pairs(capture: str, name: str, called: str, program: str | None, is_public_same: bool) -> None:
    """Lists who speaks with whom, and the command that makes two realms of them."""
    heard = Heard(capture)
    hosts = heard.pairs
    if not hosts:
        raise Fault(f"{shown(name)} {heard.nothing()}")
    blocks = between_blocks(hosts)
    left, crossing = parted(blocks)
    pairs, of_hosts = blocks, parted(hosts)
    if of_hosts[1] > 2 * crossing:  # most frames stay within one block of 256 addresses
        pairs, (left, crossing) = hosts, of_hosts
    if not left:
        raise Fault(f"{shown(name)} has frames of one host alone: there is nobody for another realm")
    print("  Frames  Between")
    for (one, other), count in pairs.most_common(20):
        ends = [str(end).removesuffix("/32") for end in (one, other)]
        print(f"{count:8}  " + (f"hosts of {ends[0]}" if one == other else f"{ends[0]} and {ends[1]}"))
    if len(pairs) > 20:
        print(f"{sum(count for _, count in pairs.most_common()[20:]) + heard.more:8}  {len(pairs) - 20:,} pairs more")
    for what, count in heard.others.most_common():
        print(f"{count:8}  {what}: these don't go to a gateway")
    for line in heard.oddities.lines():
        print(f"\n{line[0].upper()}{line[1:]}.")
    print(
        f"\nThe blocks after --left become one realm, and all other hosts the other one. {passing(capture, left, program, is_public_same, crossing, heard.frames)}:\n"
    )
    option = "" if is_public_same else " --public"
    print(f"  {called} try {quoted(name)} --left {' '.join(map(str, left))}{option}")


def passing(capture: str, left: list[IPv4Network], program: str | None, is_public_same: bool, crossing: int, frames: int) -> str:
    """How many frames go to the gateway, and how many pass it."""
    tried = rehearsed(capture, left, program or str(used() or ""), is_public_same)
    if not tried:
        return f"With these, {crossing} of {counted(frames, 'frame')} {'goes' if crossing == 1 else 'go'} to the gateway. How many pass is told by the next command"
    looked_at, went, passed = tried
    first = f"the first {looked_at}" if looked_at < frames else str(looked_at)
    return f"With these, {went} of {first} frame{'' if looked_at == 1 else 's'} {'goes' if went == 1 else 'go'} to the gateway, and {passed} of these {'passes' if passed == 1 else 'pass'}"
