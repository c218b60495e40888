"""What a real device calls each host, by its captures: which frame went out for which, whatever the device changed in it; how far two clocks are apart;
and settings with the device's own aliases, by which the reference runs."""
from collections import Counter
from collections.abc import Iterable, Iterator
from dataclasses import dataclass, field
from functools import lru_cache
from ipaddress import IPv4Address
from zlib import crc32

from rendapil.bindings import Blocks, pool_of
from rendapil.comparing.captures import Bare, Joiner, Links, frames
from rendapil.document import Document
from rendapil.numbers import SECOND, SIDES, TCP, UDP
from rendapil.packet import ICMP, is_host
from rendapil.settings_text import oid_table, pool_table, same_line, static_table

SAMPLE, APART = 20_000, 2 * SECOND
"""About how many frames show how two clocks stand, and how long a frame may stay in the device while its hosts are learnt."""

PARTS, DRIFTED = 16, SECOND // 5
"""Into how many parts of time captures are cut to see a drift, and from which drift on it is followed."""

VOTES, STATICS, FEW = 20, 12_000, 3
"""How many frames of one pair of hosts are looked at in each second, for how many hosts there is room in the settings, and how many frames of another
alias are a fault of a binding, and not of these frames."""


FLAGS = [bytes([flags]) for flags in range(8)]
"""The flags FIN, SYN and RST as octets."""


def identity(datagram: bytes, has_ports: bool = True) -> bytes:
    """What a gateway leaves as it is in most frames, without addresses. Nothing where too little is left to tell frames apart."""
    head, protocol = (datagram[0] & 15) * 4, datagram[9]
    if protocol == TCP and len(datagram) >= head + 20:
        offset, flags = (datagram[head + 12] >> 4) * 4, datagram[head + 13] & 7
        return b"t" + datagram[head + (0 if has_ports else 4) : head + 8] + FLAGS[flags] + datagram[head + offset :]
    if protocol == UDP and len(datagram) >= head + 8:
        return b"u" + (datagram[head : head + 4] if has_ports else b"") + datagram[head + 8 :] + (b"" if len(datagram) > head + 12 else datagram[4:6])
    if protocol == ICMP and len(datagram) >= head + 8:
        if datagram[head] in (0, 8):
            return b"i" + datagram[head : head + 2] + (datagram[head + 4 : head + 6] if has_ports else b"") + datagram[head + 6 :]
        return b"e" + datagram[head : head + 2] + datagram[head + 12 : head + 14] + datagram[head + 17 : head + 18]
    return bytes([protocol]) + datagram[head:]


def whole_frames(path: str) -> Iterator[tuple[int, bytes]]:
    """The same with fragments joined."""
    joiner = Joiner()
    for moment, datagram in frames(path):
        if datagram[6] & 0x3F or datagram[7]:
            datagram = joiner.take(datagram)
        if datagram:
            yield moment, datagram


def is_error(datagram: bytes) -> bool:
    """Whether it is an ICMP error: devices give these sources of their own choice."""
    return datagram[(datagram[0] & 15) * 4 :][:1] not in (b"\0", b"\x08")


# Two clocks.


@dataclass
class Clock:
    """By how much the right link's clock is ahead at a moment, and how much it gains in a nanosecond from then on."""

    begin: int = 0
    ahead: int = 0
    gain: float = 0.0

    def at(self, moment: int) -> int:
        """By how much it is ahead at a moment of its own."""
        return self.ahead + round(self.gain * (moment - self.begin))

    def __bool__(self) -> bool:
        return bool(self.ahead or self.gain)


def passages(came: Bare, went: Bare, side: int) -> list[tuple[int, int]]:
    """How long frames from a side took to the other one, by the clocks of both, each with its moment by the right one. Of many frames those with some
    octets count, and only those that can't be mistaken."""
    share = max(1, len(came.numbers) // SAMPLE)
    seen: dict[bytes, int | None] = {}
    for moment, datagram in whole_frames(came.path):
        key = identity(datagram)
        if not crc32(key) % share:
            seen[key] = None if key in seen else moment
    # Most segments are told apart by their ports and sequence number, which their identity begins with.
    fronts = {key[1:9] for key in seen if key[:1] == b"t"}
    found: dict[bytes, tuple[int, int] | None] = {}
    for moment, datagram in frames(went.path):
        if datagram[0] == 0x45 and datagram[9] == TCP and len(datagram) >= 40 and datagram[20:28] not in fronts:
            continue
        key = identity(datagram)
        if (came_at := seen.get(key)) is not None:
            found[key] = None if key in found else (came_at if side else moment, moment - came_at)
    return sorted(one for one in found.values() if one)


def middle(values: Iterable[int]) -> int:
    """The median, the upper one of two."""
    known = sorted(values)
    return known[len(known) // 2]


def clock_of(links: Links) -> Clock:
    """How the right side's clock stands to the left one's, if frames seem to go out before they came, or if it drifts by more than a frame may take.
    Without that, they are one clock."""
    ways = [passages(links.came[side], links.went[1 - side], side) for side in (0, 1)]
    if not all(ways):
        known, sign = (ways[0], 1) if ways[0] else (ways[1], -1)
        delay = middle(one for _, one in known) if known else 0
        return Clock(0, min(delay, 0) * sign)
    (at, there, gain), (back_at, back, loss) = map(line_through, ways)
    back += round(loss * (at - back_at))
    span = max(way[-1][0] for way in ways) - min(way[0][0] for way in ways)
    if abs(gain - loss) / 2 * span > DRIFTED and abs(gain + loss) * 4 < abs(gain - loss):
        return Clock(at, (there - back) // 2, (gain - loss) / 2)
    return Clock() if min(there, back) >= 0 else Clock(at, (there - back) // 2)


def line_through(points: list[tuple[int, int]]) -> tuple[int, int, float]:
    """The line along which points lie, by the medians of its parts: a place, the value there, and the slope. No slope where there are few points."""
    size = max(1, len(points) // PARTS)
    parts = [points[place : place + size] for place in range(0, len(points) - size + 1, size)]
    at, value = middle(x for x, _ in points), middle(y for _, y in points)
    if len(points) < 4 * PARTS:
        return at, value, 0.0
    ends = [(middle(x for x, _ in part), middle(y for _, y in part)) for part in parts]
    slopes = sorted((other[1] - one[1]) / max(1, other[0] - one[0]) for one in ends for other in ends if one[0] < other[0])
    slope = slopes[len(slopes) // 2] if slopes else 0.0
    known = sorted(y - slope * (x - at) for x, y in ends)
    return at, round(known[len(known) // 2]), slope


# Who is called what.


@dataclass
class Learnt:
    """Who is called what by the device: by side and host, how many frames had which alias, and the other way round. `faults` are its bindings that
    contradict each other or the settings, each as cause and example. `fixed` are the hosts that have a static, and `first` is when a host was seen first.
    """

    votes: Counter[tuple[int, int, int]] = field(default_factory=Counter)
    faults: list[tuple[str, str]] = field(default_factory=list)
    chosen: dict[tuple[int, int], int] = field(default_factory=dict)
    fixed: set[tuple[int, int]] = field(default_factory=set)
    first: dict[tuple[int, int], int] = field(default_factory=dict)
    spans: dict[tuple[int, int, int], list[int]] = field(default_factory=dict)
    """When the first and the last frame were that had this alias."""

    def learn(self, links: Links, has_ports: bool) -> None:
        """Looks at all four captures."""
        for side in (0, 1):
            self._learn_from(side, links.came[side].path, links.went[1 - side].path, has_ports)

    def _learn_from(self, side: int, came: str, went: str, has_ports: bool) -> None:
        """Finds for the frames that came from a side those that went out to the other one."""
        new: dict[bytes, tuple[bytes, int] | None] = {}
        old: dict[bytes, tuple[bytes, int] | None] = {}
        looked: dict[bytes, int] = {}
        heard: dict[bytes, int] = {}
        incoming, turned, second, heard_second = whole_frames(came), 0, 0, 0
        waiting = next(incoming, None)
        for moment, datagram in frames(went):
            while waiting and waiting[0] <= moment:
                came_at, octets = waiting
                waiting = next(incoming, None)
                if came_at // SECOND != heard_second:
                    heard_second = came_at // SECOND
                    heard.clear()
                ends = octets[12:20]
                heard[ends] = count = heard.get(ends, 0) + 1
                if count > 4 * VOTES:
                    continue
                key = identity(octets, has_ports)
                known = new[key] if key in new else old.get(key, (ends, 0))
                new[key] = (ends, came_at) if known and known[0] == ends else None
                if came_at > turned + APART:
                    old, new, turned = new, {}, came_at
            if moment // SECOND != second:
                second = moment // SECOND
                looked.clear()
            ends = datagram[12:20]
            if (count := looked.get(ends, 0)) >= VOTES or datagram[9] == ICMP and is_error(datagram):
                continue
            looked[ends] = count + 1
            key = identity(datagram, has_ports)
            found = new[key] if key in new else old.get(key)
            if found and moment - found[1] <= APART:
                self._vote(side, moment, found[0], ends)

    def _vote(self, side: int, moment: int, came: bytes, went: bytes) -> None:
        """Takes a frame: its source's alias, and whose alias its destination is."""
        for key in self._pairs_of(side, came, went):
            self.votes[key] += 1
            span = self.spans.get(key)
            if not span:
                self.spans[key] = [moment, moment]
            elif moment > span[1]:
                span[1] = moment
            elif moment < span[0]:
                span[0] = moment

    @staticmethod
    @lru_cache(maxsize=8192)
    def _pairs_of(side: int, came: bytes, went: bytes) -> tuple[tuple[int, int, int], tuple[int, int, int]]:
        """Each host with its alias, by its side: of a frame's source and of its destination."""
        host, alias, far_alias, far_host = (int.from_bytes(part) for part in (came[:4], went[:4], came[4:], went[4:]))
        return (side, host, alias), (1 - side, far_host, far_alias)

    def changes(self) -> list[tuple[int, int]]:
        """When aliases changed hands, or hosts their alias: each between the last frame with the old one and the first with the new one. Those that were in
        use side by side are contradictions, and aren't in it."""
        holders: dict[tuple[str, int, int], list[list[int]]] = {}
        for (side, host, alias), span in self.spans.items():
            if self.votes[side, host, alias] >= FEW and host != alias:
                holders.setdefault(("alias", side, alias), []).append(span)
                holders.setdefault(("host", side, host), []).append(span)
        found = []
        for spans in holders.values():
            spans.sort()
            found += [(one[1], other[0]) for one, other in zip(spans, spans[1:]) if one[1] < other[0]]
        return sorted(set(found), key=lambda one: one[1])

    def choose(self, settings: Document) -> None:
        """Chooses one alias for each host, that of the most frames, and tells where the device contradicts itself or the settings."""
        for (side, host, _), (first_seen, _) in self.spans.items():
            self.first[side, host] = min(first_seen, self.first.get((side, host), first_seen))
        same = Blocks(settings.get("same", []))
        pools = [pool_of(settings, side) for side in SIDES]
        fixed = {(SIDES.index(row["side"]), int(IPv4Address(row["host"]))): int(IPv4Address(row["alias"])) for row in settings.get("static", [])}
        holders: dict[tuple[int, int], int] = {}
        aliases: dict[tuple[int, int], int] = {}
        for (side, host, alias), count in sorted(self.votes.items(), key=lambda one: -one[1]):
            first, last = pools[1 - side]
            far = f"{SIDES[1 - side]} pool"
            if not is_host(host) or host == alias or host in same or pools[side][0] <= host <= pools[side][1]:
                continue
            if not first <= alias <= last:
                self._fault(f"alias outside of the {far}", side, host, alias, count)
            elif (side, host) in aliases:
                self._fault("one host has two aliases", side, host, alias, count, f", and {IPv4Address(aliases[side, host])} in most")
            elif (side, alias) in holders:
                self._fault("one alias stands for two hosts", side, host, alias, count, f", and {IPv4Address(holders[side, alias])} has it in most")
            else:
                aliases[side, host], holders[side, alias] = alias, host
                if fixed.get((side, host), alias) != alias:
                    self._fault("other alias than the settings say", side, host, alias, count, f", by the settings {IPv4Address(fixed[side, host])}")
        for one, alias in fixed.items():
            if one not in aliases and (one[0], alias) not in holders:
                aliases[one], holders[one[0], alias] = alias, one[1]
        self.chosen, self.fixed = aliases, set(fixed)

    def _fault(self, cause: str, side: int, host: int, alias: int, count: int, more: str = "") -> None:
        """Keeps a fault of several frames. That of a few is told of these frames."""
        if count < FEW:
            return
        self.faults.append((cause, f"{SIDES[side]} host {IPv4Address(host)} is {IPv4Address(alias)} in {count} frames that were looked at{more}"))

    def is_early(self, side: int, host: int, moment: int) -> bool:
        """Whether a host without a static hadn't been seen by then: a device needn't know it."""
        return (side, host) in self.chosen and (side, host) not in self.fixed and moment < self.first.get((side, host), 1 << 63)

    def settings_text(self, settings: Document, is_by_use: bool = False) -> str:
        """Settings of the reference: with these aliases, bare datagrams, and fragments joined. `is_by_use` leaves out those of hosts without a static."""
        lines = ["# Written by rendapil compare: the aliases are those that the device gave.", 'fragments = "join"']
        if settings.get("same"):
            lines.append(same_line(settings["same"]))
        lines += [pool_table(side, *pool_of(settings, name)) for side, name in enumerate(SIDES)]
        kept = [(key, alias) for key, alias in list(self.chosen.items())[:STATICS] if not is_by_use or key in self.fixed]
        lines += [static_table(side, host, alias) for (side, host), alias in kept]
        lines += [oid_table(row["prefix"], row["skip"]) for row in settings.get("oid", [])]
        return "\n".join(lines) + "\n"
