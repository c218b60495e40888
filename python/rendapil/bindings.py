"""Who is known by which alias, and when: the gateway's bindings, kept along from the frames that it took and those that it sent.

Nothing here is proved. It is written from the definitions, by the times of docs/OPERATING.md. Whatever the frames are, its room is bounded by
the gateway's own limits, and no frame ends it: an event that it can't follow is counted."""
import heapq
import struct
from bisect import bisect_right
from collections.abc import Callable, Iterable
from dataclasses import dataclass
from ipaddress import IPv4Address, IPv4Network
from itertools import accumulate, zip_longest

from rendapil.connections import Connection, Session, connection_begun
from rendapil.dns import named_in
from rendapil.document import Document, RealmTable, Side
from rendapil.numbers import DNS_PORT, JOIN_HOLD, NAME_HOLD, PING_HOLD, RST, SIDES, TCP, TCP_HOLD, UDP, UDP_TIMEOUT

OF_A_FRAME = ("Snapped", "NotIpv4", "BadHeader", "BadHeaderSum", "Fragment", "IpOptions", "BadFragment", "FragmentsFull")
"""The refusals of a fragment by itself: the datagram that it is of goes on waiting for its other fragments."""

USED = 1 << 14
"""The most pairs of ends of which it is kept whose they are."""

JOINED = 64
"""The most datagrams that the gateway joins at once."""


@dataclass(slots=True, eq=False)
class Binding:
    """A host, by its side and address, and what it is called on the other side."""

    side: int
    host: int
    alias: int
    fixed: bool
    first: int = 0
    last: int = 0
    end: int = 0
    uses: int = 0

    def lives(self, moment: int) -> bool:
        """Whether it hasn't ended yet."""
        return self.fixed or moment < self.end

    def use(self, moment: int, end: int) -> None:
        """Notes a use."""
        if not self.uses:
            self.first = moment
        self.uses += 1
        self.last = moment
        if self.end < end:
            self.end = end


class Pool:
    """The addresses by which hosts of the other realm are known in one."""

    def __init__(self, settings: RealmTable) -> None:
        self.first, self.last = int(IPv4Address(settings["pool_first"])), int(IPv4Address(settings["pool_last"]))
        self.holders: dict[int, Binding] = {}
        self.fixed = 0
        self.most, self.most_at = 0, 0  # how many were taken at once, and when first
        self._ends: list[tuple[int, int]] = []  # each address that is taken by use, with an end that its binding had once
        self._freed: list[int] = []  # the addresses below `_fresh` that are free again
        self._fresh = self.first  # no address from here on has been taken by use

    @property
    def size(self) -> int:
        """How many addresses it has."""
        return self.last - self.first + 1

    def level(self, moment: int) -> int:
        """How many of them stand for hosts."""
        while self._ends and self._ends[0][0] <= moment:
            _, alias = heapq.heappop(self._ends)
            binding = self.holders.get(alias)
            if binding and binding.lives(moment):
                heapq.heappush(self._ends, (binding.end, alias))
            else:
                heapq.heappush(self._freed, alias)
        return self.fixed + len(self._ends)

    def take(self, binding: Binding, moment: int) -> None:
        """Lets an address stand for a host."""
        if binding.fixed:
            self.fixed += 1
        else:
            self._take_out(binding.alias, moment)
            heapq.heappush(self._ends, (binding.end, binding.alias))
        self.holders[binding.alias] = binding
        if (level := self.level(moment)) > self.most:
            self.most, self.most_at = level, moment

    def drop(self, binding: Binding, moment: int) -> None:
        """Lets an address stand for its host no more. Its binding may live only where the table was wrong."""
        self.level(moment)
        del self.holders[binding.alias]
        if binding.lives(moment):
            self._ends = [one for one in self._ends if one[1] != binding.alias]
            heapq.heapify(self._ends)
            heapq.heappush(self._freed, binding.alias)

    def least_free(self, moment: int) -> int:
        """The alias that a host gets which has none. LookupError where all are taken."""
        self.level(moment)
        while self._fresh in self.holders and self.holders[self._fresh].fixed:
            self._fresh += 1
        if self._freed:
            return self._freed[0]
        if self._fresh > self.last:
            raise LookupError("the pool is full")
        return self._fresh

    def _take_out(self, alias: int, moment: int) -> None:
        """Takes an address out of those that are free. It is another than the least one only where the table was wrong."""
        if alias == self.least_free(moment) and alias < self._fresh:
            heapq.heappop(self._freed)
            return
        if alias < self._fresh:
            self._freed.remove(alias)
        else:
            self._freed += [free for free in range(self._fresh, alias) if free not in self.holders]
            self._fresh = alias + 1
        heapq.heapify(self._freed)


class Blocks:
    """The addresses that mean the same hosts in both realms."""

    def __init__(self, blocks: Iterable[str]) -> None:
        ranges = sorted((int(block[0]), int(block[-1])) for block in map(IPv4Network, blocks))
        self._firsts = [first for first, _ in ranges]
        # The greatest address of a block and of those before it.
        self._lasts = list(accumulate((last for _, last in ranges), lambda one, other: max(one, other)))

    def __contains__(self, address: int) -> bool:
        """Whether an address lies in one of them."""
        place = bisect_right(self._firsts, address)
        return place > 0 and address <= self._lasts[place - 1]


def pool_of(settings: Document, side: Side) -> tuple[int, int]:
    """First and last address of a realm's pool."""
    return int(IPv4Address(settings[side]["pool_first"])), int(IPv4Address(settings[side]["pool_last"]))


def ended_of(bindings: list[Binding], moment: int) -> bool:
    """Whether one of them has ended."""
    for one in bindings:  # any() takes twice as long for two, and most frames come here
        if not one.fixed and moment >= one.end:
            return True
    return False


class Bindings:
    """The bindings of both realms, event by event. `told` is called with each new one. What the gateway sent shows what it called each address: where
    the table says otherwise, it takes over what was shown, and the event is one of those that are missed."""

    def __init__(self, settings: Document, told: Callable[[Binding], None]) -> None:
        self.pools = tuple(Pool(settings[side]) for side in SIDES)
        self.missed = 0  # events that couldn't be followed
        self._told = told
        self._same = Blocks(settings.get("same", []))
        self._hosts: dict[tuple[int, int], Binding] = {}
        self._connections: dict[bytes, Connection] = {}
        self._many = 1024  # connections, at which those that have ended are dropped
        self._parts: dict[bytes, tuple[int, bytearray]] = {}
        self._is_astray = False
        self._used: tuple[dict[bytes, list[Binding]], ...] = (
            {},
            {},
        )  # by the side and the ends of a datagram that came and went, as long as nothing is bound
        for row in settings.get("static", []):
            self._bind(Binding(SIDES.index(row["side"]), int(IPv4Address(row["host"])), int(IPv4Address(row["alias"])), True), 0)

    def event(self, side: int, moment: int, verdict: str, came: bytes, sent: list[bytes]) -> None:
        """A datagram that came from a side, and those that were sent for it to the other."""
        self._is_astray = False
        try:
            if len(came) >= 20 and (came[7] or came[6] & 0x3F) and verdict not in OF_A_FRAME:
                came = self._joined(side, moment, came, verdict == "held")
            if verdict == "pass":
                follow = self._segment if came[9] == TCP else self._message
                follow(side, moment, came, sent)
        except (ValueError, LookupError, struct.error):
            self._is_astray = True  # what a host sends must not end what follows it
        self.missed += self._is_astray

    def connected(self, moment: int) -> set[tuple[int, int]]:
        """The hosts, each by side and address, that have an established connection on which they sent more than once."""
        return {
            (side, int.from_bytes(key[6 * side : 6 * side + 4]))
            for key, one in self._connections.items()
            if one.is_established and moment < one.end
            for side in (0, 1)
            if one.again >> side & 1
        }

    def held_by(self, side: int, host: int) -> Binding | None:
        """The binding of a host, though it may have ended."""
        return self._hosts.get((side, host))

    def is_same(self, address: int) -> bool:
        """Whether an address means the same host in both realms."""
        return address in self._same

    def _bind(self, binding: Binding, moment: int) -> None:
        """A host and its alias forget whom they stood for before."""
        for used in self._used:
            used.clear()
        pool = self.pools[1 - binding.side]
        for before in (self._hosts.get((binding.side, binding.host)), pool.holders.get(binding.alias)):
            if before and pool.holders.get(before.alias) is before:
                pool.drop(before, moment)
                del self._hosts[before.side, before.host]
        self._hosts[binding.side, binding.host] = binding
        pool.take(binding, moment)
        self._told(binding)

    def _joined(self, side: int, moment: int, came: bytes, waits: bool) -> bytes:
        """The datagram of a fragment, with all that came of it so far. It is forgotten unless it waits for more."""
        while self._parts and (next(iter(self._parts.values()))[0] + JOIN_HOLD <= moment or len(self._parts) > JOINED):
            del self._parts[next(iter(self._parts))]
        key = bytes([side]) + came[4:6] + came[9:10] + came[12:20]
        _, whole = self._parts.setdefault(key, (moment, bytearray()))
        begin, payload = (int.from_bytes(came[6:8]) & 0x1FFF) * 8, came[20 : int.from_bytes(came[2:4])]
        whole.extend(bytes(max(0, begin + len(payload) - len(whole))))
        whole[begin : begin + len(payload)] = payload
        if waits:
            return came
        del self._parts[key]
        return came[:2] + struct.pack(">H", 20 + len(whole)) + came[4:6] + bytes(2) + came[8:20] + whole

    def _known(self, side: int, address: int, moment: int) -> Binding | None:
        """The binding of an address as it is written on one side, if it lives: that of the host for which it stands, or of the host itself."""
        binding = self.pools[side].holders.get(address) or self._hosts.get((side, address))
        return binding if binding and binding.lives(moment) else None

    def _use(self, side: int, moment: int, written: bytes, shown: bytes | None, hold: int) -> Binding | None:
        """An address as it is written on one side, and what it is called on the other. An answer that was cut doesn't show it."""
        address = int.from_bytes(written)
        binding = self._known(side, address, moment)
        if not binding and (written[0] in (0, 127) or written[0] >= 224 or address in self._same):
            self._is_astray |= shown is not None and shown != written
            return None
        image = int.from_bytes(shown) if shown else None
        if binding and image in (None, binding.host if binding.side != side else binding.alias):
            binding.use(moment, moment + hold)
            return binding
        return self._bound(side, moment, address, image, hold)

    def _bound(self, side: int, moment: int, address: int, image: int | None, hold: int) -> Binding:
        """The new binding of an address. The gateway gives a host the least free alias: where another one was shown, the table was wrong."""
        own, known = self.pools[side], self._known(side, address, moment)
        is_alias = own.first <= address <= own.last
        least = None if known or is_alias else self.pools[1 - side].least_free(moment)
        image = least if image is None else image
        self._is_astray |= image != least
        if image is None:
            raise LookupError("an alias that stands for nobody")
        ends = (1 - side, image, address) if is_alias else (side, address, image)
        binding, pool = Binding(*ends, False, end=moment + hold), own if is_alias else self.pools[1 - side]
        held = pool.holders.get(binding.alias)
        if not pool.first <= binding.alias <= pool.last or any(one and one.fixed for one in (known, held)):
            raise LookupError("no alias, or the one of a static")
        self._bind(binding, moment)
        binding.use(moment, moment + hold)
        return binding

    def _header(self, side: int, moment: int, came: bytes, sent: list[bytes], hold: int) -> None:
        """Both addresses of a datagram. Those of one between the same ends are the same, as long as no address is bound and theirs live."""
        used, ends = self._used[side], came[12:20] + sent[0][12:20]
        known = used.get(ends)
        if known is None or ended_of(known, moment):
            found = [self._use(side, moment, came[at : at + 4], sent[0][at : at + 4], hold) for at in (12, 16)]
            if not self._is_astray and len(used) < USED and len(ends) == 16:
                used[ends] = list(filter(None, found))
            return
        for one in known:
            one.use(moment, moment + hold)

    def _message(self, side: int, moment: int, came: bytes, sent: list[bytes]) -> None:
        """A datagram of UDP or ICMP: its addresses, and those that a DNS message names."""
        self._header(side, moment, came, sent, UDP_TIMEOUT if came[9] == UDP else PING_HOLD)
        if came[9] == UDP and DNS_PORT in struct.unpack_from(">HH", came, 20):
            names, images = named_in(came[28:]), named_in(sent[0][28:])
            for name, shown in zip_longest(names, images[: len(names)]):
                self._use(side, moment, name, shown, NAME_HOLD)

    def _segment(self, side: int, moment: int, came: bytes, sent: list[bytes]) -> None:
        """A segment of TCP: its addresses, and what its session names."""
        ends = came[12:16] + came[20:22], sent[0][16:20] + came[22:24]
        key = ends[side] + ends[1 - side]
        known = self._connections.get(key)
        if known and known.end <= moment:
            known = None
        flags = came[33]
        if flags & RST and (not known or known.is_ended_by(side, came)):
            connection, hold = known, TCP_HOLD
            self._connections.pop(key, None)
        else:
            if known and not known.is_closing:
                connection = known
            else:
                connection = self._connections[key] = connection_begun(known, came)
            hold = connection.note(side, flags)
            connection.end = moment + hold
        self._header(side, moment, came, sent, hold)
        if connection and connection.session:
            self._spoken(connection.session, side, moment, came, sent, hold)
        if len(self._connections) > self._many:
            self._forget_connections(moment)

    def _spoken(self, session: Session, side: int, moment: int, came: bytes, sent: list[bytes], hold: int) -> None:
        """Follows the streams of a session. What a session of DNS has named is used by each of its segments."""
        new = shown = b""
        if not came[33] & RST:
            new, shown = session.comes[side].take(came), b"".join(map(session.goes[side].take, sent))
        if session.port != DNS_PORT:
            return
        messages, images = list(session.comes[side].messages(new)), list(session.goes[side].messages(shown))
        named = [[address for message in some for address in named_in(message)] for some in (messages, images)]
        if len(messages) != len(images) or len(named[0]) != len(named[1]):
            session.port = 0  # what it names isn't followed any more
            raise ValueError("messages that don't belong together")
        for written, alias in zip(*named):
            if binding := self._use(side, moment, written, alias, hold):
                session.named[side][binding] = None
        for bindings in session.named:
            for binding in bindings:
                binding.use(moment, moment + hold)

    def _forget_connections(self, moment: int) -> None:
        """Drops those that have ended, since there are many."""
        self._connections = {key: one for key, one in self._connections.items() if moment < one.end}
        self._many = 1024 + 2 * len(self._connections)
