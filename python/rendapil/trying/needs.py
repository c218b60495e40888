"""How large pools have to be: how many hosts of each realm would have an alias at one time, if only hosts that others contact first had a static. An
alias lasts as long as OPERATING says. It doesn't depend on any pool that is given."""
import heapq
import struct
from collections.abc import Callable, Mapping, Sequence
from contextlib import suppress
from typing import Protocol

from rendapil.dns import named_in
from rendapil.numbers import ACK, DNS_PORT, FIN, LONG_TIMEOUT, NAME_HOLD, PING_HOLD, RST, SECOND, SYN, TCP, TCP_HOLD, UDP, UDP_TIMEOUT
from rendapil.packet import ICMP, Packet, is_host

HOUR, KNOWN = 3600 * SECOND, 100_000
"""An hour in nanoseconds, and the most hosts that are followed."""

HOLDS = {UDP: UDP_TIMEOUT, ICMP: PING_HOLD}
"""How long an alias lasts behind a frame. Behind one of TCP that depends on its flags."""


class Seen(Protocol):
    """What is known of a host."""

    contacted_first: bool


class Need:
    """The hosts of one realm that have an alias in the other one's pool: the most at one time and in one hour, and when first."""

    def __init__(self) -> None:
        self.most = self.most_at = self.in_hour = self.hour_at = 0
        self._ends: dict[int, int] = {}
        self._queue: list[tuple[int, int]] = []
        self._hour, self._in_hour = 0, set[int]()

    def use(self, address: int, moment: int, hold: int) -> None:
        """Notes a use of a host's alias, which then lasts for so long."""
        if self._queue and self._queue[0][0] <= moment:
            self._drop(moment)
        end = self._ends.get(address)
        if end is None:
            if len(self._ends) >= KNOWN:
                return
            heapq.heappush(self._queue, (moment + hold, address))
            self._ends[address] = moment + hold
            if len(self._ends) > self.most:
                self.most, self.most_at = len(self._ends), moment
        elif end < moment + hold:
            self._ends[address] = moment + hold
        if not self._hour <= moment < self._hour + HOUR:
            self._hour, self._in_hour = moment - moment % HOUR, set()
        if address not in self._in_hour:
            self._in_hour.add(address)
            if len(self._in_hour) > self.in_hour:
                self.in_hour, self.hour_at = len(self._in_hour), self._hour

    def _drop(self, moment: int) -> None:
        """Drops the aliases that have ended."""
        while self._queue and self._queue[0][0] <= moment:
            _, old = heapq.heappop(self._queue)
            if self._ends[old] > moment:
                heapq.heappush(self._queue, (self._ends[old], old))
            else:
                del self._ends[old]


class Needs:
    """What both pools need, frame by frame. `by_side` is by the realm of the hosts."""

    def __init__(self) -> None:
        self.by_side = Need(), Need()

    def take(self, packet: Packet, moment: int, hosts: Mapping[int, Seen], side_of: Callable[[int], int], by_use: Sequence[tuple[int, int]]) -> None:
        """Takes a datagram that goes to the gateway. `by_use` are those of its ends that have no static, each with its realm."""
        protocol, head, octets = packet.protocol, packet.head, packet.octets
        if protocol == TCP:
            self.use(by_use, octets[head + 13] if len(octets) >= head + 14 else 0, moment)
            return
        for side, address in by_use:
            self.by_side[side].use(address, moment, HOLDS.get(protocol, TCP_HOLD))
        if protocol == UDP and not packet.is_fragment and len(octets) > head + 20 and packet.number(head) == DNS_PORT:
            self._take_names(bytes(octets[head + 8 : packet.total]), side_of(packet.source), moment, hosts, side_of)

    def use(self, by_use: Sequence[tuple[int, int]], flags: int, moment: int) -> None:
        """Notes a segment of TCP of hosts without statics, each with its realm."""
        hold = LONG_TIMEOUT if flags & (SYN | ACK | FIN | RST) == ACK else TCP_HOLD
        for side, address in by_use:
            self.by_side[side].use(address, moment, hold)

    def _take_names(self, message: bytes, side: int, moment: int, hosts: Mapping[int, Seen], side_of: Callable[[int], int]) -> None:
        """Takes the hosts that an answer of DNS names."""
        with suppress(ValueError, LookupError, struct.error):
            for octets in named_in(message):
                address = int.from_bytes(octets)
                host = hosts.get(address)
                if side < 2 and is_host(address) and side_of(address) < 2 and not (host and host.contacted_first):
                    self.by_side[side].use(address, moment, NAME_HOLD)
