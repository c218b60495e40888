"""A dry run of a plan: each client of one firm opens services of the other by their aliases, and the proved program runs over that."""
import os
import subprocess
import tempfile
from collections import Counter
from collections.abc import Iterable, Iterator
from ipaddress import IPv4Address
from itertools import islice
from typing import NamedTuple

from rendapil.files import Capture, Line, bare_head, lines, record_head, shown
from rendapil.frames import verdicts_of
from rendapil.numbers import ACK, DNS_PORT, FTP_PORT, LONG_TIMEOUT, SECOND, SIDES, SYN, TCP, UDP
from rendapil.packet import Packet
from rendapil.places import TOP
from rendapil.planning.firm import Firm
from rendapil.sayings import Fault

MOST_CALLS, MOST_TCP, MOST_SESSIONS, SERVICES = 60_000, 50_000, 4_000, 16
"""The most calls of a side, connections and sessions that are open at one time, and services of a server."""

STEP, BEGIN, SOURCE_PORT, SERVER_SAYS = SECOND // 10_000, 1_700_000_000 * SECOND, 40_000, 1000
"""How far frames are apart, when the first one comes, the client's port, and a server's first sequence number."""

DNS_QUESTION = bytes.fromhex("0007010000010000000000000972656865617273616c07696e76616c69640000010001")
SNMP_QUESTION = bytes.fromhex("302602010004067075626c6963a01902010102010002010030 0e300c06082b060102010101000500".replace(" ", ""))
"""What is asked of UDP ports whose payloads the gateway reads."""


class Call(NamedTuple):
    """A client of a side calls a server of the other one: its host, the server's host and alias, and the service."""

    side: int
    client: int
    server: int
    alias: int
    protocol: int
    port: int


Frame = tuple[int, int, bytes]
"""When a frame comes, from which side, and its datagram."""


def datagram(ends: tuple[int, int], protocol: int, payload: bytes) -> bytes:
    """A datagram with right checksums."""
    size = 20 + len(payload)
    head = b"\x45\0" + size.to_bytes(2) + b"\0\0\0\0\x40" + bytes([protocol, 0, 0]) + ends[0].to_bytes(4) + ends[1].to_bytes(4)
    packet = Packet(head + payload)
    packet.mend()
    return bytes(packet.octets)


def segment(ends: tuple[int, int], ports: tuple[int, int], numbers: tuple[int, int], flags: int) -> bytes:
    """A segment of TCP without data."""
    head = ports[0].to_bytes(2) + ports[1].to_bytes(2) + numbers[0].to_bytes(4) + numbers[1].to_bytes(4) + bytes([0x50, flags]) + b"\xff\xff\0\0\0\0"
    return datagram(ends, TCP, head)


def message(ends: tuple[int, int], ports: tuple[int, int], payload: bytes) -> bytes:
    """A datagram of UDP."""
    return datagram(ends, UDP, ports[0].to_bytes(2) + ports[1].to_bytes(2) + (8 + len(payload)).to_bytes(2) + b"\0\0" + payload)


def said(port: int, is_answer: bool) -> bytes:
    """The payload of a question or an answer to a port of UDP."""
    if port == DNS_PORT:
        return DNS_QUESTION[:2] + (b"\x81" if is_answer else b"\x01") + DNS_QUESTION[3:]
    if port in (161, 162):
        return SNMP_QUESTION.replace(b"\xa0\x19", b"\xa2\x19") if is_answer else SNMP_QUESTION
    return b"rehearsal"


class Rehearsal:
    """The calls of a plan, and what became of each."""

    def __init__(self, firms: list[Firm], statics: Iterable[tuple[int, int, int]], pools: list[tuple[int, int]]) -> None:
        servers: list[list[tuple[int, int]]] = [[], []]
        for side, host, alias in statics:
            servers[side].append((host, alias))
        self.possible = 0
        self.calls: list[list[Call]] = []
        fixed = [{host for host, _ in ones} for ones in servers]
        self.rooms = [pools[1 - side][1] - pools[1 - side][0] + 1 - len(fixed[side]) for side in (0, 1)]
        """How many hosts of a side may have an alias by use at one time."""
        for side, firm in enumerate(firms):
            offers = [
                (host, alias, *service)
                for host, alias in servers[1 - side]
                for service in sorted(firms[1 - side].hosts[host].answered)[:SERVICES]
                if service[0] in (TCP, UDP)
            ]
            self.possible += len(offers) * len(firm.hosts)
            self.calls.append(list(calls_of(side, sorted(firm.hosts), offers)))
        self.fixed = fixed
        self.verdicts: Counter[str] = Counter()
        self.refused: list[tuple[Call, str]] = []

    def batches(self, side: int) -> Iterator[list[Call]]:
        """The calls that may be open at one time: their clients find room in the pool, and their connections in the gateway."""
        batch: list[Call] = []
        clients: set[int] = set()
        counts: Counter[str] = Counter()
        for call in self.calls[side]:
            kind = "session" if call.protocol == TCP and call.port in (FTP_PORT, DNS_PORT) else "tcp" if call.protocol == TCP else "udp"
            is_new = call.client not in clients and call.client not in self.fixed[side]
            if is_new and len(clients) >= self.rooms[side] or counts["session"] >= MOST_SESSIONS // 2 or counts.total() >= MOST_TCP // 2:
                yield batch
                batch, clients = [], set()
                counts.clear()
                is_new = call.client not in self.fixed[side]
            batch.append(call)
            counts[kind] += 1
            if is_new:
                clients.add(call.client)
        if batch:
            yield batch

    def opening(self) -> Iterator[tuple[Call, Frame]]:
        """The first frame of each call, in the order of their moments. Between two batches all aliases end."""
        moment = BEGIN
        both = [list(self.batches(side)) for side in (0, 1)]
        for number in range(max(map(len, both))):
            for side in (0, 1):
                for call in both[side][number] if number < len(both[side]) else ():
                    ends, ports = (call.client, call.alias), (SOURCE_PORT, call.port)
                    octets = segment(ends, ports, (0, 0), SYN) if call.protocol == TCP else message(ends, ports, said(call.port, False))
                    yield call, (moment, side, octets)
                    moment += 4 * STEP
            moment += 2 * LONG_TIMEOUT

    def run(self, settings: str, program: list[str]) -> None:
        """Runs the program twice: over what clients send first, which shows their aliases, and over all."""
        with tempfile.TemporaryDirectory(prefix="rendapil-") as room:
            first = Run(room, "first", settings, program)
            first.write(frame for _, frame in self.opening())
            aliases = []
            for (call, _), (line, sent) in zip(self.opening(), first.events()):
                aliases.append(int.from_bytes(sent[12:16]) if sent else 0)
                self._note(call, line.verdict, not sent)
            whole = Run(room, "whole", settings, program)
            whole.write(frame for _, frame in self._dialogues(aliases))
            for (call, _), (line, _) in zip(self._dialogues(aliases), whole.events()):
                self.verdicts[line.verdict] += 1
                self._note(call, line.verdict, line.verdict != "pass")

    def _note(self, call: Call, verdict: str, is_refused: bool) -> None:
        """Keeps a call whose frame was refused."""
        if is_refused and len(self.refused) < 1000 and (not self.refused or self.refused[-1][0] != call):
            self.refused.append((call, verdict))

    def _dialogues(self, aliases: list[int]) -> Iterator[tuple[Call, Frame]]:
        """What both sides send: the call, its answer to the alias that the client got, and what follows on that."""
        for alias, (call, (moment, side, octets)) in zip(aliases, self.opening()):
            yield call, (moment, side, octets)
            if not alias:
                continue
            back, ports = (call.server, alias), (call.port, SOURCE_PORT)
            if call.protocol == TCP:
                yield call, (moment + STEP, 1 - side, segment(back, ports, (SERVER_SAYS, 1), SYN | ACK))
                yield call, (moment + 2 * STEP, side, segment((call.client, call.alias), ports[::-1], (1, SERVER_SAYS + 1), ACK))
            else:
                yield call, (moment + STEP, 1 - side, message(back, ports, said(call.port, True)))

    def told(self) -> Iterator[str]:
        """What became of it, in lines."""
        calls = sum(map(len, self.calls))
        share = "" if calls == self.possible else f" of {self.possible:,} that are possible: each client calls some, and each service is called"
        passed = self.verdicts["pass"]
        yield f"{calls:,} calls{share}. {passed:,} of {self.verdicts.total():,} frames passed the proved program"
        means = verdicts_of()
        for call, verdict in self.refused[:10]:
            service = f"{call.port}/{'tcp' if call.protocol == TCP else 'udp'}"
            why = f": {means[verdict].means}" if verdict in means else ""
            yield f"  {SIDES[call.side]} {IPv4Address(call.client)} to {IPv4Address(call.alias)}, which is {IPv4Address(call.server)}, {service}: {verdict}{why}"
        if len(self.refused) > 10:
            yield f"  and {len(self.refused) - 10:,} calls more"


def calls_of(side: int, clients: list[int], offers: list[tuple[int, int, int, int]]) -> Iterator[Call]:
    """The calls of a side: each client calls each service, or as many in turn as there is room for."""
    if not clients or not offers:
        return
    share = max(1, min(len(offers), MOST_CALLS // len(clients)))
    for number, client in enumerate(clients):
        for place in range(share):
            host, alias, protocol, port = offers[(number * share + place) % len(offers)]
            yield Call(side, client, host, alias, protocol, port)


class Run:
    """A run of the program over frames that are made here."""

    def __init__(self, room: str, name: str, settings: str, program: list[str]) -> None:
        self._inputs = [os.path.join(room, f"{name}-{side}.pcap") for side in SIDES]
        self._outputs = [os.path.join(room, f"{name}-{side}-out.pcap") for side in SIDES]
        self._report, self._settings, self._program = os.path.join(room, f"{name}.txt"), settings, program

    def write(self, frames: Iterable[Frame]) -> None:
        """Writes both inputs, and runs."""
        files = [open(path, "wb", 1 << 18) for path in self._inputs]
        try:
            for file in files:
                file.write(bare_head())
            for moment, side, octets in frames:
                files[side].write(record_head(moment, len(octets), len(octets)) + octets)
        finally:
            for file in files:
                file.close()
        words = [*self._program, "run", self._settings, *self._inputs, *self._outputs, self._report]
        done = subprocess.run(words, stdout=subprocess.PIPE, stderr=subprocess.STDOUT, text=True, errors="replace", check=False)
        if done.returncode:
            raise Fault(f"the rehearsal ended with status {done.returncode}: {shown(done.stdout.strip()[-300:])}")

    def events(self) -> Iterator[tuple[Line, bytes]]:
        """The line of each frame, and what went out for it."""
        with Capture(self._outputs[0]) as left, Capture(self._outputs[1]) as right, open(self._report, "rb") as report:
            sent = left.frames(), right.frames()
            for line in lines(report, self._report):
                if not isinstance(line, str):
                    yield line, b"".join(one.octets for one in islice(sent[1 - line.side], line.frames))


def rehearse(firms: list[Firm], statics: Iterable[tuple[int, int, int]], pools: list[tuple[int, int]], settings: str) -> Rehearsal:
    """Rehearses the settings of a plan."""
    rehearsal = Rehearsal(firms, statics, pools)
    if not any(rehearsal.calls):
        raise Fault("nothing can be rehearsed: no host of one side would call a server of the other")
    rehearsal.run(settings, [str(TOP / "rendapil"), "--quiet"])
    return rehearsal
