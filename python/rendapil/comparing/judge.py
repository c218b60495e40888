"""What a real device does otherwise than the reference, by cause: frames that are equal are dropped, those that belong together are asked rule by rule,
and of TCP the octets are compared."""
import os
import struct
import subprocess
from collections.abc import Iterable
from dataclasses import dataclass
from ipaddress import IPv4Address

from rendapil.bindings import Blocks
from rendapil.comparing.bindings import Learnt
from rendapil.comparing.captures import Bare, Links
from rendapil.comparing.causes import (
    BY_RIGHT,
    DIFFERENT,
    ERRORS,
    PASSED,
    RULES,
    UNSURE,
    Groups,
    Refused,
    ends,
    pairs,
    service,
    spoken,
    sum_differs,
    transport,
)
from rendapil.comparing.match import KEPT, Came, Due, Match, Reference, Sent, is_tracked, rematched, sent_by
from rendapil.comparing.streams import MISSED, PROXY, ROOM, Direction, Segment, Stream, segment_of, split_by_syn
from rendapil.document import Document
from rendapil.files import IN, OUT
from rendapil.numbers import ACK, FIN, RST, SIDES, SYN, TCP
from rendapil.packet import ICMP, Packet
from rendapil.sayings import Fault
from rendapil.streams import TRACKED

LOSSES = (
    "frame lost",
    "frame that nobody sent",
    "TCP: octets lost",
    "FTP: octets lost",
    "TCP: a SYN",
    "TCP: a FIN",
    "TCP: a RST",
    "TCP: acknowledgement numbers",
)
"""What causes begin with that captures show too which miss frames."""

EDGE = 20_000_000
"""How near to the ends of the captures a frame isn't missed, in nanoseconds."""

NOBODY = "nothing. Or the incoming capture misses a frame"

Connection = bytes


@dataclass
class Options:
    """What the user allows, and for how long a frame may stay in the device."""

    any_ttl: bool
    lossy: bool
    window: int
    program: list[str]
    room: str


def run_reference(options: Options, settings: str, came: Iterable[str], name: str) -> Reference:
    """Runs the proved program."""
    files = [os.path.join(options.room, f"{part}-{name}.pcap") for part in SIDES] + [os.path.join(options.room, f"{name}-report.txt")]
    inputs = list(came)
    done = subprocess.run(
        [*options.program, "run", settings, *inputs, *files], stdout=subprocess.PIPE, stderr=subprocess.STDOUT, text=True, check=False
    )
    if done.returncode:
        raise Fault(f"the reference ended with status {done.returncode}: {done.stdout.strip()[-300:]}")
    return Reference((inputs[0], inputs[1]), (files[0], files[1]), files[2])


class Judge:
    """Compares, and keeps what it finds in `groups`."""

    def __init__(self, settings: Document, links: Links, learnt: Learnt, options: Options) -> None:
        self.links, self.learnt, self.options, self.groups = links, learnt, options, Groups()
        self._same = Blocks(settings.get("same", []))
        self._alias = learnt.chosen
        self._host = {(side, alias): host for (side, host), alias in learnt.chosen.items()}
        self._begin, self._end = period(links, options.window)

    def _matched(self, settings: str, name: str) -> tuple[Reference, Match]:
        """Runs the reference, and drops what is equal."""
        reference, match = run_reference(self.options, settings, [file.path for file in self.links.came], name), Match(self.options.window)
        match.read(reference, self.links)
        return reference, match

    def judge(self, settings: str, by_use: str) -> Match:
        """Runs the reference and compares. Where hosts have no static, it also runs with the aliases that the reference gives by use: a device may give
        them in the same way. That by which more is equal counts."""
        for cause, text in self.learnt.faults:
            self.groups.add(cause, DIFFERENT, self._begin, text)
        self._settings = settings
        self.reference, match = self._matched(settings, "reference")
        if set(self._alias) - self.learnt.fixed and match.counts["equal"] < match.counts["reference"]:
            reference, other = self._matched(by_use, "by-use")
            if other.counts["equal"] > match.counts["equal"]:
                self.reference, match, self._settings = reference, other, by_use
        if match.counts["too many"]:
            cause = f"frames that differ, behind the first {KEPT:,}: are these captures of such a device, and are left and right in their order?"
            self.groups.add(cause, DIFFERENT, self._begin, "", count=match.counts["too many"])
        self._tell_sums(match)
        self._tell_ttls(match)
        self._tell_pairs(match)
        refused = Refused(match.refused)
        match.sent = [sent for sent in match.sent if not self._tell_extra(sent, refused)]
        self._tell_tcp(match)
        self._doubt_losses()
        return match

    def _doubt_losses(self) -> None:
        """Where captures are known to miss frames, what is lost or sent by nobody is no difference."""
        self.misses = sum(row.count for row in self.groups.of(UNSURE) if row.cause.endswith(MISSED))
        if self.misses or self.options.lossy:
            for row in self.groups.of(DIFFERENT) + self.groups.of(BY_RIGHT):
                if row.cause.startswith(LOSSES) or row.cause.endswith(PROXY):
                    row.kind = UNSURE

    # Places in words.

    def came_at(self, came: Came) -> str:
        """Where a frame stands that came."""
        return f"event {came.number} of the reference, {ends(came.datagram)} on the {SIDES[came.side]}"

    def sent_at(self, sent: Sent) -> str:
        """Where a frame stands that the device sent."""
        file = self.links.went[sent.side]
        return f"frame {file.numbers[sent.place]} of {os.path.basename(file.name)}, {ends(sent.datagram)}"

    def is_edge(self, moment: int) -> bool:
        """Whether a frame is too near to the ends of the captures to be missed."""
        return moment < self._begin or moment > self._end

    # Sums, TTLs and frames that belong together.

    def _tell_sums(self, match: Match) -> None:
        """Frames that are equal but for a wrong checksum."""
        found, _ = rematched(match)
        for _due, sent, _right in found:
            self.groups.add(sum_differs(sent), DIFFERENT, sent.moment, self.sent_at(sent))
        for _due, sent in match.header:
            self.groups.add("checksum of the IPv4 header wrong", DIFFERENT, sent.moment, self.sent_at(sent))
        match.counts["equal"] += len(found)

    def _tell_ttls(self, match: Match) -> None:
        """Frames that are equal but for their TTL."""
        for due, sent in match.ttl:
            self._tell_ttl(due, sent)

    def _tell_ttl(self, due: Due, sent: Sent) -> None:
        """A TTL that isn't the one that came, less 1."""
        by = due.datagram[8] + 1 - sent.datagram[8]
        if by != 1:
            cause = "TTL isn't lowered" if by == 0 else f"TTL lowered by {by}" if 1 < by < 32 else "TTL set anew"
            self.groups.add(
                cause,
                BY_RIGHT if self.options.any_ttl else DIFFERENT,
                sent.moment,
                self.sent_at(sent),
                f"TTL {sent.datagram[8]}",
                f"TTL {due.datagram[8]}",
            )

    def _tell_pairs(self, match: Match) -> None:
        """Frames that belong together: the first rule that gives a cause."""
        own = self._own_numbers(match)
        for due, sent in pairs(match, lambda side, datagram: bool(own) and is_segment(datagram) and self.connection(side, OUT, datagram) in own):
            match.counts["paired"] += 1
            verdict = next((said for rule in RULES if (said := rule(due, sent))), None)
            if verdict:
                cause, kind, device, reference = verdict
                self.groups.add(cause, kind, sent.moment, self.sent_at(sent), device, reference)
            if cause := sum_differs(sent):
                self.groups.add(cause, DIFFERENT, sent.moment, self.sent_at(sent))
            elif not verdict:
                self.groups.add("frames out of their time", DIFFERENT, sent.moment, self.sent_at(sent), spoken(sent.datagram), spoken(due.datagram))
            self._tell_ttl(due, sent)

    def _own_numbers(self, match: Match) -> set[Connection]:
        """The connections for which the device chooses other first numbers than the host."""
        firsts = {
            self.connection(1 - due.came.side, OUT, due.datagram): syn_of(due.datagram)
            for due in match.due
            if is_segment(due.datagram) and syn_of(due.datagram)
        }
        found = set()
        for sent in match.sent:
            if is_segment(sent.datagram) and (first := syn_of(sent.datagram)) and (key := self.connection(sent.side, OUT, sent.datagram)) in firsts:
                found.update({key} if firsts[key] != first else set())
        return found

    def _tell_extra(self, sent: Sent, refused: Refused) -> bool:
        """What the device sent and the reference doesn't, if it isn't of a TCP connection that is compared."""
        datagram, where = sent.datagram, self.sent_at(sent)
        source = int.from_bytes(datagram[12:16])
        came = refused.passed_as(sent)
        if came and not is_tracked(datagram):
            self._tell_passed(came, sent)
        elif sent.again and not is_tracked(datagram):
            self.groups.add(f"frame sent twice: {service(datagram)}", DIFFERENT, sent.moment, where, spoken(datagram), "once")
        elif refused.is_answer(sent) or not self.links.realms[sent.side].is_far(datagram[12:16]) and source not in self._same:
            octets = transport(datagram)
            what = f"ICMP {ERRORS[octets[0]]}" if datagram[9] == ICMP and octets and octets[0] in ERRORS else service(datagram)
            cause = f"the device speaks by itself: {what} from {IPv4Address(source)}"
            self.groups.add(cause, BY_RIGHT, sent.moment, where, spoken(datagram), "nothing: it never answers by itself")
        elif is_segment(datagram):
            return False
        elif self.is_edge(sent.moment):
            self.groups.add("at the ends of the captures", UNSURE, sent.moment, where)
        else:
            self.groups.add(f"frame that nobody sent: {service(datagram)}", DIFFERENT, sent.moment, where, spoken(datagram), NOBODY)
        return True

    def _tell_passed(self, came: Came, sent: Sent) -> None:
        """The device sent on what the reference refuses."""
        matters = came.verdict in PASSED
        kind = DIFFERENT if matters else UNSURE
        self.groups.add(
            f"sent on, although the reference refuses it: {came.verdict}",
            kind,
            sent.moment,
            self.sent_at(sent),
            spoken(sent.datagram),
            f"refused as {came.verdict}",
        )

    # TCP.

    def _tell_tcp(self, match: Match) -> None:
        """What is left of TCP goes by its connections; of all else frames are lost."""
        wanted: dict[Connection, list[int]] = {}
        left: list[Due] = []
        for due in match.due:
            if self.learnt.is_early(1 - due.came.side, int.from_bytes(due.datagram[16:20]), due.came.moment):
                self.groups.add(
                    "frame to a host without a static that hadn't sent anything yet",
                    BY_RIGHT,
                    due.came.moment,
                    self.came_at(due.came),
                    "nothing",
                    spoken(due.datagram),
                )
            elif is_segment(due.datagram):
                wanted.setdefault(self.connection(1 - due.came.side, OUT, due.datagram), [0, 0, 0, 0])[2 * due.came.side] += 1
                left.append(due)
            elif self.is_edge(due.came.moment):
                self.groups.add("at the ends of the captures", UNSURE, due.came.moment, self.came_at(due.came))
            else:
                self.groups.add(
                    f"frame lost: {service(due.datagram)}", DIFFERENT, due.came.moment, self.came_at(due.came), "nothing", spoken(due.datagram)
                )
        for sent in match.sent:
            wanted.setdefault(self.connection(sent.side, OUT, sent.datagram), [0, 0, 0, 0])[2 * (1 - sent.side) + 1] += 1
        if wanted:
            self._tell_connections(wanted, left, match)

    def connection(self, side: int, way: int, datagram: bytes) -> Connection:
        """A connection as the left realm sees it: its host with its port, and the alias of the right one with its port."""
        head = (datagram[0] & 15) * 4
        one, other = datagram[12:16], datagram[16:20]
        port, far_port = datagram[head : head + 2], datagram[head + 2 : head + 4]
        if (side, way) in ((0, OUT), (1, IN)):
            one, other, port, far_port = other, one, far_port, port
        if side == 1:
            near, far = int.from_bytes(one), int.from_bytes(other)
            one, other = self._host.get((0, near), near).to_bytes(4), self._alias.get((1, far), far).to_bytes(4)
        return one + port + other + far_port

    def _gather(self, wanted: Iterable[Connection], reference: Reference, links: Links | None) -> dict[Connection, list[list[Segment]]]:
        """The segments of connections: what came from the left and from the right, what the reference sends on of these, and what the device did."""
        found: dict[Connection, list[list[Segment]]] = {one: [[], [], [], [], [], []] for one in wanted}
        room = ROOM

        def put(key: Connection, place: int, segment: Segment) -> None:
            nonlocal room
            room -= len(segment.octets) + 200
            if room > 0:
                found[key][place].append(segment)

        for came, images in reference.events():
            datagram = came.datagram
            if len(datagram) < 40 or not is_segment(datagram):
                continue
            key = self.connection(came.side, IN, datagram)
            if key not in found:
                continue
            put(key, came.side, segment_of(came.moment, came.number, datagram, came.verdict))
            for image in images:
                put(key, 2 + came.side, segment_of(came.moment, came.number, image, came.verdict))
        for sent in sent_by(links) if links else ():
            datagram = sent.datagram
            if is_segment(datagram) and (key := self.connection(sent.side, OUT, datagram)) in found:
                put(key, 5 - sent.side, segment_of(sent.moment, sent.place, datagram))
        if room <= 0:
            self.groups.add(f"TCP: more than {ROOM >> 20} MB of connections that differ: the rest isn't compared", UNSURE, self._begin, "")
        return found

    def _tell_connections(self, wanted: dict[Connection, list[int]], left: list[Due], match: Match) -> None:
        """Compares the connections of which something is left."""
        found = self._gather(wanted, self.reference, self.links)
        followed = self._followed(found)
        for key, lists in found.items():
            if key in followed:
                lists[2:4] = followed[key][2:4]
            self._tell_connection(key, lists, wanted[key])
        self._tell_lost_segments(found, wanted, left)
        for sent in match.sent:
            self._tell_own_segment(sent, found, wanted)

    def _followed(self, found: dict[Connection, list[list[Segment]]]) -> dict[Connection, list[list[Segment]]]:
        """Where the reference refused segments, since hosts acknowledged what the device sent them instead: what it makes of the same octets if nothing is
        acknowledged. It sends on each line and message nevertheless."""
        doubtful = {key for key, lists in found.items() if is_port(key) and any(one.verdict not in ("pass", "held") for one in lists[0] + lists[1])}
        if not doubtful:
            return {}
        files = [Bare(os.path.join(self.options.room, f"{side}-in-unacknowledged.pcap"), "") for side in SIDES]
        starts: dict[tuple[Connection, int], int] = {}
        for came, _ in self.reference.events():
            datagram = came.datagram
            if datagram[9:10] != bytes([TCP]) or len(datagram) < 40 or (key := self.connection(came.side, IN, datagram)) not in doubtful:
                continue
            packet = Packet(datagram)
            flags = datagram[packet.head + 13]
            if flags & SYN:
                starts[key, came.side] = packet.number(packet.head + 4, 4)
            if flags & ACK and not flags & RST and (key, 1 - came.side) in starts:
                packet.put(packet.head + 8, ((starts[key, 1 - came.side] + 1) % (1 << 32)).to_bytes(4))
            files[came.side].put(came.moment, came.number, bytes(packet.octets))
        for file in files:
            file.close()
        return self._gather(doubtful, run_reference(self.options, self._settings, [file.path for file in files], "unacknowledged"), None)

    def _tell_connection(self, key: Connection, lists: list[list[Segment]], left: list[int]) -> None:
        """Compares both directions of a connection."""
        port = is_port(key)
        is_left_client = key[10:12] == port.to_bytes(2) or not port
        client = 0 if is_left_client else 1
        parts = split_by_syn(lists[client], [lists[1 - client], *lists[2:]])
        for came, others in parts:
            both = [came, others[0]] if client == 0 else [others[0], came]
            due, sent = others[1:3], others[3:5]
            for side in (0, 1):
                if not both[side] or not port and not left[2 * side]:
                    continue
                where = f"{host_of(key, side)} on the {SIDES[side]}"
                Direction(both[side], due[side], sent[side], both[1 - side], sent[1 - side], port, where, side == client, self._end).compare(
                    self.groups
                )
                self._tell_segments(sent[side], both[side], side)

    def _tell_segments(self, sent: list[Segment], came: list[Segment], side: int) -> None:
        """TTLs of the segments of a connection that is compared by its octets."""
        known = {one.ttl for one in came}
        for one in sent:
            if one.ttl + 1 not in known and came:
                cause = "TTL isn't lowered" if one.ttl in known else "TTL set anew"
                self.groups.add(
                    cause, BY_RIGHT if self.options.any_ttl else DIFFERENT, one.moment, f"a segment from the {SIDES[side]}", f"TTL {one.ttl}"
                )

    def _tell_lost_segments(self, found: dict[Connection, list[list[Segment]]], wanted: dict[Connection, list[int]], left: list[Due]) -> None:
        """Frames of TCP that are lost and leave no gap in the octets: where segments weren't cut otherwise."""
        for due in left:
            key, side = self.connection(1 - due.came.side, OUT, due.datagram), due.came.side
            segment = segment_of(due.came.moment, due.came.number, due.datagram)
            if is_port(key) or wanted[key][2 * side + 1] and found[key][4 + side]:
                continue
            cause = how_lost(segment, found[key][4 + side])
            if cause and self.is_edge(segment.moment):
                self.groups.add("at the ends of the captures", UNSURE, segment.moment, self.came_at(due.came))
            elif cause:
                self.groups.add(cause, DIFFERENT, segment.moment, self.came_at(due.came), "nothing", spoken(due.datagram))

    def _tell_own_segment(self, sent: Sent, found: dict[Connection, list[list[Segment]]], wanted: dict[Connection, list[int]]) -> None:
        """Segments of the device that the reference doesn't send, where segments weren't cut otherwise."""
        key, side = self.connection(sent.side, OUT, sent.datagram), 1 - sent.side
        if wanted[key][2 * side] or is_port(key) and found[key][side]:
            return
        came = found[key][side]
        segment = segment_of(sent.moment, sent.place, sent.datagram)
        where, stream = self.sent_at(sent), Stream(came) if came else None
        if self.is_edge(sent.moment):
            self.groups.add("at the ends of the captures", UNSURE, sent.moment, where)
        elif stream and segment.octets and is_missed(stream.place(segment.sequence), segment, stream, found[key][1 - side]):
            self.groups.add(f"TCP: the device sent segments {MISSED}", UNSURE, sent.moment, where, spoken(sent.datagram))
        else:
            self.groups.add("frame that nobody sent: TCP", DIFFERENT, sent.moment, where, spoken(sent.datagram), NOBODY)


def period(links: Links, window: int) -> tuple[int, int]:
    """From when on and up to when frames are missed: while both links are recorded. Where they begin or end at about the same time, the first or last
    frame may be one that is lost."""
    both = ([file for file in (links.came[side], links.went[side]) if file.numbers] for side in (0, 1))
    files = [ones for ones in both if ones]
    begins, stops = [min(file.first for file in ones) for ones in files], [max(file.last for file in ones) for ones in files]
    begin = min(begins) if max(begins) - min(begins) <= window else max(begins)
    stop = max(stops) if max(stops) - min(stops) <= window else min(stops)
    return begin, stop - EDGE


def is_segment(datagram: bytes) -> bool:
    """Whether it has a whole header of TCP."""
    return datagram[9] == TCP and len(datagram) >= (datagram[0] & 15) * 4 + 20


def syn_of(datagram: bytes) -> tuple[int, bytes] | None:
    """Flags and first sequence number of a SYN."""
    octets = transport(datagram)
    return (octets[13] & (SYN | ACK), octets[4:8]) if octets[13] & SYN else None


def is_missed(place: int, segment: Segment, came: Stream, back: list[Segment]) -> bool:
    """Whether a segment of the device came to it, although the capture doesn't have it: its peer acknowledged it, or its host went on behind it."""
    end = place + len(segment.octets)
    if place < 0 or any(at < end and place < at + len(octets) for at, octets in came.parts):
        return False
    heard = max((came.place(one.acknowledgement) for one in back if one.flags & ACK and not one.flags & RST), default=0)
    return heard >= end or any(at >= end for at, _ in came.parts)


def how_lost(segment: Segment, sent: list[Segment]) -> str:
    """The cause of a segment that is lost, by those that the device sent: none where the gap in the octets, or the missing end, is told by itself."""
    if not sent:
        return "frame lost: TCP"
    if segment.octets:
        stream = Stream(sent)
        place = stream.place(segment.sequence)
        is_there = any(at <= place and place + len(segment.octets) <= at + len(octets) for at, octets in stream.parts)
        return "frame lost: TCP, and its octets went out in another one" if is_there else ""
    ends = segment.flags & (SYN | FIN | RST)
    if not ends:
        return "frame lost: TCP, an acknowledgement"
    return "frame lost: TCP, a SYN, FIN or RST that went out another time" if any(one.flags & ends for one in sent) else ""


def is_port(key: Connection) -> int:
    """The port of FTP or DNS of a connection that the reference follows, or 0."""
    ports = int.from_bytes(key[10:12]), int.from_bytes(key[4:6])
    return next((port for port in ports if port in TRACKED), 0)


def host_of(key: Connection, side: int) -> str:
    """A connection in words, seen by the host of a side."""
    one, port, other, far_port = struct.unpack(">IHIH", key)
    left, right = f"{IPv4Address(one)}:{port}", f"{IPv4Address(other)}:{far_port}"
    return f"{left} -> {right}" if side == 0 else f"{right} -> {left}"


def delays_of(match: Match) -> list[int]:
    """Some times that frames took: the median, that of 99 in 100, and the longest."""
    known = sorted(match.delays)
    return [known[len(known) // 2], known[len(known) * 99 // 100], known[-1]] if known else []
