"""TCP connections in which a real device's segments aren't those of the reference: their octets are compared, however they are cut into segments.

What each host sent is cut into units: lines of FTP, messages of DNS, or all of it as one. The device's stream has to have each unit as the reference
translates it, or as it came. By what it has the numbers of later segments and of acknowledgements are judged, so that one wrong line is told once."""
import struct
from bisect import bisect_right
from collections import Counter
from dataclasses import dataclass, field
from functools import cached_property, partial
from itertools import accumulate, starmap
from typing import NamedTuple

from rendapil.comparing.causes import BY_RIGHT, DIFFERENT, UNSURE, Groups, Ladder, Rung, payload
from rendapil.connections import signed
from rendapil.files import plain
from rendapil.frames import dns_lines, ftp_lines
from rendapil.numbers import ACK, DNS_PORT, FIN, FTP_PORT, RST, SYN
from rendapil.streams import TRACKED, messages_in, whole_of_parts

ROOM, SHIFTS, RUNGS = 1 << 28, 64, 60
"""The most octets of connections that are compared, how far numbers are looked for that are off, and the most lines of a ladder."""

MISSED, PROXY = "that a capture misses", "as a proxy does"
"""How causes end that show a capture which misses frames, and one that it may make up."""

AGAIN = 3
"""How often a part of a line has to come, so that it counts as not sent on."""

LINE_OF_ADDRESS = (b"PORT", b"EPRT", b"227 ")


class Segment(NamedTuple):
    """A segment: its stamp, its number or place in its capture, what stands in its header, and its payload."""

    moment: int
    number: int
    sequence: int
    acknowledgement: int
    flags: int
    octets: bytes
    ttl: int
    verdict: str = "pass"


def segment_of(moment: int, number: int, datagram: bytes, verdict: str = "pass") -> Segment:
    """A datagram as a segment."""
    head = (datagram[0] & 15) * 4
    sequence, acknowledgement, _, flags = struct.unpack_from(">IIBB", datagram, head + 4)
    return Segment(moment, number, sequence, acknowledgement, flags, payload(datagram), datagram[8], verdict)


@dataclass
class Stream:
    """The octets of a direction, from its first number on."""

    segments: list[Segment]
    start: int | None = None

    def __post_init__(self) -> None:
        syn = next((one.sequence for one in self.segments if one.flags & SYN), None)
        self.has_start = syn is not None
        first = syn if syn is not None else self.start
        data = [one.sequence for one in self.segments]
        self.base: int = (first if first is not None else min(data, default=1, key=lambda one: signed(one - data[0])) - 1) % (1 << 32)

    def place(self, sequence: int) -> int:
        """How many octets lie in front of a number."""
        return signed(sequence - self.base - 1)

    @cached_property
    def parts(self) -> list[tuple[int, bytes]]:
        """The octets by their places, without those that lie behind a reset or in front of the start."""
        return sorted(
            ((self.place(one.sequence) + bool(one.flags & SYN), one.octets) for one in self.segments if one.octets and not one.flags & RST),
            key=lambda one: one[0],
        )

    @cached_property
    def prefix(self) -> bytes:
        """All octets up to the first gap."""
        return whole_of_parts(self.parts)

    def has(self, flag: int) -> bool:
        """Whether a segment has a flag."""
        return any(one.flags & flag for one in self.segments)


def units_of(octets: bytes, port: int) -> list[bytes]:
    """The whole lines or messages of a stream."""
    if port == FTP_PORT:
        return [line + b"\n" for line in octets.split(b"\n")[:-1]]
    return [one for one in messages_in(octets) if len(one) == 2 + int.from_bytes(one[:2])]


def line_of(unit: bytes, port: int) -> str:
    """A unit in words."""
    return " ".join(ftp_lines(unit))[:120] if port == FTP_PORT else "; ".join(dns_lines(unit[2:])[1:])[:160]


def gaps(covered: list[tuple[int, int]], end: int) -> list[tuple[int, int]]:
    """What is missing up to an end."""
    at, found = 0, []
    for begin, stop in sorted(covered):
        if begin > at:
            found.append((at, min(begin, end)))
        at = max(at, stop)
    return [one for one in [*found, (at, end)] if one[0] < one[1]]


@dataclass
class Direction:
    """What a host of a connection sent: as it came to the device, as the reference sends it on, and as the device did. `back` are the segments that come
    from its peer, and `told` those that the device sent to it for these."""

    came: list[Segment]
    due: list[Segment]
    sent: list[Segment]
    back: list[Segment]
    told: list[Segment]
    port: int
    where: str
    is_client: bool
    end: int = 0
    room: Groups = field(default_factory=Groups)

    def compare(self, groups: Groups) -> None:
        """Compares them."""
        self.room = groups
        self.streams = Stream(self.came), Stream(self.due), Stream(self.sent)
        came, due, sent = self.streams
        if not self.sent:
            if self.port and self.due and self.due[0].moment < self.end:
                self._tell(f"{self.name}: a whole direction of a connection isn't sent", DIFFERENT, self.due[0], count=len(self.due))
            return
        if came.has_start and sent.has_start and came.base != sent.base:
            self._tell("TCP: the device chooses its own first sequence numbers", BY_RIGHT, self.sent[0], f"seq {sent.base}", f"seq {came.base}")
        if not came.has_start:
            sent.base = due.base = came.base
        if self.port in TRACKED:
            self._compare_units()
        else:
            self.places = self.places_came = [0]
            self.model = came.prefix
        self._compare_places()
        self._compare_rest()
        self._compare_ends()
        self._compare_acknowledgements()

    @property
    def name(self) -> str:
        """The service in words."""
        return {FTP_PORT: "FTP", DNS_PORT: "DNS over TCP"}.get(self.port, "TCP")

    def _tell(self, cause: str, kind: str, at: Segment, device: str = "", reference: str = "", count: int = 1) -> None:
        """Notes a cause, with the segment at which it was found."""
        self.room.add(cause, kind, at.moment, self.where, device, reference, count)

    def _segment_at(self, place: int) -> Segment:
        """The segment that came and has an octet."""
        stream = self.streams[0]
        fits = (one for one in self.came if one.octets and stream.place(one.sequence) <= place < stream.place(one.sequence) + len(one.octets))
        return next(fits, self.came[0] if self.came else self.sent[0])

    # Lines and messages.

    def _compare_units(self) -> None:
        """Compares lines or messages, and sets up what the device's stream has to be."""
        units, wanted, found = (units_of(stream.prefix, self.port) for stream in self.streams)
        if len(wanted) < len(units):
            self._not_judged()
        self.units, self.wanted = units[: len(wanted)], wanted[: len(units)]
        self.places_came = list(accumulate(map(len, self.units), initial=0))
        given = dict(enumerate(found[: len(self.units)]))
        if len(found) < len(self.units):
            self._find_behind_gap(given)
        for number, (unit, right) in enumerate(zip(self.units, self.wanted)):
            if given.get(number, right) != right:
                at = self._segment_at(self.places_came[number + 1] - 1)
                cause = self._cause(number, unit, right, given[number], self.places_came[number])
                self._tell(cause, DIFFERENT, at, line_of(given[number], self.port), line_of(right, self.port))
        kept = [given.get(number, right) for number, right in enumerate(self.wanted)]
        self._draw(kept)
        self.places = list(accumulate(map(len, kept), initial=0))
        self.model = b"".join(kept)

    def _draw(self, kept: list[bytes]) -> None:
        """Keeps the lines or messages around those that differ, as a ladder."""
        differ = [number for number, (one, other) in enumerate(zip(kept, self.wanted)) if one != other]
        near = {place for number in differ[:RUNGS] for place in range(number - 2, number + 3) if 0 <= place < len(kept)}
        if near:
            rows = (map(partial(line_of, port=self.port), (self.units[place], kept[place], self.wanted[place])) for place in sorted(near)[:RUNGS])
            self.room.add_ladder(Ladder(self.name, self.where, list(starmap(Rung, rows))))

    def _find_behind_gap(self, given: dict[int, bytes]) -> None:
        """Finds what became of units that went out behind a gap: the segments that came have their order, whatever numbers the device gave them."""
        starts = {place: number for number, place in enumerate(self.places_came)}
        came = {starts[place] for one in self.came if one.octets and (place := self.streams[0].place(one.sequence)) in starts}
        for one in self.sent:
            for number in sorted(came) if one.octets and not one.flags & RST else ():
                if number not in given and (renditions := self._aligned(number, one.octets)):
                    given.update({place: octets for place, octets in renditions.items() if place not in given})
                    break

    def _aligned(self, number: int, octets: bytes) -> dict[int, bytes]:
        """The units from a number on of which a segment consists, each translated or as it came, if it does."""
        found, at = {}, 0
        while at < len(octets) and number < len(self.units):
            ways = [one for one in (self.wanted[number], self.units[number]) if octets.startswith(one, at)]
            if not ways:
                break
            found[number] = ways[0]
            at, number = at + len(ways[0]), number + 1
        rest = octets[at:]
        is_whole = not rest or number < len(self.units) and (self.units[number].startswith(rest) or self.wanted[number].startswith(rest))
        return found if is_whole else {}

    def _not_judged(self) -> None:
        """Where the reference doesn't follow: it refused frames, mostly since the captures miss some."""
        refused = next((one for one in self.came if one.verdict not in ("pass", "held")), self.came[0])
        self._tell(
            f"{self.name}: the reference can't follow a connection ({refused.verdict}): a capture begins or loses frames within it", UNSURE, refused
        )

    def _cause(self, number: int, unit: bytes, right: bytes, given: bytes, place: int) -> str:
        """Why a unit may be other than that of the reference."""
        if self.port == DNS_PORT:
            return "DNS over TCP: messages aren't translated" if given == unit else "DNS over TCP: messages are translated otherwise"
        word = unit[:4].decode(errors="replace").strip().upper() if unit[:4].upper() in LINE_OF_ADDRESS else "other"
        if given != unit:
            return f"FTP: {word} lines are translated otherwise"
        if right == unit:
            return f"FTP: {word} lines are changed"
        at, end = self._segment_at(place), self._segment_at(place + len(unit) - 1)
        start = self.streams[0].place(at.sequence)
        if at is not end:
            return f"FTP: a {word} line that comes in pieces isn't translated"
        if number == 0:
            return f"FTP: a {word} line that is the first of a connection isn't translated"
        if start != place:
            return f"FTP: a {word} line behind another one in its segment isn't translated"
        return f"FTP: {word} lines aren't translated"

    # Octets and their numbers.

    def _compare_places(self) -> None:
        """Compares the octets of each segment of the device with what its stream has to be, at the place that its number says."""
        stream, covered = self.streams[2], []
        for one in self.sent:
            place, octets = stream.place(one.sequence) + bool(one.flags & SYN), one.octets
            if not octets or one.flags & RST or place < 0:
                continue
            if self._is_at(place, octets):
                covered.append((place, place + len(octets)))
                continue
            if place + len(octets) > len(self.model) and (place >= len(self.model) or self._is_at(place, octets[: len(self.model) - place])):
                covered.append((place, len(self.model)))
                self._tell_unknown(one, place)
                continue
            by = self._off_by(place, octets)
            if by:
                number = (one.sequence - by) % (1 << 32)
                self._tell(f"{self.name}: sequence numbers off by {by:+d}", DIFFERENT, one, f"seq {one.sequence}", f"seq {number}")
            else:
                right = self._right_at(place, len(octets))
                if octets != right:  # else it was sent otherwise before, which is told there
                    self._tell(f"payload changed: {self.name}", DIFFERENT, one, self._in_words(octets), self._in_words(right))
                covered.append((place, place + len(octets)))
        for begin, end in gaps(covered, len(self.model)):
            self._tell_gap(begin, end)

    def _compare_rest(self) -> None:
        """What came behind the last whole line: the reference waits for the rest of it. A device that sends it on at once has to do so when it comes again."""
        came, _, sent = self.streams
        if self.port != FTP_PORT or len(self.places_came) <= len(units_of(came.prefix, self.port)):
            return
        behind = self.places[-1] - self.places_came[-1]
        pieces = Counter((place, one.octets) for one in self.came if one.octets and (place := came.place(one.sequence)) >= self.places_came[-1])
        covered = [(place, place + len(octets)) for place, octets in sent.parts]
        for (place, octets), count in pieces.items():
            if count >= AGAIN and not any(begin < place + behind + len(octets) and place + behind < end for begin, end in covered):
                is_address = any(word.startswith(octets[:4].upper()) for word in LINE_OF_ADDRESS)
                what = "the beginning of a line with an address" if is_address else "a part of a line"
                device = f"nothing for {line_of(octets, self.port)!r}, which came {count} times"
                self._tell(
                    f"FTP: {what} isn't sent on, nor are its repeats", DIFFERENT, self._segment_at(place), device, "it once its line is whole", count
                )

    def _right_at(self, place: int, size: int) -> bytes:
        """What the reference sends where the device sends so many octets."""
        if self.port not in TRACKED:
            return self.model[place : place + size]
        number = bisect_right(self.places, place) - 1
        start, found = place - self.places[number], b""
        while number < len(self.wanted) and len(found) < start + size:
            found, number = found + self.wanted[number], number + 1
        return found[start : start + size]

    def _in_words(self, octets: bytes) -> str:
        """Octets of a connection in words, without what FTP keeps secret."""
        return " ".join(ftp_lines(octets))[:120] if self.port == FTP_PORT else plain(octets[:60])

    def _is_at(self, place: int, octets: bytes) -> bool:
        """Whether the stream of the device has to have these octets at a place."""
        return self.model.startswith(octets, place)

    def _off_by(self, place: int, octets: bytes) -> int:
        """How far a segment's number is off, if it is one of another place."""
        for by in sorted(range(-SHIFTS, SHIFTS + 1), key=abs):
            if by and place - by >= 0 and self._is_at(place - by, octets):
                return by
        return 0

    def _tell_unknown(self, one: Segment, place: int) -> None:
        """Octets of the device behind all that the reference sends: of lines that aren't whole they came, and else a capture misses them."""
        came = self.streams[0]
        at = place - self.places[-1] + self.places_came[-1]
        has_come = any(begin < at + len(one.octets) and at < begin + len(octets) for begin, octets in came.parts)
        if came.has_start and not (has_come and self.port in TRACKED):
            self._tell(f"{self.name}: octets came and were sent on {MISSED}", UNSURE, one)

    def _tell_gap(self, begin: int, end: int) -> None:
        """Octets that came and that the device didn't send."""
        number = max(0, bisect_right(self.places, begin) - 1)
        by = begin - self.places[number] + self.places_came[number]
        at = self._segment_at(by)
        stream = self.streams[2]
        heard = max((stream.place(one.acknowledgement) for one in self.back if one.flags & ACK and not one.flags & RST), default=0)
        text = f"{end - begin} octets from the {begin + 1}. on"
        if heard >= end:
            self._tell(f"{self.name}: the device sent octets, since they were acknowledged, {MISSED}", UNSURE, at, text)
        elif at.moment >= self.end:
            self._tell("at the ends of the captures", UNSURE, at, text)
        else:
            self._tell(self._why_lost(number, begin, at), DIFFERENT, at, f"nothing of {text}", self._line(number))

    def _line(self, number: int) -> str:
        """A unit as the reference sends it."""
        return line_of(self.wanted[number], self.port) if self.port in TRACKED and number < len(self.wanted) else "the octets as they came"

    def _why_lost(self, number: int, begin: int, at: Segment) -> str:
        """Why octets may not have gone out."""
        if self.port != FTP_PORT or number >= len(self.units):
            return f"{self.name}: octets lost"
        place = self.streams[0].place(at.sequence)
        last = min(max(0, bisect_right(self.places_came, place + len(at.octets) - 1) - 1), len(self.units) - 1)
        grows = [one for one in range(number, last + 1) if self.units[one] != self.wanted[one]]
        most = max(len(one.octets) for one in self.came)
        more = sum(len(self.wanted[one]) - len(self.units[one]) for one in grows)
        if grows and len(at.octets) >= 500 and len(at.octets) == most and more > 0:
            return "FTP: a segment that becomes longer with its lines translated is lost: it may not fit the MTU"
        in_pieces = self.places_came[number + 1] > place + len(at.octets) or place > self.places_came[number]
        if self.units[number] != self.wanted[number] and in_pieces:
            return "FTP: a line with an address that comes in pieces isn't sent on, nor are its repeats"
        return "FTP: octets lost"

    # Beginning, end and acknowledgements.

    def _compare_ends(self) -> None:
        """SYN, FIN and RST."""
        _, due, sent = self.streams
        for flag, name in ((SYN, "SYN"), (FIN, "FIN"), (RST, "RST")):
            at = next((one for one in self.due if one.flags & flag), None)
            if at and not sent.has(flag) and at.moment < self.end and len(sent.prefix) >= len(self.model):
                self._tell(f"TCP: a {name} isn't sent on", DIFFERENT, at)
            extra = next((one for one in self.sent if one.flags & flag), None)
            if extra and not any(one.flags & flag for one in self.came):
                self._tell(f"TCP: the device sends a {name} by itself", DIFFERENT, extra)

    def _compare_acknowledgements(self) -> None:
        """Acknowledgements that the device sent to this host, by those that came of its peer, in the numbers of the device's stream."""
        came, _, sent = self.streams
        right: set[int] = {(came.base + 1) % (1 << 32)}
        blurred: list[tuple[int, int]] = []
        for number in {one.acknowledgement for one in self.back if one.flags & ACK}:
            place = sent.place(number)
            unit = max(0, bisect_right(self.places, place) - 1)
            ends = [self.places_came[unit] + place - self.places[unit]]
            if unit + 1 < len(self.places) and self.places[unit] < place < self.places[unit + 1]:
                blurred.append((self.places_came[unit], self.places_came[unit + 1]))
            right.update((came.base + 1 + one) % (1 << 32) for one in ends)
        for one in self.told:
            if not one.flags & ACK or one.flags & RST or one.acknowledgement in right:
                continue
            place = came.place(one.acknowledgement)
            if place < 0 or any(begin <= place <= end for begin, end in blurred):
                continue
            near = min(right, key=lambda number: abs(signed(number - one.acknowledgement)))
            by = signed(one.acknowledgement - near)
            known = len(came.prefix) + came.has(FIN)
            if abs(by) <= SHIFTS:
                self._tell(f"{self.name}: acknowledgement numbers off by {by:+d}", DIFFERENT, one, f"ack {one.acknowledgement}", f"ack {near}")
            elif place > known and came.has_start:
                self._tell(f"{self.name}: octets came and were acknowledged {MISSED}", UNSURE, one)
            elif self.back:
                self._tell(f"{self.name}: the device acknowledges by itself, {PROXY}", BY_RIGHT, one)


def split_by_syn(came: list[Segment], others: list[list[Segment]]) -> list[tuple[list[Segment], list[list[Segment]]]]:
    """The connections that follow on each other with the same ports: by the client's SYNs with new numbers."""
    begins: list[int] = []
    last = None
    for one in came:
        if one.flags & (SYN | ACK) == SYN and one.sequence != last:
            begins.append(one.moment)
            last = one.sequence
    if len(begins) < 2:
        return [(came, others)]
    bounds = [*begins[1:], 1 << 63]

    def cut(segments: list[Segment]) -> list[list[Segment]]:
        parts: list[list[Segment]] = [[] for _ in bounds]
        for one in segments:
            parts[bisect_right(bounds, one.moment)].append(one)
        return parts

    each = [cut(one) for one in others]
    return [(part, [one[number] for one in each]) for number, part in enumerate(cut(came))]
