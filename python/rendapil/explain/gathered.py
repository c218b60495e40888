"""What is kept of a run for its page, event by event, in room that doesn't grow with the run."""
from collections import Counter
from collections.abc import Callable
from dataclasses import dataclass, field
from typing import NamedTuple

from rendapil.bindings import Bindings
from rendapil.connections import Stream, signed
from rendapil.frames import HIDDEN, SECRET, Event, Piece, Segment, address_of, compared, dns_lines, ftp_lines
from rendapil.numbers import ACK, DNS_PORT, FTP_PORT, RST, SYN, TCP

PARTS = 240
"""The most parts into which the time of a run is cut, and its frames by number."""
SHOWN_SESSIONS, SHOWN_SEGMENTS, SHOWN_LINES, TEXT_ROOM = 40, 150, 12, 300_000
"""The most sessions that are shown, of each the most segments that nothing happens to, of each of these the most lines, and the most bytes of a page
that all of them may take."""
SMALL = 1000
"""The bytes that a segment takes in a page at least."""
PORTS = {port.to_bytes(2): port for port in (FTP_PORT, DNS_PORT)}


@dataclass(slots=True)
class Part:
    """What happened in a part of the run: how many frames had each verdict, and how full both pools were at most."""

    counts: Counter[str] = field(default_factory=Counter)
    most: list[int] = field(default_factory=lambda: [0, 0])
    empty: list[int] = field(default_factory=lambda: [0, 0])

    def with_next(self, other: "Part") -> "Part":
        """This part and the one behind it."""
        both = ([max(pair) for pair in zip(self.most, other.most)], [sum(pair) for pair in zip(self.empty, other.empty)])
        return Part(self.counts + other.counts, *both)


class Parts:
    """Equal parts of a range that grows. When there are more than PARTS, each two become one."""

    def __init__(self) -> None:
        self.start: int | None = None
        self.width = 1
        self.parts: list[Part] = []
        self.end = 0  # of the last part

    def _join(self) -> None:
        """Makes one of each two parts."""
        self.parts = [one.with_next(other) for one, other in zip(self.parts[::2], self.parts[1::2] + [Part()] * (len(self.parts) % 2))]
        self.width *= 2
        self.end = (self.start or 0) + self.width * len(self.parts)

    def join_to(self, most: int) -> None:
        """Joins parts until they are at most so many."""
        while len(self.parts) > most:
            self._join()

    def reach(self, place: int, level: Callable[[int], list[int]]) -> Part:
        """The part of a place. `level` says how full the pools are where a new part begins."""
        if self.start is None:
            self.start = self.end = place
        while place - self.start >= self.width * PARTS:
            self._join()
        while self.end <= place:
            self.parts.append(Part(most=level(self.end)))
            self.end += self.width
        return self.parts[-1]


# Sessions.


class Numbers(NamedTuple):
    """The flags of a segment, and its numbers in words, each with whether the gateway changes it."""

    flags: str
    words: list[Piece]


class Row(NamedTuple):
    """A segment of a session: what came, and what went out for it."""

    event: int
    moment: int
    side: int
    verdict: str
    waits: bool
    came: Numbers
    sent: list[Numbers]
    lines: list[list[Piece]]
    images: list[list[Piece]]

    @property
    def bytes(self) -> int:
        """About how many bytes it takes in a page."""
        texts = [piece.text for line in self.lines + self.images for piece in line]
        return 700 + 250 * len(self.sent) + sum(40 + len(text) + 4 * sum(map(text.count, "<>&'\"")) for text in texts)


def shortened(lines: list[list[Piece]]) -> list[list[Piece]]:
    """Lines, of which those behind the first SHOWN_LINES are only counted."""
    more = len(lines) - SHOWN_LINES
    return lines if more <= 0 else [*lines[:SHOWN_LINES], [Piece(f"and {more} lines more", False)]]


class Session:
    """An FTP control connection or a connection of DNS over TCP, as a ladder."""

    def __init__(self, ends: bytes, port: int, client: int, first: int) -> None:
        self.ends, self.port, self.client, self.first = ends, port, client, first
        self.rows: list[Row] = []
        self.left_out = self.changed = self.refused = 0
        self.bases: dict[int, int] = {}
        self.names = ["", ""]  # what each host is called on the other side
        self._comes, self._goes = (Stream(), Stream()), (Stream(), Stream())
        self._fronts = [b"", b""]  # how a line of FTP begins that isn't complete
        self._secret: tuple[list[tuple[int, int]], ...] = ([], [])  # where passwords stand

    def relative(self, side: int, number: int) -> int:
        """A sequence number of a side's host, counted from its first."""
        return signed(number - self.bases.get(side, number))

    def take(self, event: Event, room: int) -> int:
        """Takes a segment of it. Shows it where it has room in a page, and says how much it took."""
        try:
            side, came, sent = event.side, Segment(event.datagram), [Segment(image) for image in event.images]
        except ValueError:
            return 0
        self.bases.setdefault(side, came.sequence)
        if event.images:
            self.names[side] = address_of(event.images[0][12:16])
        self.names[1 - side] = address_of(event.datagram[16:20])
        lines, images = self._spoken(event, came, sent)
        is_changed = bool(images) and lines != images
        self.changed += is_changed
        self.refused += event.verdict != "pass"
        waits = bool(came.payload) and not any(one.payload for one in sent) and event.verdict == "pass"
        pieces = [[Piece(line, False)] for line in lines] if waits or event.verdict != "pass" else compared(lines, images)
        shown, went = self._numbers(side, came, sent[:1]), [self._numbers(side, one, [came]) for one in sent[:SHOWN_LINES]]
        row = Row(event.number, event.moment, side, event.verdict, waits, shown, went, shortened(pieces), shortened(compared(images, lines)))
        is_plain = not is_changed and event.verdict == "pass"
        if len(self.rows) >= (SHOWN_SEGMENTS if is_plain else 2 * SHOWN_SEGMENTS) or row.bytes > room:
            self.left_out += 1
            return 0
        self.rows.append(row)
        return row.bytes

    def _numbers(self, side: int, segment: Segment, others: list[Segment]) -> Numbers:
        """The numbers of a segment, and whether they are other than those of one of the others."""
        words = [(f"seq {self.relative(side, segment.sequence)}", any(segment.sequence != one.sequence for one in others))]
        if segment.bits & ACK:
            words.append(
                (f"ack {self.relative(1 - side, segment.acknowledgement)}", any(segment.acknowledgement != one.acknowledgement for one in others))
            )
        words.append((f"len {len(segment.payload)}", any(len(segment.payload) != len(one.payload) for one in others)))
        return Numbers(segment.flags, [Piece(*word) for word in words])

    def _spoken(self, event: Event, came: Segment, sent: list[Segment]) -> tuple[list[str], list[str]]:
        """What the segments say in words."""
        if self.port == FTP_PORT:
            lines, images = ftp_lines(came.payload), ftp_lines(b"".join(one.payload for one in sent))
            return ([HIDDEN] * len(lines), [HIDDEN] * len(images)) if self._is_secret(event.side, came) else (lines, images)
        if event.verdict != "pass" or came.bits & RST:
            return [], []
        comes, goes = self._comes[event.side], self._goes[event.side]
        new, shown = comes.take(event.datagram), b"".join(map(goes.take, event.images))
        texts = [[line for message in stream.messages(octets) for line in dns_lines(message)] for stream, octets in ((comes, new), (goes, shown))]
        return texts[0], texts[1]

    def _is_secret(self, side: int, segment: Segment) -> bool:
        """Whether a segment goes on with a line that gives a password, or repeats a part of one."""
        begin, payload = self.relative(side, segment.sequence), segment.payload
        end, front = begin + len(payload), self._fronts[side]
        is_secret = bool(front and SECRET.match(front + payload)) or any(begin < high and low < end for low, high in self._secret[side])
        *_, rest = (front + payload).rsplit(b"\n", 1)
        self._fronts[side] = rest[:8]
        if (is_secret or SECRET.match(rest)) and len(self._secret[side]) < SHOWN_SEGMENTS:
            self._secret[side].append((begin, end))
        return is_secret

    @property
    def kind(self) -> str:
        """What it is."""
        return "FTP" if self.port == FTP_PORT else "DNS over TCP"

    def host(self, side: int) -> str:
        """Address and port of the host of a side."""
        end = self.ends[6 * side :]
        return f"{address_of(end[:4])}:{int.from_bytes(end[4:6])}"


class Sessions:
    """The sessions that are shown: the first of a run, and the first that have a refused frame."""

    def __init__(self, table: Bindings) -> None:
        self._table = table
        self.shown: list[Session] = []
        self.count = 0
        self._live: dict[bytes, Session] = {}
        self._room = TEXT_ROOM
        self._plain = 0

    def _host(self, side: int, address: bytes) -> bytes | None:
        """The host of the other side that an address stands for, or itself outside of the pool."""
        pool, number = self._table.pools[side], int.from_bytes(address)
        if not pool.first <= number <= pool.last:
            return address
        holder = pool.holders.get(number)
        return holder.host.to_bytes(4) if holder else None

    def take(self, event: Event) -> None:
        """Takes an event, if it is of a session."""
        datagram, side = event.datagram, event.side
        head = (datagram[0] & 15) * 4
        port = PORTS.get(datagram[head + 2 : head + 4]) or PORTS.get(datagram[head : head + 2])
        if not port or datagram[9] != TCP or len(datagram) < head + 20 or int.from_bytes(datagram[6:8]) & 0x3FFF:
            return
        begins = datagram[head + 13] & (SYN | ACK) == SYN and event.verdict == "pass"
        is_kept = begins or event.verdict != "pass"
        if not is_kept and (not self._live or self._room < SMALL):
            return
        far = self._host(side, datagram[16:20])
        if far is None:
            return
        ends = datagram[12:16] + datagram[head : head + 2], far + datagram[head + 2 : head + 4]
        key = ends[side] + ends[1 - side]
        session = self._live.get(key)
        if begins and not (session and session.bases.get(side) == int.from_bytes(datagram[head + 4 : head + 8])):
            self.count += 1
            session = self._begun(key, port, event)
            self._plain += session is not None
        elif not session and is_kept:
            session = self._begun(key, port, event)
        if session:
            self._room -= session.take(event, self._room)
            if datagram[head + 13] & RST and event.verdict == "pass":
                del self._live[key]

    def _begun(self, key: bytes, port: int, event: Event) -> Session | None:
        """A session that is shown from here on, if there is room. Half of the room is for those in which a frame is refused."""
        self._live.pop(key, None)
        if len(self.shown) >= SHOWN_SESSIONS or event.verdict == "pass" and self._plain >= SHOWN_SESSIONS // 2:
            return None
        far = 1 - event.side
        client = event.side if key[6 * far + 4 : 6 * far + 6] == port.to_bytes(2) else far
        session = self._live[key] = Session(key, port, client, event.number)
        self.shown.append(session)
        return session


# What a run has.


class Gathered:
    """What is kept of a run for its page. `before` is called with each event before the table of bindings takes it, and `take` behind it."""

    def __init__(self, table: Bindings) -> None:
        self.table = table
        self.by_time, self.by_number = Parts(), Parts()
        self.sent = [0, 0]
        self.first_empty = [0, 0]
        self._moment = 0
        self.sessions = Sessions(table)

    @property
    def counts(self) -> Counter[str]:
        """How many frames had each verdict."""
        return sum((part.counts for part in self.by_number.parts), Counter())

    def levels(self, moment: int) -> list[int]:
        """How full both pools are."""
        return [pool.level(moment) for pool in self.table.pools]

    def before(self, event: Event) -> None:
        """Brings the parts up to an event."""
        self._moment = event.moment
        if event.moment >= self.by_time.end:
            self.by_time.reach(event.moment, self.levels)
        if event.number >= self.by_number.end:
            self.by_number.reach(event.number, self._levels_now)

    def _levels_now(self, _: int) -> list[int]:
        """How full both pools are as an event comes."""
        return self.levels(self._moment)

    def take(self, event: Event) -> None:
        """Takes an event."""
        if event.is_heartbeat:
            return
        verdict, moment = event.verdict, event.moment
        pool, left, right = 1 - event.side, *self.table.pools
        self.sent[pool] += len(event.sent)
        one, other = left.level(moment), right.level(moment)
        for part in (self.by_time.parts[-1], self.by_number.parts[-1]):
            counts, most = part.counts, part.most
            counts[verdict] = counts.get(verdict, 0) + 1
            if one > most[0]:
                most[0] = one
            if other > most[1]:
                most[1] = other
        if verdict == "PoolEmpty":
            for part in (self.by_time.parts[-1], self.by_number.parts[-1]):
                part.empty[pool] += 1
            self.first_empty[pool] = self.first_empty[pool] or moment
        if event.datagram:
            self.sessions.take(event)
