"""What a real device sent and what the reference sends, frame by frame. What is equal is dropped at once, so that the room doesn't grow with the captures.
Equal means: in all but the identification, the TTL and the checksum of the IPv4 header, within a time."""
import struct
from collections import Counter, deque
from collections.abc import Callable, Iterator
from dataclasses import dataclass, field
from itertools import islice
from typing import NamedTuple, TypeVar

from rendapil.comparing.captures import BUFFER, Joiner, Links, frames
from rendapil.numbers import TCP
from rendapil.packet import Packet
from rendapil.progress import Progress
from rendapil.streams import TRACKED

DELAYS, KEPT = 100_000, 300_000
"""The most passages of which the time is kept, and the most frames that differ, of the device and of the reference."""


class Came(NamedTuple):
    """A frame that came to the device from a side: its number in the reference's report, its stamp, what the reference said, and its datagram."""

    number: int
    side: int
    moment: int
    verdict: str
    datagram: bytes


class Due(NamedTuple):
    """A datagram that the reference sends for a frame."""

    came: Came
    datagram: bytes


class Sent(NamedTuple):
    """A datagram that the device sent to a side, and its place in its capture. `again`: an equal one went out shortly before."""

    side: int
    moment: int
    place: int
    datagram: bytes
    again: bool = False


One = TypeVar("One", Due, Sent)


@dataclass
class Reference:
    """The files of the reference's run."""

    came: tuple[str, str]
    went: tuple[str, str]
    report: str

    def events(self) -> Iterator[tuple[Came, list[bytes]]]:
        """Each frame that came, and the datagrams that the reference sends for it."""
        came, went = [frames(path) for path in self.came], [frames(path) for path in self.went]
        joiners = Joiner(), Joiner()
        make, ended = tuple.__new__, dict[bytes, tuple[str, int]]()  # how lines end: few ends come again and again
        with open(self.report, "rb", BUFFER) as file:
            for number, line in enumerate(file, 1):
                if line.startswith(b"done"):
                    return
                _, name, stamp, end = line.split(b" ", 3)
                if end not in ended:
                    word, size = end.split()
                    ended[end] = word.decode(), int(size)
                verdict, count = ended[end]
                side = 1 if name == b"right" else 0
                datagram = next(came[side])[1]
                if datagram[6:7] and (datagram[6] & 0x3F or datagram[7]):
                    datagram = joiners[side].take(datagram) or datagram
                one = make(Came, (number, side, int(stamp), verdict, datagram))
                sent = went[1 - side]
                yield one, [next(sent)[1]] if count == 1 else [datagram for _, datagram in islice(sent, count)]


def sent_to(side: int, path: str) -> Iterator[Sent]:
    """All that the device sent to a side."""
    make = tuple.__new__
    for place, (moment, datagram) in enumerate(frames(path)):
        yield make(Sent, (side, moment, place, datagram, False))


def sent_by(links: Links) -> Iterator[Sent]:
    """All that the device sent, by its stamps."""
    files = [sent_to(side, file.path) for side, file in enumerate(links.went)]
    left, right = (next(file, None) for file in files)
    while left and right:
        if right[1] < left[1]:
            yield right
            right = next(files[1], None)
        else:
            yield left
            left = next(files[0], None)
    if one := left or right:
        yield one
        yield from files[one.side]


def likeness(datagram: bytes) -> bytes:
    """What has to be equal."""
    return datagram[:4] + datagram[6:8] + datagram[9:10] + datagram[12:]


def is_tracked(datagram: bytes) -> bool:
    """Whether it is of a connection that the reference follows."""
    head = (datagram[0] & 15) * 4
    return datagram[9] == TCP and len(datagram) >= head + 20 and any(port in TRACKED for port in struct.unpack_from(">HH", datagram, head))


@dataclass
class Match:
    """What is left of both, and what was counted on the way. `ttl` are the frames that are equal but for their TTL. `refused` and `held` are those that
    came and for which the reference sends nothing."""

    window: int
    due: list[Due] = field(default_factory=list)
    sent: list[Sent] = field(default_factory=list)
    refused: list[Came] = field(default_factory=list)
    ttl: list[tuple[Due, Sent]] = field(default_factory=list)
    header: list[tuple[Due, Sent]] = field(default_factory=list)
    counts: Counter[str] = field(default_factory=Counter)
    delays: list[int] = field(default_factory=list)
    verdicts: Counter[str] = field(default_factory=Counter)

    def __post_init__(self) -> None:
        # By side: what the reference sends and nothing was looked for yet, in its order; what else waits, by its likeness; and what was equal of late.
        self._ahead: tuple[deque[tuple[Came, bytes]], ...] = deque(), deque()
        self._due: tuple[dict[bytes, list[Due]], ...] = {}, {}
        self._sent: tuple[dict[bytes, list[Sent]], ...] = {}, {}
        self._new: list[set[int]] = [set(), set()]
        self._old: list[set[int]] = [set(), set()]
        self._turned = 0

    def read(self, reference: Reference, links: Links) -> None:
        """Reads both."""
        outgoing = sent_by(links)
        waiting = next(outgoing, None)
        told, verdicts = Progress("compare", "frames are compared"), self.verdicts
        for came, images in reference.events():
            number, _, moment, verdict, _ = came
            told.tell(number)
            while waiting and waiting[1] < moment:
                self._take_sent(waiting)
                waiting = next(outgoing, None)
            verdicts[verdict] += 1
            if not images and verdict not in ("pass", "held") and len(self.refused) < KEPT:
                self.refused.append(came)
            for datagram in images:
                self._take_due(came, datagram)
            if moment > self._turned + self.window:
                self._turn(moment)
        while waiting:
            self._take_sent(waiting)
            waiting = next(outgoing, None)
        self._turn(1 << 63)
        self._turn(1 << 63)

    def _take_due(self, came: Came, datagram: bytes) -> None:
        """Takes a frame of the reference."""
        side = 1 - came[1]
        self.counts["reference"] += 1
        if (left := self._sent[side]) and (waiting := left.get(key := likeness(datagram))):
            sent = waiting.pop(0)
            if not waiting:
                del left[key]
            self._equal(Due(came, datagram), sent, key)
        else:
            self._ahead[side].append((came, datagram))

    def _take_sent(self, sent: Sent) -> None:
        """Takes a frame of the device. Most are the next one of the reference, with the header that it has there, whose checksum is right. Among frames that
        are alike the one that waits longest is meant."""
        side, moment, _, datagram, _ = sent
        ahead, filed, key = self._ahead[side], self._due[side], likeness(datagram)
        self.counts["device"] += 1
        if ahead and ahead[0][1] == datagram and key not in filed:
            came, _ = ahead.popleft()
            self._note_equal(side, key, moment - came[2])
            return
        self._file(side)
        if waiting := filed.get(key):
            due = waiting.pop(0)
            if not waiting:
                del filed[key]
            self._equal(due, sent, key)
        else:
            mark = hash(key)
            self._sent[side].setdefault(key, []).append(sent._replace(again=mark in self._new[side] or mark in self._old[side]))

    def _file(self, side: int) -> None:
        """Lets what the reference sends wait by its likeness, where it isn't the next frame of the device."""
        ahead, filed = self._ahead[side], self._due[side]
        while ahead:
            came, datagram = ahead.popleft()
            filed.setdefault(likeness(datagram), []).append(Due(came, datagram))

    def _note_equal(self, side: int, key: bytes, delay: int) -> None:
        """Notes that two frames are equal."""
        self.counts["equal"] += 1
        self._new[side].add(hash(key))
        if len(self.delays) < DELAYS:
            self.delays.append(delay)

    def _equal(self, due: Due, sent: Sent, key: bytes) -> None:
        """Notes two frames that are equal, and looks at what may still differ."""
        self._note_equal(sent.side, key, sent.moment - due.came.moment)
        one, other = due.datagram, sent.datagram
        if one[8] != other[8]:
            self.ttl.append((due, sent))
        if int.from_bytes(other[: (other[0] & 15) * 4]) % 0xFFFF:
            self.header.append((due, sent))

    def _turn(self, moment: int) -> None:
        """Drops what has waited too long."""
        self._turned = moment
        self._old, self._new = self._new, [set(), set()]
        end = moment - self.window
        for side in (0, 1):
            self._file(side)
            self._give_up(self._due[side], self.due, lambda due: due.came.moment < end)
            self._give_up(self._sent[side], self.sent, lambda sent: sent.moment < end)

    def _give_up(self, waiting: dict[bytes, list[One]], kept: list[One], is_late: Callable[[One], bool]) -> None:
        """Keeps those that have waited too long as left over, as long as there is room."""
        for key in [key for key, ones in waiting.items() if is_late(ones[0])]:
            ones = waiting.pop(key)
            if len(kept) < KEPT:
                kept += ones
            else:
                self.counts["too many"] += len(ones)


def mended(sent: Sent) -> Sent | None:
    """A frame of the device with right checksums, if one was wrong."""
    packet = Packet(sent.datagram)
    return sent._replace(datagram=bytes(packet.octets)) if packet.mend() else None


def rematched(match: Match) -> tuple[list[tuple[Due, Sent, Sent]], int]:
    """Takes those out of what is left that are equal with right checksums: each with the frame as it was and as it is then."""
    table: dict[tuple[int, bytes], list[Due]] = {}
    for due in match.due:
        table.setdefault((1 - due.came.side, likeness(due.datagram)), []).append(due)
    found, left, wrong = [], [], 0
    for sent in match.sent:
        right = mended(sent)
        wrong += right is not None
        near = table.get((sent.side, likeness(right.datagram))) if right else None
        if right and near and abs(near[0].came.moment - sent.moment) <= match.window:
            found.append((near.pop(0), sent, right))
        else:
            left.append(sent)
    gone = {id(due) for due, *_ in found}
    match.due, match.sent = [due for due in match.due if id(due) not in gone], left
    return found, wrong
