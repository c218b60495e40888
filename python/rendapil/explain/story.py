"""What happened in a run, by its files: who had which alias and when, how full the pools were, and who was refused. What is kept has a limit,
however long the run is and whoever made up its senders."""
import os
import sys
from collections.abc import Callable, Iterator
from contextlib import ExitStack
from dataclasses import dataclass, field
from itertools import islice

from rendapil.bindings import Binding, Bindings
from rendapil.document import Document
from rendapil.files import SENT, Capture, Line, Record, lines, shown
from rendapil.frames import Event, address_of
from rendapil.numbers import ETHERNET, SIDES
from rendapil.packet import datagram_of

HOSTS, DESTINATIONS = 10_000, 16
"""The most hosts of which refused frames are kept, those with the most, and of each the most destinations. The rest is summed."""

ENDED = 10_000
"""The most bindings that ended and are kept: those with the most uses."""

KINDS = {0x0800: "IPv4 that is cut", 0x0806: "ARP", 0x8100: "a VLAN tag", 0x88A8: "a VLAN tag", 0x86DD: "IPv6"}

CUT_SHORT = "no last line: the run didn't come to the ends of both captures"


def kind_of(frame: Record) -> str:
    """What a frame is that has no IPv4 datagram."""
    kind = int.from_bytes(frame.octets[12:14])
    return KINDS.get(kind, f"type {kind:#06x}") if frame.link == ETHERNET and len(frame.octets) >= 14 else "no IPv4"


def named(end: bytes | str) -> str:
    """An address, or what a frame is that has none."""
    return end if isinstance(end, str) else address_of(end)


@dataclass(slots=True)
class Row:
    """The frames of a host that were refused for one reason, and whom they were for. `more` are those for destinations that aren't kept."""

    first: int
    last: int = 0
    count: int = 0
    to: dict[bytes | str, int] = field(default_factory=dict)
    more: int = 0

    def where(self) -> str:
        """Whom most of them were for."""
        if not self.to:
            return "others"
        most, others = max(self.to, key=lambda one: self.to[one]), len(self.to) - 1
        return named(most) + (f" and {others} more" if others and not self.more else " and many more" if self.more else "")


class Refusals:
    """Who was refused, why, and how often."""

    def __init__(self) -> None:
        self._rows: dict[tuple[str, int, bytes | str], Row] = {}
        self._summed: dict[tuple[str, int], tuple[Row, int]] = {}

    def take(self, event: Event) -> None:
        """Takes a frame that was refused."""
        datagram = event.datagram
        host: bytes | str
        to: bytes | str
        if datagram:
            host, to = datagram[12:16], datagram[16:20]
        else:
            host = to = kind_of(event.frame)
        key = (event.verdict, event.side, host)
        row = self._rows.get(key)
        if not row:
            if len(self._rows) >= 2 * HOSTS:
                self._sum_rarest()
            row = self._rows[key] = Row(event.moment)
        row.last = event.moment
        row.count += 1
        if to in row.to:
            row.to[to] += 1
        elif len(row.to) < DESTINATIONS:
            row.to[to] = 1
        else:
            row.more += 1

    def _sum_rarest(self) -> None:
        """Sums the hosts with the fewest frames by reason and side, so that HOSTS remain."""
        for key in sorted(self._rows, key=lambda key: -self._rows[key].count)[HOSTS:]:
            row = self._rows.pop(key)
            sum_of, hosts = self._summed.get(key[:2]) or (Row(row.first), 0)
            sum_of.first, sum_of.last, sum_of.count = min(sum_of.first, row.first), max(sum_of.last, row.last), sum_of.count + row.count
            self._summed[key[:2]] = sum_of, hosts + 1

    def rows(self, most: int = HOSTS) -> list[tuple[str, str, str, Row]]:
        """Reason, side and host with its frames: the most frequent ones, and at the end those that are summed."""
        if len(self._rows) > HOSTS:
            self._sum_rarest()
        kept: list[tuple[str, str, str, Row]] = [(reason, SIDES[side], named(host), row) for (reason, side, host), row in self._rows.items()]
        summed: list[tuple[str, str, str, Row]] = [
            (reason, SIDES[side], f"{count:,} other hosts", row) for (reason, side), (row, count) in self._summed.items()
        ]
        kept, summed = (sorted(rows, key=lambda one: -one[3].count) for rows in (kept, summed))
        return kept[:most] + summed


class Story:
    """What happened in a run. Those of `befores` are called with each event before the table of bindings takes it, those of `behinds` after."""

    def __init__(self, settings: Document) -> None:
        self.bindings: list[Binding] = []
        self.left_out = self.missed = self.heartbeats = self.held = self.first = self.last = 0
        self.befores: list[Callable[[Event], object]] = []
        self.behinds: list[Callable[[Event], object]] = []
        self.refusals = Refusals()
        self.end = CUT_SHORT
        self._most = 4 * ENDED
        self.table = Bindings(settings, self._bound)

    def _bound(self, binding: Binding) -> None:
        """Keeps a new binding. Where they are many, those that ended and were used least are dropped."""
        self.bindings.append(binding)
        if len(self.bindings) > self._most:
            live = [one for one in self.bindings if self._holds(one)]
            ended = sorted((one for one in self.bindings if one.uses and not self._holds(one)), key=lambda one: -one.uses)
            self.left_out += len(ended[ENDED:])
            self.bindings = ended[:ENDED] + live
            self._most = len(self.bindings) + 3 * ENDED

    def _holds(self, binding: Binding) -> bool:
        """Whether no other binding has followed on its address."""
        return self.table.pools[1 - binding.side].holders.get(binding.alias) is binding

    def read(self, left: str, right: str, left_out: str, right_out: str, report: str, told: Callable[[float], object] | None = None) -> None:
        """Reads the files of a run. ValueError where they aren't of one run. `told` is called now and then with how much of the report is read."""
        paths = {"LEFT_IN": left, "RIGHT_IN": right, "LEFT_OUT": left_out, "RIGHT_OUT": right_out}
        names = [f"{name}, {shown(path)}," for name, path in paths.items()]
        with ExitStack() as files:
            left_came, right_came, *sent = (files.enter_context(Capture(path)).frames() for path in paths.values())
            came = left_came, right_came
            file = files.enter_context(open(report, "rb", 1 << 18)) if report != "-" else sys.stdin.buffer
            size = os.fstat(file.fileno()).st_size if file.seekable() else 0
            for line in lines(file, report):
                if isinstance(line, str):
                    self.end = line
                    break
                if told and size and line.number % 1024 == 0:
                    told(file.tell() / size)
                self._event(line, next(came[line.side], None), sent[1 - line.side], names)
            every: list[Iterator[Record]] = [*came, *sent]
            for name, frames in zip(names, every):
                if self.end != CUT_SHORT and next(frames, None) is not None:
                    raise ValueError(f"{name} has more frames than the report")

    def _event(self, line: Line, frame: Record | None, sent: Iterator[Record], names: list[str]) -> None:
        """Takes a line with its frame and those that were sent for it."""
        number, side, moment, verdict, count = line
        if not frame:
            raise ValueError(f"event {number}: {names[side]} has no frame left")
        if moment != max(frame.moment, self.last):
            raise ValueError(f"event {number}: the frame of {names[side]} has another stamp")
        if count == 1 and (one := next(sent, None)):  # as most frames
            went, images = [one], [datagram_of(one[2], one[1])]
        else:
            went = list(islice(sent if count < 16 else limited(sent), count)) if count else []
            images = [datagram_of(one[2], one[1]) for one in went]
        if len(went) < count:
            raise ValueError(f"event {number}: {names[3 - side]} has no frame left")
        if b"" in images:
            raise ValueError(f"event {number}: {names[3 - side]} has a frame that no gateway sends")
        datagram = datagram_of(frame[2], frame[1])
        if went and not datagram:
            raise ValueError(f"event {number}: {names[side]} has a frame that no gateway passes")
        event = Event(number, side, moment, verdict, frame, datagram, went, images, not frame.octets)
        self.first, self.last = self.first or moment, moment
        for before in self.befores:
            before(event)
        try:
            self.table.event(side, moment, verdict, datagram, images)
        except (TypeError, AttributeError, LookupError):  # an answer that went out isn't one to the frame that came: the files were changed
            self.missed += 1
        if verdict == "held":
            self.held += 1
        elif verdict != "pass":
            if event.is_heartbeat:
                self.heartbeats += 1
            else:
                self.refusals.take(event)
        for behind in self.behinds:
            behind(event)

    def used(self) -> list[Binding]:
        """The bindings that were used, host by host."""
        return sorted((one for one in self.bindings if one.uses), key=lambda one: (one.side, one.host, one.first))


def limited(frames: Iterator[Record]) -> Iterator[Record]:
    """Frames, as long as all of them together have no more bytes than a run sends for one."""
    total = 0
    for frame in frames:
        total += len(frame.octets) + 64
        if total > SENT:
            raise ValueError(f"the report says that one frame became more than {SENT >> 20} MB")
        yield frame
