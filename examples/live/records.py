"""Captures as the program reads and writes them, and the stamps by which its merge never waits.

The program takes the earlier of the next records of both sides, the left one on a tie, so it must see the next record of
both. A batch of frames of one side is therefore followed by a heartbeat on the other side, a record without octets: with the
same stamp on the right, which left frames beat as a tie, and with a stamp that is one greater on the left."""
import struct
import time

LEFT, RIGHT = 0, 1
SIDES = ("left", "right")
RAW_IP, ETHERNET = 101, 1

HEAD_OCTETS = 24
RECORD_HEAD_OCTETS = 16
NANOSECONDS = 0xA1B23C4D

_HEAD = struct.Struct("<IHHiIII")
_PAIR = struct.Struct("<II")
_LENGTH = struct.Struct("<I")
_BILLION = 10**9


def capture_head(link: int) -> bytes:
    """The head of a capture of nanoseconds: version 2.4, and the greatest snap length that the program reads."""
    return _HEAD.pack(NANOSECONDS, 2, 4, 0, 0, 262_144, link)


def link_of(head: bytes) -> int:
    """The link type of a head that the program wrote. ValueError where it is no such head."""
    magic: int
    link: int
    magic, _, _, _, _, _, link = _HEAD.unpack(head)
    if magic != NANOSECONDS:
        raise ValueError(f"no head of a capture: {head.hex()}")
    return link


class Lengths(dict[int, bytes]):
    """Both lengths of a record's head by the number of octets that were read. A frame that fills the room for it was cut,
    so that its own length is said to be greater, and the program refuses it as Snapped."""

    def __init__(self, room: int) -> None:
        super().__init__({room: _PAIR.pack(room, room + 1)})

    def __missing__(self, length: int) -> bytes:
        packed = self[length] = _PAIR.pack(length, length)
        return packed


def records(stamp: int, frames: list[bytes], lengths: Lengths) -> bytes:
    """Frames that were read together, as records of one stamp."""
    moment = _PAIR.pack(*divmod(stamp, _BILLION))
    parts: list[bytes] = []
    for frame in frames:
        parts += (moment, lengths[len(frame)], frame)
    return b"".join(parts)


def heartbeat(stamp: int, side: int) -> bytes:
    """The record without octets that lets the program take frames of `stamp` from `side`. It belongs on the other side."""
    return _PAIR.pack(*divmod(stamp + side, _BILLION)) + bytes(8)


def frames_in(octets: bytes) -> tuple[list[memoryview], int]:
    """The frames of all whole records, and how many octets these records have."""
    view, length = memoryview(octets), _LENGTH.unpack_from
    frames: list[memoryview] = []
    begin, end = RECORD_HEAD_OCTETS, len(octets)
    while begin <= end:
        stop = begin + length(octets, begin - 8)[0]
        if stop > end:
            break
        frames.append(view[begin:stop])
        begin = stop + RECORD_HEAD_OCTETS
    return frames, begin - RECORD_HEAD_OCTETS


class Stamps:
    """Stamps that never fall and never repeat: the time of day at the start, and from there a clock that nobody sets. A step
    of the system's time would end bindings and sessions. The clock goes on while the machine sleeps."""

    def __init__(self) -> None:
        self._begun = time.time_ns() - time.clock_gettime_ns(time.CLOCK_BOOTTIME)
        self._last = 0

    def take(self) -> int:
        """The stamp of the next batch, in nanoseconds since 1970: two more than that of the last one at least, so that the
        heartbeats of both lie between them."""
        now = self._begun + time.clock_gettime_ns(time.CLOCK_BOOTTIME)
        self._last = max(now, self._last + 2)
        return self._last

    def skip(self, seconds: float) -> None:
        """Moves all later stamps ahead, to see what a long pause does."""
        self._begun += int(seconds * _BILLION)
