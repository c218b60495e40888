"""The files of a run, read in room that doesn't grow with them, whatever stands in them: captures record by record, a report line by line."""
import os
import re
import struct
import sys
import traceback
from collections.abc import Iterator
from io import TextIOWrapper
from typing import BinaryIO, NamedTuple, Protocol, Self

ETHERNET, RAW_IP = 1, 101
FORMS = {b"\xd4\xc3\xb2\xa1": ("<", 1000), b"\x4d\x3c\xb2\xa1": ("<", 1), b"\xa1\xb2\xc3\xd4": (">", 1000), b"\xa1\xb2\x3c\x4d": (">", 1)}
"""By the first four bytes of a capture its byte order, and how many nanoseconds the unit of its stamps has."""

RECORD, LINE, SENT, VERDICTS = 262_144, 400, 1 << 26, 64
"""The most bytes of a record, of a line of the report and of all frames that are sent for one, and the most verdicts of a report."""

MOMENTS = 10**9 << 32
"""Where the moments end that a capture's stamps can tell: in the year 2106."""

TEXT = re.compile(rb"(\d{1,19}) (left|right) (\d{1,19}) ([A-Z][A-Za-z0-9]{1,30}|pass|held) (\d{1,9})\n")
JSON = re.compile(
    rb'\{"event":(\d{1,19}),"frames":(\d{1,9}),"moment":(\d{1,19}),"side":"(left|right)","verdict":"([A-Z][A-Za-z0-9]{1,30}|pass|held)"\}\n'
)
DONE = re.compile(rb'(?:done( [a-z_]+=\d{1,19})+|\{"done":true(,"[a-z_]+":\d{1,19})+\})\n')
SIDES = {b"left": 0, b"right": 1}
NO_WORDS = [b""] * 4


PLAIN = 300
"""The most octets that are told as text."""

ESCAPED = {octet: f"\\x{octet:02x}" for octet in range(256) if not 32 <= octet < 127}


def shown(text: str) -> str:
    """A file's name, or another text from outside, with all that isn't printable escaped: an octet that is no text as \\xff."""
    return "".join(one if one.isprintable() else f"\\x{ord(one) & 0xFF:02x}" if "\udc80" <= one <= "\udcff" else repr(one)[1:-1] for one in text)


def plain(octets: bytes) -> str:
    """Octets from outside as text of one line: those that aren't printable ASCII as \\x1b."""
    text = octets[:PLAIN].decode("latin-1").translate(ESCAPED)
    return text if len(octets) <= PLAIN else f"{text}… and {len(octets) - PLAIN} bytes more"


def escape_output() -> None:
    """Lets standard output take every name, those that are no text with escapes."""
    if isinstance(sys.stdout, TextIOWrapper):
        sys.stdout.reconfigure(errors="backslashreplace")


def unforeseen(error: Exception) -> str:
    """What is told of a fault of a tool itself."""
    *_, place = traceback.extract_tb(error.__traceback__)
    return (
        f"a fault of this tool, and not of your files: {type(error).__name__} at {os.path.basename(place.filename)}:{place.lineno}. Please report it"
    )


HEAD, RECORD_HEAD = struct.Struct("<IHHiIII"), struct.Struct("<IIII")
"""The heads of a capture and of its records, as they are written here."""


def bare_head() -> bytes:
    """The head of a capture of bare datagrams with stamps in nanoseconds."""
    return HEAD.pack(0xA1B23C4D, 2, 4, 0, 0, RECORD, RAW_IP)


def record_head(moment: int, size: int, length: int) -> bytes:
    """The head of a record of such a capture: how many bytes follow, and how many the frame had on the wire."""
    return RECORD_HEAD.pack(*divmod(moment, 1_000_000_000), size, length)


IN, OUT, LOCAL, UNKNOWN = 0, 1, 2, 3
"""The way of a frame on a link: to the device, from the device, neither, or nothing that shows it."""


class Record(NamedTuple):
    """A frame of a capture: its stamp in nanoseconds, its link, its bytes and the length that it had on the wire. Its interface, and its way, where the
    capture says it."""

    moment: int
    link: int
    octets: bytes
    length: int
    interface: str = ""
    way: int = UNKNOWN


class Damaged(Exception):
    """What is wrong with a capture behind its last whole frame."""


class TooLong(Damaged):
    """A record that says it has more bytes than any has."""

    def __init__(self, size: int) -> None:
        super().__init__(f"a record says that it has {size} bytes")
        self.size = size


class NoStamp(Damaged):
    """A record whose stamp is none."""


class Readable(Protocol):
    """What gives so many bytes, or fewer at its end."""

    def read(self, size: int, /) -> bytes:
        """So many bytes."""


def pcap_records(file: Readable, form: tuple[str, int], link: int, fractions: int = 1 << 32) -> Iterator[Record]:
    """The records of a pcap file behind its head, by the form of FORMS. A stamp whose fraction is so many units is none."""
    order, unit = form
    heads, read, make = struct.Struct(order + "4I").unpack, file.read, tuple.__new__
    while len(head := read(16)) == 16:
        seconds, fraction, size, length = heads(head)
        if size > RECORD:
            raise TooLong(size)
        if len(octets := read(size)) < size:
            raise Damaged("it ends within a record")
        if fraction >= fractions:
            raise NoStamp("a record has a stamp that is none")
        yield make(Record, (seconds * 1_000_000_000 + fraction * unit, link, octets, length, "", UNKNOWN))
    if head:
        raise Damaged("it ends within the head of a record")


class Line(NamedTuple):
    """A line of a report: the number of a frame, its side, moment and verdict, and how many frames were sent for it."""

    number: int
    side: int
    moment: int
    verdict: str
    frames: int


class Capture:
    """The frames of a capture as a run reads and writes them. ValueError where the file is none, or a record can't be one."""

    def __init__(self, path: str) -> None:
        self.path = path
        from rendapil.inputs import opened

        self._file = opened(path)
        head = self._file.read(24)
        self._form = FORMS.get(head[:4], ("", 0))
        self.link: int = struct.unpack(self._form[0] + "I", head[20:])[0] if len(head) == 24 and self._form[1] else -1
        if self.link not in (ETHERNET, RAW_IP):
            self._file.close()
            what = "is empty, and" if not head else f"has link type {self.link}, and" if self.link >= 0 else ""
            raise ValueError(f"{shown(path)} {what} is no capture that a run reads or writes".replace("  ", " "))

    def __enter__(self) -> Self:
        return self

    def __exit__(self, *_: object) -> None:
        self._file.close()

    def frames(self) -> Iterator[Record]:
        """The frames, up to the last one that is whole."""
        try:
            yield from pcap_records(self._file, self._form, self.link)
        except TooLong as error:
            raise ValueError(f"{shown(self.path)} has a record of {error.size} bytes: none may have more than {RECORD}") from None
        except Damaged:
            return


def line_of(text: bytes) -> Line | None:
    """A line of a report that tells of a frame."""
    if found := TEXT.fullmatch(text):
        number, side, moment, verdict, frames = found.groups()
    elif found := JSON.fullmatch(text):
        number, frames, moment, side, verdict = found.groups()
    else:
        return None
    line = Line._make((int(number), SIDES[side], int(moment), verdict.decode(), int(frames)))
    return line if line.moment < MOMENTS else None


def lines(file: BinaryIO, path: str) -> Iterator[Line | str]:
    """The lines of a report, and its last one as text if it is there. A line that was cut at the end isn't told."""
    place, make = 0, tuple.__new__
    verdicts: set[str] = set()
    ends: dict[bytes, tuple[str, int]] = {}  # verdicts with numbers of frames, as they stood in lines before
    while text := file.readline(LINE):
        place += 1
        words = text.split(b" ", 3)
        number, side, moment, end = words if len(words) == 4 else NO_WORDS
        # Most lines end as one before: these are taken without being parsed anew.
        if end in ends and number == b"%d" % place and side in SIDES and moment.isdigit() and len(moment) < 20 and (at := int(moment)) < MOMENTS:
            yield make(Line, (place, SIDES[side], at, *ends[end]))
            continue
        line = line_of(text)
        if line and line.number == place and (line.verdict in verdicts or len(verdicts) < VERDICTS):
            verdicts.add(line.verdict)
            if end and len(ends) < 4 * VERDICTS:
                ends[end] = line.verdict, line.frames
            yield line
        elif DONE.fullmatch(text):
            yield text.decode().strip()
            return
        elif text.endswith(b"\n") or len(text) == LINE:
            raise ValueError(f"{shown(path)}: line {place} is none that a run writes. Is it a report?")
