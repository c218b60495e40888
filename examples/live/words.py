"""A frame in a few words, and the program's report with them."""
import contextlib
import json
import struct
from collections import Counter, deque
from typing import TextIO

from aliases import Watch, say
from records import ETHERNET

_ETHERNET_HEAD = 14
_FLAGS = "FSRPAUEC"
_FTP = 21
_SECOND = 10**9


def address(octets: bytes) -> str:
    """An IPv4 address."""
    return ".".join(map(str, octets))


def frame_in_words(frame: bytes, link: int) -> str:
    """Addresses, protocol, ports and length of a frame, and of FTP the text."""
    datagram = frame[_ETHERNET_HEAD:] if link == ETHERNET else frame
    if len(datagram) < 20 or datagram[0] >> 4 != 4:
        return f"{len(frame)} octets that are no IPv4 datagram"
    fragment = struct.unpack_from(">H", datagram, 6)[0]
    ways = f"{address(datagram[12:16])} > {address(datagram[16:20])}"
    payload = datagram[(datagram[0] & 15) * 4 : struct.unpack_from(">H", datagram, 2)[0]]
    if fragment & 0x3FFF:
        return f"{ways} fragment at {(fragment & 0x1FFF) * 8}, {len(payload)} octets"
    return f"{ways} {payload_in_words(datagram[9], payload)}, ttl {datagram[8]}"


def payload_in_words(protocol: int, payload: bytes) -> str:
    """What a datagram carries."""
    if protocol == 1 and len(payload) >= 8:
        return f"icmp type {payload[0]} code {payload[1]}, {len(payload)} octets"
    if protocol == 6 and len(payload) >= 20:
        return segment_in_words(payload)
    if protocol == 17 and len(payload) >= 8:
        return "udp {}>{}".format(*struct.unpack_from(">HH", payload)) + f", {len(payload) - 8} octets"
    return f"protocol {protocol}, {len(payload)} octets"


def segment_in_words(segment: bytes) -> str:
    """Ports, flags and length of a TCP segment, and of FTP the text."""
    source, destination = struct.unpack_from(">HH", segment)
    flags = "".join(name for bit, name in enumerate(_FLAGS) if segment[13] >> bit & 1)
    text = segment[(segment[12] >> 4) * 4 :]
    said = f" {ascii(text[:70].decode('latin-1'))}" if text and _FTP in (source, destination) else ""
    return f"tcp {source}>{destination} {flags}, {len(text)} octets{said}"


class Journal:
    """The report as it comes from the program: its verdicts are counted, and each event is told to the watch and written with its frame in words,
    where these are wanted. Heartbeats are left out. `most` is how many lines of one second are written: the others are counted. 0 is no limit."""

    def __init__(self, file: TextIO | None, links: tuple[int, int], only_refused: bool, watch: Watch | None = None, most: int = 0) -> None:
        self.verdicts: Counter[bytes] = Counter()
        self._file = file
        self._links = links
        self._only_refused = only_refused
        self._watch = watch
        self._most = most
        self._second = self._lines = self._left_out = 0
        self._frames: tuple[deque[bytes | None], deque[bytes | None]] = (deque(), deque())
        self._rest = b""

    def expect(self, side: int, frames: list[bytes]) -> None:
        """Frames that the program was given, and the heartbeat behind them on the other side."""
        self._frames[side].extend(frames)
        self._frames[1 - side].append(None)

    def remark(self, text: str) -> None:
        """A line of the pump's own."""
        self._write([f"# {text}\n"])

    def take(self, octets: bytes) -> None:
        """Octets of the report, whose last line may be cut."""
        *lines, self._rest = (self._rest + octets).split(b"\n")
        self._write(list(filter(None, map(self._line, lines))))

    def counts(self) -> str:
        """How many frames had each verdict."""
        return ", ".join(f"{count} {verdict.decode('ascii')}" for verdict, count in self.verdicts.most_common()) or "none"

    def _write(self, lines: list[str]) -> None:
        """Where the report has no room any more the gateway goes on without it."""
        if not self._file:
            return
        try:
            self._file.writelines(lines)
            self._file.flush()
        except OSError as error:
            say(f"the report ends here: {error.strerror}")
            with contextlib.suppress(OSError):
                self._file.close()
            self._file = None

    def _line(self, line: bytes) -> str:
        """What is written for a line of the report, if anything."""
        words = split(line)
        if words[0] == b"done":
            return self._told_left_out() + line.decode("ascii") + "\n"
        side = 0 if words[1] == b"left" else 1
        frame = self._frames[side].popleft()
        if frame is None:
            return ""
        self.verdicts[words[3]] += 1
        if self._watch:
            self._watch.line(side, int(words[2]), words[3].decode("ascii"), frame, int(words[4]))
        if not self._file or self._only_refused and words[3] == b"pass":
            return ""
        told = self._turned(int(words[2]) // _SECOND)
        if self._most and self._lines == self._most:
            self._left_out += 1
            return told
        self._lines += 1
        number, name, moment, verdict, count = (word.decode("ascii") for word in words)
        return f"{told}{number} {name} {int(moment) / 1e9:.6f} {verdict} {count}  {frame_in_words(frame, self._links[side])}\n"

    def _turned(self, second: int) -> str:
        """Begins to count anew in each second, and says what the one before had no room for."""
        if second == self._second:
            return ""
        told, self._second, self._lines = self._told_left_out(), second, 0
        return told

    def _told_left_out(self) -> str:
        """A line on those that were left out, if any were."""
        count, self._left_out = self._left_out, 0
        return f"# {count} more in that second\n" if count else ""


def split(line: bytes) -> list[bytes]:
    """The five words of a line of the report, or those of the last line, whether it is text or JSON."""
    if not line.startswith(b"{"):
        return line.split(b" ")
    values = json.loads(line)
    if "done" in values:
        return [b"done"]
    return [str(values[key]).encode() for key in ("event", "side", "moment", "verdict", "frames")]
