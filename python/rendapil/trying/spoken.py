"""What is said on FTP control connections and in DNS over TCP, and which numbers of it a gateway moves. It is a second reading of what the gateway is
proved to do: where it were wrong, the gateway would refuse frames as AckAhead."""
import re
from bisect import bisect_left
from collections.abc import Iterator
from ipaddress import IPv4Address

from rendapil.connections import signed
from rendapil.streams import messages_in, whole_of_parts

SIX = rb"(\d{1,3}),(\d{1,3}),(\d{1,3}),(\d{1,3}),(\d{1,3}),(\d{1,3})(?!\d)"


def line_of_gateway(line: bytes, is_server: bool, own: int, alias: int) -> bytes:
    """What the gateway makes of a line in which its sender gives its own address."""
    place, dot = None, b","
    if len(line) > 512 or not line.endswith(b"\n"):
        return line
    if is_server and line[:4] == b"227 ":
        found = next(
            (one for one in re.finditer(rb"(?<!\d)" + SIX, line) if one.start() >= 4 and all(int(part) < 256 for part in one.groups())), None
        )
        place = (found.start(1), found.end(4)) if found else None
    elif not is_server and line[:5].upper() == b"PORT ":
        found = re.match(rb".{5} *" + SIX, line, re.DOTALL)
        place = (found.start(1), found.end(4)) if found and all(int(part) < 256 for part in found.groups()) else None
    elif not is_server and line[:5].upper() == b"EPRT ":
        found = re.match(rb".{5} *([!-~])1\1(\d{1,3})\.(\d{1,3})\.(\d{1,3})\.(\d{1,3})\1\d{1,5}\1", line, re.DOTALL)
        place, dot = (found.start(2), found.end(5)) if found and not found[1].isdigit() and all(
            int(part) < 256 for part in found.groups()[1:5]
        ) else None, b"."
    if not place or bytes(map(int, line[place[0] : place[1]].split(dot))) != own.to_bytes(4):
        return line
    return line[: place[0]] + str(IPv4Address(alias)).encode().replace(b".", dot) + line[place[1] :]


class Spoken:
    """What one host of an FTP control connection or of DNS over TCP says, and how the gateway moves the numbers of what it said."""

    def __init__(self, first: int) -> None:
        self.first = first
        self.is_found = False
        self._parts: list[tuple[int, bytes]] = []
        self._moves: list[tuple[int, int, int, int]] = []

    def _place(self, sequence: int) -> int:
        """How many octets lie in front of a sequence number."""
        return signed(sequence - self.first - 1)

    def add(self, sequence: int, payload: bytes) -> None:
        """Adds a segment."""
        if payload:
            self._parts.append((self._place(sequence), payload))

    def _whole(self) -> bytes:
        """All that it says, up to the first gap."""
        return whole_of_parts(sorted(self._parts))

    def find(self, is_ftp: bool, is_server: bool, own: int, alias: int) -> int:
        """Finds what the gateway moves, by what its host is called in the other realm, and says how many lines of FTP it changes."""
        self.is_found = True
        if is_ftp:
            return self.find_lines(is_server, own, alias)
        self.find_messages()
        return 0

    def messages(self) -> Iterator[bytes]:
        """The messages of DNS, each with the two bytes of its length. The last one may be cut."""
        return messages_in(self._whole())

    def find_messages(self) -> None:
        """Finds the messages of DNS, of which the receiver gets nothing before they are whole. The gateway may spell one longer or shorter: that
        isn't followed."""
        at = 0
        for message in self.messages():
            end = at + 2 + int.from_bytes(message[:2])
            self._moves.append((at, end, 0, 0))
            at = end

    def find_lines(self, is_server: bool, own: int, alias: int) -> int:
        """Finds the lines that the gateway changes, and says how many."""
        at = moved = 0
        for line in re.findall(rb"[^\n]*\n", self._whole()):
            image = line_of_gateway(line, is_server, own, alias)
            if image != line:
                self._moves.append((at, at + len(line), moved, moved + len(image) - len(line)))
                moved += len(image) - len(line)
            at += len(line)
        return len(self._moves)

    def acknowledged(self, number: int) -> int:
        """The number by which the receiver of the gateway's lines says that it has what this number says of the sender's."""
        place = self._place(number)
        if place < 0:
            return number
        at, by = bisect_left(self._moves, place, key=lambda move: move[0]) - 1, 0
        if at >= 0:
            low, high, before, behind = self._moves[at]
            # A part of a changed line or of a message isn't acknowledged.
            place, by = (place, behind) if place >= high else (low, before)
        return (self.first + 1 + place + by) % (1 << 32)
