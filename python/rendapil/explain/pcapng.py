"""All four captures of a run as one, for Wireshark: in the run's order, each frame behind the one that it became, with comments. What is written
here of the format (draft-ietf-opsawg-pcapng) are three blocks: a section's head, an interface and a frame."""
import struct
from typing import IO

from rendapil.files import Record
from rendapil.frames import Event, Verdict, compared, may_speak, spoken, ways
from rendapil.numbers import SIDES
from rendapil.payloads.scan import Scan
from rendapil.readers import BY_EXPLAIN

INTERFACES = [f"{side}-{way}" for side in SIDES for way in ("in", "out")]
FRAME, OPTION, END = struct.Struct("<7I"), struct.Struct("<HH"), struct.Struct("<II")
PADDING = b"", bytes(3), bytes(2), bytes(1)
"""What fills up a field to a multiple of four, by its length."""

COMMENT, NAME, PROGRAM, UNIT = 1, 2, 4, 9
"""Codes of options: a comment, an interface's name, the program that wrote the file, the unit of stamps as a power of ten."""


def block(kind: int, body: bytes, *options: tuple[int, bytes]) -> bytes:
    """A block with its options."""
    body += bytes(-len(body) % 4)
    for code, text in options:
        body += struct.pack("<HH", code, len(text)) + text + bytes(-len(text) % 4)
    size = len(body) + 16
    return struct.pack("<II", kind, size) + body + struct.pack("<HHI", 0, 0, size)


def block_of(interface: int, moment: int, frame: Record, comment: str) -> tuple[bytes, ...]:
    """The block of a frame in its parts."""
    _, _, octets, length, _, _ = frame
    text, kept = comment.encode(), len(octets)
    said = len(text)
    size = kept + -kept % 4 + said + -said % 4 + 40
    head = FRAME.pack(6, size, interface, moment >> 32, moment & 0xFFFFFFFF, kept, length if length > kept else kept)
    return head, octets, PADDING[kept & 3], OPTION.pack(COMMENT, said), text, PADDING[said & 3], END.pack(0, size)


class Commented:
    """Writes a capture in the format pcapng with the frames of a run. `links` are those of left-in, left-out, right-in and right-out."""

    def __init__(self, file: IO[bytes], links: list[int], verdicts: dict[str, Verdict], scan: Scan | None = None) -> None:
        self._verdicts, self._scan = verdicts, scan
        self._file = file
        self._file.write(block(0x0A0D0D0A, struct.pack("<IHHq", 0x1A2B3C4D, 1, 0, -1), (PROGRAM, BY_EXPLAIN)))
        for name, link in zip(INTERFACES, links):
            self._file.write(block(1, struct.pack("<HHI", link, 0, 0), (NAME, name.encode()), (UNIT, b"\x09")))

    def take(self, event: Event) -> None:
        """Writes an event: its frame, and those that were sent for it."""
        if event.is_heartbeat:
            return
        side, moment, sent = event.side, event.moment, event.sent
        ends = ways(event.datagram) if sent else ""
        parts = block_of(2 * side, moment, event.frame, self._said(event, ends))
        if sent:
            many = len(sent)
            for number, frame in enumerate(sent, 1):
                of = f" ({number} of {many})" if many > 1 else ""
                comment = f"event {event.number} {SIDES[side]}, sent{of}: it came as {ends}"
                parts += block_of(3 - 2 * side, moment, frame, comment)
        self._file.write(b"".join(parts))

    def _said(self, event: Event, ends: str) -> str:
        """What became of a frame. Its ends are in words where frames were sent for it."""
        front = f"event {event.number} {SIDES[event.side]} {event.verdict}: "
        if event.verdict == "held":
            return front + "a fragment that waits for the others of its packet"
        if event.verdict != "pass":
            known = self._verdicts.get(event.verdict)
            return front + (f"{known.means}. What to do: {known.todo}." if known else "refused.")
        if not event.images:
            return front + "nothing went out yet"
        said = f"{front}{ends} became {ways(event.images[0])}"
        if may_speak(event.images[0]):  # as the frame does: no port changes, and of fragments the image is whole
            said += "".join(changed_lines(event))
        if self._scan and self._scan.latest:
            said += "".join(f"\n! {one.application}: {one.words}" for one in self._scan.latest)
        return said


def changed_lines(event: Event) -> list[str]:
    """The lines of a frame that aren't those of the frames that it became."""
    lines, images = spoken(event.datagram), [line for image in event.images for line in spoken(image)]
    changed: list[str] = []
    if lines != images:
        for mark, ones, others in (("-", lines, images), ("+", images, lines)):
            rows = [pieces for pieces in compared(ones, others) if any(piece.changed for piece in pieces)]
            changed += [f"\n{mark} " + "".join(piece.text for piece in pieces) for pieces in rows[:20]]
    return changed
