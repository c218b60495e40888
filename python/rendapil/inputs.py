"""Captures as people have them: pcapng, packed by gzip, or a folder of rotated files. A process of its own writes what they hold into a pipe, as the one
pcap file that the program reads: `python3 -P -m rendapil.inputs FILE..`. Stamps keep their nanoseconds."""
import os
import subprocess
import sys
from collections.abc import Iterable
from contextlib import suppress
from io import BufferedReader
from itertools import chain
from typing import IO, BinaryIO, cast

from rendapil.any_capture import IPV4, TAGS
from rendapil.files import ETHERNET, FORMS, HEAD, MOMENTS, RAW_IP, RECORD, RECORD_HEAD, Damaged, shown
from rendapil.numbers import SECOND
from rendapil.places import TOP
from rendapil.readers import PACKED, PCAPNG, records, whole_records
from rendapil.sayings import Fault

UNTAG = "RENDAPIL_UNTAG"
"""What is set in the environment where VLAN tags are to be taken off."""

BARE = (12, 14, 228, RAW_IP)
"""Links whose frames are bare IPv4 datagrams, whatever number they have."""


def is_fed(path: str) -> bool:
    """Whether the program can't read a capture as it is. Pipes and devices are left alone."""
    if os.path.isdir(path):
        return True
    front = b""
    with suppress(OSError, ValueError):
        if os.path.isfile(path):
            with open(path, "rb") as file:
                front = file.read(4)
    return front[:2] == PACKED or front == PCAPNG or front in FORMS and UNTAG in os.environ


def files_of(path: str) -> list[str]:
    """The captures of a folder in the order of their first frames, or the one that this is. Names that begin with a dot are left out."""
    if not os.path.isdir(path):
        return [path]
    first: dict[str, int] = {}
    for entry in os.scandir(path):
        if entry.is_file() and not entry.name.startswith("."):
            try:
                frame = next(records(entry.path), None)
            except ValueError:
                raise Fault(f"{shown(entry.name)} in this folder is no capture") from None
            first[entry.path] = frame.moment if frame else 0
    if not first:
        raise Fault("it is a folder without captures")
    return sorted(first, key=lambda one: (first[one], one))


class Feeder:
    """A process that writes the frames of captures into a pipe."""

    def __init__(self, path: str) -> None:
        command = [sys.executable, "-P", "-m", "rendapil.inputs", *files_of(path)]
        env = {**os.environ, "PYTHONPATH": str(TOP / "python")}
        self._process = subprocess.Popen(command, env=env, stdin=subprocess.DEVNULL, stdout=subprocess.PIPE, stderr=subprocess.PIPE)
        self.pipe = cast(BufferedReader, self._process.stdout)

    def end(self) -> str:
        """Ends it. What it said of damage, if anything."""
        self.pipe.close()
        said = cast(IO[bytes], self._process.stderr).read().decode(errors="replace").strip()
        self._process.wait()
        return said


class Fed(BufferedReader):
    """What a feeder writes, as a file."""

    damage = ""
    """What is wrong with the captures behind their last whole frame. It is known once this is closed."""

    def __init__(self, feeder: Feeder) -> None:
        super().__init__(feeder.pipe.raw, 1 << 18)
        self._feeder = feeder

    def close(self) -> None:
        """Ends the feeder."""
        if not self.closed:
            super().close()
            self.damage = self._feeder.end()


def opened(path: str) -> BinaryIO:
    """A capture as the pcap file that the program reads. ValueError where a folder has other files."""
    try:
        return cast(BinaryIO, Fed(Feeder(path))) if is_fed(path) else open(path, "rb", 1 << 18)
    except Fault as error:
        raise ValueError(f"{shown(path)}: {error}") from None


# The process.


def without_tags(octets: bytes) -> bytes:
    """An Ethernet frame of IPv4 without VLAN tags. Others stay as they are."""
    at = 12
    while octets[at : at + 2] in TAGS:
        at += 4
    return octets[:12] + octets[at:] if octets[at : at + 2] == IPV4 else octets


def write(files: Iterable[str], out: BinaryIO) -> None:
    """Writes the frames of captures as one. Damaged where they can't be, behind those before."""
    link, is_untagged, count, put, head = -1, UNTAG in os.environ, 0, out.write, RECORD_HEAD.pack
    try:
        for moment, of, octets, length, *_ in chain.from_iterable(map(whole_records, files)):
            if of != link:
                link = first_link(link, RAW_IP if of in BARE else of, out)
            if is_untagged and link == ETHERNET:
                length -= len(octets)
                octets = without_tags(octets)
                length += len(octets)
            if len(octets) > RECORD or not 0 <= moment < MOMENTS:
                raise Damaged("no record of a pcap file has its length or its stamp")
            put(head(moment // SECOND, moment % SECOND, len(octets), length))
            put(octets)
            count += 1
    except (Damaged, ValueError) as error:
        first_link(link, link if link >= 0 else ETHERNET, out)
        out.write(bytes(8))  # what is cut shows as a record without an end
        raise Damaged(f"behind frame {count}: {error}" if count else str(error)) from None
    first_link(link, link if link >= 0 else ETHERNET, out)


def first_link(link: int, of: int, out: BinaryIO) -> int:
    """Writes the head of the capture once its link is known. Damaged where a frame has another one."""
    if link < 0:
        out.write(HEAD.pack(0xA1B23C4D, 2, 4, 0, 0, RECORD, of))
    elif of != link:
        raise Damaged(f"its link is {of}, and that of those before is {link}: tshark writes those of one interface")
    return of


def main(files: list[str]) -> int:
    """Writes to standard output. The status."""
    try:
        with open(1, "wb", 1 << 18) as out:
            write(files, out)
    except BrokenPipeError:
        return 0
    except (Damaged, OSError) as error:
        print(shown(str(error)), file=sys.stderr)
        return 1
    return 0


if __name__ == "__main__":
    sys.exit(main(sys.argv[1:]))
