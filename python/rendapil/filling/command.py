"""Fills up the frames that a capture has cut, so that `rendapil run` takes them: with zeros to their length on the wire, and with new checksums. What the
gateway has to read can't be made up: FTP, DNS and SNMP, fragments, and frames whose head was cut stay as they are."""
import argparse
import os
import sys
from collections import Counter
from collections.abc import Iterator

from rendapil.any_capture import RAW, datagram_in, with_length
from rendapil.ending import ended, written
from rendapil.files import ETHERNET, RAW_IP, Damaged, Record, bare_head, record_head, shown
from rendapil.packet import Packet
from rendapil.readers import whole_records
from rendapil.sayings import Fault
from rendapil.trying.two_realms import fill


def filled(record: Record) -> tuple[bytes, str]:
    """A frame, filled up where it was cut, and what became of it."""
    if record.length <= len(record.octets):
        return record.octets, "whole"
    datagram = with_length(datagram_in(record.link, record.octets))
    if not datagram:
        return record.octets, "cut, and no IPv4 or without a whole header"
    packet = Packet(datagram)
    if not fill(packet):
        return record.octets, "cut, and of FTP, DNS or SNMP, a fragment, of another protocol, or within its head"
    return record.octets[: len(record.octets) - len(datagram)] + bytes(packet.octets), "filled"


def frames_of(path: str) -> Iterator[Record]:
    """The frames of a capture. What is wrong behind the last one is told."""
    number = 0
    try:
        for number, record in enumerate(whole_records(path), 1):
            yield record
    except Damaged as error:
        print(f"rendapil fill: {shown(path)} is damaged behind frame {number}: {error}", file=sys.stderr)


def fill_capture(words: argparse.Namespace) -> int:
    """Fills up a capture, and tells. The status."""
    if os.path.exists(words.new) and os.path.exists(words.capture) and os.path.samefile(words.new, words.capture):
        raise Fault(f"{shown(words.new)} is the capture itself, and would be overwritten")
    counts: Counter[str] = Counter()
    link = None
    with written(words.new) as file:
        for record in frames_of(words.capture):
            if link is None:
                link = RAW_IP if record.link in RAW else record.link
                file.write(bare_head()[:20] + link.to_bytes(4, "little"))
            if record.link != link and not (link == RAW_IP and record.link in RAW):
                counts["left out, of another link than the first"] += 1
                continue
            octets, what = filled(record)
            counts[what] += 1
            file.write(record_head(record.moment, len(octets), max(record.length, len(octets))) + octets)
    if link is None:
        raise Fault(f"{shown(words.capture)} has no frame")
    for what, count in counts.most_common():
        print(f"{count:8}  {'frame' if count == 1 else 'frames'} {what}")
    if link not in (ETHERNET, RAW_IP):
        print(f"The link has type {link}, which `run` doesn't take: see rendapil check")
    if counts["filled"]:
        print("What was filled up has payloads of zeros: addresses in them, and what they say, can't be told")
    return 0


def parsed() -> argparse.Namespace:
    """The words of the command."""
    end = "The status is 0, or 1 where the capture can't be read, or 2 where the words are wrong."
    parser = argparse.ArgumentParser(prog="rendapil fill", description=__doc__, epilog=end)
    parser.add_argument("capture", metavar="CAPTURE", help="a capture as pcap or pcapng, packed by gzip or not")
    parser.add_argument("new", metavar="NEW", help="where the capture with whole frames goes, as pcap")
    return parser.parse_args()


def main() -> int:
    """Reads the words, and does it. The status."""
    words = parsed()
    return ended("fill", lambda: fill_capture(words), file=words.new)


if __name__ == "__main__":
    sys.exit(main())
