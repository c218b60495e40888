"""The names of hosts, by the answers of DNS."""
import re
import struct
from collections.abc import Iterator

A, PTR, INTERNET = 1, 12, 1
MOST_RECORDS, MOST_JUMPS, LONGEST = 200, 32, 253
NAME = re.compile(r"[A-Za-z0-9_-]+(\.[A-Za-z0-9_-]+)*")
REVERSE = re.compile(r"(\d{1,3})\.(\d{1,3})\.(\d{1,3})\.(\d{1,3})\.in-addr\.arpa", re.I)


def name_at(message: bytes, at: int) -> tuple[str, int]:
    """The name at a place, and the place behind it. LookupError where there is none."""
    labels: list[str] = []
    end = jumps = 0
    while (size := message[at]) and jumps < MOST_JUMPS:
        if size >= 0xC0:
            end, at, jumps = end or at + 2, (size & 0x3F) << 8 | message[at + 1], jumps + 1
        elif size >= 0x40 or at + size >= len(message):
            raise LookupError
        else:
            labels.append(message[at + 1 : at + 1 + size].decode("latin-1"))
            at += 1 + size
            if sum(map(len, labels)) > LONGEST:
                raise LookupError
    if message[at]:
        raise LookupError
    return ".".join(labels), end or at + 1


def named_hosts(message: bytes) -> Iterator[tuple[int, str]]:
    """The addresses that a message gives names to, each with its name: by A records (RFC 1035, 3.4.1) and by PTR records (3.5)."""
    if len(message) < 12 or not message[2] & 0x80:
        return
    questions, *records = struct.unpack_from(">4H", message, 4)
    at = 12
    try:
        for _ in range(questions):
            at = name_at(message, at)[1] + 4
        for _ in range(min(sum(records), MOST_RECORDS)):
            name, at = name_at(message, at)
            kind, of, _, size = struct.unpack_from(">HHIH", message, at)
            at += 10
            if of == INTERNET and kind == A and size == 4 and at + 4 <= len(message) and NAME.fullmatch(name):
                yield int.from_bytes(message[at : at + 4]), name
            elif of == INTERNET and kind == PTR and (found := REVERSE.fullmatch(name)) and max(numbers := list(map(int, found.groups()))) < 256:
                if NAME.fullmatch(target := name_at(message, at)[0]):
                    yield int.from_bytes(bytes(numbers[::-1])), target
            at += size
    except (LookupError, struct.error):
        return
