"""What a DNS message names."""
import struct

REVERSE_LABELS = 6
"""How many labels a full reverse name has, as 1.200.168.192.in-addr.arpa."""

LABELS = 127
"""The most labels that a name has."""


class Names:
    """The names of a DNS message, of each at most so many labels. Each pointer is followed once. ValueError where one doesn't lead back."""

    def __init__(self, message: bytes, most: int) -> None:
        self._message, self._most = message, most
        self._leads: dict[int, int] = {}  # from a pointer to the first octet behind it that is none

    def _led_to(self, at: int) -> int:
        """The place to which a pointer leads, over further pointers."""
        path = []
        while self._message[at] >= 192:
            if at in self._leads:
                at = self._leads[at]
                break
            path.append(at)
            to = (self._message[at] & 63) << 8 | self._message[at + 1]
            if to >= at:
                raise ValueError("a pointer that doesn't lead back")
            at = to
        self._leads.update(dict.fromkeys(path, at))
        return at

    def read(self, at: int) -> tuple[list[bytes], int]:
        """The labels of the name at a place, and the place behind it."""
        labels: list[bytes] = []
        end = 0
        while (size := self._message[at]) and not (end and len(labels) == self._most):
            if size >= 192:
                end = end or at + 2
                at = self._led_to(at)
            else:
                if len(labels) < self._most:
                    labels.append(self._message[at + 1 : at + 1 + size])
                at += 1 + size
        return labels, end or at + 1


def address_of_reverse(labels: list[bytes]) -> list[bytes]:
    """The address of a full reverse name, if it is one."""
    if len(labels) != REVERSE_LABELS or [label.lower() for label in labels[4:]] != [b"in-addr", b"arpa"]:
        return []
    numbers = [int(label) for label in labels[3::-1] if len(label) <= 3 and label.isdigit() and label == b"%d" % int(label) and int(label) < 256]
    return [bytes(numbers)] if len(numbers) == 4 else []


def named_in(message: bytes) -> list[bytes]:
    """The addresses that a DNS message names, in order: those of full reverse names and of A records."""
    questions, *records = struct.unpack_from(">4H", message, 4)
    at, found = 12, []
    names = Names(message, REVERSE_LABELS + 1)
    for place in range(questions + sum(records)):
        labels, at = names.read(at)
        found += address_of_reverse(labels)
        kind, group = struct.unpack_from(">HH", message, at)
        at += 4
        if place >= questions:
            size = struct.unpack_from(">H", message, at + 4)[0]
            at += 6 + size
            found += [message[at - 4 : at]] if (kind, group, size) == (1, 1, 4) else []
    return found
