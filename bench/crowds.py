"""Messages that somebody would send who looks for the frame that costs most: names that are compared over many octets again and again, and object
identifiers that meet many rules. `bench/worst` measures them, and `bench/worst --climb` looks for worse ones."""
import itertools
import random
import struct
from collections.abc import Callable, Iterator
from typing import Any

from climb import Parameters
from datagrams import quad
from messages import HOST, element, identifier, reads, resource, ruled

A, MINFO, TXT = 1, 14, 16
LED = 12
"""How many octets a record takes whose owner leads into the octets of a text."""


def label(octets: bytes) -> bytes:
    """A label of a name."""
    return bytes([len(octets)]) + octets


def pointer(place: int) -> bytes:
    """A pointer to a place of a message."""
    return struct.pack(">H", 0xC000 | place)


def numbers(count: int, order: str, base: int, step: int, draw: random.Random) -> list[int]:
    """The numbers in the labels of a crowd."""
    bits = max(1, (count - 1).bit_length())
    orders: dict[str, Callable[[], list[int]]] = {
        "up": lambda: list(range(count)),
        "down": lambda: list(range(count))[::-1],
        "shuffled": lambda: draw.sample(range(count), count),
        "bits": lambda: [number for number in (int(f"{one:0{bits}b}"[::-1], 2) for one in range(1 << bits)) if number < count],
    }
    return [base + step * number for number in orders[order]()]


class Crowd:
    """A DNS message of so many octets at most. A crowd of names of one length agree at both ends: `pre` labels of one octet, a label of `width` octets
    with a number, `post` labels, and then the same `tail` labels. Behind it are pointers to names of the crowd, three to a record, each with `own`
    labels before it. At the end are `led` names that lead into a text, so that they are spelled whole, and the message grows."""

    def __init__(
        self,
        most: int,
        tail: int = 113,
        pre: int = 11,
        post: int = 0,
        width: int = 2,
        crowd: int = 250,
        order: str = "bits",
        pick: int | str = "last",
        own: int = 0,
        led: int = 0,
        base: int = 0,
        step: int = 1,
        seed: int = 1,
    ) -> None:
        self._draw = random.Random(seed)
        self._front, self._width, self._behind = label(b"a") * pre, width, label(b"a") * post + pointer(12)
        self._own, self._pick = label(b"a") * own, pick
        self._body, self._count = bytearray(12), 0
        self._most = most - LED * led
        self._places: dict[int, int] = {}
        self._add(resource(label(b"a") * tail + b"\0", A, quad(HOST)))
        text = len(self._body) + LED
        if led:
            self._add(resource(pointer(12), TXT, b"\x3f" * 192 + bytes(80)))
        self._put_crowd(numbers(crowd, order, base, step, self._draw))
        self._put_pointers()
        for number in range(1, 1 + led):
            self._body += resource(pointer(text + number), TXT)
        self.octets = struct.pack(">6H", 7, 0x8180, 0, self._count + led, 0, 0) + bytes(self._body[12:])

    def _name(self, number: int) -> bytes:
        """The name of the crowd that has a number."""
        return self._front + label(number.to_bytes(self._width)) + self._behind

    def _add(self, octets: bytes) -> bool:
        """A record, if it fits."""
        if len(self._body) + len(octets) > self._most:
            return False
        self._body += octets
        self._count += 1
        return True

    def _put_crowd(self, numbers: list[int]) -> None:
        """Three names to a record: its owner, and two in its data."""
        for at in range(0, len(numbers) // 3 * 3, 3):
            owner, *data = map(self._name, numbers[at : at + 3])
            begin = len(self._body)
            if not self._add(resource(owner, MINFO, b"".join(data))):
                return
            first = begin + len(owner) + 10
            self._places |= dict(zip(numbers[at : at + 3], (begin, first, first + len(data[0]))))

    def _put_pointers(self) -> None:
        """Records with three names that lead to the crowd, as many as fit."""
        known = [place for _, place in sorted(self._places.items()) if place < 1 << 14]
        picks: dict[str, Callable[[int], int]] = {
            "last": lambda _: known[-1],
            "first": lambda _: known[0],
            "middle": lambda _: known[len(known) // 2],
            "all": lambda number: known[number % len(known)],
            "top": lambda number: known[-1 - number % min(16, len(known))],
            "any": lambda _: self._draw.choice(known),
        }
        for number in itertools.count(0, 3):
            names = [
                self._own + pointer(known[self._pick % len(known)] if isinstance(self._pick, int) else picks[self._pick](number + place))
                for place in range(3)
            ]
            if not self._add(resource(names[0], MINFO, names[1] + names[2])):
                return


SPACE: dict[str, tuple[int | str, ...]] = {
    "tail": (1, 122),
    "pre": (0, 20),
    "post": (0, 20),
    "width": (1, 8),
    "crowd": (3, 2600),
    "order": ("up", "down", "shuffled", "bits"),
    "pick": ("last", "first", "middle", "all", "top", "any", 0, 400),
    "own": (0, 2),
    "base": (0, 60_000),
    "step": (1, 257),
    "seed": (0, 999),
}
"""The parameters of a crowd, as a climb changes them."""


SIMPLE: Parameters = {"own": 0, "base": 0, "step": 1, "seed": 1}
"""Those that the crowds below leave as they are."""


def is_crowd(parameters: Parameters) -> bool:
    """Whether the names aren't too long, and the numbers fit into their labels."""
    one = SIMPLE | parameters
    octets = 2 * (one["tail"] + one["pre"] + one["post"] + one["own"]) + 1 + one["width"] + 1
    return bool(octets <= 255 and one["base"] + one["step"] * one["crowd"] < 256 ** one["width"])


WORST_UDP: Parameters = SIMPLE | {"tail": 113, "pre": 11, "post": 0, "width": 2, "crowd": 250, "order": "bits", "pick": "last"}
WORST_OWN: Parameters = {
    "tail": 104,
    "pre": 18,
    "post": 0,
    "width": 3,
    "crowd": 342,
    "order": "shuffled",
    "pick": "all",
    "own": 1,
    "base": 13,
    "step": 1,
    "seed": 0,
}
WORST_TCP: Parameters = SIMPLE | {"tail": 70, "pre": 10, "post": 0, "width": 1, "crowd": 254, "order": "up", "pick": 28, "led": 30, "seed": 713}
WORST_SEVEN: Parameters = {"tail": 89, "pre": 0, "width": 8, "led": 0, "crowd": 558, "pick": 386, "seed": 705}
"""The worst that climbs found over UDP, without and with labels before the pointers, and over TCP. Seven messages in a segment, which pass, differ so
from the one over TCP."""


def crowd_over_udp(most: int, **changes: Any) -> bytes:
    """The message for UDP: a shorter one has fewer names."""
    return Crowd(most, **{**WORST_UDP, "crowd": max(3, min(WORST_UDP["crowd"], most // 130)), **changes}).octets


def crowd_over_tcp(most: int, **changes: Any) -> bytes:
    """The message for a session, which grows by more than half unless `led` is 0."""
    return Crowd(
        most, **{**WORST_TCP, "crowd": WORST_TCP["crowd"] * most // 8192, "led": WORST_TCP["led"] * most // 8192 + (most < 8192), **changes}
    ).octets


def reverse_suffixes(begin: int) -> Iterator[tuple[bytes, int]]:
    """The octets of a text that stands at a place, with the ends of reverse names from 1.0.0.1 on, and the places of these: `3.2.1.in-addr.arpa` and so on, without an end."""
    text, top = bytearray(label(b"in-addr") + label(b"arpa") + b"\0"), begin
    for first in range(1, 10):
        one = begin + len(text)
        text += label(b"%d" % first) + pointer(top)
        for second in range(10):
            two = begin + len(text)
            text += label(b"%d" % second) + pointer(one)
            for third in range(10):
                text += label(b"%d" % third) + pointer(two)
                yield bytes(text), begin + len(text) - 4


def fanned(most: int, reverse: int, suffixes: int, tail: int, led: int = 0) -> bytes:
    """Names of which none comes twice. Owners are reverse names of ten hosts for each of so many ends, and in the data are names of a label before one of
    so many suffixes, each before the same `tail` labels. At the end are `led` names that lead into a text."""
    begin = 12 + 11
    made = list(itertools.islice(reverse_suffixes(begin), reverse))
    text, ends = made[-1][0], [place for _, place in made]
    long = begin + len(text)
    text += label(b"a") * tail + b"\0"
    starts = []
    for number in range(suffixes):
        starts.append(begin + len(text))
        text += label(bytes([number])) + pointer(long)
    records = [resource(b"\0", TXT, text)]
    grown = begin + len(text) + 11
    records += [resource(b"\0", TXT, b"\x3f" * 192 + bytes(80))] * (led > 0)
    owners = itertools.cycle(label(b"%d" % last) + pointer(end) for end in ends for last in range(10))
    data = (label(bytes([number])) + pointer(start) for number in itertools.cycle(range(256)) for start in starts)
    room = most - 12 - sum(map(len, records)) - LED * led
    records += [resource(owner, MINFO, next(data) + next(data)) for owner in itertools.islice(owners, room // 22)]
    records += [resource(pointer(grown + number), TXT) for number in range(1, 1 + led)]
    return struct.pack(">6H", 7, 0x8180, 0, len(records), 0, 0) + b"".join(records)


FANS: dict[str, tuple[int, int]] = {"reverse": (1, 900), "suffixes": (1, 250), "tail": (1, 123)}
SHORT_FANS: dict[str, tuple[int, int]] = {"reverse": (1, 120), "suffixes": (1, 60), "tail": (1, 123)}
"""What a climb goes through, in a datagram and in a message over TCP."""


def forked(octets: int, bits: int = 504, tail: int = 1) -> Iterator[bytes]:
    """Labels of so many octets in front of one name, each of which differs from the ones before it in another bit, and then in a number."""
    names = itertools.chain((1 << 8 * octets - 1 - bit for bit in range(min(bits, 8 * octets))), itertools.cycle(range(min(1 << 20, 256**octets))))
    return itertools.chain(
        [resource(label(b"b") * tail + b"\0", A, quad(HOST))],
        (resource(label(number.to_bytes(octets, "big")) + pointer(12), TXT) for number in names),
    )


class Spelled:
    """Records, and how many octets go out for them. Names go out whole, or up to what stands already where a pointer can lead."""

    def __init__(self) -> None:
        self.body, self.out, self._count = bytearray(12), 12, 0
        self._stand: set[tuple[bytes, ...]] = set()

    def _labels(self, place: int) -> Iterator[bytes]:
        """The labels of the name at a place."""
        while self.body[place]:
            if self.body[place] >= 192:
                place = int.from_bytes(self.body[place : place + 2], "big") & 0x3FFF
            else:
                yield bytes(self.body[place : place + 1 + self.body[place]])
                place += 1 + self.body[place]

    def add(self, name: bytes, kind: int, data: bytes = b"", names: tuple[bytes, ...] = ()) -> None:
        """A record, with octets and then names in its data."""
        begin = len(self.body)
        behind = begin + len(name) + 10 + len(data)
        self.body += resource(name, kind, data + b"".join(names))
        self._count += 1
        self._spell(tuple(self._labels(begin)))
        self.out += 10 + len(data)
        for at in range(len(names)):
            self._spell(tuple(self._labels(behind + sum(map(len, names[:at])))))

    def _spell(self, labels: tuple[bytes, ...]) -> None:
        """Counts the octets of a name that goes out."""
        for at in range(len(labels)):
            if labels[at:] in self._stand:
                self.out += 2
                return
            if self.out < 1 << 14:
                self._stand.add(labels[at:])
            self.out += len(labels[at])
        self.out += 1

    def lead(self, most: int, data: bytes) -> None:
        """Names that lead into the octets of a text, at most so many, and until what goes out is behind each pointer."""
        text = len(self.body) + LED
        self.add(pointer(12), TXT, data)
        for number in range(1, 1 + most):
            if self.out >= 1 << 14:
                return
            self.add(pointer(text + number), TXT)

    def message(self, most: int, name: bytes) -> bytes:
        """The message, with three such names in each record at its end."""
        while len(self.body) + 16 <= most and self.out < 65_500:
            self.add(name, MINFO, names=(name, name))
        return struct.pack(">6H", 7, 0x8180, 0, self._count, 0, 0) + bytes(self.body[12:])


def far(most: int) -> bytes:
    """A label before a name of 124 labels goes out behind all that pointers lead to, and stands before that in the message. Pointers lead to it."""
    made = Spelled()
    made.add(label(b"a") * 124 + b"\0", A, quad(HOST))
    made.lead(61, b"\x3f" * 192 + bytes(80))
    while made.out < 1 << 14:
        made.lead(61, b"\x3e" * 189 + bytes(80))
    place = len(made.body)
    made.add(label(b"x") + pointer(12), TXT)
    return made.message(most, pointer(place))


def edged(most: int) -> bytes:
    """A name of 126 labels goes out from the last place to which a pointer leads. It is spelled whole twice, and pointers lead to the second one."""
    made, name = Spelled(), label(b"a") * 126 + b"\0"
    made.add(label(b"b") + b"\0", A, quad(HOST))
    made.lead(6, b"\x3f" * 192 + bytes(80))
    made.add(pointer(12), TXT, bytes((1 << 14) - 1 - made.out - LED))
    made.add(name, TXT)
    place = len(made.body)
    made.add(name, TXT)
    return made.message(most, pointer(place))


FORKS: dict[str, tuple[int, int]] = {"octets": (1, 63), "bits": (0, 504), "tail": (1, 94)}
"""Its parameters, as a climb changes them."""


# SNMP.
DEPTH = 62
WORST_RULED: Parameters = {"depth": 59, "base": 3, "arcs": 66, "arc": 280, "ones": 14}
RULED: dict[str, tuple[int, int]] = {"depth": (1, DEPTH), "base": (0, 127), "arcs": (66, 125), "arc": (128, 16_383), "ones": (1, 63)}


def nested(count: int, depth: int = DEPTH, base: int = 0) -> str:
    """Rules of which each begins with the one before it, that apply to every identifier of the message and find no address."""
    each = -(-count // depth)
    rules = [((1, 3) + (1,) * at, (base + skip) % 128) for at in range(depth) for skip in range(each)][:count]
    return ruled().rstrip("\n") + "\n" + "".join(f'[[oid]]\nprefix = "{".".join(map(str, prefix))}"\nskip = {skip}\n' for prefix, skip in rules)


def meets_all(most: int, arcs: int = 68, arc: int = 300, ones: int = DEPTH) -> bytes:
    """An SNMP answer of identifiers that each such rule applies to: behind the ones are arcs that no address has."""
    binding = element(0x30, identifier(1, 3, *(1,) * ones, *((arc,) * (arcs - ones - 2))) + element(5, b""))
    return reads(binding * ((most - 60) // len(binding)))
