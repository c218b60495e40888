"""The table of bindings, held against what the gateway did, and told frames that are made to mislead, end or stall it."""
import itertools
import os
import random
import struct
import tempfile
import time
import unittest
from collections.abc import Iterator
from ipaddress import IPv4Address
from typing import NamedTuple

from testing import CASE, INPUTS, OUTPUTS, PROGRAM, RIGHT, datagram

from rendapil import bindings  # noqa: I001
from rendapil.document import Document, RealmTable, StaticTable, document_in
from rendapil.files import Capture
from rendapil.packet import datagram_of
from rendapil.bindings import Binding, Bindings
from rendapil.numbers import ACK, FIN, SECOND, SIDES, SYN, TCP, UDP
from dialogues import Dialogues
from datagrams import fragments, quad, tcp, udp
from messages import resource

LARGE = (
    RIGHT.replace("192.168.200.254", "192.168.255.255")
    .replace('first = "172.16.9.1"', 'first = "172.16.0.0"')
    .replace("172.16.9.254", "172.16.255.255")
)


class Checked(Bindings):
    """The table, each of whose steps is held against what the gateway did: a new alias is the least free one, both headers are those that the
    table says, and an alias stands for a host exactly where a frame to it passes."""

    def _bind(self, binding: Binding, moment: int) -> None:
        """Looks at a new alias."""
        if not binding.fixed:
            least = self.pools[1 - binding.side].least_free(moment)
            assert binding.alias == least, f"{IPv4Address(binding.host)} is {IPv4Address(binding.alias)}, and {IPv4Address(least)} is free"
        super()._bind(binding, moment)

    def host_of(self, side: int, address: bytes, moment: int) -> bytes | None:
        """What an address of one side is called on the other: the host for which an alias stands, if any, or itself."""
        pool, alias = self.pools[side], int.from_bytes(address)
        if not pool.first <= alias <= pool.last:
            return address
        binding = pool.holders.get(alias)
        return binding.host.to_bytes(4) if binding and binding.lives(moment) else None

    def event(self, side: int, moment: int, verdict: str, came: bytes, sent: list[bytes]) -> None:
        """Looks at what passed, and at what found no binding."""
        if verdict == "NoBinding" and not int.from_bytes(came[6:8]) & 0x3FFF:
            assert self.host_of(side, came[16:20], moment) in (None, came[16:20]), "NoBinding, and the address stands for a host"
        if verdict == "pass":
            assert self.host_of(side, came[16:20], moment), "it passed to an address that stands for nobody"
        missed = self.missed
        super().event(side, moment, verdict, came, sent)
        assert self.missed == missed, "it was missed"
        for image in sent:
            assert self.host_of(1 - side, image[12:16], moment) == came[12:16], "its source is another host's alias"
            assert self.host_of(side, came[16:20], moment) == image[16:20], "it went to another host"


class Told(NamedTuple):
    """An event of a run: a datagram that came from a side, and those that were sent for it."""

    side: int
    moment: int
    verdict: str
    came: bytes
    sent: list[bytes]


def datagrams_in(path: str) -> Iterator[bytes]:
    """The datagrams of a capture."""
    with Capture(path) as capture:
        for frame in capture.frames():
            yield datagram_of(frame.octets, frame.link)


def events_of(left: str, right: str, left_out: str, right_out: str, report: str) -> Iterator[Told]:
    """The events of a run whose report is text."""
    came, sent = [datagrams_in(left), datagrams_in(right)], [datagrams_in(left_out), datagrams_in(right_out)]
    with open(report, encoding="ascii") as file:
        for line in file:
            _, name, moment, verdict, count, *others = line.split()
            if others:
                return
            side = SIDES.index(name)
            yield Told(side, int(moment), verdict, next(came[side]), list(itertools.islice(sent[1 - side], int(count))))


def checked_over(settings: str, *files: str) -> Checked:
    """The table after a run, each of whose events is held against it."""
    with open(settings, encoding="utf-8") as file:
        table = Checked(document_in(file.read()), lambda _: None)
    for event in events_of(*files):
        table.event(*event)
    return table


class OverRuns(unittest.TestCase):
    """The table over runs of the program."""

    def test_recorded(self) -> None:
        """In a recorded run of real programs, and in the example."""
        table = checked_over(CASE[0], *CASE[1:])
        self.assertEqual([pool.most for pool in table.pools], [44, 3])
        checked_over(INPUTS[0], *INPUTS[1:], *OUTPUTS)

    if "CASES" in os.environ:

        def test_cases(self) -> None:
            """In each run of the folder that CASES names."""
            runs = 0
            for case in os.scandir(os.environ["CASES"]):
                names = [
                    f"{case.path}/{name}" for name in ("settings.toml", "left.pcap", "right.pcap", "left_out.pcap", "right_out.pcap", "report.txt")
                ]
                if all(os.path.exists(name) and os.path.getsize(name) for name in names):
                    with self.subTest(case.name), open(names[-1], encoding="ascii") as report:
                        if not report.read(1).startswith("{"):
                            checked_over(*names)
                            runs += 1
            self.assertGreater(runs, 0)

    def test_dialogues(self) -> None:
        """In runs of hosts that talk to one another at random: `bench/bindings` makes more of these."""
        if not os.access(PROGRAM, os.X_OK):
            self.skipTest("the program isn't built")
        passed = 0
        with tempfile.TemporaryDirectory() as room:
            for seed in range(20):
                with self.subTest(seed):
                    passed += Dialogues(PROGRAM, room, seed).make().count("pass")
                    checked_over(*(f"{room}/{name}" for name in Dialogues.FILES))
        self.assertGreater(passed, 500)


def message(*addresses: str) -> bytes:
    """A DNS answer that names addresses."""
    head = struct.pack(">6H", 1, 0x8000, 0, len(addresses), 0, 0)
    return head + b"".join(b"\x01a\x00" + struct.pack(">HHIH", 1, 1, 0, 4) + quad(address) for address in addresses)


class Follows:
    """A table that is told datagrams between 10.0.0.5 of the left realm and the name server 10.0.0.53 of the right one, each with its second."""

    WAYS = (("10.0.0.5 > 192.168.200.1", "172.16.9.1 > 10.0.0.53"), ("10.0.0.53 > 172.16.9.1", "192.168.200.1 > 10.0.0.5"))

    def __init__(self) -> None:
        pools = {"left": ("192.168.200.1", "192.168.200.9"), "right": ("172.16.9.1", "172.16.9.9")}
        left, right = (RealmTable(pool_first=first, pool_last=last, link="raw") for first, last in pools.values())
        settings = Document(left=left, right=right, static=[StaticTable(side="right", host="10.0.0.53", alias="192.168.200.1")])
        self.found: list[Binding] = []
        self.table = Bindings(settings, self.found.append)

    def passes(self, second: int, side: int, protocol: int, came: bytes, sent: bytes) -> None:
        """Of a datagram its payload as it came and as it was sent."""
        image = datagram(self.WAYS[side][1], protocol, sent)
        self.table.event(side, second * SECOND, "pass", datagram(self.WAYS[side][0], protocol, came), [image])

    def segment(self, second: int, side: int, sequence: int, flags: int, payload: bytes = b"", image: bytes = b"") -> None:
        """The same of a TCP segment."""
        ports = (4000, 53) if side == 0 else (53, 4000)
        head = struct.pack(">HHIIBBHHH", *ports, sequence, 0, 0x50, flags, 0, 0, 0)
        self.passes(second, side, TCP, head + payload, head + image)

    def aliases(self) -> list[str]:
        """The aliases that were found, in order."""
        return [str(IPv4Address(one.alias)) for one in self.found]


class Times(unittest.TestCase):
    """For how long an alias lives."""

    def test_dns_over_tcp_keeps_names(self) -> None:
        """What a connection named is used by each of its segments, and ends with it."""
        told = Follows()
        named, shown = (struct.pack(">H", len(one)) + one for one in (message("10.0.0.8"), message("192.168.200.2")))
        told.segment(1, 0, 100, SYN)
        told.segment(1, 1, 200, SYN | ACK)
        told.segment(1, 0, 101, ACK)
        told.segment(2, 1, 201, ACK, named[:9])
        self.assertEqual(told.aliases(), ["192.168.200.1", "172.16.9.1"])
        told.segment(3, 1, 210, ACK, named[9:], shown)
        self.assertEqual(told.aliases(), ["192.168.200.1", "172.16.9.1", "192.168.200.2"])
        host = told.found[2]
        self.assertEqual((host.end, host.uses), (7443 * SECOND, 2))
        told.segment(5000, 0, 101, ACK)
        self.assertEqual(host.end, 12440 * SECOND)
        told.segment(12300, 0, 101, ACK | FIN)
        self.assertEqual(host.end, 12540 * SECOND)
        told.segment(12600, 0, 102, ACK)
        self.assertEqual((host.end, told.table.missed), (12540 * SECOND, 0))

    def test_times_over_udp(self) -> None:
        """A header holds for 300 seconds, that of a ping for 60, and a name in an answer for 60."""
        told = Follows()
        question, ports = struct.pack(">HHHH", 4000, 53, 0, 0) + message(), struct.pack(">HHHH", 53, 4000, 0, 0)
        told.passes(1, 0, 1, bytes(8), bytes(8))
        self.assertEqual(told.found[1].end, 61 * SECOND)
        told.passes(2, 0, UDP, question, question)
        self.assertEqual(told.found[1].end, 302 * SECOND)
        told.passes(3, 1, UDP, ports + message("10.0.0.8"), ports + message("192.168.200.2"))
        self.assertEqual((told.found[2].end, told.table.missed), (63 * SECOND, 0))

    def test_names_of_a_cut_answer(self) -> None:
        """An answer that was cut doesn't show its aliases: they are the least free ones. Reverse names are names too."""
        told = Follows()
        question, ports = struct.pack(">HHHH", 4000, 53, 0, 0) + message(), struct.pack(">HHHH", 53, 4000, 0, 0)
        told.passes(1, 0, UDP, question, question)
        told.passes(1, 1, UDP, ports + message("10.0.0.8", "10.0.0.9", "127.0.0.1"), ports + message())
        self.assertEqual(told.aliases(), ["192.168.200.1", "172.16.9.1", "192.168.200.2", "192.168.200.3"])
        reverse = struct.pack(">6H", 1, 0, 1, 0, 0, 0) + b"\x0210\x010\x010\x0210\x07IN-addr\x04arpa\x00" + struct.pack(">HH", 12, 1)
        told.passes(61, 1, UDP, ports + reverse, ports + message())
        self.assertEqual((told.aliases()[4:], told.found[4].host), (["192.168.200.2"], int(IPv4Address("10.0.0.10"))))
        self.assertEqual((told.table.pools[0].most, told.table.missed), (3, 0))


HOST, OTHER = "10.0.0.5", "192.168.200.1"
FIRST = b"\xc0\x0c"


def records(made: Iterator[bytes], most: int) -> bytes:
    """A DNS answer of so many octets at most."""
    body, count = b"", 0
    for one in made:
        if 12 + len(body) + len(one) > most:
            break
        body, count = body + one, count + 1
    return struct.pack(">6H", 7, 0x8180, 0, count, 0, 0) + body


def chained(links: int) -> Iterator[bytes]:
    """Pointers, each to the one before, and then records of which each begins at another of them."""
    yield resource(b"\x01a\0", 1, quad("127.0.0.1"))
    places = [12, *range(41, 41 + 2 * links, 2)]
    pointers = [struct.pack(">H", 0xC000 | place) for place in places]
    yield resource(FIRST, 16, b"".join(pointers[:-1]))
    yield from (resource(pointer, 16) for pointer in itertools.cycle(pointers[::-1]))


def many_addresses() -> Iterator[bytes]:
    """One owner of more and more addresses."""
    yield resource(b"\x01a\x00", 1, struct.pack(">I", 0x0B000000))
    yield from (resource(FIRST, 1, struct.pack(">I", 0x0B000000 + number)) for number in itertools.count(1))


class Hostile(unittest.TestCase):
    """Frames that the gateway passes, and that are made to mislead, end or stall what follows it."""

    def setUp(self) -> None:
        """A table of two pools of 65,536."""
        self.table = Bindings(document_in(LARGE), lambda _: None)

    def passes(self, second: float, came: bytes, *sent: bytes) -> float:
        """How many seconds of processor the table takes for a datagram from the left, and of those that were sent for it."""
        begun = time.process_time()
        self.table.event(0, int(second * SECOND), "pass", came, list(sent))
        return time.process_time() - begun

    def test_syn_again(self) -> None:
        """A SYN that comes again, and then a part of a message, read from where its octets are the length of another one."""
        told = Follows()
        question = struct.pack(">6H", 7, 0x0100, 1, 0, 0, 0) + b"\x04\0\2AA\0" + struct.pack(">HH", 1, 1)
        unit = struct.pack(">H", len(question)) + question
        told.segment(1, 0, 1000, SYN)
        told.segment(1, 1, 5000, SYN | ACK)
        told.segment(1, 0, 1001, ACK, unit, unit)
        told.segment(1, 0, 1000, SYN)
        told.segment(1, 0, 1016, ACK, unit[15:], unit[15:])
        self.assertEqual((told.aliases(), told.table.missed), (["192.168.200.1", "172.16.9.1"], 0))

    def test_identification_again(self) -> None:
        """The tail of another datagram of the same identification, a second before the joined one would have ended, and then its head."""
        whole = datagram(f"{HOST} > {OTHER}", UDP, struct.pack(">HHHH", 53, 4000, 0, 0) + message(*["10.0.0.8"] * 40))
        image = datagram("172.16.0.0 > 10.0.0.53", UDP, struct.pack(">HHHH", 53, 4000, 0, 0) + message(*["172.16.0.1"] * 40))
        head, *tail = fragments(whole, 400)
        self.table._bind(Binding(1, int(IPv4Address("10.0.0.53")), int(IPv4Address(OTHER)), True), 0)
        for second, parts in ((1, [head, *tail]), (30, tail[::-1] + [head])):
            for part in parts[:-1]:
                self.table.event(0, second * SECOND, "held", part, [])
            self.table.event(0, (second + 2) * SECOND, "pass", parts[-1], [image])
        self.assertEqual((self.table.missed, self.table._parts), (0, {}))

    def test_joined_datagrams_are_forgotten(self) -> None:
        """Those that passed, those that were refused, and of those that wait the oldest where they are more than the gateway joins."""
        whole = datagram(f"{HOST} > 127.0.0.1", UDP, bytes(1600))
        head, tail = fragments(whole, 1480)
        for number in range(300):
            one, other = (part[:4] + struct.pack(">H", number) + part[6:] for part in (head, tail))
            self.table.event(0, SECOND, "held", one, [])
            if number % 3:
                self.table.event(0, SECOND, "pass" if number % 3 == 1 else "BadSum", other, [whole])
            self.table.event(0, SECOND, "BadFragment", one, [])
        self.assertLessEqual(len(self.table._parts), bindings.JOINED + 1)

    def test_time_of_messages(self) -> None:
        """A long message takes milliseconds, whatever its names are: a chain of pointers, long names, and addresses for a pool that is all but full."""
        self.table._bind(Binding(1, int(IPv4Address("10.0.0.53")), int(IPv4Address(OTHER)), True), 0)
        long_names = itertools.chain([resource(b"\x01a" * 126 + b"\0", 1, quad("127.0.0.1"))], itertools.repeat(resource(FIRST, 16)))
        frames = [
            udp(HOST, 53, OTHER, 40000, records(made, most)) for made, most in ((chained(8000), 60_000), (chained(2000), 8213), (long_names, 65_507))
        ]
        for frame in frames:
            self.assertLess(self.passes(1, frame, datagram("172.16.0.0 > 10.0.0.53", UDP, frame[20:])), 1)
        for number in range(60_000):
            self.table._use(0, SECOND, struct.pack(">I", 0x0A010000 + number), None, 300 * SECOND)
        cut = datagram("172.16.0.0 > 10.0.0.53", UDP, struct.pack(">HHHH", 53, 40000, 0, 0) + struct.pack(">6H", 7, 0x8380, 0, 0, 0, 0))
        answer = records(many_addresses(), 64_000)
        self.assertLess(self.passes(2, udp(HOST, 53, OTHER, 40000, answer), cut), 1)
        self.assertEqual((self.table.missed, self.table.pools[1].level(2 * SECOND)), (0, 60_001 + int.from_bytes(answer[6:8])))

    def test_what_is_no_message(self) -> None:
        """Datagrams of all kinds of garbage end nothing, and are counted at most once each."""
        draw = random.Random(7)
        for number in range(3000):
            payload = bytes(draw.choice((0, 1, 2, 53, 63, 64, 192, 193, 255)) for _ in range(draw.randrange(90)))
            ports = struct.pack(">HH", 53, 4000) if draw.random() < 0.8 else b""
            came = datagram(f"{HOST} > {OTHER}", draw.choice((1, TCP, UDP, 47)), ports + payload)
            came = came[: draw.choice((0, 1, 10, 20, 24, 33, 200))] if draw.random() < 0.3 else came
            came = came[:6] + struct.pack(">H", draw.choice((0, 0x2000, 0x1FFF, 7))) + came[8:]
            sent = [datagram("172.16.0.0 > 10.0.0.53", UDP, payload)] if draw.random() < 0.8 else []
            self.table.event(draw.randrange(2), number * SECOND // 10, draw.choice(("pass", "pass", "held", "BadSum")), came, sent)
        self.assertTrue(0 < self.table.missed <= 3000)

    def test_takes_over_what_was_shown(self) -> None:
        """Where the gateway calls a host otherwise than the table, the event is missed, and from then on the table is right."""
        way = datagram(f"{HOST} > {OTHER}", UDP, bytes(8))
        came = datagram("172.16.0.7 > 10.0.0.53", UDP, bytes(8))
        self.passes(1, way, came)
        self.assertEqual(self.table.missed, 1)
        self.passes(2, way, came)
        self.table.event(1, 3 * SECOND, "pass", datagram("10.0.0.53 > 172.16.0.7", UDP, bytes(8)), [datagram(f"{OTHER} > {HOST}", UDP, bytes(8))])
        self.assertEqual(self.table.missed, 1)
        self.assertEqual([pool.level(3 * SECOND) for pool in self.table.pools], [1, 1])

    def test_connections_are_bounded(self) -> None:
        """Connections that have ended are dropped."""
        for number in range(20_000):
            segment = tcp(HOST, number % 60_000, OTHER, 80, SYN, 1, 0)
            self.passes(number, segment, segment[:12] + quad("172.16.0.0") + quad("10.0.0.53") + segment[20:])
        self.assertLess(len(self.table._connections), 2000)


if __name__ == "__main__":
    unittest.main()
