"""Tests of `try`: what it makes of ordinary captures, in each form and link, and of files that are none."""
import gzip
import hashlib
import os
import random
import re
import struct
import subprocess
import sys
import tempfile
import tomllib
import unittest
from collections.abc import Callable
from importlib.util import find_spec
from ipaddress import IPv4Network
from unittest.mock import patch

from testing import PROGRAM, TOP, TRY, capture, said

from rendapil.trying.reading import records
from datagrams import datagram, fragments, icmp, tcp, udp  # testing says where it is
from rendapil.explain.pcapng import block
from rendapil.trying.two_realms import TwoRealms, Way, plainly_moved

HAS_SCAPY = bool(find_spec("scapy")) or said("/usr/bin/python3", "-I", "-c", "import scapy, tomllib")[0] == 0
PYTHON = sys.executable if find_spec("scapy") else "/usr/bin/python3"
REALMS = """
import hashlib, sys
from ipaddress import IPv4Network
sys.path.insert(0, sys.argv[1])
from rendapil.trying.reading import records
from rendapil.trying.two_realms import TwoRealms, write_captures
sides = [f"{sys.argv[2]}/{name}" for name in ("new-left", "new-right")]
for path in sys.argv[3:]:
    realms = TwoRealms([IPv4Network("10.1.0.0/16")], [], True)
    realms.survey(records(path))
    counts = write_captures(sides, realms.crossing(records(path)))
    print(*counts, realms.mended, realms.lines, hashlib.sha256(b"".join(open(side, "rb").read() for side in sides)).hexdigest())
"""
"""What `try` makes of captures: counts, and a digest of both inputs."""
CLIENT, SERVER = ("10.1.0.5", 4000), ("10.2.0.9", 21)


def login() -> list[bytes]:
    """An FTP login with a PORT line, one of whose frames has no right checksum."""
    ends, back = CLIENT + SERVER, SERVER + CLIENT
    frames = [tcp(*ends, 2, 100, 0), tcp(*back, 18, 200, 101), tcp(*ends, 16, 101, 201), tcp(*ends, 24, 101, 201, b"PORT 10,1,0,5,9,9\r\n")]
    frames += [tcp(*back, 24, 201, 120, b"200 ok\r\n"), tcp(*ends, 24, 120, 209, b"NOOP\r\n"), tcp(*back, 16, 209, 126)]
    frames[5] = frames[5][:36] + b"\0\0" + frames[5][38:]
    return frames


def pcap(link: int, frames: list[bytes], magic: int = 0xA1B2C3D4, order: str = "<") -> bytes:
    """A capture, a frame a second."""
    head = struct.pack(order + "IHHiIII", magic, 2, 4, 0, 0, 262144, link)
    return head + b"".join(struct.pack(order + "IIII", second, 0, len(one), len(one)) + one for second, one in enumerate(frames, 1))


def pcapng(link: int, frames: list[bytes], sections: int = 1) -> bytes:
    """The same as pcapng, in sections whose interfaces begin anew: in each but the last one with another interface in front."""
    section = block(0x0A0D0D0A, struct.pack("<IHHq", 0x1A2B3C4D, 1, 0, -1))
    parts = [frames[number::sections] for number in range(sections)]
    whole = b""
    for number, part in enumerate(parts):
        others = sections - 1 - number
        whole += section + others * block(1, struct.pack("<HHI", 147, 0, 0)) + block(1, struct.pack("<HHI", link, 0, 0), (9, b"\x06"))
        for place, one in enumerate(part):
            stamp = (1 + number + place * sections) * 10**6
            whole += block(6, struct.pack("<5I", others, stamp >> 32, stamp & 0xFFFFFFFF, len(one), len(one)) + one)
    return whole


MACS = bytes(12)
FORMS: dict[str, Callable[[list[bytes]], bytes]] = {
    "raw": lambda frames: pcap(101, frames),
    "ipv4": lambda frames: pcap(228, frames),
    "big-endian": lambda frames: pcap(101, frames, order=">"),
    "nanoseconds": lambda frames: pcap(101, frames, 0xA1B23C4D),
    "ethernet with trailers": lambda frames: pcap(1, [MACS + b"\x08\0" + one + bytes(6) for one in frames]),
    "tag": lambda frames: pcap(1, [MACS + b"\x81\0\0\7\x08\0" + one for one in frames]),
    "two tags": lambda frames: pcap(1, [MACS + b"\x88\xa8\0\7\x81\0\0\x08\x08\0" + one for one in frames]),
    "LLC": lambda frames: pcap(1, [MACS + struct.pack(">H", 8 + len(one)) + b"\xaa\xaa\3\0\0\0\x08\0" + one for one in frames]),
    "PPPoE": lambda frames: pcap(1, [MACS + b"\x88\x64\x11\0\0\7" + struct.pack(">HH", 2 + len(one), 0x21) + one for one in frames]),
    "MPLS": lambda frames: pcap(1, [MACS + b"\x88\x47\0\1\1\x40" + one for one in frames]),
    "Wi-Fi": lambda frames: pcap(127, [b"\0\0\x08\0\0\0\0\0\x08\0" + bytes(22) + b"\xaa\xaa\3\0\0\0\x08\0" + one for one in frames]),
    "cooked": lambda frames: pcap(113, [bytes(14) + b"\x08\0" + one for one in frames]),
    "cooked 2": lambda frames: pcap(276, [b"\x08\0" + bytes(18) + one for one in frames]),
    "cooked with a tag": lambda frames: pcap(113, [bytes(14) + b"\x81\0\0\7\x08\0" + one for one in frames]),
    "loopback": lambda frames: pcap(0, [b"\2\0\0\0" + one for one in frames]),
    "PPP": lambda frames: pcap(9, [b"\xff\3\0\x21" + one for one in frames]),
    "pcapng": lambda frames: pcapng(1, [MACS + b"\x08\0" + one for one in frames]),
    "pcapng in sections": lambda frames: pcapng(101, frames, 2),
    "gzip": lambda frames: gzip.compress(pcap(101, frames)),
    "gzip of pcapng": lambda frames: gzip.compress(pcapng(101, frames)),
    "without a length": lambda frames: pcap(101, [one if number != 5 else one[:2] + bytes(2) + one[4:] for number, one in enumerate(frames)]),
}


class InRoom(unittest.TestCase):
    """Tests with a folder of their own."""

    def setUp(self) -> None:
        """A folder."""
        room = tempfile.TemporaryDirectory()
        self.addCleanup(room.cleanup)
        self.room = room.name

    def write(self, name: str, octets: bytes) -> str:
        """A file."""
        with open(f"{self.room}/{name}", "wb") as file:
            file.write(octets)
        return f"{self.room}/{name}"

    def tried(self, path: str, *words: str) -> tuple[int, str]:
        """Status and output of a try."""
        status, text = said(*TRY, path, *words, "--out", f"{self.room}/out", "--program", PROGRAM)
        self.assertTrue(text.isascii() and text.replace("\n", "").isprintable(), text)
        return status, text

    def counts(self, text: str) -> dict[str, int]:
        """How many frames had each verdict."""
        return {name: int(count) for count, name in re.findall(r"(?m)^ *(\d+)  (pass$|held(?=:)|[A-Z]\w+(?=:))", text)}


class Order(InRoom):
    """In which order frames are taken."""

    @unittest.skipUnless(find_spec("scapy"), "this Python has no scapy")
    def test_order(self) -> None:
        """By their stamps where these are a little out of order, and as they stand where time begins anew; a stamp that is none is that before."""
        for seconds, expected in (
            ([1, 3, 2, 5, 4], [1, 2, 3, 4, 5]),
            ([*range(1000, 1500), *range(1, 500)], [*range(1000, 1500), *range(1, 500)]),
            ([4000000000, *range(1, 500)], [*range(1, 500), 4000000000]),
        ):
            whole = struct.pack("<IHHiIII", 0xA1B2C3D4, 2, 4, 0, 0, 262144, 101) + b"".join(
                struct.pack("<IIII", second, 0, 1, 1) + b"x" for second in seconds
            )
            self.assertEqual([one.moment // 10**9 for one in records(self.write("capture", whole))], expected)


@unittest.skipUnless(HAS_SCAPY and os.access(PROGRAM, os.X_OK), "there is no python3-scapy, or the program isn't built")
class Plain(InRoom):
    """Frames of which only the destination changes are written in another way than all others."""

    def test_as_all_others(self) -> None:
        """Each is what the way of all others makes of it, whatever its sums, flags and lengths are."""
        draw = random.Random(7)
        frames = []
        for number in range(3000):
            ends = CLIENT[0], draw.choice((21, 4000, 53)), SERVER[0], draw.choice((21, 80, 53, 9))
            payload = draw.choice((b"", b"\0\0", draw.randbytes(draw.randrange(40))))
            one = bytearray(udp(*ends, payload) if number % 2 else tcp(*ends, draw.choice((16, 24)), number, 5, payload))
            if draw.random() < 0.7:
                at = draw.choice((0, 2, 3, 6, 7, 8, 9, 10, 11, 26, 27, 33, 36, 37, draw.randrange(len(one))))
                one[at % len(one)] = draw.choice((0, 255, one[at % len(one)] ^ 1, draw.randrange(256)))
            if draw.random() < 0.1:
                at = draw.choice((10, 26, 36)) % (len(one) - 1)
                one[at : at + 2] = draw.choice((b"\0\0", b"\xff\xff"))
            frames.append(bytes(one[: draw.choice((len(one), len(one), len(one), draw.randrange(len(one) + 1)))]))
        path = self.write("plain.pcap", pcap(101, frames))
        done: list[bytes] = []

        def noted(octets: bytes, way: Way, is_mended: bool) -> bytes:
            done.append(plainly_moved(octets, way, is_mended))
            return done[-1]

        for is_mended in (True, False):
            found = []
            for way in (noted, lambda *_: b""):
                realms = TwoRealms([IPv4Network("10.1.0.0/16")], [], is_mended)
                realms.survey(records(path))
                with patch("rendapil.trying.two_realms.plainly_moved", way):
                    found.append((list(realms.crossing(records(path))), realms.mended, realms.filled))
            self.assertEqual(found[0], found[1])
        self.assertGreater(sum(map(bool, done)), 800)


@unittest.skipUnless(HAS_SCAPY and os.access(PROGRAM, os.X_OK), "there is no python3-scapy, or the program isn't built")
class Try(InRoom):
    """What `try` makes of an ordinary capture."""

    def test_forms(self) -> None:
        """A login with a PORT line passes whole, and gives the same inputs, whatever its frames stand in."""
        paths = [self.write(name, form(login())) for name, form in FORMS.items()]
        lines = said(PYTHON, "-B", "-c", REALMS, f"{TOP}/python", self.room, *paths)[1].splitlines()
        self.assertEqual(len(lines), len(FORMS), lines)
        for name, line in zip(FORMS, lines):
            self.assertEqual((name, line), (name, lines[0]))
        for name in ("pcapng", "two tags"):
            status, text = self.tried(f"{self.room}/{name}", "--left", "10.1.0.0/16")
            self.assertEqual((status, self.counts(text)), (0, {"pass": 7}), text)
            for line in (
                "7 frames go to the gateway, 4 of the left realm and 3 of the right one.",
                "7 of 7 frames that go to the gateway pass.",
                "1  frame with a checksum that was mended",
                "1  line of FTP that the",
            ):
                self.assertIn(line, text)
            with open(f"{self.room}/out/left.pcap", "rb") as left, open(f"{self.room}/out/right.pcap", "rb") as right:
                self.assertEqual(lines[0], f"4 3 1 1 {hashlib.sha256(left.read() + right.read()).hexdigest()}")
        self.assertEqual(sorted(os.listdir(f"{self.room}/out"))[:3], ["left-out.pcap", "left.pcap", "report.txt"])

    def test_what_to_type(self) -> None:
        """Without --left it lists who speaks with whom, and proposes a command that works, within one block of addresses too."""
        name = self.write("a capture's", capture(login()))
        status, text = said(*TRY, name, "--program", PROGRAM)
        self.assertEqual((status, text.splitlines()[1]), (0, "       7  10.1.0.0/24 and 10.2.0.0/24"))
        self.assertIn("7 of 7 frames go to the gateway, and 7 of these pass", text)
        self.assertIn("With these, 7 of 7 frames go to the gateway", text)
        command = f"{text.splitlines()[-1]} --out {self.room}/out --program {PROGRAM}"
        self.assertIn("7  pass", said("bash", "-c", command)[1])
        near = [udp(f"10.1.0.{host}", 4000 + host, "10.1.0.1", 53 + host, b"x") for host in range(2, 9) for _ in range(3)]
        text = said(*TRY, self.write("near", capture(near)))[1]
        self.assertIn("3  10.1.0.1 and 10.1.0.8", text)
        self.assertIn("With these, 21 of 21 frames go to the gateway", text)

    def test_through_a_pipe(self) -> None:
        """A capture may come from standard input."""
        done = subprocess.run(
            [*TRY, "-", "--left", "10.1.0.0/16", "--out", f"{self.room}/out", "--program", PROGRAM],
            input=capture(login()),
            capture_output=True,
            check=False,
        )
        self.assertEqual((done.returncode, b"7  pass" in done.stdout), (0, True))

    def test_what_is_left_out(self) -> None:
        """Each frame that doesn't cross is told with its reason, and wrong checksums are kept where that is asked for."""
        others = [
            udp("10.1.0.5", 1, "10.1.0.6", 2, b"x"),
            udp("10.1.0.5", 1, "10.1.255.255", 2, b"x"),
            udp("10.1.0.5", 1, "224.0.0.1", 2, b"x"),
            b"\x60" + bytes(39),
        ]
        others += [udp("10.2.0.5", 1, "10.2.0.6", 2, b"x"), udp("9.9.9.9", 1, "9.9.9.8", 2, b"x")]
        name = self.write("capture", capture(login() + others))
        status, text = self.tried(name, "--left", "10.1.0.5/32", "10.1.0.6/32", "10.1.255.255/32", "--same", "9.9.9.0/24", "--keep-sums")
        self.assertEqual((status, self.counts(text)), (0, {"pass": 5, "BadSum": 1, "AckAhead": 1}))
        for line in (
            "2  frames left out: between two hosts of the left realm",
            "1  frame left out: between two hosts of the right realm",
            "1  frame left out: between two hosts that mean the same in both realms",
            "1  frame left out: not between two hosts (broadcast, multicast)",
            "1  frame left out: IPv6",
            "1  BadSum: the ICMP, TCP or UDP checksum is wrong. What to do: turn off checksum offload",
        ):
            self.assertIn(line, text)

    def test_fragments(self) -> None:
        """They are joined, with the checksum that offloading leaves in the first one too."""
        whole = udp("10.1.0.5", 4000, "10.2.0.9", 4001, bytes(range(100)))
        pseudo = struct.unpack(">5H", whole[12:20] + struct.pack(">H", 17)) + (108,)
        partial = sum(pseudo) % 0xFFFF
        left = whole[:26] + struct.pack(">H", partial) + whole[28:]
        name = self.write("capture", capture([*fragments(left, 48), *fragments(whole, 48)]))
        status, text = self.tried(name, "--left", "10.1.0.0/16")
        self.assertEqual((status, self.counts(text)), (0, {"held": 4, "pass": 2}), text)
        self.assertIn("1  frame with a checksum that was mended", text)

    def test_limits_are_told(self) -> None:
        """Where the gateway makes answers over TCP longer it says why frames are refused, and the command that it gives helps."""
        ends, back = ("10.1.0.5", 4000, "10.2.0.53", 53), ("10.2.0.53", 53, "10.1.0.5", 4000)
        frames = [tcp(*ends, 2, 100, 0), tcp(*back, 18, 200, 101), tcp(*ends, 16, 101, 201)]
        ask, answer = 101, 201
        for number in range(4):
            asked = b"\x03%d\x03211\x03158\x03216\x07in-addr\x04arpa\0" % (number + 140)
            question = struct.pack(">6H", number, 0, 1, 0, 0, 0) + asked + struct.pack(">HH", 12, 1)
            one, other = (struct.pack(">H", len(part)) + part for part in (question, question[:2] + b"\x80" + question[3:]))
            frames += [
                tcp(*ends, 24, ask, answer, one),
                tcp(*back, 24, answer, ask + len(one), other),
                tcp(*ends, 16, ask + len(one), answer + len(other)),
            ]
            ask, answer = ask + len(one), answer + len(other)
        name = self.write("capture", capture(frames))
        self.assertEqual(self.counts(self.tried(name, "--left", "10.1.0.0/16")[1]), {"pass": len(frames)})
        status, text = self.tried(name, "--left", "10.1.0.0/16", "--public")
        self.assertGreater(self.counts(text).get("Gap", 0) + self.counts(text).get("AckAhead", 0), 2)
        self.assertIn("The hosts of a capture don't answer anew", text)
        command = next(line for line in text.splitlines() if line.startswith(f"  {TRY[0]} try"))
        self.assertIn("--same 216.158.211.140/30", command)
        self.assertEqual(self.counts(self.tried(*command.split()[2:], "--public")[1]), {"pass": len(frames)})

    def test_nothing_passes(self) -> None:
        """It is said aloud, and the status tells it."""
        sctp = datagram(132, "10.1.0.5", "10.2.0.9", bytes(32), 0)
        status, text = self.tried(self.write("capture", pcap(101, [sctp] * 3)), "--left", "10.1.0.0/16")
        self.assertEqual(status, 1)
        self.assertIn("\n0 of 3 frames that go to the gateway pass.\n", text)
        self.assertIn("\nNOTHING PASSES", text)
        self.assertNotIn("\n\n\n", text)

    def test_own_captures(self) -> None:
        """The capture that a try wrote has each frame twice, and is no capture of a network."""
        self.assertEqual(self.tried(self.write("capture", capture(login())), "--left", "10.1.0.0/16")[0], 0)
        name = f"{self.room}/out/run.pcapng"
        status, text = said(*TRY, name, "--left", "10.1.0.0/16", "--out", f"{self.room}/again", "--program", PROGRAM)
        self.assertEqual((status, text.startswith(f"rendapil try: {name} has both sides of an earlier run")), (1, True), text)

    def test_pool(self) -> None:
        """Without statics hosts get aliases as they speak, what is said to them finds them, and a pool that is too small ends."""
        frames = []
        for host in range(1, 30):
            ends, back = (f"10.1.0.{host}", 4000, "10.2.0.9", 80), ("10.2.0.9", 80, f"10.1.0.{host}", 4000)
            frames += [
                tcp(*ends, 2, 100, 0),
                tcp(*back, 18, 200, 101),
                tcp(*ends, 16, 101, 201),
                icmp(ends[0], back[0], 8, 0, bytes(8)),
                icmp(back[0], ends[0], 0, 0, bytes(8)),
            ]
        name = self.write("capture", capture(frames))
        status, text = self.tried(name, "--left", "10.1.0.0/16", "--pool", "29")
        self.assertEqual((status, self.counts(text)), (0, {"pass": len(frames)}), text)
        with open(f"{self.room}/out/settings.toml", "rb") as file:
            rows = tomllib.load(file)["static"]
            self.assertEqual([row["host"] for row in rows], ["10.2.0.9"])
            self.assertEqual([row["alias"].rpartition(".")[2] for row in rows], ["9"])
        status, text = self.tried(name, "--left", "10.1.0.0/16", "--pool", "20")
        self.assertEqual((status, self.counts(text)), (0, {"pass": 100, "PoolEmpty": 27, "NoBinding": 18}), text)
        self.assertIn("27 frames found their pool full: give a larger one by --pool", text)
        self.assertIn("right pool, for hosts of the left realm: 0 statics, 29 by use at the busiest moment", text)
        self.assertEqual(self.tried(name, "--left", "10.2.0.9/32", "--pool", "0")[0], 2)
        status, text = self.tried(name, name, "--left", "10.2.0.9/32")
        self.assertEqual((status, text.endswith(f"rendapil plan {name} {name}'\n")), (2, True), text)
        twice = self.write("twice", capture([udp("10.2.0.9", 1, f"10.1.0.{host}", 2, b"x") for host in range(9)]))
        self.assertIn("--pool has to be 9 at least", self.tried(twice, "--left", "10.1.0.0/16", "--pool", "5")[1])

    def test_lost_fragments(self) -> None:
        """Fragments whose packet never went out are lost, and aren't told as passed."""
        whole = udp("10.1.0.5", 4000, "10.2.0.9", 4001, bytes(100))
        name = self.write("capture", capture([*fragments(whole, 48), *list(fragments(udp("10.1.0.6", 4000, "10.2.0.9", 4001, bytes(100)), 48))[:1]]))
        text = self.tried(name, "--left", "10.1.0.0/16")[1]
        for line in (
            "1 of 4 frames that go to the gateway passes, and 2 went out as parts of these.",
            "2  held: fragments that waited",
            "1  lost: fragments that were held, whose packet never went out",
        ):
            self.assertIn(line, text)

    def test_kinds_of_frames(self) -> None:
        """ARP, IPv6 and IPv4 that is cut within its header are rows of their own, and loopback alone is told."""
        good = [udp("10.1.0.5", 1, "10.2.0.9", 2, b"x"), udp("10.2.0.9", 2, "10.1.0.5", 1, b"x")]
        others = [MACS + b"\x08\x06" + bytes(28), MACS + b"\x86\xdd\x60" + bytes(39), MACS + b"\x08\0" + good[0][:12]]
        name = self.write("capture", pcap(1, [MACS + b"\x08\0" + one for one in good] + others))
        for text in (said(*TRY, name)[1], self.tried(name, "--left", "10.1.0.0/16")[1]):
            for line in ("ARP", "IPv6", "IPv4 that is cut within its header, or damaged"):
                self.assertRegex(text, rf"(?m)^ +1  (?:frame left out: )?{line}")
        loop = self.write("loop", capture([udp("127.0.0.1", 1, "127.0.0.1", 2, b"x")]))
        self.assertIn("has loopback addresses alone (127.0.0.1)", said(*TRY, loop)[1])

    def test_oddities(self) -> None:
        """Frames that are there twice, connections of one direction, and tunnels."""
        frames = [udp("10.1.0.5", 1, "10.2.0.9", 2, bytes([one]) * 30) for one in range(20)]
        marked = [one[:4] + bytes([1, number]) + one[6:] for number, one in enumerate(frames)]
        hops = [one[:8] + bytes([one[8] - 1]) + one[9:] for one in marked]
        text = said(*TRY, self.write("twice", capture([one for pair in zip(marked, hops) for one in pair])))[1]
        self.assertIn("20 frames are there twice, as a router sees them", text)
        one_way = [tcp("10.1.0.5", 4000 + one, "10.2.0.9", 21, 24, 1, 1, b"NOOP\r\n") for one in range(9)]
        text = self.tried(self.write("one way", capture(one_way)), "--left", "10.1.0.0/16")[1]
        self.assertIn("Most connections of TCP have one direction alone", text)
        self.assertIn("9 frames are NoSession: the capture has one direction of these connections alone", text)
        for line in ("NOTHING PASSES", "No payload passed, so none was looked at"):
            self.assertIn(line, text)
        self.assertNotIn("\n\n\n", text)
        tunnel = [udp("10.1.0.5", 9, "10.2.0.9", 4789, bytes(60))] * 3 + [frames[0][:9] + b"\x2f" + frames[0][10:20] + b"\0\0\x88\xbe" + bytes(40)]
        text = said(*TRY, self.write("tunnel", capture(tunnel)))[1]
        for line in ("3 frames are of a tunnel, VXLAN", "1 frame is of a mirror, ERSPAN in GRE"):
            self.assertIn(line, text)

    def test_never_more(self) -> None:
        """It doesn't say that more frames pass than the report says, in either step; and refused protocols are told as what breaks."""
        esp = [one[:9] + b"\x32" + one[10:] for one in (udp("10.1.0.5", 1, "10.2.0.9", 2, bytes(30)),) * 4]
        name = self.write("capture", capture([*login(), *esp]))
        self.assertIn("11 of 11 frames go to the gateway, and 7 of these pass", said(*TRY, name, "--program", PROGRAM)[1])
        text = self.tried(name, "--left", "10.1.0.0/16")[1]
        self.assertIn("7 of 11 frames that go to the gateway pass.", text)
        self.assertIn("ESP of IPsec, IP protocol 50: sure, the gateway refuses it", text)

    def test_names(self) -> None:
        """DNS answers that the gateway changes are counted and named; public addresses aren't changed."""

        def answer(address: str) -> bytes:
            name = b"\x01w\x04corp\x04test\0"
            return (
                struct.pack(">6H", 7, 0x8180, 1, 1, 0, 0)
                + name
                + struct.pack(">HH", 1, 1)
                + b"\xc0\x0c"
                + struct.pack(">HHIH", 1, 1, 60, 4)
                + bytes(map(int, address.split(".")))
            )

        ends = ("10.2.0.53", 53, "10.1.0.5", 4000)
        frames = [
            udp("10.1.0.5", 4000, "10.2.0.53", 53, answer("10.2.0.9")[:2] + b"\1\0\0\1" + bytes(6) + b"\x01w\x04corp\x04test\0\0\1\0\1"),
            udp(*ends, answer("10.2.0.9")),
        ]
        text = self.tried(self.write("capture", capture(frames)), "--left", "10.1.0.0/16")[1]
        self.assertIn("DNS answers that the gateway changed: 1\n       1  corp.test: w.corp.test 10.2.0.9 became 192.168.200.", text)
        text = self.tried(self.write("public", capture([frames[0], udp(*ends, answer("8.8.8.8"))])), "--left", "10.1.0.0/16")[1]
        self.assertNotIn("DNS answers", text)

    def test_fill(self) -> None:
        """`fill` gives `run` whole frames, and says what it can't fill."""
        frames = [
            tcp("10.1.0.5", 4000, "10.2.0.9", 80, 24, 1, 1, bytes(200)),
            udp("10.1.0.5", 53, "10.2.0.9", 5000, bytes(200)),
            udp("10.1.0.5", 1, "10.2.0.9", 2, b"x"),
        ]
        head = struct.pack("<IHHiIII", 0xA1B2C3D4, 2, 4, 0, 0, 96, 101)
        name = self.write(
            "cut", head + b"".join(struct.pack("<IIII", second, 0, len(one[:96]), len(one)) + one[:96] for second, one in enumerate(frames, 1))
        )
        status, text = said(f"{TOP}/rendapil", "fill", name, f"{self.room}/new")
        self.assertEqual((status, re.findall(r"(?m)^ +(\d) +frame (\w+)", text)), (0, [("1", "filled"), ("1", "cut"), ("1", "whole")]), text)
        kept = list(records(f"{self.room}/new"))
        self.assertEqual([(len(one.octets), one.length) for one in kept], [(240, 240), (96, 228), (29, 29)])
        self.assertEqual(said(f"{TOP}/rendapil", "fill", name, name)[0], 1)

    def test_the_capture_stays(self) -> None:
        """It isn't written over."""
        name = self.write("left.pcap", capture(login()))
        status, text = said(*TRY, name, "--left", "10.1.0.0/16", "--out", self.room, "--program", PROGRAM)
        self.assertEqual((status, text), (1, f"rendapil try: {name} is the capture itself, and would be overwritten: give another folder by --out\n"))
        with open(name, "rb") as file:
            self.assertEqual(file.read(), capture(login()))

    def test_files_that_are_none(self) -> None:
        """They are told in a line: no traceback, no octet of theirs, no memory for a record that is said to have 4 GB."""
        whole = pcap(101, login())
        long = whole[:32] + b"\xff\xff\xff\xff" + whole[36:]
        for octets, line in (
            (b"", "is no capture\n"),
            (b"\x1b]0;owned\x07" * 9, "is no capture\n"),
            (whole[:20], "is no capture that can be read: it ends within its head\n"),
            (pcap(101, []), "has no IPv4 between two hosts"),
            (
                gzip.compress(whole)[:10] + b"\xff" * 40,
                "is no capture that can be read: what gzip packed is damaged: Error -3 while decompressing data",
            ),
            (pcap(101, [udp("10.1.0.5", 1, "10.1.0.5", 2, b"x")]), "has frames of one host alone"),
            (b"\x28\xb5\x2f\xfd" + bytes(40), "is packed by zstd. Unpack it: zstd -dc"),
            (b"\xfd7zXZ\0" + bytes(40), "is packed by xz. Unpack it: xz -dc"),
        ):
            name = self.write("a\x1b[2J", octets)
            status, text = said(*TRY, name)
            self.assertEqual((status, text.count("\n"), text.startswith(f"rendapil try: {self.room}/a\\x1b[2J {line}")), (1, 1, True), text)
        status, text = said(
            "bash",
            "-c",
            'ulimit -v 1000000; exec "$@"',
            "bash",
            *TRY,
            self.write("long", long),
            "--left",
            "10.1.0.0/16",
            "--out",
            f"{self.room}/out",
            "--program",
            PROGRAM,
        )
        self.assertIn("is no capture that can be read: a record says that it has 4294967295 bytes\n", text)
        self.assertNotIn("Traceback", text)
        self.assertEqual(said(*TRY, f"{self.room}/absent"), (1, f"rendapil try: {self.room}/absent: No such file or directory\n"))
        self.assertEqual(said(*TRY, self.room), (1, f"rendapil try: {self.room}: Is a directory\n"))
