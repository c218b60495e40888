"""Tests of `compare`: a device that does what the reference does, in each form of captures, shows no difference; each planted fault is told as what it is."""
import contextlib
import io
import json
import os
import random
import struct
import subprocess
import sys
import tempfile
import unittest
from collections.abc import Callable
from importlib.util import find_spec
from ipaddress import IPv4Address
from typing import Any
from unittest import mock

from testing import CASE, COMPARE, PROGRAM, RIGHT

from datagrams import udp

from rendapil.comparing import command as comparing
from rendapil.comparing.causes import BY_RIGHT, DIFFERENT, UNSURE, payload, service
from rendapil.explain.pcapng import block
from rendapil.files import Capture
from rendapil.packet import Packet

SETTINGS, CAME, WENT = CASE[0], CASE[1:3], CASE[3:5]
HAS_JINJA = (
    bool(find_spec("jinja2")) or not subprocess.run(["/usr/bin/python3", "-I", "-c", "import jinja2, tomllib"], stderr=subprocess.DEVNULL).returncode
)
SHORT = RIGHT + 'static = [{ side = "right", host = "10.0.0.5", alias = "192.168.200.1" }]\n'
LATE = 30_000
"""How long the device of these tests keeps a frame, in nanoseconds."""

MACS = {"device": (b"\2\0\0\0\1\1", b"\2\0\0\0\2\1"), "hosts": (b"\2\0\0\0\1\2", b"\2\0\0\0\2\2")}

Frames = list[tuple[int, bytes]]


def read(path: str, late: int = 0) -> Frames:
    """Stamps and datagrams of a capture."""
    with Capture(path) as file:
        return [(one.moment + late, one.octets if one.link == 101 else one.octets[14:]) for one in file.frames() if one.octets]


def pcap(frames: Frames, link: int = 101) -> bytes:
    """A capture."""
    head = struct.pack("<IHHiIII", 0xA1B23C4D, 2, 4, 0, 0, 262144, link)
    return head + b"".join(struct.pack("<IIII", *divmod(moment, 10**9), len(octets), len(octets)) + octets for moment, octets in frames)


def said(*words: str) -> tuple[object, dict[str, Any]]:
    """Status of `compare`, and what it says as JSON."""
    out = io.StringIO()
    with mock.patch.object(sys, "argv", ["compare", *words, "--json", "--program", PROGRAM]), contextlib.redirect_stdout(out):
        try:
            status: object = comparing.main()
        except SystemExit as ended:
            status = ended.code
    return status, json.loads(out.getvalue()) if out.getvalue() else {}


def put(datagram: bytes, at: int, octets: bytes) -> bytes:
    """A datagram with other octets, and right sums."""
    packet = Packet(datagram)
    packet.octets[at : at + len(octets)] = octets
    packet = Packet(bytes(packet.octets))
    packet.mend()
    return bytes(packet.octets)


def renamed(datagram: bytes, source: str, destination: str) -> bytes:
    """A datagram with other addresses, and a lifetime less by 1."""
    ends = IPv4Address(source).packed + IPv4Address(destination).packed
    return put(datagram[:8] + bytes([datagram[8] - 1]) + datagram[9:], 12, ends)


def with_payload(datagram: bytes, new: bytes) -> bytes:
    """A TCP segment with another payload, and right lengths and sums."""
    kept = len(datagram) - len(payload(datagram))
    packet = Packet(datagram[:2] + (kept + len(new)).to_bytes(2) + datagram[4:kept] + new)
    packet.mend()
    return bytes(packet.octets)


class Compared(unittest.TestCase):
    """A gateway's captures, changed and compared."""

    def setUp(self) -> None:
        self.room = tempfile.TemporaryDirectory()
        self.addCleanup(self.room.cleanup)
        self.settings = SETTINGS
        self.came = [read(path) for path in CAME]
        self.went = [read(path, LATE) for path in WENT]

    def file(self, name: str, octets: bytes) -> str:
        """Writes a file."""
        path = os.path.join(self.room.name, name)
        with open(path, "wb") as out:
            out.write(octets)
        return path

    def compared(self, *options: str) -> tuple[object, dict[str, list[str]]]:
        """Status, and the causes by kind."""
        names = ("left-in", "right-in", "left-out", "right-out")
        files = [self.file(name, pcap(frames)) for name, frames in zip(names, self.came + self.went)]
        status, self.told = said(self.settings, *files, *options)
        return status, {kind: [row["cause"] for row in self.told["causes"] if row["kind"] == kind] for kind in (DIFFERENT, BY_RIGHT, UNSURE)}

    def place(self, side: int, fits: Callable[[bytes], bool], number: int = 0) -> int:
        """Which frame of the device fits."""
        return [at for at, (_, datagram) in enumerate(self.went[side]) if fits(datagram)][number]

    def change(self, side: int, place: int, new: bytes) -> None:
        """Has the device send another datagram."""
        self.went[side][place] = self.went[side][place][0], new

    def holds(self, causes: list[str], *options: str) -> None:
        """These causes are told, and no other difference."""
        status, told = self.compared(*options)
        self.assertEqual((status, told[DIFFERENT]), (int(bool(causes)), causes))


def plain_tcp(datagram: bytes) -> bool:
    """A segment with octets of a connection that the reference doesn't follow."""
    return service(datagram) == "TCP" and len(payload(datagram)) > 20


class Equal(Compared):
    """What differs by right is no difference."""

    def test_the_gateway_itself(self) -> None:
        self.holds([])

    def test_numbers_order_and_time(self) -> None:
        """Other identifications, a millisecond of disorder, and padding by the link."""
        for side in (0, 1):
            self.went[side] = [(moment + place % 7 * 150_000, put(one, 4, b"\1\2")) for place, (moment, one) in enumerate(self.went[side])]
            self.went[side].sort(key=lambda one: one[0])
        self.holds([])

    def test_ttl_if_allowed(self) -> None:
        for side in (0, 1):
            self.went[side] = [(moment, put(one, 8, bytes([one[8] + 1]))) for moment, one in self.went[side]]
        self.holds(["TTL isn't lowered"])
        self.holds([], "--any-ttl")

    def test_two_clocks(self) -> None:
        for frames in (self.came, self.went):
            frames[1] = [(moment + 7_250_000_000, one) for moment, one in frames[1]]
        self.holds([])

    def test_a_clock_that_drifts(self) -> None:
        """It gains more than a frame may stay in the device."""
        begin = self.came[1][0][0]
        for frames in (self.came, self.went):
            frames[1] = [(moment + (moment - begin) // 9, one) for moment, one in frames[1]]
        self.assertGreater(self.came[1][-1][0] - read(CAME[1])[-1][0], 2_500_000_000)
        self.holds([])

    def test_left_and_right_swapped(self) -> None:
        """It is said at once, and how to mend it."""
        self.came, self.went = self.came[::-1], self.went[::-1]
        names = ("left-in", "right-in", "left-out", "right-out")
        files = [self.file(name, pcap(frames)) for name, frames in zip(names, self.came + self.went)]
        with contextlib.redirect_stderr(io.StringIO()) as told:
            self.assertEqual(said(self.settings, *files), (2, {}))
        self.assertIn("left and right are swapped: each capture has the aliases of the other link. Name the other one first", told.getvalue())

    def test_an_alias_that_changes_hands(self) -> None:
        """A host that is silent for a day loses its alias to another one: each time is compared by itself. Side by side that is a contradiction."""
        day = 86_400 * 10**9
        far, near = "192.168.200.1", self.came[0][0][0]
        for apart, wanted in ((day, []), (10**6, ["one alias stands for two hosts"])):
            calls = [(number, udp(f"10.0.0.{90 + number % 2}", 4000 + number, far, 4001, b"%d" % number)) for number in range(40)]
            order = sorted(calls, key=lambda one: one[0] % 2) if apart == day else calls
            self.came = [[(near + place * 10**8 + (apart if number % 2 else 0), one) for place, (number, one) in enumerate(order)], []]
            self.went = [[], [(moment + LATE, renamed(one, "172.16.9.77", "10.0.0.5")) for moment, one in self.came[0]]]
            self.settings = self.file("settings.toml", SHORT.encode())
            status, told = self.compared()
            self.assertEqual((status, [one for one in told[DIFFERENT] if "one alias" in one]), (int(bool(wanted)), wanted), told)

    def test_json_lines(self) -> None:
        """A line with the counts, and one for each cause."""
        self.change(0, 5, put(self.went[0][5][1], 12, b"\x0a\x00\x00\x63"))
        names = ("left-in", "right-in", "left-out", "right-out")
        files = [self.file(name, pcap(frames)) for name, frames in zip(names, self.came + self.went)]
        done = subprocess.run([*COMPARE, self.settings, *files, "--json-lines", "--program", PROGRAM], stdout=subprocess.PIPE, check=False)
        first, *others = map(json.loads, done.stdout.splitlines())
        self.assertEqual((done.returncode, first["event_type"], first["differs"]), (1, "compared", True))
        self.assertEqual({one["event_type"] for one in others}, {"cause"})
        self.assertTrue(all(one["count"] and one["first_time"].endswith("Z") for one in others))

    @unittest.skipUnless(HAS_JINJA, "there is no python3-jinja2")
    def test_page(self) -> None:
        """Each cause has its count and its picture, lines of FTP stand beside each other, and nothing goes in unescaped."""
        place = self.place(1, lambda one: service(one) == "FTP" and payload(one).startswith(b"USER "))
        self.change(1, place, with_payload(self.went[1][place][1], b"<script>" + payload(self.went[1][place][1])[8:]))
        names = ("left-in", "right-in", "left-out", "right-out")
        files = [self.file(name, pcap(frames)) for name, frames in zip(names, self.came + self.went)]
        page = f"{self.room.name}/page.html"
        self.assertEqual(
            subprocess.run(
                [*COMPARE, self.settings, *files, "--html", page, "--program", PROGRAM], stdout=subprocess.DEVNULL, check=False
            ).returncode,
            1,
        )
        with open(page, encoding="utf-8") as file:
            text = file.read()
        self.assertNotIn("<script", text)
        self.assertRegex(text, '<svg class="times".*<rect')
        self.assertRegex(text, '<tr class="differs"><td>USER [^<]*</td><td class="device">&lt;script&gt;')

    def test_sums_left_to_the_card(self) -> None:
        """Segments whose checksum is that of the pseudo header, as offloading leaves it."""
        for frames in self.went:
            for place, (moment, one) in enumerate(frames):
                if one[9] == 6:
                    total = sum(struct.unpack(">4H", one[12:20])) + 6 + len(one) - 20
                    frames[place] = moment, one[:36] + (total % 0xFFFF).to_bytes(2) + one[38:]
        self.holds([])

    def test_segments_cut_in_two_and_merged(self) -> None:
        """Each segment with octets goes out in two parts."""
        for side in (0, 1):
            cut: Frames = []
            for moment, one in self.went[side]:
                data = payload(one)
                if not plain_tcp(one):
                    cut.append((moment, one))
                    continue
                sequence = int.from_bytes(one[24:28])
                cut.append((moment, with_payload(one, data[:9])))
                cut.append((moment + 10, with_payload(put(one, 24, ((sequence + 9) % (1 << 32)).to_bytes(4)), data[9:])))
            self.went[side] = cut
        self.holds([])

    def test_first_sequence_numbers_of_its_own(self) -> None:
        """As firewalls do: a direction of one connection with all numbers moved, and the acknowledgements that come back."""
        syn = self.went[1][self.place(1, lambda one: service(one) == "TCP" and one[33] & 18 == 2)][1]
        for frames, ends, at in ((self.went[1], syn[12:24], 24), (self.came[1], syn[16:20] + syn[12:16] + syn[22:24] + syn[20:22], 28)):
            for place, (moment, one) in enumerate(frames):
                if one[9] == 6 and one[12:24] == ends and (at == 24 or one[33] & 16):
                    moved = ((int.from_bytes(one[at : at + 4]) + 12345) % (1 << 32)).to_bytes(4)
                    frames[place] = moment, put(one, at, moved)
        status, told = self.compared()
        self.assertIn("TCP: the device chooses its own first sequence numbers", told[BY_RIGHT])
        self.assertEqual((status, told[DIFFERENT]), (0, []))

    def ethernet(self, side: int) -> Frames:
        """Both directions of a link, with MAC addresses."""
        device, hosts = MACS["device"][side], MACS["hosts"][side]
        there = [(moment, device + hosts + b"\x08\0" + one + bytes(max(0, 46 - len(one)))) for moment, one in self.came[side]]
        back = [(moment, hosts + device + b"\x08\0" + one + bytes(max(0, 46 - len(one)))) for moment, one in self.went[side]]
        local = [(there[0][0], b"\xff" * 6 + hosts + b"\x08\x06" + bytes(46))]
        return sorted(there + back + local, key=lambda one: one[0])

    def test_both_directions_in_a_file(self) -> None:
        files = [self.file(name, pcap(self.ethernet(side), 1)) for side, name in enumerate(("left", "right"))]
        status, told = said(SETTINGS, *files)
        self.assertEqual((status, [row for row in told["causes"] if row["kind"] == DIFFERENT]), (0, []))
        files = [
            self.file(name, pcap(sorted(self.came[side] + self.went[side], key=lambda one: one[0]))) for side, name in enumerate(("left", "right"))
        ]
        self.assertEqual(said(SETTINGS, *files)[0], 0)

    def test_both_links_in_a_file(self) -> None:
        """A pcapng file with two interfaces."""
        whole = block(0x0A0D0D0A, struct.pack("<IHHq", 0x1A2B3C4D, 1, 0, -1))
        for name in (b"eth0", b"eth1"):
            whole += block(1, struct.pack("<HHI", 1, 0, 0), (2, name), (9, b"\x09"))
        for moment, side, one in sorted(((moment, side, one) for side in (0, 1) for moment, one in self.ethernet(side)), key=lambda one: one[:2]):
            whole += block(6, struct.pack("<5I", side, moment >> 32, moment & 0xFFFFFFFF, len(one), len(one)) + one)
        path = self.file("both.pcapng", whole)
        self.assertEqual(said(SETTINGS, path, "--left", "eth0", "--right", "eth1")[0], 0)
        with contextlib.redirect_stderr(io.StringIO()) as errors:
            self.assertEqual(said(SETTINGS, path)[0], 2)
        self.assertIn("eth0, eth1", errors.getvalue())


class Missing(Compared):
    """Captures that miss frames, and devices that change ports, where that is allowed."""

    def data(self, side: int) -> bytes:
        """A segment in the middle of a connection that the reference doesn't follow, whose octets are acknowledged later."""
        acknowledged = [(one[16:20], one[22:24], one[28:32]) for _, one in self.came[side] if one[9] == 6 and one[33] & 16]

        def fits(one: bytes) -> bool:
            end = (int.from_bytes(one[24:28]) + len(payload(one))).to_bytes(5)[1:]
            return (
                plain_tcp(one)
                and sum(address == one[12:16] and port == one[20:22] and number >= end for address, port, number in acknowledged) > 0
                and not one[33] & 1
            )

        return self.went[side][self.place(side, fits)][1]

    def test_outgoing(self) -> None:
        """The receiver acknowledged it: so the device sent it."""
        one = self.data(0)
        self.went[0] = [pair for pair in self.went[0] if pair[1] != one]
        status, told = self.compared()
        self.assertEqual((status, told[DIFFERENT]), (0, []))
        self.assertIn("TCP: the device sent octets, since they were acknowledged, that a capture misses", told[UNSURE])

    def test_incoming(self) -> None:
        """The device can't have made up octets."""
        one = self.data(0)
        came = [
            pair for pair in self.came[1] if pair[1][20:22] != one[20:22] or pair[1][24:40] != one[24:28] + pair[1][28:40] or not payload(pair[1])
        ]
        self.assertLess(len(came), len(self.came[1]))
        self.came[1] = came
        self.holds([])

    def test_silent_link(self) -> None:
        """Of one link nothing was recorded: that is told, and all that came counts as lost."""
        self.came[1], self.went = [], [[], []]
        with contextlib.redirect_stderr(io.StringIO()) as errors:
            self.assertEqual(self.compared()[0], 1)
        self.assertIn("no frame goes to the device on the right", errors.getvalue())
        self.assertIn("no frame comes from the device", errors.getvalue())

    def test_lossy(self) -> None:
        """Nothing shows whether a capture or the device lost a datagram of UDP."""
        place = self.place(1, lambda one: service(one) == "UDP")
        del self.went[1][place]
        self.holds(["frame lost: UDP"])
        self.holds([], "--lossy")

    def test_ports_of_its_own(self) -> None:
        """Another port for a flow of UDP, and its answers."""
        one = self.went[1][self.place(1, lambda one: service(one) == "UDP")][1]
        for frames, at, ends in ((self.went[1], 20, one[12:24]), (self.came[1], 22, one[16:20] + one[12:16] + one[22:24] + one[20:22])):
            for place, (moment, other) in enumerate(frames):
                if other[9] == 17 and other[12:24] == ends:
                    frames[place] = moment, put(other, at, b"\xee\xee")
        self.holds(["port changed: UDP"])
        self.holds([], "--any-port")

    def test_damaged(self) -> None:
        """Whatever stands in frames, the comparison comes to an end."""
        random.seed(5)
        for _ in range(3):
            for frames in self.came + self.went:
                for place in random.sample(range(len(frames)), 60):
                    octets = bytearray(frames[place][1])
                    for at in random.choices(range(len(octets)), k=3):
                        octets[at] = random.randrange(256)
                    frames[place] = frames[place][0], bytes(octets[: random.choice((len(octets), len(octets), 20, 24, 33))])
            self.assertEqual(self.compared("--any-port")[0], 1)

    def test_sides_swapped(self) -> None:
        """What went out to the left stands for what went to the right."""
        self.went.reverse()
        with contextlib.redirect_stderr(io.StringIO()) as errors:
            names = ("left-in", "right-in", "left-out", "right-out")
            files = [self.file(name, pcap(frames)) for name, frames in zip(names, self.came + self.went)]
            self.assertEqual(said(SETTINGS, *files)[0], 2)
        self.assertIn("in their order", errors.getvalue())


class Faults(Compared):
    """Each fault that is planted is told as what it is, and nothing else."""

    def test_frame_lost(self) -> None:
        del self.went[1][self.place(1, lambda one: service(one) == "UDP")]
        self.holds(["frame lost: UDP"])

    def test_frame_that_nobody_sent(self) -> None:
        place = self.place(1, lambda one: service(one) == "UDP")
        moment, one = self.went[1][place]
        self.went[1].insert(place, (moment, put(one, 28, b"nobody")))
        self.holds(["frame that nobody sent: UDP"])

    def test_frame_sent_twice(self) -> None:
        place = self.place(1, lambda one: service(one) == "UDP")
        moment, one = self.went[1][place]
        self.went[1].insert(place + 1, (moment + 1000, one))
        self.holds(["frame sent twice: UDP"])

    def test_wrong_sums(self) -> None:
        place = self.place(1, plain_tcp)
        one = self.went[1][place][1]
        self.change(1, place, one[:36] + bytes([one[36] ^ 1]) + one[37:])
        self.holds(["checksum wrong: TCP"])
        self.change(1, place, one[:10] + bytes([one[10] ^ 1]) + one[11:])
        self.holds(["checksum of the IPv4 header wrong"])

    def test_ttl(self) -> None:
        place = self.place(0, plain_tcp)
        one = self.went[0][place][1]
        self.change(0, place, put(one, 8, bytes([one[8] + 1])))
        self.holds(["TTL isn't lowered"])

    def test_other_alias(self) -> None:
        """The settings say another alias than the device gives: that is told once, and the reference goes by the device's."""
        with open(SETTINGS, encoding="utf-8") as file:
            text = file.read().replace('alias = "172.16.9.1"', 'alias = "172.16.9.77"')
        self.settings = self.file("other.toml", text.encode())
        self.holds(["other alias than the settings say"])

    def test_source_not_translated(self) -> None:
        place = self.place(1, lambda one: service(one) == "UDP")
        one = self.went[1][place][1]
        self.change(1, place, put(one, 12, bytes((10, 0, 0, 5))))
        self.holds(["source address isn't translated"])

    def test_port_changed(self) -> None:
        place = self.place(1, lambda one: service(one) == "UDP")
        self.change(1, place, put(self.went[1][place][1], 20, b"\xee\xee"))
        self.holds(["port changed: UDP"])

    def test_payload_changed(self) -> None:
        place = self.place(0, plain_tcp)
        self.change(0, place, put(self.went[0][place][1], 60, b"\x99"))
        self.holds(["payload changed: TCP"])

    def test_line_said_again(self) -> None:
        """A line that comes twice: where one of both is sent otherwise, that one is told, and no password."""
        for number, cause in ((0, "FTP: other lines are translated otherwise"), (1, "payload changed: FTP")):
            went = list(self.went[1])
            place = self.place(1, lambda one: service(one) == "FTP" and payload(one).startswith(b"USER anonymous"), number)
            self.change(1, place, with_payload(self.went[1][place][1], b"LATE" + payload(self.went[1][place][1])[4:]))
            self.holds([cause])
            self.assertNotIn("PASS x", json.dumps(self.told))
            self.went[1] = went

    def test_dns_not_translated(self) -> None:
        place = self.place(0, lambda one: service(one) == "DNS" and bytes((192, 168, 200, 7)) in payload(one))
        one = self.went[0][place][1]
        self.change(0, place, put(one, one.index(bytes((192, 168, 200, 7)), 28), bytes((10, 0, 0, 7))))
        self.holds(["DNS answers are translated otherwise"])
        came = next(
            datagram for _, datagram in self.came[1] if datagram[4:6] == one[4:6] and datagram[20:24] == one[20:24] and service(datagram) == "DNS"
        )
        self.change(0, place, put(one[:2] + came[2:4] + one[4:28] + came[28:], 24, came[24:26]))
        self.holds(["DNS answers aren't translated"])

    def test_icmp_error_not_translated(self) -> None:
        place = self.place(0, lambda one: service(one) == "ICMP errors")
        one = self.went[0][place][1]
        self.change(0, place, put(one, 44, bytes((10, 0, 0, 7))))
        status, told = self.compared()
        self.assertEqual((status, len(told[DIFFERENT])), (1, 1))
        self.assertIn("ICMP errors: the packet in them", told[DIFFERENT][0])

    def ftp(self, line: bytes) -> int:
        """The first segment of the device with such a line alone, that came as a whole, and with octets behind it."""
        whole = {
            payload(one)[-9:] for _, one in self.came[0] if service(one) == "FTP" and payload(one).startswith(line) and payload(one).count(b"\n") == 1
        }

        def fits(one: bytes) -> bool:
            data = payload(one)
            later = [
                other for _, other in self.went[1] if other[9] == 6 and other[12:24] == one[12:24] and other[24:28] > one[24:28] and payload(other)
            ]
            return service(one) == "FTP" and data.startswith(line) and data.count(b"\n") == 1 and data[-9:] in whole and len(later) > 2

        return self.place(1, fits)

    def test_ftp_line_not_translated(self) -> None:
        """The line as it came, later numbers moved as a device moves them that counts its own changes, and acknowledgements that fit."""
        place = self.ftp(b"PORT")
        one = self.went[1][place][1]
        ends, sequence = one[12:24], int.from_bytes(one[24:28])
        line = payload(one)
        kept = line.replace(b"172,16,9,1", b"10,0,0,5")
        by = len(kept) - len(line)
        for frames, flow, at in ((self.went[1], ends, 24), (self.came[1], ends[4:8] + ends[:4] + ends[10:12] + ends[8:10], 28)):
            for number, (moment, other) in enumerate(frames):
                if (
                    other[9] == 6
                    and other[12:24] == flow
                    and (ahead := (int.from_bytes(other[at : at + 4]) - sequence) % (1 << 32)) < 1 << 30
                    and ahead > 0
                ):
                    frames[number] = moment, put(other, at, ((sequence + ahead + by) % (1 << 32)).to_bytes(4))
        self.change(1, place, with_payload(one, kept))
        self.holds(["FTP: PORT lines aren't translated"])

    def test_ftp_numbers(self) -> None:
        """Two too high from a segment on."""
        place = self.ftp(b"PORT")
        ends = self.went[1][place][1][12:24]
        for number, (moment, one) in enumerate(self.went[1]):
            if number > place and one[9] == 6 and one[12:24] == ends and payload(one):
                self.went[1][number] = moment, put(one, 24, ((int.from_bytes(one[24:28]) + 2) % (1 << 32)).to_bytes(4))
        status, told = self.compared()
        self.assertEqual(status, 1)
        self.assertIn("FTP: sequence numbers off by +2", told[DIFFERENT])

    def test_octets_lost(self) -> None:
        """A segment that its receiver never acknowledges, and all after it."""
        place = self.place(0, plain_tcp)
        one = self.went[0][place][1]
        ends, sequence = one[12:24], int.from_bytes(one[24:28])
        self.went[0] = [pair for pair in self.went[0] if pair[1][12:24] != ends or int.from_bytes(pair[1][24:28]) < sequence]
        self.came[0] = [
            pair
            for pair in self.came[0]
            if pair[1][12:24] != ends[4:8] + ends[:4] + ends[10:12] + ends[8:10] or int.from_bytes(pair[1][28:32]) <= sequence
        ]
        status, told = self.compared()
        self.assertEqual(status, 1)
        self.assertTrue(any(cause.startswith(("TCP: octets lost", "frame lost: TCP")) for cause in told[DIFFERENT]), told)


class Words(unittest.TestCase):
    """Words and files that can't be meant."""

    def test_files(self) -> None:
        for words in ([SETTINGS, *CAME, WENT[0]], [CAME[0], *CAME], [SETTINGS, SETTINGS, SETTINGS], [SETTINGS, "/nowhere", *CAME]):
            with contextlib.redirect_stderr(io.StringIO()) as errors:
                self.assertEqual(said(*words)[0], 2, words)
            self.assertIn("rendapil compare:", errors.getvalue())

    def test_kept_over_what_is_read(self) -> None:
        """The files of the reference never go to the folder of what is read."""
        with contextlib.redirect_stderr(io.StringIO()) as errors:
            self.assertEqual(said(SETTINGS, *CAME, *WENT, "--keep", os.path.dirname(CAME[0]))[0], 2)
        self.assertIn("is in the folder of --keep", errors.getvalue())

    def test_command(self) -> None:
        """The command knows it, and gives what it is asked for."""
        done = subprocess.run([*COMPARE, SETTINGS, *CAME, *WENT], stdout=subprocess.PIPE, text=True, check=False)
        self.assertEqual((done.returncode, done.stdout.splitlines()[-1]), (0, "No difference that matters."))


if __name__ == "__main__":
    unittest.main()
