"""What `plan` makes of captures and lists of two networks."""
import gzip
import os
import re
import struct
import tempfile
import tomllib
import unittest
from collections.abc import Iterable
from importlib.util import find_spec
from pathlib import Path

from testing import PLAN, PROGRAM, TOP, said

from datagrams import tcp, udp
from rendapil.ending import put_in_place
from rendapil.planning.inventories import Flow, Listed, inventory
from rendapil.planning.names import named_hosts
from rendapil.planning.rehearsal import calls_of

HAS_JINJA = bool(find_spec("jinja2")) or said("/usr/bin/python3", "-I", "-c", "import jinja2, tomllib")[0] == 0
SYN, ACK = 2, 16
ANSWER = (
    struct.pack(">6H", 7, 0x8180, 1, 2, 0, 0)
    + b"\3www\5north\7example\0\0\1\0\1\xc0\x0c\0\5\0\1\0\0\0\x3c\0\x04\1w\xc0\x10"
    + b"\1w\xc0\x10\0\1\0\1\0\0\0\x3c\0\4\x0a\0\0\5"
)


def capture(datagrams: Iterable[bytes], first: int = 1_700_000_000) -> bytes:
    """A capture of bare datagrams, a second apart."""
    head = struct.pack("<IHHiIII", 0xA1B2C3D4, 2, 4, 0, 0, 262144, 101)
    return head + b"".join(struct.pack("<IIII", second, 0, len(one), len(one)) + one for second, one in enumerate(datagrams, first))


def office(servers: Iterable[int], clients: Iterable[int]) -> list[bytes]:
    """Clients of 10.0.0.0/24 that open web pages of servers, and ask the first of these for names."""
    found = []
    for client in clients:
        for server in servers:
            ends = f"10.0.0.{client}", f"10.0.0.{server}"
            found += [tcp(ends[0], 40000, ends[1], 80, SYN, 1, 0), tcp(ends[1], 80, ends[0], 40000, SYN | ACK, 9, 2)]
        found += [udp(f"10.0.0.{client}", 4000, "10.0.0.5", 53, ANSWER[:2] + b"\1\0" + ANSWER[4:6] + bytes(6) + ANSWER[12:35])]
        found += [udp("10.0.0.5", 53, f"10.0.0.{client}", 4000, ANSWER)]
    return found


class Planned(unittest.TestCase):
    """Two offices with an address in common."""

    def setUp(self) -> None:
        """Their captures."""
        room = tempfile.TemporaryDirectory()
        self.addCleanup(room.cleanup)
        self.room = room.name
        self.north, self.south = office((5, 6), range(10, 20)), office((5,), range(15, 40))
        self.left, self.right = self.put("north", capture(self.north)), self.put("south", capture(self.south))
        self.settings = f"{self.room}/settings.toml"

    def test_put_in_place(self) -> None:
        """A file that is written anew keeps its rights, by a link too. Where it can't be written whole, it stays, and nothing is left beside it."""
        path = self.put("page", b"old")
        os.chmod(path, 0o600)
        os.symlink(path, f"{self.room}/link")
        put_in_place(f"{self.room}/link", "new")
        self.assertEqual((Path(path).read_text("ascii"), os.stat(path).st_mode & 0o777, os.path.islink(f"{self.room}/link")), ("new", 0o600, True))
        with self.assertRaises(UnicodeEncodeError):
            put_in_place(path, "\ud800")
        self.assertEqual((Path(path).read_text("ascii"), [name for name in os.listdir(self.room) if name.startswith(".")]), ("new", []))
        with self.assertRaises(OSError) as raised:
            put_in_place("/dev/full", "new")
        self.assertEqual(raised.exception.filename, "/dev/full")

    def put(self, name: str, octets: bytes | str) -> str:
        """A file."""
        path = Path(self.room, name)
        path.parent.mkdir(exist_ok=True)
        path.write_bytes(octets.encode() if isinstance(octets, str) else octets)
        return str(path)

    def plan(self, *words: str) -> tuple[int, str]:
        """Status and output of a plan."""
        return said(*PLAN, *words, "--write", self.settings)

    def statics(self) -> list[tuple[str, str]]:
        """Sides and hosts of the statics that were written."""
        with open(self.settings, "rb") as file:
            return [(row["side"], row["host"]) for row in tomllib.load(file)["static"]]

    def test_rotated_and_packed(self) -> None:
        """Several captures of a side, in a folder or named one by one, packed or not, give what one gives."""
        self.assertEqual(self.plan(self.left, self.right)[0], 0)
        wanted = Path(self.settings).read_text("ascii").partition("\n")[2]
        parts = capture(self.north[:20]), capture(self.north[20:], 1_700_000_020)
        self.put("rotated/b", gzip.compress(parts[0]))
        one, other = self.put("rotated/a", parts[1]), f"{self.room}/rotated/b"
        for words in (
            (f"{self.room}/rotated", self.right),
            ("--left", one, other, "--right", self.right),
            (one, "--left", other, "10.0.0.0/8", "--right", self.right),
        ):
            self.assertEqual(self.plan(*words)[0], 0)
            self.assertEqual(Path(self.settings).read_text("ascii").partition("\n")[2], wanted)

    def test_names(self) -> None:
        """Servers have their names of DNS in comments, and what has to be looked up through the gateway is told."""
        status, text = self.plan(self.left, self.right)
        self.assertEqual(status, 0)
        self.assertIn("# w.north.example: serves 10 hosts: 80/tcp HTTP (10), 53/udp DNS (10)\n", Path(self.settings).read_text("ascii"))
        self.assertRegex(text, r"Left hosts that look up names of the right firm ask \d+\.\d+\.\d+\.5 \(10\.0\.0\.5 there\)")
        self.assertIn("in north.example", text)

    def test_name_records(self) -> None:
        """A and PTR records name hosts. Pointers in circles, names that aren't, and cut messages name none."""
        self.assertEqual(list(named_hosts(ANSWER)), [(0x0A000005, "w.north.example")])
        reverse = struct.pack(">6H", 7, 0x8180, 0, 1, 0, 0) + b"\0015\0010\0010\00210\7in-addr\4arpa\0\0\x0c\0\1\0\0\0\x3c\0\3\1p\0"
        self.assertEqual(list(named_hosts(reverse)), [(0x0A000005, "p")])
        for wrong in (
            ANSWER.replace(b"\xc0\x10", b"\xc0\x0c"),
            ANSWER.replace(b"\1w", b"\1\x1b"),
            b"",
            ANSWER[:11],
            b"\xff" * 500,
            struct.pack(">6H", 7, 0x8180, 0, 1, 0, 0) + b"\xc0\x0c",
        ):
            self.assertEqual([name for _, name in named_hosts(wrong) if not name.isprintable()], [])
        for size in range(len(ANSWER)):
            self.assertEqual(list(named_hosts(ANSWER[:size])), [])

    def test_lists(self) -> None:
        """Lists of nmap, DHCP servers and nfdump, as they write them."""
        address, other = 0x0A000007, 0x0A000008
        for name, text, wanted in (
            (
                "nmap",
                "# Nmap 7.93 scan\nHost: 10.0.0.7 (web.north)\tStatus: Up\nHost: 10.0.0.7 (web.north)\tPorts: 22/open/tcp//ssh///, 80/closed/tcp//http///, 53/open/udp//domain///\tIgnored State: closed (9)\n",
                [Listed(address, "web.north"), Listed(address, "web.north", ((6, 22), (17, 53)))],
            ),
            (
                "dnsmasq.leases",
                "1700000000 08:00:2b:02:3f:4e 10.0.0.7 printer 01:08:00\n1700000000 08:00:2b:02:3f:4f 10.0.0.8 * *\nduid 00:01\n",
                [Listed(address, "printer"), Listed(other, "")],
            ),
            (
                "dhcpd.leases",
                '# a comment\nlease 10.0.0.7 {\n  starts 2 2023/11/14;\n  client-hostname "printer";\n}\nlease 10.0.0.8 {\n}\n',
                [Listed(address, "printer"), Listed(other, "")],
            ),
            (
                "kea.csv",
                "address,hwaddr,client_id,hostname,state\n10.0.0.7,08:00,,printer.north,0\nfe80::1,08:00,,six,0\n10.0.0.8,08:00,,\x1b[2J,0\n",
                [Listed(address, "printer.north"), Listed(other, "")],
            ),
            ("hosts.csv", "Name,IP Address\nweb,10.0.0.7\n,10.0.0.8\n", [Listed(address, "web"), Listed(other, "")]),
            (
                "flows.csv",
                "ts,te,td,sa,da,sp,dp,pr,flg\n1970-01-01 00:00:01,x,0.0,10.0.0.7,10.0.0.8,4000,443,TCP,....\n1970-01-01 00:00:02.500,x,0,10.0.0.8,10.0.0.7,0,8.0,ICMP,.\nSummary\nflows,bytes\n2,3\n",
                [Flow(10**9, 6, address, 4000, other, 443), Flow(25 * 10**8, 1, other, 0, address, 8)],
            ),
            (
                "new.csv",
                "firstSeen,duration,proto,srcAddr,srcPort,dstAddr,dstPort,packets,bytes,flows\n1970-01-01 00:00:01,0,UDP,10.0.0.7,4000,10.0.0.8,53,1,2,1\n",
                [Flow(10**9, 17, address, 4000, other, 53)],
            ),
        ):
            with self.subTest(name):
                self.assertEqual(list(inventory(self.put(name, text))), wanted)

    def test_plan_of_lists(self) -> None:
        """Hosts of lists get pools and statics as those of captures do."""
        found = "".join(f"Host: 10.0.0.{last} ()\tPorts: 22/open/tcp//ssh///\n" for last in range(1, 201))
        flows = "ts,te,td,sa,da,sp,dp,pr\n" + "".join(
            f"2023-11-14 22:13:20,x,0,10.0.0.{last},10.0.0.5,4000,443,TCP\n2023-11-14 22:13:20,x,0,10.0.0.5,10.0.0.{last},443,4000,TCP\n"
            for last in range(10, 20)
        )
        status, text = self.plan(self.put("found", found), self.put("flows", flows))
        self.assertEqual(status, 0, text)
        self.assertIn("left: 200 hosts of its own spoke, or stand in a list, 200 of them serve others", text)
        self.assertEqual((self.statics().count(("right", "10.0.0.5")), len(self.statics())), (1, 201))
        self.assertEqual(said(f"{TOP}/rendapil", "check", "--brief", self.settings), (0, ""))

    @unittest.skipUnless(os.access(PROGRAM, os.X_OK), "the program isn't built")
    def test_rehearsal(self) -> None:
        """All calls pass; and where the pool has no room or a static is missing, those that don't are told with their reason."""
        status, text = self.plan(self.left, self.right, "--rehearse")
        self.assertEqual(status, 0, text)
        calls = 12 * 2 + 26 * 3
        self.assertIn(f"Rehearsal: {calls} calls. {3 * calls - 12 - 26} of {3 * calls - 12 - 26} frames passed the proved program\n", text)

    def test_calls(self) -> None:
        """Where there are too many, each client calls some services, and each service is called."""
        offers = [(host, host, 6, 80) for host in range(100)]
        calls = list(calls_of(0, list(range(10_000)), offers))
        self.assertEqual(
            (len(calls), {call.client for call in calls}, {call.server for call in calls}), (60_000, set(range(10_000)), set(range(100)))
        )

    @unittest.skipUnless(HAS_JINJA, "there is no python3-jinja2")
    def test_page_over_other_files(self) -> None:
        """A page is never written over what is read, nor over the settings."""
        for page, why in (
            (self.right, "is a file that is read, and would be overwritten"),
            (self.settings, "is to have the settings, and the page too"),
        ):
            status, text = self.plan(self.left, self.right, "--html", page)
            self.assertEqual((status, why in text), (1, True), text)
        self.assertEqual(Path(self.right).read_bytes(), capture(self.south))
        self.assertFalse(os.path.exists(self.settings))

    @unittest.skipUnless(HAS_JINJA, "there is no python3-jinja2")
    def test_page(self) -> None:
        """It has both names of each server, a cell for each host, and nothing of a capture goes in unescaped."""
        page = f"{self.room}/page.html"
        evil = self.put(
            "<img src=x>",
            capture(
                [
                    *self.north,
                    udp("10.0.0.30", 5060, "10.0.0.6", 5060, b"INVITE sip:x SIP/2.0\r\nContact: <sip:<script>alert(1)</script>@10.0.0.30>\r\n"),
                ]
            ),
        )
        self.assertEqual(self.plan(evil, self.right, "--html", page)[0], 0)
        text = Path(page).read_text("utf-8")
        self.assertNotRegex(text, "<script|<img")
        self.assertEqual(len(re.findall('<rect class="both"', text)), len({5, *range(15, 20)} | {30}))
        self.assertRegex(text, r'<td class="host">right 10\.0\.0\.5</td><td class="host">[\d.]+ on the left</td><td>w\.north\.example</td>')

    def test_bad_input(self) -> None:
        """Each is one line, status 1, and no settings."""
        empty, both = self.put("empty", capture([])), f"{self.room}/link"
        os.symlink(self.left, both)
        for words, why in (
            ((self.left, self.left), f"{self.left} is given for both sides"),
            ((self.left, both), f"{self.left} is given for both sides"),
            ((self.left, empty), "the right side has no host with an IPv4 address"),
            ((self.left, self.put("text", "no list")), f"{self.room}/text is neither a capture nor a list of hosts"),
            ((self.left, self.put("nothing", "")), f"{self.room}/nothing is empty"),
            ((self.left, self.room), "in this folder is no capture"),
            ((self.left, self.right, "--left", "0.0.0.0/0"), "no block is free for a pool"),
            ((self.left, f"{self.room}/absent"), f"{self.room}/absent: No such file or directory"),
        ):
            with self.subTest(why):
                status, text = self.plan(*words)
                self.assertEqual(status, 1, text)
                self.assertTrue(text.splitlines()[-1].startswith("rendapil plan: ") and why in text.splitlines()[-1], text)
                self.assertFalse(os.path.exists(self.settings))
        self.assertEqual(self.plan(self.left), (2, "rendapil plan: the right side has no file: name a capture or a list of hosts of each network\n"))
        status, text = self.plan(self.put("cut", capture(self.north)[:-5]), self.right)
        self.assertEqual(
            (status, text.splitlines()[0]), (0, f"left: {self.room}/cut is damaged behind frame {len(self.north) - 1}: it ends within a record")
        )

    def test_both_firms_in_one(self) -> None:
        """An address that two network cards have is told."""
        frames = [bytes(6) + bytes([card] * 6) + b"\x08\0" + one for card, one in zip((2, 4, 4, 2, 2) * 40, self.north * 2)]
        head = struct.pack("<IHHiIII", 0xA1B2C3D4, 2, 4, 0, 0, 262144, 1)
        mixed = self.put("mixed", head + b"".join(struct.pack("<IIII", second, 0, len(one), len(one)) + one for second, one in enumerate(frames, 1)))
        self.assertRegex(self.plan(mixed, self.right)[1], r"two network cards sent from each of \d+ addresses, such as 10\.0\.0\.\d+")


if __name__ == "__main__":
    unittest.main()
