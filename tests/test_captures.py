"""Tests of what `check` says of captures."""
import os
import re
import struct
import subprocess
import tempfile
import unittest

from testing import CHECK, INPUTS, PROGRAM, RIGHT, TOP, capture, said

from datagrams import fragments, udp  # testing says where it is

BRIEF = ("env", f"PYTHONPATH={TOP}/python", "python3", "-m", "rendapil.check.captures")
GOOD, BACK = udp("10.0.0.9", 4, "192.168.200.1", 5, b"x"), udp("10.0.0.8", 4, "172.16.9.1", 5, b"x")
FAR, OWN = udp("10.0.0.9", 4, "10.0.0.8", 5, b"x"), udp("192.168.200.9", 4, "192.168.200.1", 5, b"x")


class Captures(unittest.TestCase):
    """What stands in the way in captures, and what mends it."""

    def setUp(self) -> None:
        """A folder with settings."""
        room = tempfile.TemporaryDirectory()
        self.addCleanup(room.cleanup)
        self.room = room.name
        statics = '[[static]]\nside = "right"\nhost = "10.0.0.5"\nalias = "192.168.200.1"\n[[static]]\nside = "left"\nhost = "10.0.0.9"\nalias = "172.16.9.1"\n'
        self.settings = self.write("settings.toml", (RIGHT + statics).encode())
        self.back = self.write("back", capture([BACK] * 4))

    def write(self, name: str, octets: bytes) -> str:
        """A file."""
        with open(f"{self.room}/{name}", "wb") as file:
            file.write(octets)
        return f"{self.room}/{name}"

    def lines(self, *paths: str) -> list[str]:
        """What is said of captures."""
        status, text = said(*CHECK, "--brief", self.settings, *paths)
        self.assertEqual(status, 1 if text else 0)
        self.assertTrue(text.isascii() and text.replace("\n", "").isprintable(), text)
        return text.splitlines()

    def test_counts_are_the_programs(self) -> None:
        """As many frames are told as the program refuses for it; of the example nothing is."""
        self.assertEqual(said(*CHECK, "--brief", *INPUTS), (0, ""))
        ether = [
            bytes(12) + b"\x81\0\0\7\x08\0" + BACK,
            bytes(12) + b"\x08\0" + BACK[:26] + b"\0\1" + BACK[28:],
            bytes(12) + b"\x08\0" + BACK[:10] + b"\0\1" + BACK[12:],
        ]
        parts = list(fragments(udp("10.0.0.9", 4, "192.168.200.1", 5, bytes(64)), 40))
        left = self.write("left", capture([GOOD, FAR, OWN, FAR, FAR, *parts]))
        right = self.write("right", capture(ether)[:20] + struct.pack("<I", 1) + capture(ether)[24:])
        found = re.findall(r"^.*/(\w+): (\d+) of (\d+) frames .*?: (\w+)", "\n".join(self.lines(left, right)), re.M)
        expected = [("left", "3", "7", "NoBinding"), ("left", "2", "7", "Fragment"), ("left", "1", "7", "SourceInPool")]
        self.assertEqual(found, [*expected, ("right", "2", "3", "BadSum"), ("right", "1", "3", "NotIpv4")])
        if os.access(PROGRAM, os.X_OK):
            words = [self.settings, left, right, f"{self.room}/lo", f"{self.room}/ro", f"{self.room}/report"]
            self.assertEqual(said(PROGRAM, "run", *words), (0, ""))
            with open(words[-1], encoding="ascii") as file:
                verdicts = sorted(line.split()[3] for line in file if not line.startswith("done"))
            self.assertEqual(
                verdicts, ["BadHeaderSum", "BadSum", "Fragment", "Fragment", "NoBinding", "NoBinding", "NoBinding", "NotIpv4", "SourceInPool", "pass"]
            )

    def test_swapped_and_twice(self) -> None:
        """Left and right swapped, and one capture given twice, are told once, with what to do; also in the two lines that a run says."""
        good = self.write("good", capture([GOOD] * 5))
        swapped = [f"left and right are swapped: 9 of 9 frames go to the other realm's pool. Name {good} before {self.back}"]
        self.assertEqual(self.lines(self.back, good), swapped)
        self.assertEqual(said(*BRIEF, self.settings, self.back, good), (0, swapped[0] + "\n"))
        self.assertEqual(self.lines(good, self.back), [])
        copy = self.write("copy", capture([GOOD] * 5))
        for other in (good, copy):
            self.assertIn(
                f"{good} and {other} are one capture: each has to have what the hosts of its own realm sent. Make both: rendapil try {good}",
                self.lines(good, other)[0],
            )
        empty = self.write("none", capture([]))
        self.assertEqual(
            self.lines(self.back, empty)[0],
            f"left and right are swapped: 4 of 4 frames go to the other realm's pool. Name {empty} before {self.back}",
        )

    def test_pool_of_own_hosts(self) -> None:
        """Where all frames come from the pool, its own hosts may have its addresses: no command is told, which would keep none."""
        own = self.write("own", capture([udp("192.168.200.7", 5, "192.168.200.1", 4, b"x")] * 3))
        self.assertEqual(
            self.lines(own, self.back),
            [
                f"{own}: 3 of 3 frames come from the left pool: SourceInPool. "
                "Choose a pool in which the realm has no hosts, if these are its own. Otherwise a gateway sent them"
            ],
        )

    def test_commands_mend(self) -> None:
        """Each file that the gateway doesn't read is told with the command that makes it one; where the command is there, it does."""
        whole = capture([GOOD] * 3)
        head, frames = whole[:20], whole[24:]
        tagged = capture([bytes(12) + b"\x81\0\0\7\x08\0" + GOOD] * 3)
        cooked = capture([b"\x08\0" + bytes(18) + GOOD] * 3)
        both = capture([GOOD, udp("192.168.200.1", 5, "10.0.0.9", 4, b"x")])
        for name, octets, kind in (
            ("tagged", tagged[:20] + struct.pack("<I", 1) + tagged[24:], "NotIpv4"),
            ("cooked", cooked[:20] + struct.pack("<I", 276) + cooked[24:], "Link"),
            ("ipv4", head + struct.pack("<I", 228) + frames, "Link"),
            ("torn", whole[:-3], "Torn"),
            ("both", both, "SourceInPool"),
        ):
            path = self.write(name, octets)
            (line,) = self.lines(path, self.back)
            self.assertIn(kind, line)
            command = line.split(": ")[-1]
            if said("which", command.split()[0])[0] == 0:
                new = f"{self.room}/new"
                subprocess.run(["bash", "-c", command.replace("NEW", new)], check=False, stdout=subprocess.DEVNULL, stderr=subprocess.DEVNULL)
                self.assertEqual(self.lines(new, self.back), [], name)
        for name, octets, line in (
            ("gz", b"\x1f\x8b" + bytes(30), "is damaged: what gzip packed is damaged: Unknown compression method"),
            ("ng", b"\x0a\x0d\x0d\x0a" + bytes(30), "is damaged: a block says that it has 0 bytes"),
            ("xz", b"\xfd\x37\x7a\x58" + bytes(30), f"is packed by xz: Magic. Unpack it: xz -dc {self.room}/xz >NEW"),
            ("text", b"left = 1\n", "is no capture: Magic. Are the words in their order?"),
            ("empty", b"", "is empty: NoHead"),
            ("wlan", head + struct.pack("<I", 105) + frames, "has link type 105: Link. Capture on an Ethernet interface or a tun device"),
            (
                "long",
                whole[:32] + b"\xff\xff\xff\xff" + whole[36:],
                "has more than 262144 bytes in its record 1: RecordTooLong. It isn't whole: copy it again",
            ),
            ("stamp", whole[:28] + b"\xff\xff\xff\0" + whole[32:], "has a stamp that is none in its record 1: Stamp. 'rendapil try' reads it"),
        ):
            self.assertEqual(self.lines(self.write(name, octets), self.back), [f"{self.room}/{name}: it {line}"])
        self.assertEqual(self.lines(f"{self.room}/absent\x1b", self.back), [f"{self.room}/absent\\x1b: it can't be read: No such file or directory"])
        self.assertEqual(said(*CHECK, self.settings, self.back)[0], 2)

    def test_a_run_says_nothing_more(self) -> None:
        """Where it can't look: no line, no traceback."""
        self.assertEqual(said(*BRIEF, self.settings, "/dev/null", self.back), (0, ""))
        self.assertEqual(said(*BRIEF, self.back, self.back, self.back), (0, ""))
