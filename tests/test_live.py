"""What the pump says of pools, and keeps of aliases."""
import contextlib
import io
import os
import subprocess
import tempfile
import tomllib
import unittest

from testing import TOP, datagram

import aliases  # noqa: I001
from rendapil.numbers import ACK, FIN, LONG_TIMEOUT, SECOND, SYN, TCP, UDP
from datagrams import tcp
from records import RAW_IP
from words import Journal

FAR = "203.0.113.9"


class Live(unittest.TestCase):
    """A watch that is told what hosts of the left realm and one of both realms say."""

    SETTINGS = """
same = ["203.0.113.0/24"]
left = { pool_first = "192.168.200.1", pool_last = "192.168.200.9", link = "raw" }
right = { pool_first = "172.16.9.1", pool_last = "172.16.9.10", link = "raw" }
static = []
"""

    def setUp(self) -> None:
        """A file of settings, and one for aliases."""
        room = tempfile.TemporaryDirectory()
        self.addCleanup(room.cleanup)
        self.settings, self.file = f"{room.name}/settings.toml", f"{room.name}/statics.toml"
        with open(self.settings, "w", encoding="ascii") as file:
            file.write(self.SETTINGS.replace("static = []", ""))
        self.starts()

    def starts(self) -> None:
        """A pump starts."""
        self.kept = aliases.Kept(self.file, self.settings)
        self.watch = aliases.Watch(self.kept.settings, (101, 101), self.kept)

    def speaks(self, second: float, host: int, alias: int) -> None:
        """A host of the left realm sends to one of both realms: the line comes before the frame that was sent, or behind it."""
        came, sent = (datagram(f"{address} > {FAR}", UDP, bytes(8)) for address in (f"10.0.0.{host}", f"172.16.9.{alias}"))
        line = (0, int(second * SECOND), "pass", came, 1)
        if host % 2:
            self.watch.line(*line)
        self.watch.sent(1, [memoryview(sent)])
        if not host % 2:
            self.watch.line(*line)

    def connects(self, second: int, host: int, alias: int, segments: tuple[tuple[int, int], ...] = ((0, SYN), (1, SYN | ACK), (0, ACK))) -> None:
        """A host of the left realm has a connection, of segments from these sides with these flags."""
        ends = ("10.0.0.%d" % host, "172.16.9.%d" % alias)
        for place, (side, flags) in enumerate(segments):
            came, sent = (
                tcp(one, 4000, FAR, 80, flags, 1, 1) if side == 0 else tcp(FAR, 80, one, 4000, flags, 1, 1) for one in ends[:: 1 - 2 * side]
            )
            self.watch.line(side, second * SECOND + place, "pass", came, 1)
            self.watch.sent(1 - side, [memoryview(sent)])

    def hosts_kept(self) -> list[str]:
        """The hosts in the file, once it is written."""
        self.watch.write()
        with open(self.file, "rb") as file:
            return [row["host"] for row in tomllib.load(file).get("static", [])]

    def test_alarms(self) -> None:
        """A pool that fills is told once, a pool that is empty once a minute, and so are frames that aren't followed."""
        with contextlib.redirect_stderr(io.StringIO()) as told:
            for host in range(1, 11):
                self.speaks(1000 + host, host, host)
            for second in (1020, 1030, 1080):
                self.watch.line(0, second * SECOND, "PoolEmpty", datagram(f"10.0.0.9 > {FAR}", UDP, bytes(8)), 0)
            for second in (1090, 1100, 1151):
                self.watch.line(0, second * SECOND, "pass", datagram(f"10.0.0.9 > {FAR}", TCP, bytes(8)), 0)
        self.assertEqual(told.getvalue().count("full"), 1)
        full, *others = told.getvalue().splitlines()
        self.assertEqual(full, "pump: the right pool is 80 % full: 8 of 10 addresses")
        self.assertEqual([line.split(";")[-1] for line in others[:2]], [" 1 frames refused so far", " 3 frames refused so far"])
        self.assertEqual([line.split(" so far")[0] for line in others[2:]], ["pump: 1 frames not followed", "pump: 3 frames not followed"])
        self.assertEqual(
            self.watch.counts(), "0 of 9 addresses of the left pool and 10 of 10 addresses of the right pool taken, 3 frames not followed"
        )

    def test_lines_of_a_second(self) -> None:
        """Of one second so many lines are written, and the others are counted, also at the end."""
        for most, wanted in ((0, 9), (2, 2 + 1 + 1 + 2 + 1)):
            out = io.StringIO()
            journal = Journal(out, (RAW_IP, RAW_IP), True, most=most)
            moments = [1] * 5 + [2] + [4] * 3
            journal.expect(0, [datagram(f"10.0.0.9 > {FAR}", UDP, bytes(8))] * len(moments))
            for number, second in enumerate(moments, 1):
                journal.take(b"%d left %d PoolEmpty 0\n" % (number, second * SECOND))
            journal.take(b"done events=9 passed=0 refused=9 to_left=0 to_right=0 pending=0\n")
            lines = out.getvalue().splitlines()
            self.assertEqual(len(lines), wanted + 1, lines)
            self.assertEqual([line for line in lines if line.startswith("#")], ["# 3 more in that second", "# 1 more in that second"] if most else [])
            self.assertEqual(journal.verdicts[b"PoolEmpty"], 9)

    def test_nobody_listens(self) -> None:
        """Where standard error has no reader, the gateway goes on."""
        words = [
            "python3",
            "-c",
            f"import sys; sys.path.insert(0, '{TOP}/examples/live'); import aliases; [aliases.say('x') for _ in range(9)]; sys.stderr = None",
        ]
        reader, writer = os.pipe()
        os.close(reader)
        self.assertEqual(subprocess.run(words, stderr=writer, check=False).returncode, 0)
        os.close(writer)

    def test_kept_aliases(self) -> None:
        """Only hosts with an established connection, on which they sent more than once, are kept, and are statics of the next start."""
        self.speaks(1000, 1, 1)
        self.connects(1001, 2, 2)
        self.connects(1002, 3, 3, ((0, SYN), (0, SYN), (1, SYN | ACK)))
        self.speaks(1003, 4, 4)
        self.connects(1004, 5, 5)
        self.connects(1005, 6, 6, ((0, ACK), (1, ACK), (1, ACK)))
        self.connects(1006, 7, 7, ((0, SYN), (1, SYN | ACK), (0, ACK), (0, ACK | FIN)))
        self.assertEqual(self.hosts_kept(), ["10.0.0.2", "10.0.0.5"])
        self.starts()
        self.assertEqual(self.kept.hosts, {(0, 0x0A000002), (0, 0x0A000005)})
        self.connects(2000, 5, 5)
        self.assertEqual(self.hosts_kept(), ["10.0.0.2", "10.0.0.5"])
        self.speaks(2000 + LONG_TIMEOUT / SECOND - 1, 2, 2)
        self.assertEqual(self.hosts_kept(), ["10.0.0.2", "10.0.0.5"])
        self.connects(2000 + LONG_TIMEOUT // SECOND, 5, 5)
        self.assertEqual(self.hosts_kept(), ["10.0.0.5"])

    def test_half_of_a_pool(self) -> None:
        """Half of a pool is kept at most, whoever connects: the hosts that were bound first."""
        for host in range(1, 11):
            self.connects(1000 + host, 20 - host, host)
        self.assertEqual(self.hosts_kept(), [f"10.0.0.{host}" for host in range(15, 20)])

    def test_made_up_sources(self) -> None:
        """Of sources that a host makes up none is kept, and a restart has the whole pool."""
        for host in range(1, 11):
            self.speaks(1000, host, host)
        self.assertEqual(self.hosts_kept(), [])

    def test_tables_that_don_t_fit(self) -> None:
        """Where the tables don't fit any more, the settings alone are used."""
        self.connects(1000, 1, 1)
        self.watch.write()
        with open(self.settings, "w", encoding="ascii") as file:
            file.write(self.SETTINGS)
        with contextlib.redirect_stderr(io.StringIO()) as told:
            self.assertEqual(aliases.Kept(self.file, self.settings).settings, self.settings)
        self.assertIn("isn't used, since the settings have a fault with it: NotToml: ", told.getvalue())


if __name__ == "__main__":
    unittest.main()
