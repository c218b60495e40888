"""Tests of what is told of applications that nobody names: addresses that are followed, and those whose form says so."""
import random
import unittest

from test_payloads import HOSTS, OWN, scan_of
from testing import RIGHT

from datagrams import tcp  # testing says where it is
from rendapil.bindings import Bindings
from rendapil.document import document_in
from rendapil.numbers import TCP
from rendapil.payloads.followed import Ends, Followed, form_of
from rendapil.payloads.addresses import texts_in
from rendapil.payloads.kept import HOST, ITSELF, PRIVATE
from rendapil.payloads.scan import Scan, meaning_in, told_rows
from test_payloads import STATICS


def after(payload: bytes, port: int, told_port: int = 40_000, host: str = "10.0.0.6") -> list[tuple[str, str]]:
    """What is told where 10.0.0.5 of the left tells a host of the right, which then opens a connection to a host and port of the left."""
    scan = Scan(meaning_in(Bindings(document_in(RIGHT + STATICS), lambda _: None)))
    came, sent = (tcp(one, told_port, other, 999, 24, 1, 1, payload) for one, other in (("10.0.0.5", "192.168.200.9"), ("172.16.9.1", "10.0.0.9")))
    scan.take(1, 0, came, [sent])
    came, sent = (tcp(one, 5000, other, port, 2, 1, 0) for one, other in (("10.0.0.9", HOSTS[host]), ("192.168.200.9", host)))
    scan.take(2, 1, came, [sent])
    return [(row.weight, row.sure) for row in told_rows(scan)]


class Following(unittest.TestCase):
    """Connections that follow what was told, and forms."""

    def test_followed(self) -> None:
        """A connection to the address and port that were told tells that it breaks. One to another port, or to another host, doesn't."""
        text, octets = b"see \x0810.0.0.6\0\0\x10\xe1", b"\1\2\3\4\x0a\0\0\x06\x10\xe1"
        for payload in (text, octets, octets[:4] + b"\x10\xe1" + octets[4:8], octets[:8] + b"\xe1\x10"):
            self.assertEqual((payload, after(payload, 4321)), (payload, [("breaks", "sure")]))
            self.assertNotEqual(after(payload, 4322), [("breaks", "sure")])
            self.assertNotEqual(after(payload, 4321, host="10.0.0.7"), [("breaks", "sure")])

    def test_before(self) -> None:
        """What the reader had opened before it was told isn't followed."""
        scan = Scan(meaning_in(Bindings(document_in(RIGHT + STATICS), lambda _: None)))
        opened = [tcp(one, 5000, other, 4321, 2, 1, 0) for one, other in (("10.0.0.9", HOSTS["10.0.0.6"]), ("192.168.200.9", "10.0.0.6"))]
        telling = [
            tcp(one, 40_000, other, 999, 24, 1, 1, b"a 10.0.0.6\0\x10\xe1")
            for one, other in (("10.0.0.5", "192.168.200.9"), ("172.16.9.1", "10.0.0.9"))
        ]
        for number, (side, (came, sent)) in enumerate(((1, opened), (0, telling), (1, opened)), 1):
            scan.take(number, side, came, [sent])
        self.assertEqual([row.weight for row in told_rows(scan)], ["unsure"])

    def test_forms(self) -> None:
        """URIs, and addresses with a port that isn't the connection's own. Lines for people, pairs of ends and the own end aren't."""
        for text, role, wanted in (
            (b"drb://10.0.0.6:77", HOST, True),
            (b"tcp://10.0.0.5:40000", ITSELF, True),
            (b"http://10.0.0.5:40000/a", ITSELF, False),
            (b"http://10.0.0.9/a", PRIVATE, False),
            (b"\x0d10.0.0.5:4321", ITSELF, True),
            (b"\x0d10.0.0.5:40000", ITSELF, False),
            (b'{"host":"10.0.0.6","port":4321}', HOST, True),
            (b"('10.0.0.6', 4321)", HOST, True),
            (b"connection from 10.0.0.6:4321", HOST, False),
            (b"12:10:07 a 10.0.0.6:4321", HOST, False),
            (b"Host: 10.0.0.6:4321", HOST, False),
            (b"10.0.0.6:4321 -> 10.0.0.9:80", HOST, False),
            (b"ip=10.0.0.6", HOST, False),
        ):
            found = form_of(text, next(texts_in(text)), role, Ends(40_000, 999))
            self.assertEqual((text, bool(found)), (text, wanted))

    def test_likely(self) -> None:
        """What its form alone tells is likely, and a socket address counts by its port."""
        rows = told_rows(scan_of(("10.0.0.5", 4000, 999, b"\x16{'10.0.0.6:4321'}"), protocol=TCP))
        self.assertEqual([(row.weight, row.sure) for row in rows], [("breaks", "likely")])
        for port, weight in ((4321, "breaks"), (4000, "unsure")):
            payload = b"abcd\2\0" + port.to_bytes(2) + OWN + bytes(8)
            self.assertEqual([row.weight for row in told_rows(scan_of(("10.0.0.5", 4000, 999, payload), protocol=TCP))], [weight])

    def test_random(self) -> None:
        """Of random octets nothing is told, though each goes to a new port and so opens a connection."""
        source = random.Random(17)
        frames = ((host, 1024 + number, 2048 + number % 60_000, source.randbytes(600)) for number in range(3000) for host in HOSTS)
        self.assertEqual([row for row in told_rows(scan_of(*frames)) if row.weight == "breaks"], [])

    def test_room(self) -> None:
        """What is kept has a limit."""
        followed = Followed()
        for number in range(45_000):
            followed.open(number.to_bytes(4), b"bbbb", b"\1\2")
        self.assertLessEqual(max(len(followed._met), len(followed._opened)), 20_001)


if __name__ == "__main__":
    unittest.main()
