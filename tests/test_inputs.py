"""Captures as people have them: what a run makes of pcapng, of what gzip packed, and of folders."""
import gzip
import os
import shutil
import struct
import subprocess
import tempfile
import unittest
from pathlib import Path

from testing import INPUTS, OUTPUTS, PROGRAM, TOP, said

from rendapil.files import Damaged
from rendapil.readers import records, whole_records

RENDAPIL = f"{TOP}/rendapil"


def block(kind: int, body: bytes, order: str = "<") -> bytes:
    """A block of pcapng."""
    body += bytes(-len(body) % 4)
    return struct.pack(order + "II", kind, len(body) + 12) + body + struct.pack(order + "I", len(body) + 12)


def pcapng(path: str, order: str = "<", resolution: int = 9, ahead: int = 0, is_old: bool = False) -> bytes:
    """A capture as pcapng: in this byte order, with stamps of ten to minus this, which lack so many seconds. `is_old` makes packets of the old form."""
    said = struct.pack(order + "HHB3x", 9, 1, resolution) + struct.pack(order + "HHq", 14, 8, ahead) + bytes(4)
    link = next(records(path)).link
    parts = [
        block(0x0A0D0D0A, struct.pack(order + "IHHq", 0x1A2B3C4D, 1, 0, -1), order),
        block(1, struct.pack(order + "HHI", link, 0, 0) + said, order),
    ]
    parts.append(block(0x0BAD, b"a block that nobody knows", order))
    for one in records(path):
        stamp = (one.moment - ahead * 10**9) // 10 ** (9 - resolution)
        of = struct.pack(order + "HH", 0, 7) if is_old else struct.pack(order + "I", 0)
        head = of + struct.pack(order + "4I", stamp >> 32, stamp & 0xFFFFFFFF, len(one.octets), one.length)
        parts.append(block(2 if is_old else 6, head + one.octets + bytes(-len(one.octets) % 4) + struct.pack(order + "HHIHH", 2, 4, 1, 0, 0), order))
    return b"".join(parts)


def tagged(path: str) -> bytes:
    """A capture of bare datagrams as one of Ethernet frames with two VLAN tags."""
    found = [struct.pack("<IHHiIII", 0xA1B23C4D, 2, 4, 0, 0, 262144, 1)]
    for one in records(path):
        frame = bytes(12) + bytes.fromhex("88a80001810000020800") + one.octets
        found.append(struct.pack("<IIII", *divmod(one.moment, 10**9), len(frame), one.length + 22) + frame)
    return b"".join(found)


@unittest.skipUnless(os.access(PROGRAM, os.X_OK), "the program isn't built")
class Inputs(unittest.TestCase):
    """The example of two firms, with its left capture in other forms."""

    def setUp(self) -> None:
        """A folder."""
        room = tempfile.TemporaryDirectory()
        self.addCleanup(room.cleanup)
        self.room = room.name
        self.written = [f"{self.room}/{name}" for name in ("lo", "ro", "rep")]

    def put(self, name: str, octets: bytes) -> str:
        """A file."""
        path = Path(self.room, name)
        path.parent.mkdir(exist_ok=True)
        path.write_bytes(octets)
        return str(path)

    def run_with(self, left: str, *words: str) -> tuple[int, str]:
        """Status and output of a run with this left capture."""
        return said(RENDAPIL, *words, "run", INPUTS[0], left, INPUTS[2], *self.written)

    def same(self, left: str, *words: str) -> None:
        """The run writes what it writes for the capture as it is."""
        self.assertEqual(self.run_with(left, *words), (0, ""))
        for mine, known in zip(self.written, OUTPUTS):
            self.assertEqual(Path(mine).read_bytes(), Path(known).read_bytes())

    def test_forms(self) -> None:
        """pcapng in both byte orders, with other units and offsets of stamps, and either packed by gzip."""
        plain = Path(INPUTS[1]).read_bytes()
        for name, octets in (
            ("pcapng", pcapng(INPUTS[1])),
            ("pcapng of the other order", pcapng(INPUTS[1], ">", ahead=1_600_000_000)),
            ("pcapng of microseconds", pcapng(INPUTS[1], resolution=6)),
            ("two sections", pcapng(INPUTS[1])[: -0 or None] + block(0x0A0D0D0A, struct.pack("<IHHq", 0x1A2B3C4D, 1, 0, -1))),
            ("packed", gzip.compress(plain)),
            ("packed pcapng", gzip.compress(pcapng(INPUTS[1]))),
        ):
            with self.subTest(name):
                self.same(self.put("left", octets))

    def test_folder(self) -> None:
        """The captures of a folder are one, in the order of their first frames, whatever they are called. Names with a dot in front don't count."""
        plain = Path(INPUTS[1]).read_bytes()
        heads = [24]
        while heads[-1] < len(plain):
            heads.append(heads[-1] + 16 + struct.unpack_from("<I", plain, heads[-1] + 8)[0])
        one, two = heads[5], heads[9]
        for name, octets in (
            ("z", plain[:one]),
            ("m.gz", gzip.compress(plain[:24] + plain[one:two])),
            ("a", plain[:24] + plain[two:]),
            (".hidden", b"?"),
        ):
            self.put(f"left/{name}", octets)
        self.same(f"{self.room}/left")
        checked = said(RENDAPIL, "check", INPUTS[0], f"{self.room}/left", INPUTS[2])
        self.assertEqual(checked, said(RENDAPIL, "check", *INPUTS))
        told = said(RENDAPIL, "explain", INPUTS[0], f"{self.room}/left", INPUTS[2], *self.written)
        self.assertEqual(told, said(RENDAPIL, "explain", *INPUTS, *OUTPUTS))
        self.put("left/notes.txt", b"notes of somebody, and no capture")
        status, text = self.run_with(f"{self.room}/left")
        self.assertEqual((status, text), (5, f"read failed: left_in\nrendapil: left_in, {self.room}/left: notes.txt in this folder is no capture\n"))
        os.mkdir(f"{self.room}/empty")
        self.assertEqual(
            self.run_with(f"{self.room}/empty"), (5, f"read failed: left_in\nrendapil: left_in, {self.room}/empty: it is a folder without captures\n")
        )

    def test_an_output_in_the_folder(self) -> None:
        """An output that is a file of the folder is refused, and stays as it is."""
        left = self.put("left/north.pcap", Path(INPUTS[1]).read_bytes())
        self.written[0] = left
        status, text = self.run_with(f"{self.room}/left")
        self.assertEqual((status, text.splitlines()[0]), (7, "open failed: left_out"))
        self.assertEqual(Path(left).read_bytes(), Path(INPUTS[1]).read_bytes())

    def test_damaged(self) -> None:
        """What is cut or wrong is told with its place, and the frames before it went out."""
        whole = pcapng(INPUTS[1])
        wrong = bytearray(whole)
        struct.pack_into("<I", wrong, 4 + whole.index(struct.pack("<I", 6), 100), 1 << 30)
        for octets, why in (
            (whole[:-30], "behind frame 26: it ends within a block"),
            (bytes(wrong), "a block says that it has 1073741824 bytes"),
            (gzip.compress(Path(INPUTS[1]).read_bytes())[:-20], "what gzip packed is damaged"),
            (gzip.compress(b"no capture at all"), "is no capture"),
            (whole + block(3, bytes(40)), "behind frame 27: it has packets without stamps"),
        ):
            with self.subTest(why):
                status, text = self.run_with(self.put("left", octets))
                self.assertEqual((status, text.splitlines()[0][:20]), (4, "capture left: Torn at"[:20]), text)
                self.assertIn(f"rendapil: left_in, {self.room}/left: ", text)
                self.assertIn(why, text)

    def test_vlan_tags(self) -> None:
        """They are taken off only where that is asked for."""
        left = self.put("left", tagged(INPUTS[1]))
        self.assertIn(" NotIpv4 ", (self.run_with(left), Path(self.written[2]).read_text("ascii"))[1])
        self.assertEqual(self.run_with(left, "--untag"), (0, ""))
        with open(self.written[2], encoding="ascii") as mine, open(OUTPUTS[2], encoding="ascii") as known:
            self.assertEqual(mine.read(), known.read())
        left = self.put("ng", pcapng(left))
        self.assertEqual(self.run_with(left, "--untag"), (0, ""))
        self.assertNotIn("VLAN", said(RENDAPIL, "--untag", "check", INPUTS[0], left, INPUTS[2])[1])

    def test_readers_agree(self) -> None:
        """The reader gives the frames of editcap's files, and says where a file is cut."""
        if shutil.which("editcap"):
            subprocess.run(["editcap", "-F", "pcapng", INPUTS[1], f"{self.room}/ng"], check=True)
            self.assertEqual([one[:4] for one in records(f"{self.room}/ng")], [one[:4] for one in records(INPUTS[1])])
        for order in "<>":
            self.put("old", pcapng(INPUTS[1], order, is_old=True))
            self.assertEqual([one[:4] for one in records(f"{self.room}/old")], [one[:4] for one in records(INPUTS[1])])
        left = self.put("left", pcapng(INPUTS[1]))
        self.assertEqual([one[:4] for one in records(left)], [one[:4] for one in records(INPUTS[1])])
        whole = Path(left).read_bytes()
        frames = len(list(records(left)))
        for size in range(1, len(whole)):
            self.put("cut", whole[:size])
            found = []
            try:
                for one in whole_records(f"{self.room}/cut"):
                    found.append(one)
                is_whole = True
            except (Damaged, ValueError):
                is_whole = False
            self.assertLessEqual(len(found), frames)
            self.assertFalse(is_whole and len(found) == frames)


if __name__ == "__main__":
    unittest.main()
