"""Runs of hosts that talk to one another at random: each answers what the program gave to it, so that most frames pass."""
import os
import random
import struct
import subprocess
from ipaddress import IPv4Address

from datagrams import fragments, icmp, quad, record, tcp, udp, write_run
from messages import framed, resource

SIDES = ("left", "right")
FIN, SYN, RST, ACK = 1, 2, 4, 16
STAGES, FRAMES = 6, 14


def written(octets: bytes) -> str:
    """An address."""
    return str(IPv4Address(octets))


class Dialogues:
    """Settings, two captures and what the program makes of them, all drawn from a seed. The folder takes the files."""

    FILES = ("settings.toml", "left.pcap", "right.pcap", "left_out", "right_out", "report")

    def __init__(self, program: str, folder: str, seed: int) -> None:
        self._words = [program, "run", *(f"{folder}/{name}" for name in self.FILES)]
        self._folder = folder
        self._draw = random.Random(seed)
        self._pools = [self._pool("192.168.200.0"), self._pool("172.16.9.0")]
        self._hosts = [f"10.0.0.{number}" for number in range(1, 1 + self._draw.choice((3, 9, 30)))]
        self._settings = self._made_settings()
        self._moment = 0
        self._events: list[tuple[int, int, bytes]] = []  # moment in microseconds, side, frame
        self._came: list[tuple[int, bytes]] = []  # what the program gave to a side in the last stage

    def _pool(self, network: str) -> list[str]:
        """The addresses of a pool."""
        return [str(IPv4Address(network) + number) for number in range(1, 1 + self._draw.choice((2, 5, 9, 40)))]

    def _made_settings(self) -> str:
        """The text of the settings."""
        sides = "".join(
            f'{side} = {{ pool_first = "{pool[0]}", pool_last = "{pool[-1]}", link = "raw" }}\n' for side, pool in zip(SIDES, self._pools)
        )
        statics = [
            (side, host, alias)
            for side in (0, 1)
            for host, alias in zip(self._draw.sample(self._hosts, 2), self._draw.sample(self._pools[1 - side], 2))
        ]
        rows = "".join(f'[[static]]\nside = "{SIDES[side]}"\nhost = "{host}"\nalias = "{alias}"\n' for side, host, alias in statics)
        return f'same = ["203.0.113.0/24"]\nfragments = "{self._draw.choice(("join", "join", "refuse"))}"\n' + sides + rows

    def make(self) -> list[str]:
        """Makes the files, stage by stage, and answers the verdicts of the last run."""
        verdicts: list[str] = []
        for _ in range(STAGES):
            for _ in range(self._draw.randrange(FRAMES)):
                self._speaks()
            for side, datagram in self._came:
                if self._draw.random() < 0.8:
                    self._answers(side, datagram)
            verdicts = self._run()
        return verdicts

    def _run(self) -> list[str]:
        """Runs the program over all events so far."""
        sides: tuple[list[bytes], ...] = ([], [])
        for moment, side, frame in self._events:
            sides[side].append(record(1 + moment // 1000000, moment % 1000000, frame))
        write_run(self._folder, self._settings, *sides)
        before = self._given()
        subprocess.run(self._words, check=True)
        self._came = [(side, frame) for side, frames in enumerate(self._given()) for frame in frames[len(before[side]) :]]
        self._draw.shuffle(self._came)
        with open(self._words[-1], encoding="ascii") as report:
            return [line.split()[3] for line in report if not line.startswith("done")]

    def _given(self) -> list[list[bytes]]:
        """What was given to each side."""
        return [self._frames(f"{self._folder}/{side}_out") if self._came or self._moment else [] for side in SIDES]

    @staticmethod
    def _frames(path: str) -> list[bytes]:
        """The frames of a capture that the program wrote, if it is there."""
        if not os.path.exists(path):
            return []
        with open(path, "rb") as file:
            octets = file.read()
        frames, at = [], 24
        while at < len(octets):
            size = struct.unpack_from("<I", octets, at + 8)[0]
            frames.append(octets[at + 16 : at + 16 + size])
            at += 16 + size
        return frames

    def _sends(self, side: int, frame: bytes) -> None:
        """A frame comes from a side a little later, or much later, whole or in fragments."""
        draw = self._draw
        self._moment += draw.choice((1, 1000, 1000000, 20_000_000)) if draw.random() < 0.97 else draw.choice((61, 241, 301, 7441)) * 1000000
        parts = [frame]
        if draw.random() < 0.1 and len(frame) > 40:
            parts = list(fragments(frame[:4] + struct.pack(">H", draw.randrange(3)) + frame[6:], draw.choice((8, 16, 64))))
            draw.shuffle(parts)
            parts = parts[: draw.choice((1, 99, 99, 99))]
        for part in parts + parts[: draw.random() < 0.1]:
            self._events.append((self._moment, side, part))
            self._moment += 1

    def _speaks(self) -> None:
        """A host sends something new."""
        draw, side = self._draw, self._draw.randrange(2)
        source, to = draw.choice(self._hosts), draw.choice((*self._pools[side][:6], "203.0.113.9"))
        kind = draw.choice(("udp", "ping", "dns", "dns", "syn", "syn", "plain", "again"))
        if kind == "udp":
            self._sends(side, udp(source, 4000, to, draw.choice((161, 4001)), bytes(draw.randrange(30))))
        elif kind == "ping":
            self._sends(side, icmp(source, to, draw.choice((0, 8)), 0, bytes(8)))
        elif kind == "dns":
            self._sends(side, udp(source, draw.choice((53, 4000)), to, 53, self._message(side)))
        elif kind == "syn":
            self._sends(side, tcp(source, draw.randrange(4000, 4004), to, draw.choice((53, 53, 21, 80)), SYN, draw.choice((7, 2**32 - 3)), 0))
        elif kind == "plain":
            self._sends(side, tcp(source, 4000, to, 80, draw.choice((ACK, ACK, ACK | FIN, RST)), 9, 9))
        elif self._events:
            _, side, frame = draw.choice(self._events)
            self._sends(side, frame)

    def _answers(self, side: int, came: bytes) -> None:
        """The host that was given a datagram answers, as its protocol wants it or nearly so."""
        source, to, payload = written(came[16:20]), written(came[12:16]), came[20:]
        if came[9] == 17:
            port, far = struct.unpack_from(">HH", payload)
            self._sends(side, udp(source, far, to, port, self._message(side) if 53 in (port, far) else payload[8:]))
        elif came[9] == 1 and payload[0] == 8:
            self._sends(side, icmp(source, to, 0, 0, payload[4:]))
        elif came[9] == 6:
            self._goes_on(side, source, to, payload)

    def _goes_on(self, side: int, source: str, to: str, segment: bytes) -> None:
        """A host's next segments on a connection."""
        draw = self._draw
        port, far, number, acknowledged = struct.unpack_from(">HHII", segment)
        flags, octets = segment[13], segment[(segment[12] >> 4) * 4 :]
        if flags & RST:
            return
        number = (number + len(octets) + (flags & 3 != 0)) % 2**32
        if flags & (SYN | ACK) == SYN:
            self._sends(side, tcp(source, far, to, port, SYN | ACK, draw.choice((5, 2**32 - 9)), number))
            return
        said = framed(self._message(side)) if 53 in (port, far) and draw.random() < 0.7 else b""
        said *= draw.choice((1, 1, 2))
        cut = draw.randrange(1 + len(said))
        for at, text in ((0, said[:cut]), (cut, said[cut:])):
            if text or not at:
                self._sends(side, tcp(source, far, to, port, ACK | 8, (acknowledged + at) % 2**32, number, text))
        self._repeats(side, (source, far, to, port), acknowledged, number, said)

    def _repeats(self, side: int, ends: tuple[str, int, str, int], acknowledged: int, number: int, said: bytes) -> None:
        """What may come beside: a part of it again, the first SYN again, an end, a reset."""
        draw = self._draw
        what = draw.random()
        if what < 0.1 and said:
            at = draw.randrange(len(said))
            self._sends(side, tcp(*ends, ACK, (acknowledged + at) % 2**32, number, said[at : at + draw.randrange(40)]))
        elif what < 0.2:
            self._sends(side, tcp(*ends, SYN | draw.choice((0, ACK)), (acknowledged - 1) % 2**32, number))
        elif what < 0.26:
            self._sends(side, tcp(*ends, ACK | FIN, (acknowledged + len(said)) % 2**32, number))
        elif what < 0.3:
            self._sends(side, tcp(*ends, RST, (acknowledged + draw.choice((0, len(said)))) % 2**32, number))

    def _message(self, side: int) -> bytes:
        """A DNS message of a host of a side, which names hosts, aliases and what is neither. Some grow so much that they are cut."""
        draw = self._draw
        owner, body, count = b"\x01a" * draw.choice((1, 1, 120)) + b"\0", b"", draw.choice((0, 1, 1, 2, 3, 9))
        if draw.random() < 0.15:
            text = 12 + len(resource(owner, 16)) + 12
            body = resource(owner, 16) + resource(b"\xc0\x0c", 16, b"\x3f" * 192 + bytes(80))
            body += b"".join(resource(struct.pack(">H", 0xC000 | text + number), 16) for number in range(1, 5))
        known = [*self._hosts, *self._hosts, *self._pools[side][:3], "203.0.113.9", "127.0.0.1", "224.0.0.1"]
        for _ in range(count):
            name = b"\xc0\x0c" if body else owner
            if draw.random() < 0.3:
                name = (
                    b"".join(bytes([len(part)]) + part for part in draw.choice(known).encode().split(b".")[::-1])
                    + draw.choice((b"\x07in-addr", b"\x07IN-Addr"))
                    + b"\x04arpa\0"
                )
            body += resource(name, draw.choice((1, 1, 1, 16)), quad(draw.choice(known)) if draw.random() < 0.9 else b"abc")
        return struct.pack(">6H", 7, 0x8180, 0, count + (6 if b"\x3f" * 192 in body else 0), 0, 0) + body
