#!/usr/bin/env python3
"""Writes north.pcap and south.pcap: what each of the two firms sends to the gateway."""
import os
import struct
import sys
from typing import NamedTuple

sys.path.insert(0, os.path.join(os.path.dirname(os.path.abspath(__file__)), "../../bench"))
from datagrams import fragments, head, icmp, quad, record, tcp, udp

FIN, SYN, PSH, ACK = 1, 2, 8, 16


def name(text: str) -> bytes:
    """A name as DNS writes it."""
    return b"".join(bytes([len(label)]) + label.encode() for label in text.split(".")) + b"\0"


class Captures:
    """Both captures; each frame comes a tenth of a second after the one before it."""

    def __init__(self) -> None:
        self.moment = 17000000000
        self.frames: dict[str, list[bytes]] = {"north": [], "south": []}

    def add(self, realm: str, octets: bytes) -> None:
        """Adds a frame that a realm sends."""
        self.moment += 1
        self.frames[realm].append(record(self.moment // 10, self.moment % 10 * 100000, octets))

    def write(self, folder: str) -> None:
        """Writes both."""
        for realm, frames in self.frames.items():
            with open(os.path.join(folder, realm + ".pcap"), "wb") as out:
                out.write(head() + b"".join(frames))


def log_and_time(captures: Captures) -> None:
    """Lines of a log, one of a host without a static, and the time of a server that both realms know."""
    captures.add("north", udp("10.0.0.5", 40002, "192.168.200.1", 514, b"<13>north: backup started"))
    captures.add("south", udp("10.0.0.5", 514, "172.16.9.1", 40002, b"ok"))
    captures.add("north", udp("10.0.0.77", 40003, "192.168.200.1", 514, b"<13>no static"))
    captures.add("north", udp("10.0.0.5", 123, "203.0.113.9", 123, b"\x23" + bytes(47)))
    captures.add("south", udp("203.0.113.9", 123, "172.16.9.1", 123, b"\x24" + bytes(47)))


def look_up(captures: Captures) -> None:
    """A look-up over UDP."""
    asked = name("ftp.south.example") + struct.pack(">HH", 1, 1)
    question = struct.pack(">HHHHHH", 7, 0x0100, 1, 0, 0, 0) + asked
    answer = struct.pack(">HHHHHH", 7, 0x8180, 1, 1, 0, 0) + asked + struct.pack(">HHHIH", 0xC00C, 1, 1, 3600, 4) + quad("10.0.0.21")
    captures.add("north", udp("10.0.0.77", 40010, "192.168.200.53", 53, question))
    captures.add("south", udp("10.0.0.53", 53, "172.16.9.2", 40010, answer))


class Session:
    """A control connection of FTP, by the numbers that each host sees."""

    def __init__(self, captures: Captures, port: int) -> None:
        self.captures, self.port = captures, port
        # what each host has sent, and what it has been sent: their own next numbers, and those of the other
        self.client, self.server_seen = 1001, 5001
        self.server, self.client_seen = 5001, 1001

    def open(self) -> None:
        """The handshake."""
        self.captures.add("north", tcp("10.0.0.77", self.port, "192.168.200.21", 21, SYN, 1000, 0))
        self.captures.add("south", tcp("10.0.0.21", 21, "172.16.9.2", self.port, SYN | ACK, 5000, 1001))
        self.captures.add("north", tcp("10.0.0.77", self.port, "192.168.200.21", 21, ACK, 1001, 5001))

    def command(self, line: bytes, image: bytes = b"") -> None:
        """A line of the client, and what the server sees of it where that is another."""
        self.captures.add("north", tcp("10.0.0.77", self.port, "192.168.200.21", 21, PSH | ACK, self.client, self.server_seen, line))
        self.client += len(line)
        self.client_seen += len(image or line)

    def reply(self, line: bytes, image: bytes = b"") -> None:
        """A line of the server, likewise."""
        self.captures.add("south", tcp("10.0.0.21", 21, "172.16.9.2", self.port, PSH | ACK, self.server, self.client_seen, line))
        self.server += len(line)
        self.server_seen += len(image or line)


class Opener(NamedTuple):
    """Who opens a data connection: his realm, and the addresses and ports that he sees, with those that the other host sees."""

    realm: str
    source: str
    port: int
    destination: str
    far_port: int
    back_source: str
    back_destination: str


def transfer(captures: Captures, opener: Opener, octets: bytes) -> None:
    """A data connection, and what it carries to the client."""
    realm, source, port, destination, far_port, back_source, back_destination = opener
    other = "south" if realm == "north" else "north"
    captures.add(realm, tcp(source, port, destination, far_port, SYN, 100, 0))
    captures.add(other, tcp(back_source, far_port, back_destination, port, SYN | ACK, 200, 101))
    captures.add(realm, tcp(source, port, destination, far_port, ACK, 101, 201))
    if realm == "south":
        captures.add("south", tcp(source, port, destination, far_port, PSH | FIN | ACK, 101, 201, octets))
        captures.add("north", tcp(back_source, far_port, back_destination, port, FIN | ACK, 201, 102 + len(octets)))
        captures.add("south", tcp(source, port, destination, far_port, ACK, 102 + len(octets), 202))
    else:
        captures.add("south", tcp(back_source, far_port, back_destination, port, PSH | FIN | ACK, 201, 101, octets))
        captures.add("north", tcp(source, port, destination, far_port, FIN | ACK, 101, 202 + len(octets)))
        captures.add("south", tcp(back_source, far_port, back_destination, port, ACK, 202 + len(octets), 102))


def files(captures: Captures) -> None:
    """A login, and two files, by PORT and by PASV."""
    session = Session(captures, 40100)
    session.open()
    session.reply(b"220 south files\r\n")
    session.command(b"USER anna\r\n")
    session.reply(b"230 come in\r\n")
    session.command(b"PORT 10,0,0,77,156,168\r\n", b"PORT 172,16,9,2,156,168\r\n")
    session.reply(b"200 ok\r\n")
    session.command(b"RETR plan.txt\r\n")
    session.reply(b"150 here it comes\r\n")
    transfer(captures, Opener("south", "10.0.0.21", 20, "172.16.9.2", 40104, "10.0.0.77", "192.168.200.21"), b"the plan\n")
    session.reply(b"226 done\r\n")
    session.command(b"PASV\r\n")
    session.reply(b"227 Entering Passive Mode (10,0,0,21,195,80).\r\n", b"227 Entering Passive Mode (192,168,200,21,195,80).\r\n")
    session.command(b"RETR more.txt\r\n")
    transfer(captures, Opener("north", "10.0.0.77", 40105, "192.168.200.21", 50000, "10.0.0.21", "172.16.9.2"), b"more of it\n")
    session.reply(b"226 done\r\n")
    session.command(b"QUIT\r\n")
    session.reply(b"221 bye\r\n")


def trap(captures: Captures) -> None:
    """A trap of SNMP that names its sender."""
    pdu = bytes.fromhex("06032b0601") + b"\x40\x04" + quad("10.0.0.5") + bytes.fromhex("020106020101430100") + b"\x30\x00"
    message = bytes.fromhex("02010004067075626c6963") + b"\xa4" + bytes([len(pdu)]) + pdu
    captures.add("north", udp("10.0.0.5", 161, "192.168.200.1", 162, b"\x30" + bytes([len(message)]) + message))


def ping(captures: Captures) -> None:
    """A ping to a host that its router can't reach, and one to an alias that no host has."""
    captures.add("north", icmp("10.0.0.77", "192.168.200.21", 8, 0, struct.pack(">HH", 9, 1) + b"are you there?"))
    seen = icmp("172.16.9.2", "10.0.0.21", 8, 0, struct.pack(">HH", 9, 1) + b"are you there?")
    captures.add("south", icmp("10.0.0.254", "172.16.9.2", 3, 1, bytes(4) + seen[:28]))
    captures.add("north", icmp("10.0.0.77", "192.168.200.99", 8, 0, struct.pack(">HH", 9, 2) + b"and you?"))


def long_answer(captures: Captures) -> None:
    """A question, and an answer that comes in two fragments, the last one first."""
    asked = name("all.south.example") + struct.pack(">HH", 1, 1)
    hosts = ["10.0.0.%d" % host for host in range(21, 25)]
    answers = b"".join(struct.pack(">HHHIH", 0xC00C, 1, 1, 3600, 4) + quad(host) for host in hosts)
    captures.add("north", udp("10.0.0.77", 40011, "192.168.200.53", 53, struct.pack(">HHHHHH", 8, 0x0100, 1, 0, 0, 0) + asked))
    answer = udp("10.0.0.53", 53, "172.16.9.2", 40011, struct.pack(">HHHHHH", 8, 0x8180, 1, len(hosts), 0, 0) + asked + answers)
    for fragment in reversed(list(fragments(answer, 64))):
        captures.add("south", fragment)


def element(tag: int, content: bytes) -> bytes:
    """An element of BER."""
    return bytes([tag, len(content)]) + content


def walk(captures: Captures) -> None:
    """A row of the backup server's table of addresses, which the row is named by: ipAdEntIfIndex.10.0.0.5 = 2."""
    row = element(0x30, element(0x06, bytes.fromhex("2b06010201041401020a000005")) + element(0x02, b"\x02"))
    pdu = element(0xA2, bytes.fromhex("020107020100020100") + element(0x30, row))
    message = element(0x30, bytes.fromhex("02010104067075626c6963") + pdu)
    captures.add("north", udp("10.0.0.5", 161, "192.168.200.1", 40012, message))


def look_up_by_stream(captures: Captures) -> None:
    """A look-up over TCP, whose answer comes in two segments."""
    asked = name("all.south.example") + struct.pack(">HH", 1, 1)
    hosts = ["10.0.0.%d" % host for host in range(21, 25)]
    answers = b"".join(struct.pack(">HHHIH", 0xC00C, 1, 1, 3600, 4) + quad(host) for host in hosts)
    question = unit(struct.pack(">HHHHHH", 9, 0x0100, 1, 0, 0, 0) + asked)
    answer = unit(struct.pack(">HHHHHH", 9, 0x8180, 1, len(hosts), 0, 0) + asked + answers)

    def north(flags: int, sequence: int, acknowledgement: int, octets: bytes = b"") -> None:
        captures.add("north", tcp("10.0.0.77", 40013, "192.168.200.53", 53, flags, sequence, acknowledgement, octets))

    def south(flags: int, sequence: int, acknowledgement: int, octets: bytes = b"") -> None:
        captures.add("south", tcp("10.0.0.53", 53, "172.16.9.2", 40013, flags, sequence, acknowledgement, octets))

    asked_to, answered_to = 1001 + len(question), 5001 + len(answer)
    north(SYN, 1000, 0)
    south(SYN | ACK, 5000, 1001)
    north(ACK, 1001, 5001)
    north(PSH | ACK, 1001, 5001, question)
    south(ACK, 5001, asked_to, answer[:40])
    south(PSH | ACK, 5041, asked_to, answer[40:])
    north(FIN | ACK, asked_to, answered_to)
    south(FIN | ACK, answered_to, asked_to + 1)
    north(ACK, asked_to + 1, answered_to + 1)


def unit(message: bytes) -> bytes:
    """A message of DNS over TCP: behind its length."""
    return struct.pack(">H", len(message)) + message


def main() -> None:
    """Writes both."""
    captures = Captures()
    for part in (log_and_time, look_up, files, trap, ping, long_answer, walk, look_up_by_stream):
        part(captures)
    captures.write(os.path.dirname(os.path.abspath(__file__)))


if __name__ == "__main__":
    main()
