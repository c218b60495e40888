"""Clients of sessions for which no program of Debian does it by itself: `talk.py NAME`."""
import json
import os
import socket
import struct
import subprocess
import sys
import time
import urllib.request
from collections.abc import Callable


def irc(line: str) -> None:
    """Two users of a server, of whom one says something to the other."""
    users = []
    for name, host in (("ann", "10.1.0.5"), ("bob", "10.1.0.6")):
        user = socket.create_connection(("10.2.0.9", 6667), 5, (host, 0))
        user.sendall(f"NICK {name}\r\nUSER {name} 0 * :{name}\r\n".encode())
        users.append(user)
        time.sleep(0.7)
    for text in (line, "WHOIS bob\r\n", "QUIT\r\n"):
        users[0].sendall(text.encode())
        time.sleep(0.3)
    for user in users:
        user.settimeout(0.5)
        user.recv(9999)
        user.close()


def tracker() -> None:
    """Announces of three peers over UDP (BEP 15)."""
    for host in ("10.1.0.5", "10.1.0.6", "10.1.0.7"):
        peer = socket.socket(socket.AF_INET, socket.SOCK_DGRAM)
        peer.bind((host, 0))
        peer.settimeout(2)
        peer.connect(("10.2.0.9", 1337))
        peer.send(struct.pack(">QII", 0x41727101980, 0, 7))
        connection = peer.recv(99)[8:16]
        peer.send(
            connection + struct.pack(">II20s20sQQQIIIiH", 1, 8, bytes(range(20)), b"-AA0000-" + host.encode().ljust(12), 0, 0, 0, 2, 0, 9, -1, 6881)
        )
        peer.recv(999)


def getaddr() -> None:
    """Asks rpcbind for the universal address of a program (RPCB_GETADDR of version 3)."""
    one = socket.socket(socket.AF_INET, socket.SOCK_DGRAM)
    one.settimeout(2)

    def text(word: bytes) -> bytes:
        return struct.pack(">I", len(word)) + word + bytes(-len(word) % 4)

    call = struct.pack(">IIIIIIIIII", 9, 0, 2, 100000, 3, 3, 0, 0, 0, 0)
    one.sendto(call + struct.pack(">II", 100000, 3) + text(b"udp") + text(b"10.2.0.9.0.111") + text(b"me"), ("10.2.0.9", 111))
    print(one.recv(999))


def smtpd() -> None:
    """A server that takes one mail."""
    listener = socket.create_server(("10.2.0.9", 25))
    user, (host, _) = listener.accept()
    user.sendall(b"220 mail.example.org ESMTP\r\n")
    is_mail = False
    for line in user.makefile("rb"):
        word = line[:4].upper()
        if is_mail:
            is_mail = line != b".\r\n"
            if not is_mail:
                user.sendall(b"250 taken\r\n")
        elif word == b"DATA":
            is_mail = True
            user.sendall(b"354 go on\r\n")
        elif word == b"QUIT":
            user.sendall(b"221 bye\r\n")
            return
        else:
            user.sendall(f"250 mail.example.org greets {host}\r\n".encode() if word in (b"EHLO", b"HELO") else b"250 ok\r\n")


def rtspd() -> None:
    """A server of a test tone, by gst-rtsp-server."""
    import gi

    gi.require_version("Gst", "1.0")
    gi.require_version("GstRtspServer", "1.0")
    from gi.repository import GLib, Gst, GstRtspServer

    Gst.init(None)
    server = GstRtspServer.RTSPServer()
    server.set_address("10.2.0.9")
    factory = GstRtspServer.RTSPMediaFactory()
    factory.set_launch("( audiotestsrc is-live=true ! audio/x-raw,rate=8000,channels=1 ! mulawenc ! rtppcmupay name=pay0 pt=0 )")
    server.get_mount_points().add_factory("/test", factory)
    server.attach(None)
    GLib.MainLoop().run()


def socks() -> None:
    """Asks a proxy to bind, and to relay UDP (RFC 1928)."""
    for command in (2, 3):
        one = socket.create_connection(("10.2.0.9", 1080), 3)
        one.sendall(b"\x05\x01\x00")
        one.recv(9)
        one.sendall(b"\x05" + bytes([command]) + b"\x00\x01" + socket.inet_aton("10.2.0.8" if command == 2 else "0.0.0.0") + b"\0\0")
        print(one.recv(99))
        one.close()


def xmpp() -> None:
    """Logs in, and asks a proxy for transfers where it is (XEP-0065)."""
    user = socket.create_connection(("10.2.0.9", 5222), 5)
    user.settimeout(2)
    start = "<stream:stream to='a.example' xmlns='jabber:client' xmlns:stream='http://etherx.jabber.org/streams' version='1.0'>"
    for text in (
        start,
        "<auth xmlns='urn:ietf:params:xml:ns:xmpp-sasl' mechanism='PLAIN'>AGFubgBzZWNyZXQ=</auth>",
        start,
        "<iq type='set' id='1'><bind xmlns='urn:ietf:params:xml:ns:xmpp-bind'/></iq>",
        "<iq type='get' id='2' to='p.a.example'><query xmlns='http://jabber.org/protocol/bytestreams'/></iq>",
        "</stream:stream>",
    ):
        user.sendall(text.encode())
        time.sleep(0.7)
        print(user.recv(9999))


def wsd() -> None:
    """Asks a host by unicast what device it is (WS-Discovery)."""
    envelope = (
        '<?xml version="1.0" encoding="utf-8"?><soap:Envelope xmlns:soap="http://www.w3.org/2003/05/soap-envelope"'
        ' xmlns:wsa="http://schemas.xmlsoap.org/ws/2004/08/addressing" xmlns:wsd="http://schemas.xmlsoap.org/ws/2005/04/discovery"'
        ' xmlns:wsdp="http://schemas.xmlsoap.org/ws/2006/02/devprof"><soap:Header><wsa:To>urn:schemas-xmlsoap-org:ws:2005:04:discovery</wsa:To>'
        "<wsa:Action>http://schemas.xmlsoap.org/ws/2005/04/discovery/Probe</wsa:Action>"
        "<wsa:MessageID>urn:uuid:0a6dc791-2be6-4991-9af1-454778a1917a</wsa:MessageID></soap:Header>"
        "<soap:Body><wsd:Probe><wsd:Types>wsdp:Device</wsd:Types></wsd:Probe></soap:Body></soap:Envelope>"
    )
    one = socket.socket(socket.AF_INET, socket.SOCK_DGRAM)
    one.settimeout(4)
    one.sendto(envelope.encode(), ("10.2.0.9", 3702))
    print(one.recv(9999))


def inetd(port: str, *program: str) -> None:
    """Starts a program on a UDP socket, or on each TCP connection, as inetd does."""
    if port == "518":
        one = socket.socket(socket.AF_INET, socket.SOCK_DGRAM)
        one.bind(("10.2.0.9", 518))
        os.dup2(one.fileno(), 0)
        os.execv(program[0], program)
    listener = socket.create_server(("10.2.0.9", int(port)))
    while True:
        user, _ = listener.accept()
        subprocess.Popen(program, stdin=user.fileno(), stdout=user.fileno())
        user.close()


def modbus() -> None:
    """Ten registers, of which one has an address."""
    from pymodbus.datastore import ModbusSequentialDataBlock, ModbusServerContext, ModbusSlaveContext
    from pymodbus.server import StartTcpServer

    block = ModbusSequentialDataBlock(0, [0, 10, 513, 9, 4, 5, 6, 7, 8, 9, 10, 11])
    StartTcpServer(context=ModbusServerContext(slaves=ModbusSlaveContext(hr=block), single=True), address=("10.2.0.9", 502))


def zabbix() -> None:
    """Asks an agent for some values."""
    for key in (b"agent.ping", b"agent.hostname", b"system.uname", b"net.if.list"):
        one = socket.create_connection(("10.2.0.9", 10050), 3)
        one.sendall(b"ZBXD\x01" + struct.pack("<Q", len(key)) + key)
        print(one.recv(999))
        one.close()


def flows(path: str) -> None:
    """A capture of some datagrams of hosts of the client's realm, for a probe to count."""
    from scapy.all import IP, UDP, Ether, wrpcap

    ends = [("10.1.0.5", "10.1.0.6"), ("10.1.0.6", "10.1.0.7"), ("10.1.0.7", "10.1.0.5")]
    wrpcap(
        path,
        [
            Ether(src="02:00:00:00:00:01", dst="02:00:00:00:00:02") / IP(src=one, dst=other) / UDP(sport=4000 + place, dport=9) / b"x"
            for place in range(3)
            for one, other in ends
        ],
    )


def rtpengine() -> None:
    """Offers a call to a relay for media, as a SIP proxy does."""
    sdp = b"v=0\r\no=- 1 1 IN IP4 10.1.0.5\r\ns=-\r\nc=IN IP4 10.1.0.5\r\nt=0 0\r\nm=audio 4000 RTP/AVP 0\r\n"
    words = {b"call-id": b"7", b"command": b"offer", b"from-tag": b"a", b"sdp": sdp}
    one = socket.socket(socket.AF_INET, socket.SOCK_DGRAM)
    one.settimeout(3)
    one.bind(("10.1.0.5", 0))
    one.sendto(b"1_7 d" + b"".join(b"%d:%s%d:%s" % (len(key), key, len(words[key]), words[key]) for key in sorted(words)) + b"e", ("10.2.0.9", 2223))
    print(one.recv(9999))


def ros() -> None:
    """Registers a node with a master, and asks where it is."""
    from xmlrpc.client import ServerProxy

    master = ServerProxy("http://10.2.0.9:11311/")
    print(master.registerPublisher("/talker", "/chatter", "std_msgs/String", "http://10.1.0.5:4000/"))
    print(master.registerSubscriber("/listener", "/chatter", "std_msgs/String", "http://10.1.0.6:4000/"))
    print(master.lookupNode("/listener", "/talker"))


SLICE = "module A { interface B { Object* other(); }; };"


def ice(is_server: bool = False) -> None:
    """A server of ZeroC Ice that tells where another one is, and its client."""
    import Ice

    with open("a.ice", "w", encoding="ascii") as file:
        file.write(SLICE)
    Ice.loadSlice("a.ice")
    import A

    class One(A.B):  # type: ignore[misc]
        """Knows the other server."""

        def other(self, current: Ice.Current) -> Ice.ObjectPrx:
            """Where the other server is."""
            return current.adapter.getCommunicator().stringToProxy("x:tcp -h 10.2.0.8 -p 10001")

    with Ice.initialize([]) as world:
        if is_server:
            adapter = world.createObjectAdapterWithEndpoints("a", "tcp -h 10.2.0.9 -p 10000")
            adapter.add(One(), Ice.stringToIdentity("b"))
            adapter.activate()
            world.waitForShutdown()
        print(A.BPrx.checkedCast(world.stringToProxy("b:tcp -h 10.2.0.9 -p 10000")).other())


def gtp() -> None:
    """Asks a GGSN for a tunnel (3GPP TS 29.060)."""
    options = b"\x80\x80\x21\x10\x01\x00\x00\x10\x81\x06\x00\x00\x00\x00\x83\x06\x00\x00\x00\x00"
    own = socket.inet_aton("10.1.0.5")
    lists = [
        (0x80, b"\xf1\x21"),
        (0x83, b"\x08internet"),
        (0x84, options),
        (0x85, own),
        (0x85, own),
        (0x86, b"\x91\x94\x71\x00\x00\xf0"),
        (0x87, b"\x01\x0b\x92\x1f"),
    ]
    body = b"\x02\x00\x01\x10\x10\x32\x54\x76\x98\xf0\x0e\x01\x0f\xfc\x10\x00\x00\x00\x01\x11\x00\x00\x00\x02\x14\x05"
    body += b"".join(struct.pack(">BH", kind, len(value)) + value for kind, value in lists)
    one = socket.socket(socket.AF_INET, socket.SOCK_DGRAM)
    one.bind(("10.1.0.5", 2123))
    one.settimeout(3)
    one.sendto(struct.pack(">BBHIHBB", 0x32, 16, len(body) + 4, 0, 1, 0, 0) + body, ("10.2.0.9", 2123))
    print(one.recv(999))


def janus() -> None:
    """Offers a call to the echo test of Janus, and takes its answer."""
    base, words = "http://10.2.0.9:8088/janus", {"Content-Type": "application/json"}

    def post(path: str, body: dict[str, object]) -> dict[str, dict[str, int]]:
        asked = urllib.request.Request(base + path, json.dumps({"transaction": "a", **body}).encode(), words)
        with urllib.request.urlopen(asked, timeout=5) as answer:
            found: dict[str, dict[str, int]] = json.load(answer)
        return found

    session = f"/{post('', {'janus': 'create'})['data']['id']}"
    handle = f"{session}/{post(session, {'janus': 'attach', 'plugin': 'janus.plugin.echotest'})['data']['id']}"
    lines = ["v=0", "o=- 1 1 IN IP4 10.1.0.5", "s=-", "t=0 0", "m=audio 9 UDP/TLS/RTP/SAVPF 111", "c=IN IP4 10.1.0.5", "a=mid:0", "a=sendrecv"]
    lines += ["a=rtcp-mux", "a=ice-ufrag:abcd", "a=ice-pwd:abcdefghabcdefghabcdefgh", "a=setup:actpass", "a=rtpmap:111 opus/48000/2"]
    lines += ["a=fingerprint:sha-256 " + ":".join(["AB"] * 32), "a=candidate:1 1 udp 2113937151 10.1.0.5 50000 typ host", ""]
    post(handle, {"janus": "message", "body": {"audio": True}, "jsep": {"type": "offer", "sdp": "\r\n".join(lines)}})
    for _ in range(3):
        print(urllib.request.urlopen(f"{base}{session}?maxev=1", timeout=5).read())


PROGRAMS: dict[str, Callable[[], object]] = {
    "janus": janus,
    "irc": lambda: irc("PRIVMSG bob :\x01DCC SEND file 167837701 4000 9\x01\r\n"),
    "irc-chat": lambda: irc("PRIVMSG bob :hello\r\n"),
    "tracker": tracker,
    "getaddr": getaddr,
    "smtpd": smtpd,
    "rtspd": rtspd,
    "socks": socks,
    "xmpp": xmpp,
    "wsd": wsd,
    "inetd": lambda: inetd(*sys.argv[2:]),
    "modbus": modbus,
    "zabbix": zabbix,
    "rtpengine": rtpengine,
    "ros": ros,
    "ice": ice,
    "iced": lambda: ice(True),
    "gtp": gtp,
    "flows": lambda: flows(sys.argv[2]),
}

if __name__ == "__main__":
    PROGRAMS[sys.argv[1]]()
