"""What frames come from and go to: a tun device, or an Ethernet interface by a packet socket. Linux only."""
import contextlib
import ctypes
import fcntl
import os
import socket
import struct
import subprocess
from collections.abc import Iterator
from io import RawIOBase

from records import ETHERNET, RAW_IP, Lengths
from trouble import Trouble

BATCH = 64
"""The most frames that are read from one realm before the other gets its turn."""

ROOM = 65_600
"""More octets than any IPv4 datagram has in its Ethernet frame, and fewer than the 262,144 that a record may have."""

_TUNSETIFF = 0x400454CA
_TUN_WITHOUT_HEADER, _TUN_NAPI = 0x1001, 0x0010
_SOL_PACKET, _PACKET_STATISTICS, _PACKET_IGNORE_OUTGOING = 263, 6, 23
_SO_RCVBUFFORCE, _RECEIVED = 33, 4 << 20
_ETHERTYPE_IPV4 = 0x0800
_CLONE_NEWNET = 0x40000000
_PR_CAP_AMBIENT, _CLEAR_ALL = 47, 4
_CAPABILITIES = 0x20080522
_NET_ADMIN, _NET_RAW, _SYS_ADMIN = 12, 13, 21


class Gone(Exception):
    """The device isn't there any more."""


class Device:
    """An open device, whose reads and writes never wait."""

    def __init__(self, fd: int, link: int, name: str, namespace: str | None) -> None:
        self.fd = fd
        self.link = link
        self.name = name
        self.namespace = namespace
        self.lengths = Lengths(ROOM)
        self.trouble: Trouble | None = None
        self.read = 0
        self.given = 0
        self.refused = 0

    def read_some(self) -> list[bytes]:
        """The frames that wait, a batch at most. Gone where the device can't be read."""
        frames: list[bytes] = []
        read, fd = os.read, self.fd
        try:
            for _ in range(BATCH):
                frames.append(read(fd, ROOM))
        except BlockingIOError:
            pass
        except OSError as error:
            raise Gone(f"{self} can't be read: {error.strerror}") from error
        self.read += len(frames)
        return self.trouble.sent(frames) if self.trouble else frames

    def write_all(self, frames: list[memoryview]) -> None:
        """Gives frames to the realm. What the device doesn't take (it is down, its queue is full, the frame is too long for
        it) is counted."""
        frames = self.trouble.given(frames) if self.trouble else frames
        write, fd, refused = os.write, self.fd, 0
        for frame in frames:
            try:
                write(fd, frame)
            except OSError:
                refused += 1
        self.refused += refused
        self.given += len(frames) - refused

    def lost_in_queue(self) -> int:
        """How many frames of the realm were lost since they found the device's queue full. It counts them itself."""
        raise NotImplementedError

    def close(self) -> None:
        """Closes the device. A tun that was made here goes away with that."""
        os.close(self.fd)

    def __str__(self) -> str:
        return self.name if self.namespace is None else f"{self.name}@{self.namespace}"


class Tun(Device):
    """A tun device: bare datagrams. It is made where it isn't there."""

    def __init__(self, name: str, namespace: str | None, mtu: int | None, queue: int | None) -> None:
        with inside(namespace):
            fd = os.open("/dev/net/tun", os.O_RDWR | os.O_NONBLOCK)
            fcntl.ioctl(fd, _TUNSETIFF, struct.pack("16sH22x", name.encode(), _TUN_WITHOUT_HEADER | _TUN_NAPI))
            set_up(name, mtu, queue)
            self._counts = open("/proc/net/dev", "rb", buffering=0)  # those of this namespace, for good
        self._lost_before = dropped_on_the_way_out(self._counts, name)
        receive_in_thread(name, namespace)
        super().__init__(fd, RAW_IP, name, namespace)

    def lost_in_queue(self) -> int:
        return dropped_on_the_way_out(self._counts, self.name) - self._lost_before


class Interface(Device):
    """An Ethernet interface that is there. Its frames are read by a packet socket, so the system sees them too."""

    def __init__(self, name: str, namespace: str | None, mtu: int | None, queue: int | None) -> None:
        with inside(namespace):
            self._socket = socket.socket(socket.AF_PACKET, socket.SOCK_RAW, socket.htons(_ETHERTYPE_IPV4))
            set_up(name, mtu, queue)
            self._socket.bind((name, _ETHERTYPE_IPV4))
        self._socket.setsockopt(_SOL_PACKET, _PACKET_IGNORE_OUTGOING, 1)
        self._socket.setsockopt(socket.SOL_SOCKET, _SO_RCVBUFFORCE, _RECEIVED)
        self._socket.setblocking(False)
        self._lost = 0
        super().__init__(self._socket.fileno(), ETHERNET, name, namespace)

    def lost_in_queue(self) -> int:
        _, lost = struct.unpack("II", self._socket.getsockopt(_SOL_PACKET, _PACKET_STATISTICS, 8))
        self._lost += lost  # the system begins anew at each question
        return self._lost

    def close(self) -> None:
        self._socket.close()


def open_device(words: str, mtu: int | None = None, queue: int | None = None) -> Device:
    """Opens `tun:NAME` or `interface:NAME`, with `@NAMESPACE` behind it where it lies in a network namespace. Sets its mtu
    and the length of its queue where they are given, and sets it up. ValueError where the words are none of these."""
    kind, colon, rest = words.partition(":")
    name, _, namespace = rest.partition("@")
    makers = {"tun": Tun, "interface": Interface}
    if not colon or kind not in makers or not 0 < len(name) < 16:
        raise ValueError(f"{words!r} is neither tun:NAME nor interface:NAME, with @NAMESPACE where it lies in one")
    return makers[kind](name, namespace or None, mtu, queue)


@contextlib.contextmanager
def inside(namespace: str | None) -> Iterator[None]:
    """What is opened meanwhile is opened in a network namespace that `ip netns` has made."""
    if namespace is None:
        yield
        return
    own = os.open("/proc/self/ns/net", os.O_RDONLY)
    other = os.open(f"/run/netns/{namespace}", os.O_RDONLY)
    try:
        _enter(other)
        try:
            yield
        finally:
            _enter(own)
    finally:
        os.close(other)
        os.close(own)


def _enter(namespace: int) -> None:
    library = ctypes.CDLL(None, use_errno=True)
    if library.setns(namespace, _CLONE_NEWNET) != 0:
        error = ctypes.get_errno()
        raise OSError(error, os.strerror(error))


def leave_capabilities() -> None:
    """The pump has none of the capabilities by which it opened devices any more, and what a pump starts that isn't root's has none at all."""
    library = ctypes.CDLL(None)
    library.prctl(_PR_CAP_AMBIENT, _CLEAR_ALL, 0, 0, 0)
    head, sets = struct.pack("II", _CAPABILITIES, 0), ctypes.create_string_buffer(24)
    if library.capget(head, sets) == 0:
        words = list(struct.unpack("6I", sets.raw))
        for place in range(3):  # effective, permitted, inheritable
            words[place] &= ~(1 << _NET_ADMIN | 1 << _NET_RAW | 1 << _SYS_ADMIN)
        library.capset(head, struct.pack("6I", *words))


def set_up(name: str, mtu: int | None, queue: int | None) -> None:
    """Sets a device of this namespace up, with these where they are given."""
    words = ["ip", "link", "set", "dev", name, "up"]
    words += [] if mtu is None else ["mtu", str(mtu)]
    words += [] if queue is None else ["txqueuelen", str(queue)]
    subprocess.run(words, check=True)


def receive_in_thread(name: str, namespace: str | None) -> None:
    """Has a thread of the system take what a tun is given, several frames at a time, in place of the pump's own writes. Where
    the system can't (before Linux 5.12), all goes on as well, but more slowly."""
    words = ["sh", "-c", f"echo 1 >/sys/class/net/{name}/threaded"]
    prefix = ["ip", "netns", "exec", namespace] if namespace else []
    subprocess.run(prefix + words, stderr=subprocess.DEVNULL, check=False)


def dropped_on_the_way_out(table: RawIOBase, name: str) -> int:
    """What a device has dropped of what it was to send, by the table of its namespace's devices. Gone where it isn't there."""
    table.seek(0)
    for line in table.readall().decode("ascii").splitlines():
        device, _, counts = line.partition(":")
        if device.strip() == name:
            return int(counts.split()[11])
    raise Gone(f"there is no {name}")
