"""The program's pipes: what goes into it, what comes out of it, and the loop that waits for them."""
import os
import select
from collections.abc import Callable
from dataclasses import dataclass
from typing import BinaryIO

from aliases import say
from devices import Device
from records import HEAD_OCTETS, frames_in, link_of


class Loop:
    """Waits for descriptors, and calls what was given for each."""

    def __init__(self) -> None:
        self._poll = select.poll()
        self._calls: dict[int, Callable[[], None]] = {}

    def watch(self, fd: int, call: Callable[[], None], events: int = select.POLLIN) -> None:
        """From now on `call` is called whenever `fd` is ready, or has ended or failed."""
        self._calls[fd] = call
        self._poll.register(fd, events)

    def rest(self, fd: int) -> None:
        """No more calls for `fd`."""
        if self._calls.pop(fd, None):
            self._poll.unregister(fd)

    def turn(self) -> None:
        """Waits until something is ready, and makes its calls."""
        for fd, _ in self._poll.poll():
            if call := self._calls.get(fd):
                call()


class Copy:
    """A file that keeps octets as long as it has room."""

    def __init__(self, name: str) -> None:
        self._name = name
        self._file: BinaryIO | None = open(name, "wb")

    def write(self, octets: bytes) -> None:
        """Keeps octets."""
        self._try(lambda file: file.write(octets))

    def close(self) -> None:
        """Closes the file."""
        self._try(lambda file: file.close())

    def _try(self, act: Callable[[BinaryIO], object]) -> None:
        """Where the file has no room any more the gateway goes on without it."""
        try:
            if self._file:
                act(self._file)
        except OSError as error:
            say(f"{self._name} is cut: {error.strerror}")
            self._file = None


class Feed:
    """A pipe into the program, and what it has no room for yet. `changed` is called when octets begin or cease to wait."""

    def __init__(self, fd: int, loop: Loop, changed: Callable[[], None], copy: Copy | None) -> None:
        self._fd, self._loop, self._changed, self._copy = fd, loop, changed, copy
        self._waiting = b""

    @property
    def is_full(self) -> bool:
        """Whether octets wait."""
        return bool(self._waiting)

    def put(self, octets: bytes) -> None:
        """Hands octets on, behind those that wait."""
        if self._copy:
            self._copy.write(octets)
        if self._waiting:
            self._waiting += octets
            return
        self._waiting = self._write(octets)
        if self._waiting:
            self._loop.watch(self._fd, self._drain, select.POLLOUT)
            self._changed()

    def close(self) -> None:
        """The capture ends."""
        self._loop.rest(self._fd)
        os.close(self._fd)

    def _write(self, octets: bytes) -> bytes:
        """What the pipe didn't take. A program that ended takes all: its end shows where it is read."""
        try:
            return octets[os.write(self._fd, octets) :]
        except BlockingIOError:
            return octets
        except BrokenPipeError:
            return b""

    def _drain(self) -> None:
        self._waiting = self._write(self._waiting)
        if not self._waiting:
            self._loop.rest(self._fd)
            self._changed()


class Outlet:
    """A capture that comes out of the program: a device is given its frames, and `sent` is called with them behind that."""

    def __init__(self, device: Device, began: Callable[[int], None], sent: Callable[[list[memoryview]], None] | None) -> None:
        self._device, self._began, self._sent = device, began, sent
        self._rest = b""
        self._has_begun = False

    def take(self, octets: bytes) -> None:
        """Gives the device the frames that are whole."""
        octets = self._rest + octets
        if not self._has_begun:
            if len(octets) < HEAD_OCTETS:
                self._rest = octets
                return
            octets = self._begin(octets)
        frames, used = frames_in(octets)
        self._rest = octets[used:]
        self._device.write_all(frames)
        if self._sent:
            self._sent(frames)

    def _begin(self, octets: bytes) -> bytes:
        self._has_begun = True
        self._began(link_of(octets[:HEAD_OCTETS]))
        return octets[HEAD_OCTETS:]


@dataclass
class Copies:
    """Files that keep what the program read and wrote, in the order of its words, or none."""

    files: dict[str, Copy]

    NAMES = ("left.pcap", "right.pcap", "left-out.pcap", "right-out.pcap", "report.txt")

    @classmethod
    def into(cls, folder: str | None) -> "Copies":
        """Files in a folder, which is made where it isn't there."""
        if folder is None:
            return cls({})
        os.makedirs(folder, exist_ok=True)
        return cls({name: Copy(os.path.join(folder, name)) for name in cls.NAMES})

    def of(self, name: str) -> Copy | None:
        """The file of this name, if there are any."""
        return self.files.get(name)

    def close(self) -> None:
        """Closes all."""
        for file in self.files.values():
            file.close()
