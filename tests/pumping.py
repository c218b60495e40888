"""The pump of examples/live with sockets in place of devices, so that it needs no root."""
import os
import signal
import socket
import threading
from collections.abc import Callable

from testing import TOP

from aliases import Kept, Watch  # testing says where it is
from devices import Device, Gone
from feeds import Copies
from pump import Pump
from records import RAW_IP
from words import Journal

SETTINGS = f"{TOP}/examples/live/settings.toml"
SKIPPED = 29.0
"""How many seconds the clock goes ahead at SIGUSR1."""


class Link(Device):
    """A device at whose other end `hosts` is."""

    def __init__(self, name: str) -> None:
        self._end, self.hosts = socket.socketpair(socket.AF_UNIX, socket.SOCK_DGRAM)
        self._end.setblocking(False)
        self.hosts.settimeout(5)
        super().__init__(self._end.fileno(), RAW_IP, name, None)

    def read_some(self) -> list[bytes]:
        """What hosts have sent. The device goes away where one has said so."""
        frames = super().read_some()
        if b"gone" in frames:
            raise Gone(f"{self} is gone")
        return frames

    def lost_in_queue(self) -> int:
        """None: a socket loses nothing."""
        return 0


def pumped(program: str, settings: str, hosts: Callable[[Link, Link], None], kept: Kept | None = None) -> tuple[int, str, bool]:
    """Pumps while `hosts` sends and gets frames. The pump's status, the verdicts of the report with how many frames weren't followed where aliases
    are kept, and whether each frame that was read and passed was given, or refused by the other device's full queue."""
    left, right = Link("left"), Link("right")
    watch = Watch(settings, (RAW_IP, RAW_IP), kept) if kept else None

    def send_and_end() -> None:
        try:
            hosts(left, right)
        except OSError:
            end(left, right)

    with open(os.devnull, "w") as report:
        journal = Journal(report, (RAW_IP, RAW_IP), only_refused=False, watch=watch)
        pump = Pump((left, right), [program, "run", settings], journal, Copies.into(None), SKIPPED, watch)
        threading.Thread(target=send_and_end, daemon=True).start()
        status = pump.run()
    handed_on = left.given + left.refused + right.given + right.refused
    verdicts = " ".join(f"{count} {verdict.decode()}" for verdict, count in sorted(journal.verdicts.items()))
    verdicts += f", {watch.counts().split(', ')[1]}" if watch else ""
    return status, verdicts, journal.verdicts[b"pass"] == handed_on


def end(_: Link, __: Link) -> None:
    """Ends the captures, as an operator does."""
    os.kill(os.getpid(), signal.SIGTERM)
