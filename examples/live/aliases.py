"""The gateway's bindings, kept along by the table of rendapil.bindings: how full the pools are is told, and the aliases of hosts with connections
are kept over a restart."""
import contextlib
import os
import subprocess
import sys
import tempfile
import tomllib
from collections import deque
from ipaddress import IPv4Address

TOP = os.path.join(os.path.dirname(os.path.realpath(__file__)), "../..")
sys.path.insert(0, f"{TOP}/python")
from rendapil.bindings import Binding, Bindings, Pool  # noqa: E402
from rendapil.numbers import LONG_TIMEOUT, SECOND, SIDES  # noqa: E402
from rendapil.packet import datagram_of  # noqa: E402
from rendapil.document import document_in  # noqa: E402
from rendapil.settings_text import statics  # noqa: E402

FULL, AGAIN = 80, 70
"""How full a pool is when it is told, in percent, and below which level it is told anew."""

PAUSE = 60 * SECOND
"""How long a line isn't said again, and the file of aliases isn't written again."""

PATIENCE = 30
"""How many seconds the settings may take to be checked."""


def say(text: str) -> None:
    """A line on standard error. Where nobody reads that any more, the gateway goes on."""
    with contextlib.suppress(OSError):
        print(f"pump: {text}", file=sys.stderr, flush=True)


class Seldom:
    """A line that is said again only behind a pause."""

    def __init__(self) -> None:
        self._at = 0

    def say(self, moment: int, text: str) -> None:
        """Says it, unless it was said a short time ago."""
        if moment >= self._at + PAUSE:
            say(text)
            self._at = moment


class Kept:
    """A file of [[static]] tables: hosts whose aliases the last pump kept."""

    def __init__(self, name: str, settings: str) -> None:
        """Makes settings of a file and of these tables. Where they don't fit any more it says so, and the file alone is used."""
        self._name = name
        self.settings = settings
        self.hosts: set[tuple[int, int]] = set()
        if os.path.exists(name):
            self._add()

    def _add(self) -> None:
        """Puts the tables behind the settings."""
        with open(self.settings, "rb") as own, open(self._name, "rb") as kept:
            tables = kept.read()
            self._both = tempfile.NamedTemporaryFile(prefix="settings-", suffix=".toml")
            self._both.write(own.read() + b"\n" + tables)
            self._both.flush()
        words = [f"{TOP}/rendapil", "check", "--brief", self._both.name]
        try:
            check = subprocess.run(words, stdout=subprocess.PIPE, text=True, check=False, timeout=PATIENCE)
            fault = check.stdout.replace(f"{self._both.name}: ", "").split("\n")[0] if check.returncode else ""
        except subprocess.TimeoutExpired:
            fault = f"they weren't checked within {PATIENCE} seconds"
        if fault:
            say(f"{self._name} isn't used, since the settings have a fault with it: {fault}")
            return
        self.settings = self._both.name
        rows = tomllib.loads(tables.decode()).get("static", [])
        self.hosts = {(SIDES.index(row["side"]), int(IPv4Address(row["host"]))) for row in rows}

    def write(self, rows: list[Binding]) -> None:
        """Writes the file anew, whole or not at all."""
        try:
            with open(f"{self._name}.new", "w", encoding="ascii") as file:
                file.write(statics(rows))
            os.replace(f"{self._name}.new", self._name)
        except OSError as error:
            say(f"{self._name} can't be written: {error.strerror}")


class Watch:
    """Follows each event once its line and its frames are there."""

    def __init__(self, settings: str, links: tuple[int, int], kept: Kept | None) -> None:
        with open(settings, encoding="utf-8") as file:
            self._table = Bindings(document_in(file.read()), self._told)
        self._links, self._kept = links, kept
        self._lines: deque[tuple[int, int, str, bytes, int]] = deque()
        self._sent: tuple[deque[bytes], deque[bytes]] = (deque(), deque())
        self._moment, self._begun, self._written = 0, 0, 0
        self._is_full = [False, False]
        self._empty = 0
        self._of_empty, self._of_missed = Seldom(), Seldom()

    def line(self, side: int, moment: int, verdict: str, frame: bytes, count: int) -> None:
        """An event by its line: its frame, and how many were sent for it."""
        self._lines.append((side, moment, verdict, frame, count))
        self._go_on()

    def sent(self, side: int, frames: list[memoryview]) -> None:
        """Frames that were sent to a side."""
        self._sent[side].extend(map(bytes, frames))
        self._go_on()

    def write(self) -> None:
        """Writes the aliases that are worth keeping."""
        if self._kept and self._moment:
            connected = self._table.connected(self._moment)
            self._kept.write([one for pool in self._table.pools for one in self._worth_keeping(pool, connected)])
            self._written = self._moment

    def counts(self) -> str:
        """How full the pools are, and how many frames weren't followed."""
        levels = [f"{pool.level(self._moment)} of {pool.size} addresses of the {side} pool" for side, pool in zip(SIDES, self._table.pools)]
        return f"{levels[0]} and {levels[1]} taken, {self._table.missed} frames not followed"

    def _go_on(self) -> None:
        """Takes the events whose frames are there."""
        while self._lines and len(self._sent[1 - self._lines[0][0]]) >= self._lines[0][4]:
            side, moment, verdict, frame, count = self._lines.popleft()
            images = [datagram_of(self._sent[1 - side].popleft(), self._links[1 - side]) for _ in range(count)]
            if not self._begun:
                self._begun = self._written = moment
            self._moment = moment
            if verdict == "PoolEmpty":
                self._refuse(side)
            missed = self._table.missed
            self._table.event(side, moment, verdict, datagram_of(frame, self._links[side]), images)
            if self._table.missed > missed:
                self._of_missed.say(moment, f"{missed + 1} frames not followed so far: what is told of pools, and kept of aliases, may be wrong")
            if moment >= self._written + PAUSE:
                self.write()

    def _worth_keeping(self, pool: Pool, connected: set[tuple[int, int]]) -> list[Binding]:
        """The bindings of hosts with an established connection, and those that were kept at the last restart, until their hosts had time to come
        again: half of the pool at most, those that were bound first."""
        before = self._kept.hosts if self._kept else set()
        rows = [
            one
            for one in pool.holders.values()
            if ((one.side, one.host) in before if one.fixed else one.lives(self._moment))
            and ((one.side, one.host) in connected or one.fixed and self._moment < self._begun + LONG_TIMEOUT)
        ]
        return sorted(rows, key=lambda one: (not one.fixed, one.first))[: pool.size // 2]

    def _told(self, binding: Binding) -> None:
        """A host has got an alias."""
        if binding.fixed:
            return
        side = 1 - binding.side
        pool = self._table.pools[side]
        level = pool.level(self._moment)
        percent = 100 * level // pool.size
        if percent >= FULL and not self._is_full[side]:
            say(f"the {SIDES[side]} pool is {percent} % full: {level} of {pool.size} addresses")
        self._is_full[side] = percent >= (AGAIN if self._is_full[side] else FULL)

    def _refuse(self, side: int) -> None:
        """A frame found its pool empty."""
        self._empty += 1
        text = f"the {SIDES[1 - side]} pool had no address for hosts of the {SIDES[side]} realm; {self._empty} frames refused so far"
        self._of_empty.say(self._moment, f"PoolEmpty: {text}")
