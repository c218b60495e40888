#!/usr/bin/env python3
"""Rendapil live between two realms: frames of two devices are handed to the program as captures that never end, and what
comes out goes into the other realm. README.md beside this file tells how. Needs root, Linux and Python 3.11."""
import argparse
import contextlib
import fcntl
import os
import signal
import subprocess
import sys
from collections.abc import Callable, Iterator
from functools import partial
from random import Random

from aliases import Kept, Watch, say
from devices import Device, Gone, leave_capabilities, open_device
from feeds import Copies, Copy, Feed, Loop, Outlet
from records import LEFT, RIGHT, SIDES, Stamps, capture_head, heartbeat, records
from trouble import Trouble
from words import Journal

PIPE = 1 << 20
"""How many octets a pipe is to hold, and the most that are read at once."""

FEW_LINES = 20
"""How many lines of a second the report of refused frames has: a flood of them would make it grow by 67 GB a day."""

BY_SIGNAL = 128
"""Where the program was ended by a signal, the pump's status is the signal's number behind this."""

_F_SETPIPE_SZ = 1031


class Pump:
    """The program with its pipes, between two devices."""

    def __init__(
        self,
        devices: tuple[Device, Device],
        words: list[str],
        journal: Journal | None,
        copies: Copies,
        seconds_to_skip: float,
        watch: Watch | None = None,
    ) -> None:
        self._devices = devices
        self._journal = journal
        self._watch = watch
        self._copies = copies
        self._seconds_to_skip = seconds_to_skip
        self._loop = Loop()
        self._stamps = Stamps()
        self._sources: set[int] = set()
        self._begun: set[int] = set()
        self._is_ending = False
        self._failure: str | None = None
        self._start(words)

    def _start(self, words: list[str]) -> None:
        """Starts the program: two pipes into it, and two or three out of it."""
        into, out = [os.pipe(), os.pipe()], [os.pipe(), os.pipe()]
        report = os.pipe() if self._journal else None
        given = [into[LEFT][0], into[RIGHT][0], out[LEFT][1], out[RIGHT][1], *([report[1]] if report else [])]
        names = [f"/dev/fd/{fd}" for fd in given] + ([] if report else ["/dev/null"])
        leave_capabilities()
        self._program = subprocess.Popen(words + names, pass_fds=given, start_new_session=True)
        for fd in given:
            os.close(fd)
        for fd in (into[LEFT][1], into[RIGHT][1], out[LEFT][0], out[RIGHT][0]):
            os.set_blocking(fd, False)
            with contextlib.suppress(PermissionError):
                fcntl.fcntl(fd, _F_SETPIPE_SZ, PIPE)
        copy = self._copies.of
        self._feeds = [Feed(into[side][1], self._loop, self._changed, copy(f"{SIDES[side]}.pcap")) for side in (LEFT, RIGHT)]
        for side in (LEFT, RIGHT):
            sent = partial(self._watch.sent, side) if self._watch else None
            outlet = Outlet(self._devices[side], partial(self._began, side), sent)
            self._draw(out[side][0], outlet.take, copy(f"{SIDES[side]}-out.pcap"))
        if report and self._journal:
            self._draw(report[0], self._journal.take, copy("report.txt"))

    def run(self) -> int:
        """Pumps until the program has ended, and answers its status, or 1 where a device went away."""
        for side in (LEFT, RIGHT):
            self._feeds[side].put(capture_head(self._devices[side].link))
        self._watch_signals()
        self._changed()
        try:
            while self._sources:
                self._loop.turn()
        finally:
            self._write_aliases()
        status = self._program.wait()
        self._copies.close()
        self._tell(status)
        if status < 0:
            return BY_SIGNAL - status
        return status or (1 if self._failure else 0)

    def _write_aliases(self) -> None:
        """Keeps the aliases, where that is wanted."""
        if self._watch:
            self._watch.write()

    def _draw(self, fd: int, take: Callable[[bytes], None], copy: Copy | None) -> None:
        """Hands what comes out of a pipe to `take`, up to its end."""

        def ready() -> None:
            octets = os.read(fd, PIPE)
            if not octets:
                self._loop.rest(fd)
                self._sources.discard(fd)
                os.close(fd)
                return
            if copy:
                copy.write(octets)
            take(octets)

        self._sources.add(fd)
        self._loop.watch(fd, ready)

    def _pump(self, side: int) -> None:
        """Takes the frames that wait in a realm, and hands them on with the heartbeat for them."""
        device = self._devices[side]
        try:
            frames = device.read_some()
        except Gone as gone:
            self._end(str(gone))
            return
        if not frames:
            return
        stamp = self._stamps.take()
        if self._journal:
            self._journal.expect(side, frames)
        self._feeds[1 - side].put(heartbeat(stamp, side))
        self._feeds[side].put(records(stamp, frames, device.lengths))

    def _changed(self) -> None:
        """Devices are read only while nothing waits: where the program is behind, frames wait, and are lost, in the devices'
        own queues, which count them."""
        may_read = not any(feed.is_full for feed in self._feeds)
        if self._is_ending:
            if may_read:
                self._close_feeds()
            return
        for side, device in enumerate(self._devices):
            if may_read:
                self._loop.watch(device.fd, partial(self._pump, side))
            else:
                self._loop.rest(device.fd)

    def _began(self, side: int, link: int) -> None:
        """Tells that frames are pumped, once the program has begun both captures: it has accepted the settings then. Ends
        where they give the device another link than it has."""
        if link != self._devices[side].link:
            self._end(f"{self._devices[side]} has link type {self._devices[side].link}, and in the settings it has {link}")
        self._begun.add(side)
        if len(self._begun) == 2 and not self._is_ending:
            print("live", flush=True)

    def _watch_signals(self) -> None:
        """SIGINT, SIGTERM and SIGHUP end both captures, SIGUSR2 tells the counts, and where `--skip` is given SIGUSR1 moves the
        stamps ahead. What they do is done in the loop, so that it never comes between a batch and its heartbeat."""
        reader, writer = os.pipe()
        os.set_blocking(writer, False)
        signal.set_wakeup_fd(writer)
        for number in (signal.SIGINT, signal.SIGTERM, signal.SIGHUP, signal.SIGUSR1, signal.SIGUSR2):
            signal.signal(number, lambda *_: None)

        def came() -> None:
            for number in os.read(reader, 64):
                if number == signal.SIGUSR1:
                    self._skip()
                elif number == signal.SIGUSR2:
                    self._tell_counts()
                    self._write_aliases()
                else:
                    self._end(None)

        self._loop.watch(reader, came)

    def _skip(self) -> None:
        """Moves the stamps ahead, where that is wanted."""
        if not self._seconds_to_skip:
            return
        self._stamps.skip(self._seconds_to_skip)
        if self._journal:
            self._journal.remark(f"the clock goes {self._seconds_to_skip} s ahead")

    def _end(self, failure: str | None) -> None:
        """Reads no device any more. The captures end once the program has all that was read."""
        if self._is_ending:
            return
        self._is_ending = True
        self._failure = failure
        for device in self._devices:
            self._loop.rest(device.fd)
        self._changed()

    def _close_feeds(self) -> None:
        """Both captures end."""
        while self._feeds:
            self._feeds.pop().close()

    def _tell(self, status: int) -> None:
        """Says on standard error how it ended, and what was counted."""
        if self._failure:
            say(self._failure)
        say("the program ended " + (f"with status {status}" if status >= 0 else f"by signal {-status}"))
        self._tell_counts()

    def _tell_counts(self) -> None:
        """Says on standard error what each device counted, and the verdicts where there is a report."""
        if self._journal:
            say(f"verdicts: {self._journal.counts()}")
        if self._watch:
            say(self._watch.counts())
        for side, device in enumerate(self._devices):
            try:
                lost = str(device.lost_in_queue())
            except (Gone, OSError):
                lost = "unknown"
            say(
                f"{SIDES[side]}, {device}: {device.read} frames read, {device.given} given,"
                f" {device.refused} not taken by the device, {lost} lost in its queue"
            )


def words_of_command() -> argparse.Namespace:
    """The words that this command was given."""
    parser = argparse.ArgumentParser(description=__doc__)
    add = parser.add_argument
    add("program", help="the built program, crates/gateway_program/out/gateway_program")
    add("settings", help="its settings file")
    add("left", help="tun:NAME or interface:NAME, with @NAMESPACE where it lies in one")
    add("right", help="the same for the right realm")
    add("--mtu", type=int, help="set the mtu of both devices")
    add("--queue", type=int, help="set the length of their queues, in frames")
    add("--report", metavar="FILE", help="append the report there, each line with its frame in words (- is standard output)")
    add("--refused", action="store_true", help="only lines of frames that don't pass, and of one second at most as many as --lines says")
    add(
        "--lines",
        type=int,
        metavar="N",
        help="write at most N lines of a second to the report, and count the others (20 with --refused, else no limit; 0 is none)",
    )
    add("--save", metavar="FOLDER", help="keep what the program reads and writes")
    add("--pools", action="store_true", help="tell on standard error when a pool is 80 %% full, and PoolEmpty")
    add("--statics", metavar="FILE", help="the same, and keep there the aliases that hosts got by use, for the next start")
    trial = parser.add_argument_group("for trials")
    add = trial.add_argument
    add("--lose", type=float, default=0.0, metavar="P", help="lose a frame with this probability before the gateway, and behind it")
    add("--late", type=float, default=0.0, metavar="P", help="let a frame come behind the next one")
    add("--twice", type=float, default=0.0, metavar="P", help="let it come twice")
    add("--seed", type=int, default=1, metavar="N", help="of these draws")
    add("--skip", type=float, default=0, metavar="SECONDS", help="let each SIGUSR1 move the stamps so far ahead")
    return parser.parse_args()


def open_watch(words: argparse.Namespace, links: tuple[int, int]) -> tuple[str, Watch | None]:
    """The settings for the program, and what follows its events, where that is wanted. What is wrong with settings the program says itself."""
    kept = Kept(words.statics, words.settings) if words.statics else None
    settings = kept.settings if kept else words.settings
    with contextlib.suppress(ValueError, LookupError, TypeError):
        return settings, Watch(settings, links, kept) if words.pools or kept else None
    return settings, None


def open_journal(words: argparse.Namespace, links: tuple[int, int], watch: Watch | None) -> Journal | None:
    """What takes the report, where it, a copy of it or what follows from it is wanted."""
    if not words.report and not words.save and not watch:
        return None
    file = None
    if words.report:
        file = sys.stdout if words.report == "-" else open(words.report, "a", encoding="ascii")
    most = words.lines if words.lines is not None else FEW_LINES if words.refused else 0
    return Journal(file, links, words.refused, watch, most)


def open_devices(words: argparse.Namespace) -> Iterator[Device]:
    """Both devices, in trouble where that is asked for."""
    for seed, name in enumerate((words.left, words.right), 2 * words.seed):
        device = open_device(name, words.mtu, words.queue)
        if words.lose or words.late or words.twice:
            device.trouble = Trouble(words.lose, words.late, words.twice, Random(seed))
        yield device


def main() -> int:
    """Runs the program between two devices, and answers its status."""
    words = words_of_command()
    try:
        left, right = open_devices(words)
        links = left.link, right.link
        settings, watch = open_watch(words, links)
        journal, copies = open_journal(words, links, watch), Copies.into(words.save)
        pump = Pump((left, right), [words.program, "run", settings], journal, copies, words.skip, watch)
    except (OSError, ValueError, LookupError, subprocess.CalledProcessError) as error:
        say(str(error))
        return 1
    return pump.run()


if __name__ == "__main__":
    sys.exit(main())
