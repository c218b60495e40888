"""Has the program built of the code of this checkout: in a minute or two without its proofs, or with them."""
import contextlib
import fcntl
import filecmp
import os
import re
import shutil
import signal
import subprocess
import sys
import tempfile
import time
from collections.abc import Iterator
from pathlib import Path
from typing import IO

from rendapil import crates, program
from rendapil.places import BUILT, CRATES, INSTALLED, IS_CHECKOUT, MADE, PREBUILT, TOP
from rendapil.sayings import CANNOT, Stop, hint, say

TABLE = TOP / "tools/seconds.tsv"
QUICK = TOP / "tools/quick.py"
FAILED, OTHER_KIT = 1, 3
"""What tools/quick.py ends with where the code doesn't compile, and where this kit has another form than it knows."""


def hindrance() -> str:
    """Why the program can't be built here, where it can't."""
    if not shutil.which("rt"):
        return "rt, the tool of Rattle that builds the program, isn't on the PATH"
    with contextlib.suppress(OSError):
        BUILT.parent.mkdir(parents=True, exist_ok=True)
    return "" if os.access(BUILT.parent, os.W_OK) else f"the program is built into {BUILT.parent}, where you may not write"


@contextlib.contextmanager
def alone() -> Iterator[Path]:
    """A folder for a build. One build goes on at a time."""
    if why := hindrance():
        raise Stop(CANNOT, f"{why}: see README.md")
    with open(BUILT.parent / ".lock", "ab") as lock, tempfile.TemporaryDirectory(prefix="rendapil-") as room:
        try:
            fcntl.flock(lock, fcntl.LOCK_EX | fcntl.LOCK_NB)
        except BlockingIOError:
            hint("another rendapil builds here, and this one waits for it")
            fcntl.flock(lock, fcntl.LOCK_EX)
        except OSError:
            pass  # this file system has no locks
        yield Path(room)


@contextlib.contextmanager
def group(*words: str | Path, stderr: IO[str] | int, room: Path | None = None) -> Iterator[subprocess.Popen[str]]:
    """A command in a process group of its own, which ends with this one. In a room for a build it takes no input, and its output can be read."""

    def end(number: int, _: object) -> None:
        raise Stop(128 + number)

    before = {number: signal.signal(number, end) for number in (signal.SIGINT, signal.SIGTERM)}
    stdin, stdout = (subprocess.DEVNULL, subprocess.PIPE) if room else (None, None)
    env = {**os.environ, "TMPDIR": str(room / ".git/tmp")} if room else None
    work = subprocess.Popen(words, stdin=stdin, stdout=stdout, stderr=stderr, cwd=room, env=env, text=True, errors="replace", process_group=0)
    try:
        yield work
    finally:
        if work.poll() is None:
            with contextlib.suppress(ProcessLookupError):
                os.killpg(work.pid, signal.SIGTERM)
            work.wait()
        for number, handler in before.items():
            signal.signal(number, handler)


def estimate(lines: dict[str, str], proved: dict[str, bool] | None = None, passed: float = 0) -> int:
    """The seconds that proving these crates still takes."""
    from rendapil.estimate import free_memory, seconds_to_go

    return seconds_to_go(TABLE, lines, proved or {}, passed, free_memory())


def about(seconds: float) -> str:
    """A number of seconds as words."""
    return "less than a minute" if seconds < 45 else f"about {int(seconds + 30) // 60} min"


def build_unproved(is_anew: bool = False) -> None:
    """Builds the program and checks no proof. Where this kit can't do that, it proves."""
    with alone() as room:
        program.code_of.cache_clear()
        if program.is_built() and not is_anew:  # another one has built it
            return
        code, begun = program.code_of(TOP), time.monotonic()
        hint("the program is built from the code of this checkout, without checking its proofs. This takes a minute or two")
        with open(room / "log", "w+", encoding="utf-8", errors="replace") as log:
            with group(QUICK, BUILT, stderr=log) as work:
                status = work.wait()
            log.seek(0)
            told = log.read()
        if status == 0:
            MADE.write_text(program.text_of(BUILT, code), "utf-8")
            hint(f"built in {time.monotonic() - begun:.0f} s; {program.proof(BUILT)}")
            hint(f"'rendapil prove' checks the proofs here, in {about(estimate(crates.needed(CRATES)))} or more")
            return
        if status == FAILED:
            sys.stderr.write(told)
            raise Stop(CANNOT, "the program can't be built: the lines are above")
    say(f"{told.strip().rpartition(chr(10))[2]}. So the proofs are checked now")
    build_proved()


def copy_needed(room: Path) -> dict[str, str]:
    """Copies the program's crate and those below it, without their must-fail edits, to a folder of their own, so that `rt ci` proves just what stands
    here now."""
    lines = crates.needed(CRATES)
    room.chmod(0o711)
    (room / ".git/tmp").mkdir(parents=True)
    (room / "crates.txt").write_text("".join(f"{line}\n" for line in lines.values()), "utf-8")
    if (TOP / "HANDLES").exists():
        shutil.copy2(TOP / "HANDLES", room)
    for name in lines:
        shutil.copytree(TOP / "crates" / name, room / "crates" / name, ignore=shutil.ignore_patterns("out", "must-fail"))
    return lines


def tell_crates(output: IO[str], lines: dict[str, str], log: list[str]) -> None:
    """Keeps what the proofs say, and tells of each crate. One that an earlier run proved tells nothing of how long the others take."""
    begun, kept, end, proved = time.monotonic(), 0.0, 0.0, dict[str, bool]()
    for line in output:
        log.append(line)
        now = time.monotonic() - begun
        if found := re.match(r"rt: (\w+).* proved$", line):
            proved[found[1]] = True
            more = now + estimate(lines, proved, now - kept)
            end = (2 * (end or more) + more) / 3  # what was told weighs too, so that one slow crate makes no leap
            left = f"{about(max(0, end - now))} to go"
        elif found := re.match(r"rt: (\w+).* is kept: ", line):
            kept = kept if any(proved.values()) else now
            proved[found[1]] = False
            left, end = "proved before", 0.0
        else:
            continue
        say(f"{len(proved)} of {len(lines)}: {found[1]}, {now // 60:.0f} min {now % 60:.0f} s so far, {left}")


def tell_where_kept() -> None:
    """Says so where a proof that is interrupted begins anew."""
    kit = subprocess.run(["rt", "doc"], stdout=subprocess.PIPE, text=True, check=True).stdout.strip()
    kept = Path(f"{Path(kit).parent}-kept")
    if not os.access(kept if kept.exists() else kept.parent, os.W_OK):
        say(f"you may not write to {kept}: if this is interrupted, it begins anew")


def build_proved() -> None:
    """Checks all proofs and builds the program."""
    with alone() as room:
        lines = copy_needed(room)
        code, proofs, log, begun = program.digest_of(room, ".rt"), program.digest_of(room, ".rt", ".antt"), list[str](), time.monotonic()
        say(
            f"{len(lines)} crates are proved; with {len(os.sched_getaffinity(0))} processors as fast and as idle as those of docs/GATE.md that takes "
            f"{about(estimate(lines))}, where nothing is proved yet. How fast these are the first crates will tell"
        )
        tell_where_kept()
        with group("rt", "ci", stderr=subprocess.STDOUT, room=room) as work:
            assert work.stdout
            tell_crates(work.stdout, lines, log)
            work.wait()
        if not log or not log[-1].endswith(", 0 failed\n"):
            sys.stderr.writelines(log[-20:])
            raise Stop(CANNOT, "the program could not be proved; the last lines are above")
        built, same = room / "crates/gateway_program/out/gateway_program", ""
        before = BUILT if program.entries_in(MADE).get("code") == code and BUILT.exists() else PREBUILT if program.is_prebuilt() else None
        if before:
            is_same = filecmp.cmp(built, before, shallow=False)
            same = f". The program that was used till now {'is' if is_same else 'is not'} the proved one, byte for byte"
        new = BUILT.with_name("gateway_program.new")
        shutil.copy(built, new)
        MADE.write_text(program.text_of(built, code, proofs=proofs), "utf-8")
        new.replace(BUILT)
        spent = time.monotonic() - begun
        say(f"proved in {spent // 60:.0f} min {spent % 60:.0f} s{same}")


def have_program() -> Path:
    """The program, which is built where there is none of this code. Where none can be built it is the one that is there."""
    if found := program.used():
        return found
    if not IS_CHECKOUT:
        raise Stop(CANNOT, f"there is no program {INSTALLED}: install the package anew")
    fault = program.fault_of_prebuilt() if PREBUILT.exists() else ""
    old = BUILT if program.is_there(BUILT) else PREBUILT if PREBUILT.exists() and not fault else None
    if old and (why := hindrance()):
        say(f"the program that is there runs. It is of other code than this checkout's, and can't be built anew: {why}")
        return old
    if fault:
        say(f"{fault}. So the program is built")
    build_unproved()
    return BUILT


def build() -> None:
    """Builds the program of the code here, and says whether the one that comes with the checkout is the same."""
    build_unproved(is_anew=True)
    if PREBUILT.exists():
        is_same = filecmp.cmp(BUILT, PREBUILT, shallow=False)
        say(f"{PREBUILT.relative_to(TOP)} {'is' if is_same else 'is not'} the same file, byte for byte")
