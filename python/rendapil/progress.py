"""How far a run is: once a second a line on the terminal, below the cursor, so that what is said comes where it would without it."""
import os
import subprocess
import sys
import time

from rendapil import sayings
from rendapil.sayings import as_word

LINE = "\n\033[Kleft {}, right {}, {:.0f} MB/s\033[A\r"


class Progress:
    """How many of something a tool has done: once a second, where somebody looks on."""

    def __init__(self, name: str, what: str) -> None:
        self._text, self._next = f"rendapil {name}: {{:,}} {as_word(what)}", time.monotonic() + 1
        self._is_shown = sys.stderr.isatty() and not sayings.QUIET

    def tell(self, number: int) -> None:
        """Tells it."""
        if not number & 0xFFF and self._is_shown and time.monotonic() >= self._next:
            self._next = time.monotonic() + 1
            print(f"\r\033[K{self._text.format(number)}\r", end="", file=sys.stderr, flush=True)


def place_of(process: int, path: str) -> int | None:
    """How far a process has read a file, in bytes. None where it hasn't opened it."""
    for name in os.listdir(f"/proc/{process}/fd"):
        try:
            if os.path.samefile(f"/proc/{process}/fd/{name}", path):
                with open(f"/proc/{process}/fdinfo/{name}", encoding="ascii") as info:
                    return next(int(line.split()[1]) for line in info if line.startswith("pos:"))
        except OSError:
            continue
    return None


def part(read: int, path: str) -> str:
    """How much of a file is read, in words."""
    size = os.path.getsize(path)
    return f"{100 * read // size if size else 100} % of {size // 1_000_000} MB"


def wait_and_tell(process: subprocess.Popen[bytes], left: str, right: str) -> None:
    """Tells how far a run is until it ends; then erases the line."""
    before = 0
    while True:
        try:
            process.wait(1)
            break
        except subprocess.TimeoutExpired:
            pass
        try:
            one, other = place_of(process.pid, left), place_of(process.pid, right)
            if one is None or other is None:
                continue
            text = LINE.format(part(one, left), part(other, right), (one + other - before) / 1_000_000)
        except OSError:
            continue
        sys.stderr.write(text)
        sys.stderr.flush()
        before = one + other
    if before:
        sys.stderr.write("\033[J")
        sys.stderr.flush()
