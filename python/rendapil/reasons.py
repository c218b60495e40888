"""What is said behind the program's line: more about the file that the line means, and what the files of a run are worth."""
import contextlib
import os
import re
import shlex
import shutil
import stat
import subprocess
import sys
from collections import Counter

from rendapil.kinds import by_head
from rendapil.outputs import Words
from rendapil.places import TOP
from rendapil.sayings import as_word, say

DONE = re.compile(rb'\bevents"?[=:](\d+).*?passed"?[=:](\d+).*?refused"?[=:](\d+)')
REFUSED = re.compile(rb'"verdict":"([A-Z]\w*)"|^\d+ [a-z]+ \d+ ([A-Z]\w*) ')
LOOKED_FOR = 5
"""How many seconds the captures may take to be looked at."""


def why_not(path: str, mode: str) -> str:
    """Why the system doesn't open a file. It isn't emptied."""
    if path == "-":  # no name of a file
        return "standard output is closed, or is another one of these files"
    if is_pipe(path):
        return ""  # it might wait
    try:
        with open(path, mode):
            return ""
    except (OSError, ValueError) as error:
        return error.strerror or "" if isinstance(error, OSError) else "Invalid argument"


def is_pipe(path: str) -> bool:
    """Whether a file is a pipe."""
    return os.path.exists(path) and stat.S_ISFIFO(os.stat(path).st_mode)


def why_full(path: str) -> str:
    """Why a file takes no more, as far as that shows."""
    path = "/dev/stdout" if path == "-" else path
    if is_pipe(path) or not os.path.exists(path):
        return "it was closed by its reader"
    if os.path.isfile(path):
        free = shutil.disk_usage(path).free
        return f"it takes no more. Its disk has {f'{free // 10**9} GB' if free >= 10**10 else f'{free // 10**6} MB'} free"
    return "it takes no more"


def looks_like(path: str, slot: str) -> str:
    """What a file is, where a slot can't have it, and the command that makes it a capture that the gateway reads."""
    if not os.path.isfile(path):
        return ""
    try:
        with open(path, "rb") as file:
            front = file.read(4096)
    except OSError:
        return ""
    kind = by_head(front[:24], shlex.quote(as_word(path)))
    if not kind:
        return "" if slot == "settings" or b"\0" in front else "it is text. Are the words in their order?"
    if kind.command:
        return f"it {kind.what}: {kind.command}"
    return f"it {kind.what}" + {"": ". Are the words in their order?", "Link": ": capture on an Ethernet interface or a tun device"}.get(
        kind.fault, ""
    )


def slot_of(line: str) -> str:
    """Which word a line of the program means, if it means one."""
    if found := re.match(r"capture (left|right): ", line):
        return f"{found[1]}_in"
    if line == "settings: NotToml":
        return "settings"
    return line.rpartition(" ")[2] if " failed: " in line else ""


def why(line: str, words: Words, place: int) -> str:
    """More about the file at this place."""
    path, fault = words.words[place], line.partition(": ")[2]
    if line.startswith("open failed: "):
        is_input = place < words.outputs
        text = why_not(path, "rb" if is_input else "ab")
        return text + (". The outputs in front of it are empty now" if text and place > words.outputs else "")
    if line.startswith("read failed: "):
        return "Is a directory" if os.path.isdir(path) else ""
    if line.startswith("write failed: "):
        return f"{why_full(path)}. All outputs are cut"
    if fault.startswith("NoHead at "):
        return ("it ends within the head of a capture" if os.path.getsize(path) else "it is empty") if os.path.isfile(path) else ""
    if fault.startswith("Torn at "):
        return "it ends within a record. The frames before that went out, and the report has no last line"
    return looks_like(path, words.slots[place]) if fault in ("Magic at 0", "Link at 0", "NotToml") else ""


def tell_more(line: str, words: Words) -> None:
    """Says more about the file that a line of the program means."""
    slot = slot_of(line)
    if slot in words.slots:
        place = words.slots.index(slot)
        if text := why(line, words, place):
            say(f"{slot}, {as_word(words.words[place])}: {text}")


def counts_of(report: str) -> list[int]:
    """How many events a report tells, how many passed and how many were refused, by its last line."""
    with contextlib.suppress(OSError), open(report, "rb") as file:
        file.seek(max(0, os.path.getsize(report) - 400))
        if found := DONE.search(file.read().rstrip(b"\n").rpartition(b"\n")[2]):
            return list(map(int, found.groups()))
    return [0, 0, 0]


def most_refused(report: str) -> str:
    """The verdict for which most frames of a report were refused, and how many."""
    with open(report, "rb") as file:
        found = Counter((match[1] or match[2]).decode() for line in file if (match := REFUSED.search(line)))
    return f"{found.most_common(1)[0][1]} of them as {found.most_common(1)[0][0]}" if found else ""


def tell_little_passed(words: Words) -> None:
    """Says so where most frames were refused."""
    _, settings, left, right, *_, report = words.words
    events, passed, refused = counts_of(report)
    if refused <= passed:
        return
    say(
        f"{refused} of {events} frames were refused, {most_refused(report)}. Are left and right in their order? "
        "'rendapil check' with SETTINGS, LEFT_IN and RIGHT_IN, or 'rendapil explain' with the same words as this run, tells more"
    )
    if os.path.isfile(left) and os.path.isfile(right):
        tell_by("rendapil.check.captures", settings, left, right, seconds=LOOKED_FOR)


def tell_by(module: str, *words: str, seconds: float) -> None:
    """Says what a module tells of files, which may be hostile: in a process of its own, for so many seconds."""
    with contextlib.suppress(subprocess.TimeoutExpired):
        command = [sys.executable, "-m", module, *words]
        done = subprocess.run(
            command,
            stdin=subprocess.DEVNULL,
            stdout=subprocess.PIPE,
            stderr=subprocess.DEVNULL,
            env={**os.environ, "PYTHONPATH": str(TOP / "python")},
            text=True,
            errors="replace",
            timeout=seconds,
            check=False,
        )
        for line in done.stdout.splitlines():
            say(line)


def tell_end(status: int, words: Words) -> None:
    """Says what the files of a run are worth that was ended, or in which little passed."""
    if status > 128:
        say(f"signal {status - 128} ended the program: its outputs are cut, and the last record or line may be too")
    elif status == 0 and words.command == "run" and os.path.isfile(words.words[6]):
        tell_little_passed(words)
