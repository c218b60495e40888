"""Runs the program over files: a run, an audit or a make."""
import os
import shutil
import signal
import subprocess
import sys
from pathlib import Path
from threading import Thread

from rendapil import sayings
from rendapil.build import have_program
from rendapil.outputs import Words
from rendapil.progress import wait_and_tell
from rendapil.reasons import is_pipe, slot_of, tell_by, tell_end, tell_more
from rendapil.sayings import as_word, say

SLOTS = {
    "run": (("settings", "left_in", "right_in", "left_out", "right_out", "report"), 4),
    "audit": (("settings", "left_in", "right_in", "left_given", "right_given", "report_given", "report"), 7),
    "make": (("number", "count", "report"), 3),
}
"""The words of each command, and from which on they are outputs."""

CHECKED_FOR = 2
"""How many seconds the settings may take to be checked, beside the run."""

USAGE, FAULTS, INTERRUPTED = 2, range(3, 8), 128 + signal.SIGINT
"""Statuses of the program."""


def warnings(settings: str) -> Thread | None:
    """Says what is wrong with the settings or ignored in them, beside the run. Pipes are for the program alone."""
    if sayings.QUIET or not os.path.isfile(settings):
        return None
    thread = Thread(target=tell_by, args=("rendapil.check.settings", "--brief", settings), kwargs={"seconds": CHECKED_FOR}, daemon=True)
    thread.start()
    return thread


def is_watched(words: Words) -> bool:
    """Whether somebody looks on, and there is something to see."""
    is_shown = sys.stderr.isatty() and not sayings.QUIET and os.environ.get("TERM", "dumb") != "dumb"
    return is_shown and words.command != "make" and os.path.isfile(words.words[2]) and os.path.isfile(words.words[3])


def called(program: Path, words: Words) -> tuple[int, str]:
    """The status of the program, and its line on standard error. It ends when this command does."""
    tie = ["setpriv", "--pdeathsig", "TERM"] if shutil.which("setpriv") else []
    # A limit on the size of a file, which Python ignores, is a failed write for the program, which tells it.
    process = subprocess.Popen([*tie, program, *words.words], stderr=subprocess.PIPE, restore_signals=False, pass_fds=words.inherited)
    signal.signal(signal.SIGINT, lambda *_: process.send_signal(signal.SIGINT))  # the program ends, and then this command
    if is_watched(words):
        wait_and_tell(process, words.words[2], words.words[3])
    line = os.fsdecode(process.communicate()[1]).rstrip("\n")
    return process.returncode if process.returncode >= 0 else 128 - process.returncode, line


def run_program(program: Path, words: Words) -> int:
    """Runs the program, and says what its line leaves open. Ends as it ended."""
    given = words.given
    checked = None if words.command == "make" else warnings(words.words[1])
    status, line = called(program, words)
    damaged = words.end_feeders()
    if checked:
        checked.join()
    if words.command == "run" and line == "write failed: report" and words.words[4:] == ["/dev/null", "/dev/null", "-"] and is_pipe("/dev/stdout"):
        return status  # nothing is lost
    if line:
        print(line, file=sys.stderr, flush=True)
    if status == USAGE:
        words.tell_faults()
    elif slot_of(line) in damaged:
        say(f"{slot_of(line)}, {as_word(given[words.slots.index(slot_of(line))])}: {damaged[slot_of(line)]}")
    elif status in FAULTS:
        tell_more(line, words)
    elif not (sayings.QUIET and status <= 128):
        tell_end(status, words)
    if status != 0:
        words.remove_unwritten()  # behind what is said of them
    if status == INTERRUPTED:
        signal.signal(signal.SIGINT, signal.SIG_DFL)
        os.kill(os.getpid(), signal.SIGINT)
    return status


def run(given: list[str]) -> int:
    """A run, an audit or a make of these words."""
    slots, outputs = SLOTS[given[0]]
    words = Words(given, (given[0], *slots), outputs)
    program = have_program()
    if words.command != "make":
        words.name_streams()
        words.name_by_number()
        words.refuse_one_file_twice()
        words.feed()
    words.lock_outputs()
    return run_program(program, words)
