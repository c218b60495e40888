#!/usr/bin/env python3
"""tools/seconds.py [COMMAND ..]: runs a command, `rt ci` if none is given, at the top of the repository, and writes the processor seconds of each crate to
tools/seconds.tsv: its proof with what compiles and runs a program, its tests, and its edits. It reads /proc four times a second, so that what a process
takes behind its last reading is missing. Run it with nothing beside it and nothing kept (`tools/seconds.py rt ci --anew`).
What it writes is at the speed of the table that stood there: it compares the proofs of the crates that are as they were when that was committed.
tools/seconds.py --table: prints what was written as the table of docs/GATE.md.
tools/seconds.py --limit [MINUTES]: tells how many processor minutes what was written comes to. Ends with 1 where that is more than so many, 110 if none
are given, or where some crate was not proved in that run."""
import os
import re
import signal
import subprocess
import sys
import time
from collections.abc import Iterable
from pathlib import Path
from statistics import median

TOP = Path(__file__).resolve().parent.parent
sys.path.insert(0, str(TOP / "python"))
from rendapil.crates import lines_of  # noqa: E402

WRITTEN = TOP / "tools" / "seconds.tsv"
TICK = os.sysconf("SC_CLK_TCK")
KINDS = ("proof", "tests", "edits")
LIMIT = 110.0
"""The most processor minutes of a whole gate, at the speed of the table."""

LEAST_COMPARED, LEAST_SECONDS = 5, 10.0
"""A machine's speed is known by so many crates, of so many seconds each."""


def kind_of(words: list[str], folder: str) -> str:
    """What a process of rattle is for: an edit's check runs in a copy of the crate's folder."""
    if "--test" in words:
        return "tests"
    return "proof" if Path(folder).parent.name == "crates" else "edits"


def readings(session: int) -> dict[tuple[str, str], tuple[str, str, float]]:
    """Of each process of rattle in a session: its number and start, and the crate, the kind and the seconds so far."""
    found = {}
    for entry in Path("/proc").iterdir():
        if not entry.name.isdigit():
            continue
        try:
            words = (entry / "cmdline").read_bytes().decode(errors="replace").split("\0")
            if not words[0].endswith("/rattle") or "--crate-name" not in words:
                continue
            fields = (entry / "stat").read_text().rpartition(")")[2].split()
            crate = words[words.index("--crate-name") + 1]
            folder = os.readlink(entry / "cwd")
        except (OSError, ValueError, IndexError):
            continue
        if int(fields[3]) != session:  # of another run on this machine
            continue
        found[entry.name, fields[19]] = (crate, kind_of(words, folder), (int(fields[11]) + int(fields[12])) / TICK)
    return found


def lines_of_code(crate: str) -> int:
    """Lines of src/ that are neither blank nor a comment."""
    texts = (file.read_text() for file in (TOP / "crates" / crate / "src").rglob("*.rt"))
    return sum(1 for text in texts for line in text.splitlines() if line.strip() and not line.strip().startswith("//"))


def figures_of(crate: str, seconds: dict[tuple[str, str], float]) -> list[int]:
    """A crate's lines of code, the seconds of its proof and its tests, the number of its edits, and their seconds."""
    proof, tests, edits = (round(seconds.get((crate, kind), 0)) for kind in KINDS)
    return [lines_of_code(crate), proof, tests, len(list((TOP / "crates" / crate / "must-fail").glob("*.edit"))), edits]


def written() -> list[list[str]]:
    """The rows of the written figures."""
    return [row.split("\t") for row in WRITTEN.read_text().splitlines()[1:]]


def git(*words: str) -> list[str]:
    """The lines that git answers."""
    return subprocess.run(["git", *words], cwd=TOP, check=True, stdout=subprocess.PIPE, text=True).stdout.splitlines()


def unchanged() -> list[str]:
    """The crates whose code, definitions and proofs are as in the commit of the written figures."""
    revision = git("log", "-1", "--format=%H", "--", str(WRITTEN))
    parts = (path.split("/") for path in git("diff", "--name-only", "--no-renames", *revision, "--", "crates"))
    changed = {crate for _, crate, *inner in parts if inner and inner[0] in ("src", "specs", "proofs")}
    return [crate for crate in lines_of(TOP / "crates.txt") if crate not in changed]


def speed_of(before: dict[str, float], now: dict[str, float], same: Iterable[str]) -> float | None:
    """How fast a machine proves, where that of the table is 1: the median of the crates that are the same. None where they are too few."""
    speeds = [before[it] / now[it] for it in same if now.get(it) and before.get(it, 0) >= LEAST_SECONDS]
    return median(speeds) if len(speeds) >= LEAST_COMPARED else None


def within(rows: list[list[str]], limit: float) -> bool:
    """Whether a whole run was written that is within a limit. Tells its minutes, and what was not proved."""
    minutes = sum(float(row[at]) for row in rows for at in (2, 3, 5)) / 60
    lacking = [row[0] for row in rows if row[2] == "0"]
    print(f"{minutes:.1f} of {limit:g} processor minutes, at the speed of the table")
    if lacking:
        print(f"this was no whole run, since nothing was proved of {', '.join(lacking)}")
    return minutes <= limit and not lacking


def table() -> str:
    """The written figures as a table in Markdown."""
    rows = ["| Crate | Lines of code | Proof | Tests | Edits | Their seconds |", "|---|---|---|---|---|---|"]
    for crate, lines, proof, tests, edits, spent in written():
        rows.append(f"| {crate} | {int(lines):,} | {proof} | {'' if tests == '0' else tests} | {edits} | {'' if spent == '0' else spent} |")
    return "\n".join(rows)


def measured(command: list[str]) -> tuple[int, dict[tuple[str, str], float]]:
    """The status of a command, and the seconds of each crate and kind while it ran."""
    process = subprocess.Popen(command, cwd=TOP, start_new_session=True)
    last: dict[tuple[str, str], tuple[str, str, float]] = {}
    try:
        while process.poll() is None:
            last.update(readings(process.pid))
            time.sleep(0.25)
    except KeyboardInterrupt:  # which a session of its own doesn't get
        os.killpg(process.pid, signal.SIGINT)
        raise
    seconds: dict[tuple[str, str], float] = {}
    for crate, kind, spent in last.values():
        seconds[crate, kind] = seconds.get((crate, kind), 0) + spent
    return process.returncode, seconds


def write(seconds: dict[tuple[str, str], float], same: list[str]) -> None:
    """Writes the figures of a run at the speed of those that are written, by the crates that are the same, and tells both."""
    before = {row[0]: float(row[2]) for row in written()}
    speed = speed_of(before, {crate: spent for (crate, kind), spent in seconds.items() if kind == "proof"}, same)
    print(f"{sum(seconds.values()) / 60:.0f} processor minutes; speed {f'{speed:.2f}' if speed else 'unknown, so that they are written as they are'}")
    scaled = {one: spent * (speed or 1) for one, spent in seconds.items()}
    rows = (f"{crate}\t" + "\t".join(map(str, figures_of(crate, scaled))) for crate in lines_of(TOP / "crates.txt"))
    WRITTEN.write_text("\n".join(["crate\tlines of code\tproof\ttests\tedits\ttheir seconds", *rows]) + "\n")


def main() -> int:
    """Runs the command and writes the figures, or tells of those that stand written."""
    words = sys.argv[1:]
    if words == ["--table"]:
        print(table())
        return 0
    if words[:1] == ["--limit"]:
        if len(words) > 2 or not re.fullmatch(r"\d+(\.\d+)?", "".join(words[1:]) or "0"):
            sys.exit(print(__doc__, file=sys.stderr) or 2)
        return int(not within(written(), float(words[1]) if words[1:] else LIMIT))
    same = unchanged()
    status, seconds = measured(words or ["rt", "ci"])
    write(seconds, same)
    return status


if __name__ == "__main__":
    sys.exit(main())
