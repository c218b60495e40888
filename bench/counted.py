"""What valgrind counts of a run, for the scripts that measure. The gateway draws the same number in each run (`drawn.c`), so that counts repeat."""
import functools
import os
import re
import subprocess
import tempfile
from collections.abc import Iterable, Sequence

from datagrams import Event, record, write_run

HERE = os.path.dirname(os.path.abspath(__file__))
GATEWAY = next(
    (
        path
        for path in (f"{HERE}/../crates/gateway_program/out/gateway_program", f"{HERE}/../prebuilt/x86_64-linux/gateway_program")
        if os.path.exists(path)
    ),
    "no program",
)
BUILT = tempfile.TemporaryDirectory()


@functools.cache
def drawn() -> str:
    """The library in front of libc, built at its first use."""
    subprocess.run(["gcc", "-O2", "-shared", "-fPIC", "-o", f"{BUILT.name}/drawn.so", f"{HERE}/drawn.c"], check=True)
    return f"{BUILT.name}/drawn.so"


def counted(words: Sequence[str], *patterns: str) -> list[int]:
    """The numbers that valgrind tells of a program, by patterns of its lines."""
    with_drawn = os.environ | {"LD_PRELOAD": drawn()}
    said = subprocess.run(["valgrind", *words], capture_output=True, text=True, check=True, env=with_drawn).stderr
    found = [re.search(pattern, said) for pattern in patterns]
    assert all(found), said
    return [int(one[1].replace(",", "")) for one in found if one]


def instructions(words: Sequence[str]) -> int:
    """How many instructions a program takes."""
    return counted(["--tool=callgrind", "--callgrind-out-file=/dev/null", *words], r"Collected : (\d+)")[0]


def run_over(program: str, folder: str, settings: str, events: Iterable[Event], late: int = 0) -> list[str]:
    """The words of a run over events, each a side and a frame, one a microsecond, the last one so many seconds late. The folder takes all its files."""
    sides: dict[str, list[tuple[int, int, bytes]]] = {"left": [], "right": []}
    for number, (side, frame) in enumerate(events):
        sides[side].append((1 + number // 1000000, number % 1000000, frame))
    if late:
        seconds, fraction, frame = sides[side][-1]
        sides[side][-1] = (seconds + late, fraction, frame)
    write_run(folder, settings, *([record(*event) for event in sides[side]] for side in ("left", "right")))
    return [program, "run", *(f"{folder}/{name}" for name in ("settings.toml", "left.pcap", "right.pcap", "left_out", "right_out", "report"))]
