"""crates.txt: the crates and what each stands on."""
import re
from pathlib import Path

THE_PROGRAM = "gateway_program"


def lines_of(path: Path) -> dict[str, str]:
    """The lines of a crates.txt by their crates, in their order."""
    found = (re.match(r"([a-z_0-9]+):", line) and line.rstrip("\n") for line in path.read_text("utf-8").splitlines())
    return {line.partition(":")[0]: line for line in found if line}


def uses_of(lines: dict[str, str]) -> dict[str, list[str]]:
    """What each crate stands on."""
    return {name: line.partition(":")[2].split() for name, line in lines.items()}


def needed(path: Path, last: str = THE_PROGRAM) -> dict[str, str]:
    """The lines for a crate and those below it."""
    lines = lines_of(path)
    uses, found, ahead = uses_of(lines), set(), [last]
    while ahead:
        name = ahead.pop()
        if name in lines and name not in found:
            found.add(name)
            ahead += uses[name]
    return {name: line for name, line in lines.items() if name in found}
