#!/usr/bin/env python3
"""tools/unreached.py: lemmas and definitions that nothing reaches, and entries of crates.txt that their crate never names. The status is 1 where there is one.

A name is reached from the code, from the proof of a function or a type, from worked rows, which stand for themselves, and from what is reached. Names are compared as words, so one that stands in two modules counts as reached where either is."""
import os
import re
import sys
from collections import defaultdict
from collections.abc import Iterator

TOP = os.path.join(os.path.dirname(os.path.abspath(__file__)), "..")
sys.path.insert(0, f"{TOP}/python")
from rendapil.crates import lines_of, uses_of  # noqa: E402
from rendapil.places import CRATES  # noqa: E402

WORD = re.compile(r"[A-Za-z_][\w'-]*")
KEYWORD = re.compile(r"(?:unfoldable |abbrev )?(?:pub )?(?:(?:record|data|abbrev|type|unfoldable) )?(?:pub )?([A-Za-z_][\w'-]*)")
PASSED = re.compile(r"(?:pub )?(use|mod|syntax|infix\w*|module|unfolding)\b|[}\])|]")
# What rattle reads as the proof of a function or a type.
PROOFS = ("Answers.antt", "Invariants.antt", "Proof.antt")


def sources() -> Iterator[tuple[str, list[str]]]:
    """The files of the crates, each with its crate and its text without comments."""
    for base, folders, names in os.walk(f"{TOP}/crates"):
        folders[:] = [name for name in folders if name not in ("out", "must-fail", "data")]
        for name in names:
            if name.endswith((".rt", ".antt")):
                path = os.path.relpath(f"{base}/{name}", TOP)
                mark = "//" if name.endswith(".rt") else "--"
                with open(f"{base}/{name}", encoding="utf-8") as file:
                    yield path, [line.split(mark)[0].rstrip() for line in file]


def definitions(lines: list[str]) -> dict[str, tuple[int, set[str]]]:
    """What a file of definitions or lemmas defines: a name, its line, and the words that it says. A module's names are indented below its head."""
    found: dict[str, tuple[int, set[str]]] = {}
    inside: list[int] = []
    name = None
    for number, line in enumerate(lines, 1):
        text = line.strip()
        column = len(line) - len(line.lstrip())
        while text and inside and column < inside[-1]:
            inside.pop()
        if re.match(r"module\b", text):
            inside.append(column + 2)
            name = None
        elif text and column == (inside[-1] if inside else 0):
            if re.match(r"(?:pub )?(?:use|mod|syntax|infix\w*)\b", text):
                name = None
            elif not PASSED.match(text) and (head := KEYWORD.match(text)):
                name = head[1]
        if name and text:
            place, words = found.setdefault(name, (number, set()))
            words.update(WORD.findall(text))
    return found


def unreached() -> list[str]:
    """The lemmas and definitions that nothing reaches."""
    known: dict[str, list[tuple[str, int, set[str]]]] = defaultdict(list)
    words: set[str] = set()
    for path, lines in sources():
        if path.endswith(".rt") or os.path.basename(path) in PROOFS or "Row" in os.path.basename(path):
            words.update(word for line in lines if not line.lstrip().startswith("ghost use") for word in WORD.findall(line))
        else:
            for name, (number, said) in definitions(lines).items():
                known[name].append((path, number, said))
    reached, ahead = set[str](), [word for word in words if word in known]
    while ahead:
        name = ahead.pop()
        if name not in reached:
            reached.add(name)
            ahead += [word for _, _, said in known[name] for word in said if word in known]
    return sorted(f"{path}:{number}: {name}" for name in known if name not in reached for path, number, _ in known[name])


def unnamed() -> list[str]:
    """The entries that their crate never names."""
    said: dict[str, str] = defaultdict(str)
    for path, lines in sources():
        said[path.split("/")[1]] += "\n".join(lines)
    uses = uses_of(lines_of(CRATES))
    return [
        f"crates.txt: {name} never names {other}"
        for name, others in uses.items()
        for other in others
        if not re.search(rf"\b(?:Rattle\.)?{other}(?:\.|::|;)", said[name])
    ]


def main() -> None:
    """Tells both."""
    found = unreached() + unnamed()
    print("\n".join(found) if found else "nothing")
    sys.exit(1 if found else 0)


main()
