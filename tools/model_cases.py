#!/usr/bin/env python3
"""Prints worked cases as rows over whole frames, computed by the definitions of gate_model.

usage: model_cases.py CASES NAME.. > crates/model_cases/proofs/NAME.antt

Then `rt fmt` in that crate indents the lines.

A case is a folder with settings.toml, left.pcap, right.pcap, report.txt, left_out.pcap and right_out.pcap. Each event
becomes a frame in hexadecimal, and what is wanted of it: its verdict, and the datagrams that go out.
"""
import heapq
import re
import sys
from collections.abc import Iterator
from pathlib import Path
from typing import NamedTuple

sys.path.insert(0, str(Path(__file__).resolve().parent.parent / "python"))
from rendapil.bindings import pool_of  # noqa: E402
from rendapil.numbers import SIDES  # noqa: E402
from rendapil.document import Document, document_in  # noqa: E402
from rendapil.files import ETHERNET, Capture, Record  # noqa: E402

WIDTH = 150  # columns of a line
PIECE = 56  # octets of a line


class Event(NamedTuple):
    """A frame with the side that it comes from, and the moment at which the gateway takes it."""

    side: int
    moment: int
    frame: Record


def frames_in(path: Path) -> list[Record]:
    """The frames of a capture."""
    with Capture(str(path)) as capture:
        return list(capture.frames())


def events(left: list[Record], right: list[Record]) -> Iterator[Event]:
    """The frames of both captures in the order in which the gateway takes them."""
    clock = 0
    for side, frame in heapq.merge([(0, one) for one in left], [(1, one) for one in right], key=lambda one: one[1].moment):
        clock = max(clock, frame.moment)
        yield Event(side, clock, frame)


def hexed(octets: bytes) -> str:
    """Octets in hexadecimal."""
    return "hex %d 0x%s" % (len(octets), octets.hex()) if octets else "[]"


def pieces(octets: bytes, indent: str) -> str:
    """Octets in hexadecimal, those of many on lines of their own."""
    if len(octets) <= PIECE:
        return hexed(octets)
    return f"({(indent + '++ ').join(hexed(octets[at : at + PIECE]) for at in range(0, len(octets), PIECE))})"


def narrow(line: str) -> str:
    """A line that is too wide, broken: between the words of a row, and within octets."""
    if len(line) <= WIDTH:
        return line
    if re.match(r"\w+ = (with_rules|set)\b", line):
        return re.sub(r" \((fixed|set) ", r"\n    (\1 ", line, count=2)
    if re.match(r"\w+ : found ", line):
        return line.replace(" ≡ wanted", "\n    ≡ wanted")
    deep = "\n" + " " * (len(line) - len(line.lstrip(" ")) + 4)
    line = re.sub(r"hex \d+ 0x([0-9a-f]+)", lambda found: pieces(bytes.fromhex(found[1]), deep + "  "), line)
    line = re.sub(r"\(\((hex[^()]+)\)\)", r"(\1)", line)
    for words in (r" (?=\(passes \(|\(refused )", r" (?=\(hex)", r" (?=∷ \(?hex)"):
        line = "\n".join(re.sub(words, deep, part) if len(part) > WIDTH else part for part in line.split("\n"))
    return line


def listed(items: list[str], indent: str) -> str:
    """A list with a line for each item."""
    return "".join(f"{indent}{'∷ ' if number else ''}{item}\n" for number, item in enumerate([*items, "[]"]))


def joined(items: list[str]) -> str:
    """A list on one line."""
    return " ∷ ".join([*items, "[]"])


def quad(text: str) -> str:
    """An address as a number."""
    return "0x%02x%02x%02x%02x" % tuple(int(part) for part in text.split("."))


def settings(document: Document) -> str:
    """Settings as words of RowWords."""
    blocks = [f"block {quad(one.split('/')[0])} {one.split('/')[1]}" for one in document.get("same", [])]
    statics = [f"fixed {one['side'].capitalize()} {quad(one['host'])} {quad(one['alias'])}" for one in document.get("static", [])]
    left, right = (f"(pool {first:#010x} {last:#010x})" for first, last in (pool_of(document, side) for side in SIDES))
    rules = [f"rule ({one['prefix'].replace('.', ' ∷ ')} ∷ []) {one['skip']}" for one in document.get("oid", [])]
    text = f"set ({joined(blocks)}) {left} {right} ({joined(statics)})"
    return f"with_rules ({joined(rules)}) ({text})" if rules else text


def row(event: Event, verdict: str, gone: list[bytes]) -> str:
    """A frame with what is wanted of it."""
    link, whole = "Ethernet" if event.frame.link == ETHERNET else "Raw", str(len(event.frame.octets) >= event.frame.length).lower()
    wanted = f"passes ({joined([hexed(one) for one in gone])})" if verdict == "pass" else f"refused {verdict}"
    return f"frame {SIDES[event.side].capitalize()} {event.moment} {link} {whole} ({hexed(event.frame.octets)}) ({wanted})"


def case(folder: Path, name: str) -> tuple[str, set[str]]:
    """The text of a case, and the reasons of refusals that it names."""
    document = document_in((folder / "settings.toml").read_text("utf-8"))
    lines = (folder / "report.txt").read_text("utf-8").splitlines()
    outs = [iter(frames_in(folder / file)) for file in ("right_out.pcap", "left_out.pcap")]
    rows, refusals = list[str](), set[str]()
    for event, line in zip(events(frames_in(folder / "left.pcap"), frames_in(folder / "right.pcap")), lines):
        _, _, stamp, verdict, frames = line.split()
        assert int(stamp) == event.moment
        head = 14 if document[SIDES[1 - event.side]]["link"] == "ethernet" else 0
        rows.append(row(event, verdict, [next(outs[event.side]).octets[head:] for _ in range(int(frames))]))
        refusals |= {verdict} - {"pass"}
    pending = next(line for line in lines if line.startswith("done")).split("pending=")[1]
    text = f"-- {(folder / 'README').read_text('utf-8').strip().splitlines()[0]}\n"
    text += f"abbrev {name} : List Row\n{name} =\n{listed(rows, '    ')}\n"
    text += f"abbrev {name}_settings : Settings\n{name}_settings = {settings(document)}\n\n"
    text += f"{name}_holds : found {name}_settings {name} ≡ wanted {name} {pending}\nunfolding frames_on_literals\n{name}_holds = refl\n"
    return "\n".join(map(narrow, text.split("\n"))), refusals


def main() -> None:
    """Prints the cases as a module."""
    texts, refusals = list[str](), set[str]()
    for name in sys.argv[2:]:
        text, more = case(Path(sys.argv[1], name), name)
        texts.append(text)
        refusals |= more
    print("-- Worked cases, computed: whole frames, the verdict on each and the datagrams that go out. Written by tools/model_cases.py.")
    joins = "◌++◌, " if any("++ hex" in text for text in texts) else ""
    print(f"use Rattle.std.proofs.Common.{{{joins}◌≡◌, true, false, List, [], ◌∷◌, refl}}")
    if refusals:
        print("use Rattle.verdicts.specs.declared.refusal.Refusal.TheVariants.{" + ", ".join(sorted(refusals)) + "}")
    print("use Rattle.gate_base.specs.declared.side.Link.TheVariants.{Ethernet, Raw}")
    print("use Rattle.gate_base.specs.declared.side.Side.TheVariants.{Left, Right}")
    print("use Rattle.gate_settings.specs.declared.settings.Settings.{Settings}")
    print("use Rattle.gate_model.proofs.RowWords.{Row, hex, block, fixed, pool, rule, set, with_rules, frame, passes, refused, found, wanted}")
    print("use Rattle.gate_model.proofs.OnLiterals.{frames_on_literals}\n")
    print("\n".join(texts), end="")


main()
