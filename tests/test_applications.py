"""Sessions of real programs, recorded by applications/record: what is told of each, against what is true of it."""
import os
import subprocess
import sys
import tempfile
import tomllib
import unittest
from typing import Any
from ipaddress import IPv4Network

from testing import PROGRAM, TESTS

from rendapil.document import document_in
from rendapil.explain.story import Story
from rendapil.payloads.scan import Scan, Told, meaning_in, told_rows
from rendapil.readers import records
from rendapil.trying.two_realms import TwoRealms, write_captures

FOLDER = f"{TESTS}/applications"
LEFT = [IPv4Network("10.1.0.0/16")]
SIZE = 1_500_000
"""The most octets of all captures together."""


def told_of(path: str, room: str) -> list[Told]:
    """What is told of a capture whose left realm is 10.1.0.0/16, by a run of the gateway."""
    realms = TwoRealms(LEFT, [], True)
    realms.survey(records(path))
    settings, left, right, left_out, right_out, report = (f"{room}/{name}" for name in ("settings.toml", "l", "r", "lo", "ro", "report"))
    write_captures([left, right], realms.crossing(records(path)))
    text = realms.settings()
    with open(settings, "w", encoding="ascii") as file:
        file.write(text)
    subprocess.run([PROGRAM, "run", settings, left, right, left_out, right_out, report], check=True)
    story = Story(document_in(text))
    scan = Scan(meaning_in(story.table))
    story.behinds.append(scan.event)
    story.read(left, right, left_out, right_out, report)
    return told_rows(scan)


def sessions() -> dict[str, dict[str, Any]]:
    """What is true of each session that has a capture."""
    with open(f"{FOLDER}/sessions.toml", "rb") as file:
        return {name: one for name, one in tomllib.load(file).items() if os.path.exists(f"{FOLDER}/{name}.pcap.gz")}


def fault_in(session: dict[str, Any], rows: list[Told]) -> str:
    """What is told wrongly of a session, if anything is: what breaks is the first row, by its name, but for what it uses that breaks too; of what works no
    row says that it breaks."""
    breaking = [
        row.application.partition(", TCP")[0].partition(", UDP")[0].partition(", IP ")[0]
        for row in rows
        if row.weight == "breaks" and row.sure != "maybe"
    ]
    wanted = [session["breaks"]] if "breaks" in session else []
    if wanted:
        return (
            ""
            if [name for name in breaking if name not in session.get("also", [])][:1] == wanted
            else f"{wanted[0]} is told as {[(row.application, row.weight, row.sure) for row in rows]}"
        )
    return f"told as breaking: {breaking}" if breaking else ""


@unittest.skipUnless(os.access(PROGRAM, os.X_OK), "the program isn't built")
class Applications(unittest.TestCase):
    """Each session of the table."""

    def test_sessions(self) -> None:
        """What breaks is told as breaking, by its name, with an example; of what works nothing is."""
        for name, session in sessions().items():
            with self.subTest(name), tempfile.TemporaryDirectory() as room:
                rows = told_of(f"{FOLDER}/{name}.pcap.gz", room)
                self.assertEqual(fault_in(session, rows), session.get("fault", ""))
                for row in rows:
                    self.assertTrue(row.examples and row.todo and row.means, row)
                    self.assertTrue(all(one.isascii() and one.isprintable() for one in row.examples), row)

    def test_size(self) -> None:
        """The repository stays small."""
        self.assertLess(sum(entry.stat().st_size for entry in os.scandir(FOLDER)), SIZE)


def main(folder: str, names: list[str]) -> None:
    """Measures captures of a folder against the table: python3 test_applications.py FOLDER [NAME ...]."""
    with open(f"{FOLDER}/sessions.toml", "rb") as file:
        table = tomllib.load(file)
    for name, session in table.items():
        if (not names or name in names) and os.path.exists(f"{folder}/{name}.pcap.gz"):
            with tempfile.TemporaryDirectory() as room:
                try:
                    rows = told_of(f"{folder}/{name}.pcap.gz", room)
                except (ValueError, EOFError, subprocess.CalledProcessError, AttributeError) as error:
                    print(f"{name}: {error!r}")
                    continue
                print(f"{'FAULT' if fault_in(session, rows) else 'right'} {name}: {fault_in(session, rows)}")
                for row in rows:
                    print(f"      {row.application} | {row.weight} {row.sure} | {row.means}\n          {row.examples[0]}")


if __name__ == "__main__":
    main(sys.argv[1], sys.argv[2:])
