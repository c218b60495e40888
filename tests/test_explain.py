"""Tests of `explain`: what it says of a run, the page, the capture with comments, the lines of JSON, and what damaged or hostile files do."""
import contextlib
import io
import json
import os
import pty
import random
import re
import shutil
import struct
import subprocess
import sys
import tempfile
import tomllib
import unittest
from collections.abc import Iterable
from datetime import datetime
from html.parser import HTMLParser
from importlib.util import find_spec
from ipaddress import IPv4Address
from typing import NamedTuple
from unittest import mock

from testing import CASE, CHECK, EXPLAIN, INPUTS, LIVE, MERGER, OUTPUTS, PROGRAM, RIGHT, TOP, datagram, said

from rendapil import bindings, frames
from rendapil.document import document_in
from rendapil.files import Record, line_of, lines
from rendapil.explain import command as explain, gathered as collected, story as stories
from rendapil.numbers import SIDES, TCP, UDP

HAS_JINJA = bool(find_spec("jinja2")) or said("/usr/bin/python3", "-I", "-c", "import jinja2, tomllib")[0] == 0
WAYS = (("10.0.0.5 > 192.168.200.1", "172.16.9.1 > 10.0.0.53"), ("10.0.0.53 > 172.16.9.1", "192.168.200.1 > 10.0.0.5"))
"""The ways of datagrams as they come and as they are sent, from each side."""
NAMES = ("settings.toml", "left.pcap", "right.pcap", "left-out.pcap", "right-out.pcap", "report.txt")
STATIC = '[[static]]\nside = "right"\nhost = "10.0.0.53"\nalias = "192.168.200.1"\n'
HOSTILE = b"<script>document.title='owned'</script><img src=x onerror=\"document.title='owned'\"> & \x1b]0;owned\x07 {{ 7 * 7 }} \xff\x9b"


def story_of(settings: str, *files: str) -> stories.Story:
    """The story of a run."""
    with open(settings, encoding="utf-8") as file:
        story = stories.Story(document_in(file.read()))
    left, right, left_out, right_out, report = files
    story.read(left, right, left_out, right_out, report)
    return story


class Happened(NamedTuple):
    """An event of a run that is made up: the payload of TCP or UDP, as it came from a side and as it went on."""

    side: int
    protocol: int
    came: bytes
    went: bytes
    verdict: str = "pass"


def write_run(room: str, events: Iterable[Happened], names: Iterable[str] = NAMES) -> list[str]:
    """The files of a run between 10.0.0.5 of the left realm and 10.0.0.53 of the right one, an event a second."""
    paths = [f"{room}/{name}" for name in names]
    sides: list[bytes] = [struct.pack("<IHHiIII", 0xA1B2C3D4, 2, 4, 0, 0, 262144, 101)] * 4
    report, passed = "", 0
    for number, (side, protocol, came, went, verdict) in enumerate(events, 1):
        for place, way, payload in ((side, 0, came), (3 - side, 1, went)):
            one = datagram(WAYS[side][way], protocol, payload)
            if place < 2 or verdict == "pass":
                sides[place] += struct.pack("<IIII", number, 0, len(one), len(one)) + one
        report += f"{number} {SIDES[side]} {number}000000000 {verdict} {int(verdict == 'pass')}\n"
        passed += verdict == "pass"
    contents = [
        (RIGHT + STATIC).encode(),
        *sides,
        f"{report}done events={report.count(chr(10))} passed={passed} refused=0 to_left=0 to_right=0 pending=0\n".encode(),
    ]
    for path, octets in zip(paths, contents):
        with open(path, "wb") as file:
            file.write(octets)
    return paths


def segment(side: int, port: int, flags: int, sequence: int, payload: bytes = b"") -> bytes:
    """A segment between the left host's port 4000 and the right host's."""
    ports = (4000, port) if side == 0 else (port, 4000)
    return struct.pack(">HHIIBBHHH", *ports, sequence, 0, 0x50, flags, 0, 0, 0) + payload


def session(port: int, *payloads: tuple[bytes, bytes]) -> list[Happened]:
    """A connection in which the left host says something, as it came and as it went on."""
    parts = [(0, 2, 100, b"", b""), (1, 18, 200, b"", b""), (0, 16, 101, b"", b"")]
    at = 101
    for came, went in payloads:
        parts.append((0, 24, at, came, went))
        at += len(came)
    return [
        Happened(side, TCP, segment(side, port, flags, number, came), segment(side, port, flags, number, went))
        for side, flags, number, came, went in parts
    ]


def named(name: bytes) -> bytes:
    """A DNS question for a name of one label."""
    return struct.pack(">6H", 7, 0, 1, 0, 0, 0) + bytes([len(name)]) + name + b"\0" + struct.pack(">HH", 1, 1)


class InRoom(unittest.TestCase):
    """Tests with a folder of their own."""

    def setUp(self) -> None:
        """A folder."""
        room = tempfile.TemporaryDirectory()
        self.addCleanup(room.cleanup)
        self.room = room.name

    def write(self, name: str, octets: bytes | str) -> str:
        """A file."""
        path = f"{self.room}/{name}"
        with open(path, "wb") as file:
            file.write(octets.encode() if isinstance(octets, str) else octets)
        return path


class Report(unittest.TestCase):
    """Lines of a report that end as one before are read in another way than the first of their kind."""

    def test_lines_that_end_alike(self) -> None:
        """They are read as the first ones are, and refused as these."""
        first = b"1 left 5 pass 1\n"
        for text in (
            b"2 right 7 pass 1\n",
            b"02 left 0007 pass 1\n",
            b"2 left 7 pass 2\n",
            b'{"event":2,"frames":1,"moment":7,"side":"left","verdict":"pass"}\n',
        ):
            self.assertEqual(list(lines(io.BytesIO(first + text), "report"))[1], line_of(text))
        damaged = (
            b"+2 left 7",
            b"2  left 7",
            b"3 left 7",
            b"2 up 7",
            b"2 left -7",
            b"2 left 7_0",
            b"2 left ",
            b"2 left %d" % (1 << 63),
            b"2 left 7 7",
        )
        for begin in damaged:
            with self.assertRaises(ValueError, msg=begin):
                list(lines(io.BytesIO(first + begin + b" pass 1\n"), "report"))


class Explain(InRoom):
    """What it says as text, as JSON and as settings."""

    def test_recorded(self) -> None:
        """A recorded run of real programs."""
        story = story_of(*CASE)
        self.assertEqual(len([one for one in story.used() if not one.fixed]), 43)
        self.assertEqual([pool.most for pool in story.table.pools], [44, 3])
        counts = [row.count for *_, row in story.refusals.rows()]
        self.assertEqual((counts, sum(counts), story.heartbeats), (sorted(counts, reverse=True), 19, 1127))
        self.assertEqual(story.missed + story.table.missed, 0)

    def test_example(self) -> None:
        """The page's output is what it says; a report may come through a pipe."""
        with open(f"{MERGER}/explain.txt", encoding="ascii") as file:
            expected = file.read()
        self.assertEqual(said(*EXPLAIN, *INPUTS, *OUTPUTS), (0, expected))
        with open(OUTPUTS[2], "rb") as report:
            done = subprocess.run([*EXPLAIN, *INPUTS, *OUTPUTS[:2], "-"], stdin=report, capture_output=True, text=True, check=True)
        self.assertEqual(done.stdout, expected)

    def test_example_is_of_the_program(self) -> None:
        """The files from which it says so are those that the program writes."""
        if not os.access(PROGRAM, os.X_OK):
            self.skipTest("the program isn't built")
        written = [f"{self.room}/{name}" for name in ("left", "right", "report")]
        self.assertEqual(said(PROGRAM, "run", *INPUTS, *written), (0, ""))
        for mine, given in zip(written, OUTPUTS):
            with open(mine, "rb") as one, open(given, "rb") as other:
                self.assertEqual(one.read(), other.read())

    def test_json(self) -> None:
        """It is what the text says, with moments as RFC 3339 too; a report in JSON gives the same."""
        status, text = said(*EXPLAIN, "--json", *CASE)
        whole = json.loads(text)
        story = story_of(*CASE)
        self.assertEqual((status, whole["heartbeats"], whole["pools"]["left"]["most"]), (0, 1127, 44))
        self.assertEqual([row["alias"] for row in whole["bindings"]], [str(IPv4Address(one.alias)) for one in story.used()])
        self.assertEqual([row["count"] for row in whole["refused"]], [row.count for *_, row in story.refusals.rows()])
        self.assertTrue(all(sum(row["for"].values()) + row["for_others"] == row["count"] for row in whole["refused"]))
        self.assertEqual(whole["first_time"], frames.time_of(whole["first"]))
        lines = []
        with open(CASE[5], encoding="ascii") as file:
            for line in file:
                number, side, moment, verdict, count, *_ = line.split() + [""] * 4
                lines.append(
                    f'{{"event":{number},"frames":{count},"moment":{moment},"side":"{side}","verdict":"{verdict}"}}\n' if number != "done" else line
                )
        lines[-1] = '{"done":true,"events":2}\n' if lines[-1].startswith("done") else lines[-1]
        again = json.loads(said(*EXPLAIN, "--json", *CASE[:5], self.write("report.json", "".join(lines)))[1])
        self.assertEqual({**again, "end": ""}, {**whole, "end": ""})

    def test_statics(self) -> None:
        """With the aliases as statics the settings are right, and the same hosts have the same aliases for good: by tables, and as new settings
        wherever the old ones keep their statics."""
        status, tables = said(*EXPLAIN, "--statics", *INPUTS, *OUTPUTS)
        with open(INPUTS[0], encoding="ascii") as file:
            text = file.read()
        self.assertEqual(status, 0)
        rows = [row for row in tomllib.loads(text)["static"]]
        inline = "static = [" + ", ".join("{ " + ", ".join(f'{key} = "{value}"' for key, value in row.items()) + " }" for row in rows) + "]\n"
        short = self.write("short.toml", inline + re.sub(r"(?s)\[\[static\]\].*?(?=\n\[|\Z)", "", text))
        for settings in (INPUTS[0], short):
            self.assertEqual(said(*EXPLAIN, "--settings", f"{self.room}/new.toml", settings, *INPUTS[1:], *OUTPUTS), (0, ""))
            self.assertEqual(said(*CHECK, "--brief", f"{self.room}/new.toml"), (0, ""))
            with open(settings, "rb") as old, open(f"{self.room}/new.toml", "rb") as new:
                before, after = tomllib.load(old), tomllib.load(new)
            self.assertEqual({**before, "static": 0}, {**after, "static": 0})
            self.assertEqual(after["static"], rows + tomllib.loads(tables)["static"])
        self.assertIn({"side": "left", "host": "10.0.0.77", "alias": "172.16.9.2"}, after["static"])

    def test_statics_fill_half_of_a_pool(self) -> None:
        """Hosts that were used once get none, and the others at most half of a pool."""
        story = story_of(*CASE)
        self.assertTrue(all(one.uses > 1 and not one.fixed for one in explain.worth_keeping(story)))
        story.table.pools[0].last = story.table.pools[0].first + 19
        self.assertEqual(sum(one.side == 1 for one in explain.worth_keeping(story)), 10 - story.table.pools[0].fixed)

    def test_words(self) -> None:
        """Words that can't be meant are told, and nothing is written."""
        page = f"{self.room}/page"
        for words, line in (
            ([*INPUTS, *OUTPUTS[:2], "/dev/null"], "REPORT is /dev/null, where nothing is left to read. Run again, with a file for it"),
            ([*INPUTS, "/dev/null", *OUTPUTS[1:]], "LEFT_OUT is /dev/null, where nothing is left to read. Run again, with a file for it"),
            (["-", *INPUTS[1:], *OUTPUTS], "SETTINGS: only REPORT may be -. Write /dev/stdin for a pipe, and ./- for a file"),
            (["--html", page, "--pcapng", page, *INPUTS, *OUTPUTS], f"{page} is named for two outputs"),
            ([INPUTS[1], *INPUTS[1:], *OUTPUTS], f"{INPUTS[1]} has faults: 'rendapil check' tells them"),
            ([*INPUTS, *OUTPUTS[:2], f"{self.room}/absent"], f"{self.room}/absent: No such file or directory"),
            ([*INPUTS, *OUTPUTS[:2], self.room], f"{self.room}: Is a directory"),
            (["--pcapng", f"{self.room}/absent/x", *INPUTS, *OUTPUTS], f"{self.room}/absent/x: No such file or directory"),
        ):
            self.assertEqual(said(*EXPLAIN, *words), (1, f"rendapil explain: {line}\n"))
        self.assertEqual(os.listdir(self.room), [])
        status, text = said(*EXPLAIN, "--help")
        self.assertEqual((status, "The status is 0, or 1" in " ".join(text.split())), (0, True))

    def test_other_files(self) -> None:
        """Files of two runs are told, and not believed."""
        for words, line in (
            ([*INPUTS, OUTPUTS[1], OUTPUTS[1], f"{LIVE}/report.txt"], "event 1: the frame of LEFT_IN"),
            ([INPUTS[0], INPUTS[2], INPUTS[1], *OUTPUTS], "event 1: the frame of LEFT_IN"),
            ([*INPUTS, OUTPUTS[0], OUTPUTS[0], OUTPUTS[2]], "RIGHT_OUT"),
            ([*INPUTS, OUTPUTS[2], *OUTPUTS[1:]], f"{OUTPUTS[2]} is no capture"),
            ([*INPUTS, *OUTPUTS[:2], INPUTS[1]], "line 1 is none that a run writes. Is it a report?"),
        ):
            status, text = said(*EXPLAIN, *words)
            self.assertEqual((status, text.count("\n"), line in text), (1, 1, True), text)
            self.assertTrue(text.startswith("rendapil explain: these aren't files of one run: "))

    def test_frames_of_no_gateway(self) -> None:
        """A frame without a datagram neither passes a gateway nor is sent by one."""
        for name, does in (("left.pcap", "passes"), ("right-out.pcap", "sends")):
            paths = write_run(self.room, [Happened(0, 17, b"came", b"went")])
            with open(f"{self.room}/{name}", "r+b") as file:
                file.seek(24 + 16)
                file.write(b"\x65")
            status, text = said(*EXPLAIN, *paths)
            self.assertEqual((status, f"{name}, has a frame that no gateway {does}" in text), (1, True), text)

    def test_where_it_writes(self) -> None:
        """A reader that has enough ends it quietly; a full disk is told; Python 3.10 is told."""
        with subprocess.Popen([*EXPLAIN, "--events", *CASE], stdout=subprocess.PIPE, stderr=subprocess.PIPE) as command:
            assert command.stdout and command.stderr
            command.stdout.readline()
            command.stdout.close()
            self.assertEqual((command.stderr.read(), command.wait()), (b"", -13))
        with open("/dev/full", "wb") as full:
            done = subprocess.run([*EXPLAIN, *CASE], stdout=full, stderr=subprocess.PIPE, text=True, check=False)
        self.assertEqual((done.returncode, done.stderr), (1, "rendapil explain: standard output: No space left on device\n"))

    def test_colours(self) -> None:
        """Reasons are red on a terminal, unless NO_COLOR or TERM say otherwise."""
        cases: list[tuple[dict[str, str], bool]] = [({}, True), ({"NO_COLOR": "1"}, False), ({"TERM": "dumb"}, False)]
        for names, is_red in cases:
            try:
                own, other = pty.openpty()
            except OSError:
                self.skipTest("there is no pseudo-terminal")
            kept = {name: value for name, value in os.environ.items() if name != "NO_COLOR"}
            subprocess.run([*EXPLAIN, *INPUTS, *OUTPUTS], env={**kept, "TERM": "xterm", **names}, stdout=other, check=True)
            os.close(other)
            text = b""
            with contextlib.suppress(OSError):
                while part := os.read(own, 65536):
                    text += part
            os.close(own)
            self.assertEqual(b"\033[31mNoBinding" in text, is_red)

    def test_many_hosts_are_summed(self) -> None:
        """Of more hosts than are kept the rarest are summed, so that all counts stay right; so are the destinations of one."""
        refusals = stories.Refusals()
        frame = Record(1, 101, b"x", 1)

        def refused(number: int, host: int, to: int) -> None:
            one = datagram(f"10.1.{host >> 8}.{host & 255} > 10.2.0.{to}", 17, b"")
            refusals.take(frames.Event(number, 0, number, "NoBinding", frame, one, [], []))

        with mock.patch.object(stories, "HOSTS", 10):
            for number in range(1, 1001):
                refused(number, number % 500 if number % 2 else 0, number % 40)
            rows = refusals.rows()
        self.assertEqual((rows[0][2], rows[0][3].count, rows[0][3].where()), ("10.1.0.0", 500, "10.2.0.2 and many more"))
        self.assertEqual((sum(row.count for *_, row in rows), len(rows)), (1000, 11))
        self.assertRegex(rows[-1][2], "^[0-9]+ other hosts$")

    def test_many_bindings(self) -> None:
        """Of bindings that ended those with the most uses are kept."""
        story = story_of(INPUTS[0], *INPUTS[1:], *OUTPUTS)
        with mock.patch.object(stories, "ENDED", 5):
            story._most = 0
            for number in range(100):
                story._bound(bindings.Binding(0, number, 1, False, uses=number + 1))
            kept = sorted(one.uses for one in story.bindings if one.alias == 1)
        self.assertEqual((kept[-5:], len(kept) + story.left_out), ([96, 97, 98, 99, 100], 100))
        self.assertLess(len(kept), 50)


class Damaged(InRoom):
    """Files that no run wrote."""

    FORMS: tuple[list[str], ...] = ([], ["--json"], ["--events"], ["--pcapng", "PCAPNG"], ["--statics"])

    def asked(self, words: list[str]) -> tuple[object, str]:
        """Status, or the line that it ends with, and output of the command, in this process."""
        out = io.StringIO()
        with mock.patch.object(sys, "argv", ["rendapil explain", *words]), contextlib.redirect_stdout(out), contextlib.redirect_stderr(out):
            try:
                status: object = explain.main()
            except SystemExit as end:
                status = end.code if end.code != 1 else out.getvalue().splitlines()[-1]
        return status, out.getvalue()

    def test_octets_that_changed(self) -> None:
        """Whatever is changed in them: the status is 0, or one line tells why not."""
        chance = random.Random(20261130)
        whole = []
        for path in (*INPUTS, *OUTPUTS):
            with open(path, "rb") as file:
                whole.append(file.read())
        for turn in range(200):
            files = [bytearray(octets) for octets in whole]
            for _ in range(chance.choice((1, 1, 3, 30))):
                one = files[chance.randrange(1, 6)]
                at = chance.randrange(len(one))
                if chance.random() < 0.2:
                    del one[at : at + chance.choice((1, 16, 400))]
                else:
                    one[at] = chance.choice((0, 255, 0x80, one[at] ^ 1 << chance.randrange(8)))
            paths = [self.write(name, bytes(octets)) for name, octets in zip(NAMES, files)]
            form = [word.replace("PCAPNG", f"{self.room}/run.pcapng") for word in self.FORMS[turn % len(self.FORMS)]]
            status, text = self.asked([*form, *paths])
            self.assertTrue(status == 0 or isinstance(status, str) and status.isprintable() and "a fault of this tool" not in status, status)
            self.assertNotRegex(text, r"[\x00-\x08\x0b-\x1f]|Traceback")

    def test_faults_of_the_tool(self) -> None:
        """What nobody foresaw is told in one line, with its place."""

        def ends(*_: object) -> None:
            raise KeyError

        with mock.patch.object(explain, "tell", ends):
            status, _ = self.asked([*INPUTS, *OUTPUTS])
        self.assertRegex(
            str(status), r"^rendapil explain: a fault of this tool, and not of your files: KeyError at test_explain.py:\d+. Please report it$"
        )

    def test_reports(self) -> None:
        """A report that says what no run says is refused, whatever octets it has."""
        files = write_run(self.room, session(21, (b"NOOP\r\n", b"NOOP\r\n")))
        for report in (
            b"1 left 1000000000 \x1b[2J 1\n",
            b"1 left 1000000000 pass 1\n\x1b]0;owned\x07\n",
            b"1 left 99999999999999999999 pass 1\n",
            b"1 left 9999999999999999999 pass 1\n",
            b'{"event":' + b"[" * 100_000 + b"\n",
            b"1 left 1000000000 pass 1\n" + b"x" * 10_000_000,
            b"2 left 1000000000 pass 1\n",
            b"1 left 1000000000 pass 999999999\n",
            b"".join(b"%d left 1000000000 V%d 0\n" % (number, number) for number in range(1, 100)),
        ):
            status, text = said(*EXPLAIN, *files[:5], self.write("other.txt", report))
            self.assertEqual((status, text.count("\n"), text.isascii() and text[:-1].isprintable()), (1, 1, True), text[:300])
        cut = self.write("cut.txt", b"1 left 1000000000 pass 1\n2 right 20000")
        self.assertIn("no last line: the run didn't come to the ends", said(*EXPLAIN, *files[:5], cut)[1])

    def test_long_records(self) -> None:
        """A record that is said to have 4 GB takes no memory."""
        files = write_run(self.room, session(21, (b"NOOP\r\n", b"NOOP\r\n")))
        with open(files[1], "r+b") as file:
            file.seek(24 + 8)
            file.write(b"\xff\xff\xff\xff")
        status, text = said("bash", "-c", 'ulimit -v 400000; exec "$@"', "bash", *EXPLAIN, *files)
        self.assertEqual((status, "has a record of 4294967295 bytes: none may have more than 262144" in text), (1, True), text)

    def test_names(self) -> None:
        """Control characters in the names of files are escaped."""
        name = f"{self.room}/a\x1b[2J\n\udcff"
        status, text = said(*EXPLAIN, name, *INPUTS[1:], *OUTPUTS)
        self.assertEqual((status, text), (1, f"rendapil explain: {self.room}/a\\x1b[2J\\n\\xff: No such file or directory\n"))


class Parsed(HTMLParser):
    """A page: its tags, its text without its script, and where it refers to."""

    def __init__(self, path: str) -> None:
        super().__init__()
        self.tags: list[str] = []
        self.links: list[str] = []
        self.text = ""
        with open(path, encoding="utf-8") as file:
            self.feed(file.read())

    def handle_starttag(self, tag: str, attrs: list[tuple[str, str | None]]) -> None:
        """Notes a tag."""
        self.tags.append(tag)
        self.links += [value or "" for name, value in attrs if name in ("href", "src", "action", "style") or name.startswith("on")]

    def handle_data(self, data: str) -> None:
        """Notes text."""
        self.text += data if self.tags[-1:] not in (["script"], ["style"]) else ""


@unittest.skipUnless(HAS_JINJA, "there is no python3-jinja2")
class Page(InRoom):
    """What --html writes."""

    def setUp(self) -> None:
        """A folder with a place for a page."""
        super().setUp()
        self.page = f"{self.room}/run.html"

    def write_page(self, *files: str) -> Parsed:
        """The page of a run."""
        self.assertEqual(said(*EXPLAIN, "--html", self.page, *files), (0, ""))
        with open(self.page, "rb") as file:
            self.assertNotRegex(file.read(), rb"[\x00-\x09\x0b-\x1f\x7f]")
        return Parsed(self.page)

    def dom(self, place: str = "") -> str:
        """What a browser makes of it, at a place of it."""
        browser = shutil.which("chromium")
        if not browser:
            self.skipTest("there is no chromium")
        words = [
            browser,
            "--headless",
            "--no-sandbox",
            "--disable-gpu",
            f"--user-data-dir={self.room}/browser",
            "--dump-dom",
            f"file://{self.page}{place}",
        ]
        return subprocess.run(words, stdout=subprocess.PIPE, stderr=subprocess.DEVNULL, text=True, check=False, timeout=120).stdout

    def test_says_what_the_table_says(self) -> None:
        """Each row of what was refused, and each binding, is there; it needs no other file."""
        page, story = self.write_page(*CASE), story_of(*CASE)
        self.assertTrue(all(link.startswith("#") for link in page.links), page.links)
        for verdict, side, host, _ in story.refusals.rows():
            self.assertIn(f"{side} {host}", page.text)
            self.assertIn(verdict, page.text)
        for one in story.used():
            self.assertIn(str(IPv4Address(one.alias)), page.text)
        self.assertIn("2,225 frames", page.text)
        self.assertLess(os.path.getsize(self.page), 1_000_000)

    def test_what_is_hostile_stays_text(self) -> None:
        """Octets of the captures and names of files become no tag and no control character, in Python's parser and in a browser."""
        name = b"\x3f<script>x</script>\x1b[2J"
        lines, message = (b"USER " + HOSTILE + b"\r\n",) * 2, (struct.pack(">H", len(named(name))) + named(name),) * 2
        tags = self.write_page(*CASE).tags
        files = write_run(self.room, session(21, lines), ("s", "<b>left&.pcap", "r\x1b[2J", "lo\"'>", "ro{{ 7 * 7 }}", "re\udc9b"))
        page = self.write_page(*files)
        self.assertEqual((page.tags.count("script"), page.tags.count("img"), set(page.tags) - set(tags)), (1, 0, set()))
        self.assertIn("<script>document.title='owned'</script>", page.text)
        self.assertIn("\\x1b]0;owned\\x07 {{ 7 * 7 }} \\xff\\x9b", page.text)
        self.assertIn("<b>left&.pcap", page.text)
        self.assertIn("r\\x1b[2J", page.text)
        self.assertIn("<title>Rendapil: a run of 4 frames</title>", self.dom())
        page = self.write_page(*write_run(self.room, session(53, message)))
        self.assertEqual((page.tags.count("script"), "<script>x</script>\\x1b[2J" in page.text), (1, True))

    def test_files_of_the_run_stay(self) -> None:
        """Nothing is written over a file of the run, and what was there stays where the page can't be made."""
        files = write_run(self.room, session(21, (b"NOOP\r\n", b"NOOP\r\n")))
        os.link(files[1], f"{self.room}/other-name")
        for way in ("--html", "--pcapng", "--settings"):
            for name in (files[1], f"{self.room}/other-name"):
                self.assertEqual(said(*EXPLAIN, way, name, *files), (1, f"rendapil explain: {name} is a file of the run, and would be overwritten\n"))
        self.write_page(*files)
        size = os.path.getsize(self.page)
        self.assertEqual(said(*EXPLAIN, "--html", self.page, *files[:5], CASE[5])[0], 1)
        self.assertEqual((os.path.getsize(self.page), [name for name in os.listdir(self.room) if name.startswith(".")]), (size, []))

    def test_secrets_are_hidden(self) -> None:
        """What follows PASS isn't told, in no form, even where the line came in parts."""
        for word in ("PASS", "pass"):
            parts = (
                f"{word} sec".encode(),
                b"ret\r\n",
                f"{word} secret\r\n".encode(),
                word[:2].encode(),
                word[2:].encode(),
                b" ",
                b"sec",
                b"ret\r\n",
                b"NOOP\r\n",
            )
            happened = session(21, *((part, part) for part in parts))
            files = write_run(self.room, [*happened, happened[4], happened[-2]])  # two of them once more
            page = self.write_page(*files)
            self.assertIn(f"{word} (hidden)", page.text)
            self.assertIn("NOOP", page.text)
            self.assertNotRegex(page.text, "sec|ret\\b")
            self.assertNotIn("secret", said(*EXPLAIN, "--events", *files)[1])

    def test_filter_in_a_browser(self) -> None:
        """The words behind #q= leave the rows that have them all."""
        self.write_page(*CASE)
        dom = self.dom("#q=TtlSpent%20left")
        self.assertRegex(dom, r'<output id="found"[^>]*>3 of [0-9]+ rows</output>')

    def test_size_is_bounded(self) -> None:
        """However much is said in its sessions."""
        line = b"<" * 505 + b"\r\n"
        happened = [one for _ in range(50) for one in session(21, *((line, line),) * 40)]
        self.write_page(*write_run(self.room, happened))
        self.assertLess(os.path.getsize(self.page), 1_000_000)


class Lines(InRoom):
    """What --events and --pcapng write."""

    def test_events(self) -> None:
        """A line for each frame, with a time that can be read."""
        status, text = said(*EXPLAIN, "--events", *INPUTS, *OUTPUTS)
        lines = [json.loads(line) for line in text.splitlines()]
        self.assertEqual((status, len(lines), lines[13]["event"]), (0, 53, 14))
        self.assertEqual(lines[13]["lines"], {"came": ["PORT 10,0,0,77,156,168"], "sent": ["PORT 172,16,9,2,156,168"]})
        self.assertEqual(datetime.fromisoformat(lines[13]["timestamp"]).timestamp(), 1700000001.4)
        self.assertEqual([line["verdict"] for line in lines if line["action"] == "refused"], ["NoBinding"])

    def test_hostile_events(self) -> None:
        """They are one line of ASCII each."""
        question = struct.pack(">HHHH", 4000, 53, 0, 0) + named(b'\x1b]0;owned\x07\n"')
        answer = question[:-5] + b"x" + question[-4:]
        files = write_run(self.room, [*session(21, (HOSTILE + b"\r\n", b"\x1b" + HOSTILE + b"\r\n")), Happened(0, UDP, question, answer)])
        status, text = said(*EXPLAIN, "--events", *files)
        self.assertEqual((status, [json.loads(line)["event"] for line in text.splitlines()]), (0, [1, 2, 3, 4, 5]))
        self.assertTrue(text.isascii() and all(line.isprintable() for line in text.splitlines()))

    def test_long_events(self) -> None:
        """What a frame says has a bound, however long it is in words."""
        name = b"\x3f" + b"\x01" * 63 + b"\x3f" + b"\x02" * 63 + b"\0"
        records = name + struct.pack(">HHIH", 16, 1, 0, 0) + (b"\xc0\x0c" + struct.pack(">HHIH", 16, 1, 0, 0)) * 38
        answer = struct.pack(">HHHH", 53, 4000, 0, 0) + struct.pack(">6H", 7, 0x8180, 0, 39, 0, 0) + records
        files = write_run(self.room, [Happened(0, UDP, answer, answer[:-6] + b"\0\0\0\x09\0\0")])
        status, text = said(*EXPLAIN, "--events", *files)
        line = json.loads(text)
        self.assertEqual(status, 0)
        self.assertRegex(line["lines"]["came"][-1], r"^and 3\d lines more$")
        self.assertLess(len(text), 12_000)

    @unittest.skipUnless(shutil.which("tshark"), "there is no tshark")
    def test_pcapng(self) -> None:
        """Wireshark reads all frames in the run's order, with their interfaces and comments, hostile ones too."""
        self.assertEqual(said(*EXPLAIN, "--pcapng", f"{self.room}/run.pcapng", *CASE), (0, ""))
        rows = self.read_back()
        self.assertEqual([sum(row[0] == name for row in rows) for name in ("left-in", "right-in", "left-out", "right-out")], [1050, 1175, 1156, 1025])
        times = [row[1] for row in rows]
        self.assertEqual(sorted(times), times)
        self.assertEqual(sum("NoBinding" in row[2] for row in rows), 2)
        files = write_run(self.room, session(21, (HOSTILE + b"\r\n", b"\x1b" + HOSTILE + b"\r\n")))
        self.assertEqual(said(*EXPLAIN, "--pcapng", f"{self.room}/run.pcapng", *files), (0, ""))
        self.assertIn("\\x1b]0;owned\\x07 {{ 7 * 7 }} \\xff\\x9b", self.read_back()[-2][2].replace("\\\\", "\\"))

    def read_back(self) -> list[list[str]]:
        """Interface, time and comment of each frame, as tshark reads them."""
        words = ["-T", "fields", "-e", "frame.interface_name", "-e", "frame.time_epoch", "-e", "frame.comment"]
        told = subprocess.run(["tshark", "-r", f"{self.room}/run.pcapng", *words], capture_output=True, text=True, check=True).stdout
        return [line.split("\t") for line in told.splitlines()]

    @unittest.skipUnless(os.path.exists(f"{TOP}/crates"), "the crates stand in a checkout alone")
    def test_each_verdict_is_told(self) -> None:
        """REPORT.md has what to do for each refusal that the program knows."""
        if not os.path.exists(source := f"{TOP}/crates/verdicts/src/refusal.rt"):
            self.skipTest("only a checkout has the crates")
        with open(source, encoding="utf-8") as file:
            names = set(re.findall(r"^    ([A-Z][A-Za-z0-9]+),", file.read(), re.MULTILINE))
        self.assertEqual(set(frames.verdicts_of()), names)

    def test_parts(self) -> None:
        """Parts of a range join as it grows, and count each place once."""
        parts = collected.Parts()
        for place in range(7, 5000, 3):
            parts.reach(place, lambda _: [0, 0]).counts["pass"] += 1
        self.assertEqual((parts.start, sum(part.counts["pass"] for part in parts.parts)), (7, len(range(7, 5000, 3))))
        self.assertLessEqual(len(parts.parts), collected.PARTS)
