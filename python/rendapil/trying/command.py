"""What if the hosts of an ordinary capture were two realms? Writes settings and the two captures that
a gateway between them would take, runs the gateway, and tells. Without --left it lists who speaks with whom, and what to type next. It
needs scapy, and for the page jinja2 (Debian: python3-scapy, python3-jinja2)."""
import argparse
import contextlib
import json
import os
import shlex
import shutil
import subprocess
import sys
import tempfile
import time
from collections.abc import Iterable, Iterator
from importlib.util import find_spec
from typing import BinaryIO

from rendapil.ending import ended
from rendapil.files import Damaged, Record, shown
from rendapil.kinds import PACKED
from rendapil.other_python import debian_has, has
from rendapil.places import TOP
from rendapil.public import public_blocks
from rendapil.readers import BY_EXPLAIN, PCAPNG, NoCapture
from rendapil.sayings import Fault, called, quoted
from rendapil.trying.listing import tell_pairs
from rendapil.trying.reading import records
from rendapil.trying.telling import again_of, lost_fragments, notes_of, tell_limits, tell_needs, tell_realms, tell_verdicts, verdicts_in
from rendapil.trying.two_realms import TwoRealms, block_of, write_captures

NAMES = ("settings.toml", "left.pcap", "right.pcap", "left-out.pcap", "right-out.pcap", "report.txt", "run.html", "run.pcapng")

# The command.


def parsed() -> argparse.Namespace:
    """The words of the command."""
    end = "The status is 0, or 1 where the capture can't be read or no frame passes, or 2 where the words are wrong, or that of the run."
    parser = argparse.ArgumentParser(prog="rendapil try", description=__doc__, epilog=end)
    parser.add_argument("capture", metavar="CAPTURE", help="a capture as pcap or pcapng, packed by gzip or not, of any interface")
    parser.add_argument("--left", metavar="BLOCK", nargs="+", type=block_of, default=[], help="addresses of the left realm, as 10.1.0.0/16")
    parser.add_argument("--same", metavar="BLOCK", nargs="+", type=block_of, default=[], help="addresses that cross unchanged")
    parser.add_argument("--public", action="store_true", help="public addresses get aliases too, and don't mean the same hosts in both realms")
    parser.add_argument("--pool", metavar="COUNT", type=int, help="pools of so many addresses, and statics only for hosts that others contact first")
    parser.add_argument("--keep-sums", action="store_true", help="keep wrong checksums, as offloading leaves them: such frames are refused")
    parser.add_argument("--keep-cut", action="store_true", help="keep frames that the capture has cut as they are: they are refused")
    parser.add_argument("--out", metavar="FOLDER", default="rendapil-try", help="where the files go (rendapil-try)")
    parser.add_argument("--program", help=argparse.SUPPRESS)
    words, more = parser.parse_known_args()
    if more and os.path.exists(more[0]):
        parser.error(f"{shown(more[0])}: try takes one capture. Of two networks: '{called()} plan {quoted(words.capture)} {quoted(more[0])}'")
    if more:
        parser.error(f"unrecognized arguments: {shown(' '.join(more))}")
    if words.pool is not None and not 1 <= words.pool <= 65_534:
        parser.error("--pool: a pool has 1 to 65534 addresses")
    return words


def opened(capture: str) -> contextlib.AbstractContextManager[BinaryIO]:
    """A capture, or standard input."""
    if capture == "-":
        return contextlib.nullcontext(sys.stdin.buffer)
    return open(capture, "rb")


@contextlib.contextmanager
def readable_twice(capture: str) -> Iterator[str]:
    """A capture as a file: what comes from a pipe is copied."""
    if os.path.isfile(capture):
        yield capture
        return
    if os.path.isdir(capture):
        raise IsADirectoryError(21, "Is a directory", capture)
    with tempfile.NamedTemporaryFile(prefix="rendapil-") as copy, opened(capture) as file:
        shutil.copyfileobj(file, copy)
        copy.flush()
        yield copy.name


def refuse_overwriting(paths: Iterable[str], capture: str) -> None:
    """Ends where a file that is to be written is the capture."""
    for path in paths:
        if os.path.exists(path) and os.path.exists(capture) and os.path.samefile(path, capture):
            raise Fault(f"{shown(path)} is the capture itself, and would be overwritten: give another folder by --out")


def watched(capture: str, what: str) -> Iterator[Record]:
    """The frames of a capture. Where somebody looks on, a line on the terminal tells once a second how many were taken."""
    if not sys.stderr.isatty():
        yield from records(capture)
        return
    told = time.monotonic()
    for number, frame in enumerate(records(capture)):
        if not number % 1024 and time.monotonic() >= told + 1:
            told = time.monotonic()
            print(f"\r\033[Krendapil try: {number:,} frames {what}\r", end="", file=sys.stderr, flush=True)
        yield frame
    print("\033[K", end="", file=sys.stderr, flush=True)


def realms_of(words: argparse.Namespace, capture: str) -> TwoRealms:
    """The two realms of a capture."""
    same = words.same + ([] if words.public else public_blocks(words.left))
    realms = TwoRealms(words.left, same, not words.keep_sums, words.pool or 0, not words.keep_cut)
    realms.survey(watched(capture, "looked at"))
    if not realms.crossed:
        raise Fault(
            f"no frame of {shown(words.capture)} goes from one realm to the other: '{called()} try {quoted(words.capture)}' lists who speaks with whom"
        )
    return realms


def files_in(words: argparse.Namespace) -> dict[str, str]:
    """The files of a try, none of which is the capture. The page and its capture are taken away, since they would be of an earlier one."""
    os.makedirs(words.out, exist_ok=True)
    files = {name: os.path.join(words.out, name) for name in NAMES}
    refuse_overwriting(files.values(), words.capture)
    for name in ("run.html", "run.pcapng"):
        with contextlib.suppress(FileNotFoundError):
            os.unlink(files[name])
    return files


def try_it(words: argparse.Namespace, capture: str) -> int:
    """Makes two realms, runs the gateway between them, and tells. The status."""
    realms = realms_of(words, capture)
    files = files_in(words)
    with open(files["settings.toml"], "w", encoding="ascii") as file:
        file.write(realms.settings())
    counts = write_captures([files["left.pcap"], files["right.pcap"]], realms.crossing(watched(capture, "written for the gateway")))
    tell_realms(realms, counts, words.out)
    sys.stdout.flush()
    run = [files[name] for name in NAMES[:6]]
    command = [words.program] if words.program else [TOP / "rendapil", "--quiet"]  # what a run hints at isn't for a try
    status = subprocess.run([*command, "run", *run], check=False).returncode
    if status:
        return status
    verdicts = verdicts_in(files["report.txt"])
    lost = lost_fragments(files["left.pcap"], files["right.pcap"], files["report.txt"]) if verdicts["held"] else 0
    tell_verdicts(verdicts, lost)
    tell_limits(verdicts, realms, again_of(called(), words.capture, words.left))
    tell_needs(realms)
    print(flush=True)
    with tempfile.NamedTemporaryFile("w", prefix="rendapil-", encoding="utf-8") as notes:
        json.dump(notes_of(realms, verdicts, lost, shlex.join([called(), "try", *sys.argv[1:]])), notes)
        notes.flush()
        return shown_by_explain(words, files, run, notes.name) or int(not verdicts["pass"] and verdicts.total() > 0)


def shown_by_explain(words: argparse.Namespace, files: dict[str, str], run: list[str], notes: str) -> int:
    """Tells what breaks, and writes the page and the capture with comments. The status."""
    page = ["--html", files["run.html"]] if find_spec("jinja2") or debian_has("jinja2") else []
    about = ["--of", os.path.basename(words.capture) if words.capture != "-" else "standard input", "--notes", notes]
    forms = [*page, *about, "--payloads", "--pcapng", files["run.pcapng"]]
    status = subprocess.run([TOP / "rendapil", "explain", *forms, *run], check=False).returncode
    look = f"open {shown(files['run.html'])} in a browser" if page else "for a page with pictures: apt-get install python3-jinja2"
    print(f"\nNext: {look}; {shown(files['run.pcapng'])} is for Wireshark, and {shown(files['settings.toml'])} has the settings.")
    return status


def refuse_unfit(capture: str, name: str) -> None:
    """Ends where a capture is packed in a way that has to be undone first, or is what a try wrote of both sides."""
    with open(capture, "rb") as file:
        head = file.read(256)
    if head.startswith(PCAPNG) and BY_EXPLAIN in head:
        raise Fault(f"{shown(name)} has both sides of an earlier run, each frame twice: give the capture that this was made of")
    for begin, (what, command) in PACKED.items():
        if head.startswith(begin) and what != "gzip":
            raise Fault(f"{shown(name)} is packed by {what}. Unpack it: {command} {quoted(name)} | {called()} try -")


def try_or_list(words: argparse.Namespace) -> int:
    """Tries a capture, or lists who speaks with whom. The status."""
    if not has("scapy"):
        raise Fault("this needs scapy: apt-get install python3-scapy")
    try:
        with readable_twice(words.capture) as capture:
            refuse_unfit(capture, words.capture)
            if words.left:
                return try_it(words, capture)
            tell_pairs(capture, words.capture, called(), words.program, not words.public)
            return 0
    except NoCapture:
        raise Fault(f"{shown(words.capture)} is no capture") from None
    except Damaged as error:
        raise Fault(f"{shown(words.capture)} is no capture that can be read: {error}") from None


def main() -> int:
    """Reads the words, and does it. The status."""
    words = parsed()
    return ended("try", lambda: try_or_list(words), file=words.capture)


if __name__ == "__main__":
    sys.exit(main())
