"""Who had which alias and when, how full the pools were, and what was refused, of which hosts. Takes the words of `rendapil run` with the files as they are. For --html it needs jinja2
(Debian: python3-jinja2)."""
import argparse
import contextlib
import json
import os
import sys
import time
import tomllib
from collections.abc import Callable, Iterable
from dataclasses import asdict
from ipaddress import IPv4Address
from typing import TYPE_CHECKING

from rendapil.bindings import Binding, Pool
from rendapil.numbers import SECOND, SIDES
from rendapil.check.settings import document_of
from rendapil.ending import ended, put_in_place, written
from rendapil.explain.notes import NONE, Notes
from rendapil.explain.story import Row, Story, named
from rendapil.files import Capture, shown
from rendapil.frames import second_of, time_of, verdicts_of
from rendapil.sayings import Fault
from rendapil.settings_text import statics

if TYPE_CHECKING:
    from rendapil.explain.changes import Changes, Named
    from rendapil.payloads.scan import Scan

SHOWN, SHOWN_BINDINGS = 20, 1000
"""The most rows of what was refused, and of bindings, that are shown as text."""

FILES = {
    "settings": "the settings of the run",
    "left_in": "the capture of what the left realm sent",
    "right_in": "that of what the right realm sent",
    "left_out": "the capture of what the gateway sent to the left realm",
    "right_out": "that of what it sent to the right realm",
    "report": "the report, or - for standard input",
}


# As text.


def clock(moment: int) -> str:
    """A moment in words, to the second, of UTC."""
    return second_of(moment // SECOND).replace("T", " ")


def coloured(text: str) -> str:
    """A reason in red, where it is for somebody who looks on, and who didn't refuse colours."""
    is_plain = not sys.stdout.isatty() or os.environ.get("NO_COLOR") or os.environ.get("TERM") == "dumb"
    return text if is_plain else f"\033[31m{text}\033[0m"


def tell_pool(side: str, pool: Pool) -> None:
    """How large a pool is, and how full it was."""
    print(f"\nPool of the {side} realm, {IPv4Address(pool.first)} to {IPv4Address(pool.last)}: {pool.size} addresses, {pool.fixed} of them fixed")
    if pool.most > pool.fixed:
        print(f"At most {pool.most} were taken, {100 * pool.most // pool.size} %, first at {clock(pool.most_at)}")


def tell_bindings(story: Story) -> None:
    """Who had which alias."""
    used = story.used()
    rows = (
        used
        if len(used) <= SHOWN_BINDINGS
        else sorted(sorted(used, key=lambda one: -one.uses)[:SHOWN_BINDINGS], key=lambda one: (one.side, one.host, one.first))
    )
    if rows:
        print(f"\n{'Host':22}{'Alias on the other side':25}{'First use':21}{'Last use':19}{'Uses':>9}")
    for one in rows:
        way = "fixed" if one.fixed else "by use"
        print(
            f"{SIDES[one.side]:6}{IPv4Address(one.host)!s:16}{IPv4Address(one.alias)!s:16}{way:9}{clock(one.first):21}{clock(one.last)}{one.uses:9}"
        )
    if len(rows) < len(used) + story.left_out:
        print(f"and {len(used) + story.left_out - len(rows)} bindings more with fewer uses: --json gives {len(used)}")


def tell_refusals(story: Story) -> None:
    """What was refused, and of whom."""
    rows = story.refusals.rows()
    print(f"\nFrames refused: {sum(row.count for *_, row in rows)}")
    if story.heartbeats:
        print(f"Records without bytes, as a pump sends them: {story.heartbeats}")
    if rows:
        print(f"\n{'Count':>8}  {'Reason':14}{'Host':22}{'For':34}{'First':21}Last")
    shown_rows = story.refusals.rows(SHOWN)
    for verdict, side, host, row in shown_rows:
        print(f"{row.count:8}  {coloured(f'{verdict:14}')}{side:6}{host:15} {row.where():34}{clock(row.first):21}{clock(row.last)}")
    if len(rows) > len(shown_rows):
        print(f"and {len(rows) - len(shown_rows)} rows more: --json gives all")


def tell_payloads(scan: "Scan", changes: "Changes | None" = None, cut: int = 0) -> None:
    """Which DNS answers were changed, where that is asked for, and which applications have addresses in their payloads that the gateway leaves alone. So
    many frames were cut."""
    from rendapil.explain.changes import lines_of as lines_of_changes
    from rendapil.payloads.scan import lines_of

    if changes and (changed := list(lines_of_changes(changes))):
        print(*changed, sep="\n", end="\n\n")
    print(*lines_of(scan, cut), sep="\n")


def tell(story: Story, scan: "Scan") -> None:
    """All of it as text."""
    print(story.end)
    print(f"{clock(story.first)} to {clock(story.last)} UTC" if story.first else "no events")
    for side, pool in zip(SIDES, story.table.pools):
        tell_pool(side, pool)
    tell_bindings(story)
    tell_refusals(story)
    print()
    tell_payloads(scan)
    if missed := story.missed + story.table.missed:
        print(f"\nFrames that could not be followed: {missed}. What is said of bindings may be wrong from the first of them on")


# As JSON.


def times(row: object, *names: str) -> dict[str, str | None]:
    """Moments as RFC 3339 writes them: jq and browsers round numbers of 19 digits."""
    return {f"{name}_time": time_of(getattr(row, name)) if getattr(row, name) else None for name in names}


def binding_row(one: Binding) -> dict[str, object]:
    """A binding as JSON."""
    return {
        **asdict(one),
        "side": SIDES[one.side],
        "host": str(IPv4Address(one.host)),
        "alias": str(IPv4Address(one.alias)),
        **times(one, "first", "last"),
    }


def refused_row(verdict: str, side: str, host: str, row: Row) -> dict[str, object]:
    """A row of what was refused as JSON."""
    to = {named(one): count for one, count in row.to.items()}
    whole = {"reason": verdict, "side": side, "host": host, "count": row.count, "first": row.first, "last": row.last}
    return {**whole, **times(row, "first", "last"), "for": to, "for_others": row.count - sum(to.values())}


def zone_row(zone: str, answers: int, names: "list[Named]") -> dict[str, object]:
    """A zone whose answers were changed as JSON."""
    rows = [{"name": one.name, "came": str(IPv4Address(one.came)), "sent": str(IPv4Address(one.went)), "for": SIDES[one.side]} for one in names]
    return {"zone": zone, "answers": answers, "names": rows}


def tell_json(story: Story, scan: "Scan", changes: "Changes") -> None:
    """All of it as one JSON object, a row a line, its moments in nanoseconds since 1970."""
    from rendapil.payloads.scan import told_rows

    pools: dict[str, dict[str, object]] = {
        side: {
            "addresses": pool.size,
            "fixed": pool.fixed,
            "most": pool.most,
            "most_at": pool.most_at,
            "most_time": times(pool, "most_at")["most_at_time"],
        }
        for side, pool in zip(SIDES, story.table.pools)
    }
    whole = {
        "first": story.first,
        "last": story.last,
        **times(story, "first", "last"),
        "end": story.end,
        "held": story.held,
        "heartbeats": story.heartbeats,
    }
    whole |= {"missed": story.missed + story.table.missed, "bindings_left_out": story.left_out, "pools": pools}
    print("{" + ",\n".join(f" {json.dumps(key)}: {json.dumps(value)}" for key, value in whole.items()) + ",")
    print_rows("bindings", map(binding_row, story.used()), ",")
    print_rows("refused", (refused_row(*row) for row in story.refusals.rows()), ",")
    print_rows("payloads", (row._asdict() for row in told_rows(scan)), ",")
    print_rows("dns_changed", (zone_row(*row) for row in changes.rows()), "")
    print("}")


def print_rows(name: str, rows: Iterable[dict[str, object]], end: str) -> None:
    """An array of JSON, a row a line."""
    before = f" {json.dumps(name)}: ["
    for row in rows:
        print(f"{before}\n  {json.dumps(row)}", end="")
        before = ","
    print(f"\n ]{end}" if before == "," else f"{before}]{end}")


# As settings.


def worth_keeping(story: Story) -> list[Binding]:
    """The bindings by use that are worth a static: of hosts that were used more than once, at most for half of each pool, those with the most uses."""
    kept = []
    for pool in story.table.pools:
        rows = sorted((one for one in pool.holders.values() if not one.fixed and one.uses > 1), key=lambda one: -one.uses)
        kept += rows[: max(0, pool.size // 2 - pool.fixed)]
    return kept


def toml_of(value: object) -> str:
    """A value as TOML."""
    if isinstance(value, dict):
        return "{ " + ", ".join(f"{key} = {toml_of(part)}" for key, part in value.items()) + " }"
    if isinstance(value, list):
        return "[" + "".join(f"\n    {toml_of(part)}," for part in value) + "\n]" if value else "[]"
    return json.dumps(value)


def settings_with(text: str, rows: list[Binding]) -> str:
    """Settings with further statics: the text as it is where these can stand behind it, else a new text of the same keys, without its comments."""
    document = tomllib.loads(text)
    tables = statics(rows)
    wanted = {**document, "static": document.get("static", []) + tomllib.loads(tables).get("static", [])}
    with contextlib.suppress(tomllib.TOMLDecodeError):
        longer = text.rstrip("\n") + "\n" + tables
        if tomllib.loads(longer) == wanted:
            return longer
    known = ("report", "fragments", "same", "left", "right", "static", "oid")
    return "# Written by rendapil explain --settings.\n" + "".join(f"{key} = {toml_of(wanted[key])}\n" for key in known if key in wanted)


# Files.


def refuse_words(files: dict[str, str], outputs: list[str]) -> None:
    """Ends where a word can't be meant."""
    for name, path in files.items():
        if path == "-" and name != "report":
            raise Fault(f"{name.upper()}: only REPORT may be -. Write /dev/stdin for a pipe, and ./- for a file")
        if os.path.exists(path) and os.path.samefile(path, "/dev/null"):
            raise Fault(f"{name.upper()} is /dev/null, where nothing is left to read. Run again, with a file for it")
    for place, output in enumerate(outputs):
        if output == "-":
            raise Fault("write /dev/stdout for a pipe, and ./- for a file")
        if os.path.isfile(output) and any(os.path.exists(path) and os.path.samefile(output, path) for path in files.values()):
            raise Fault(f"{shown(output)} is a file of the run, and would be overwritten")
        if any(os.path.realpath(output) == os.path.realpath(other) for other in outputs[:place]):
            raise Fault(f"{shown(output)} is named for two outputs")


def progress() -> Callable[[float], object] | None:
    """What tells how far the reading is, once a second, where somebody looks on."""
    if not sys.stderr.isatty():
        return None
    told = time.monotonic()

    def tell_part(part: float) -> None:
        nonlocal told
        if time.monotonic() >= told + 1:
            told = time.monotonic()
            print(f"\r\033[Krendapil explain: {100 * part:.0f} % of the report is read\r", end="", file=sys.stderr, flush=True)

    return tell_part


# The command.


def parsed() -> argparse.Namespace:
    """The words of the command."""
    end = "The status is 0, or 1 where the files can't be read or aren't of one run, or 2 where the words are wrong."
    parser = argparse.ArgumentParser(prog="rendapil explain", description=__doc__, epilog=end)
    for name, what in FILES.items():
        parser.add_argument(name, metavar=name.upper(), help=what)
    forms = parser.add_mutually_exclusive_group()
    forms.add_argument("--json", action="store_true", help="write all as JSON, with moments in nanoseconds since 1970 and by RFC 3339")
    forms.add_argument("--events", action="store_true", help="write a line of JSON for each frame, with fields as in Suricata's eve.json")
    forms.add_argument(
        "--payloads", action="store_true", help="write which applications have addresses in their payloads that the gateway leaves alone"
    )
    forms.add_argument("--statics", action="store_true", help="write the hosts with aliases by use as [[static]] tables")
    parser.add_argument(
        "--settings", metavar="NEW", dest="new_settings", help="write the settings with these tables to NEW, and nothing to standard output"
    )
    parser.add_argument("--html", metavar="FILE", help="write a page with pictures of the run to FILE, and nothing to standard output")
    parser.add_argument("--pcapng", metavar="FILE", help="write all four captures to FILE as one, with comments, and nothing to standard output")
    parser.add_argument("--of", metavar="NAME", default="", help="the name of the capture that the run was made of, for the title of the page")
    parser.add_argument("--notes", metavar="FILE", default="", help=argparse.SUPPRESS)
    return parser.parse_args()


def notes_in(path: str) -> Notes:
    """What `try` has to tell on the page: the command, what was left out, and how large pools have to be."""
    if not path:
        return NONE
    with open(path, encoding="utf-8") as file:
        found: Notes = json.load(file)
    return found


def looked_into(story: Story) -> "tuple[Scan, Changes]":
    """What looks at the payloads of a run. It is loaded only here, since some forms don't need it."""
    from rendapil.explain.changes import Changes
    from rendapil.payloads.scan import Scan, meaning_in

    scan, changes = Scan(meaning_in(story.table)), Changes()
    story.behinds += [scan.event, changes.take]
    return scan, changes


def explain(words: argparse.Namespace) -> None:
    """Reads the files of a run, and writes what is asked for."""
    files = {name: getattr(words, name) for name in FILES}
    outputs = [output for output in (words.html, words.pcapng, words.new_settings) if output]
    refuse_words(files, outputs)
    if words.html:
        from rendapil.pages import refuse_without_jinja

        refuse_without_jinja()
    document, text = document_of(words.settings)
    story = Story(document)
    scan, changes = looked_into(story) if not (words.statics or words.new_settings and outputs == [words.new_settings]) else (None, None)
    verdicts = verdicts_of()
    with contextlib.ExitStack() as behind:
        if words.pcapng:
            from rendapil.explain.pcapng import Commented

            links = [behind.enter_context(Capture(files[name])).link for name in ("left_in", "left_out", "right_in", "right_out")]
            commented = Commented(behind.enter_context(written(words.pcapng)), links, verdicts, scan)
            story.behinds.append(commented.take)
        if words.html:
            from rendapil.explain.gathered import Gathered
            from rendapil.explain.page import Page

            gathered = Gathered(story.table)
            page = Page(verdicts, {name: shown(path) for name, path in files.items()}, shown(words.of), notes_in(words.notes))
            story.behinds.append(page.talks.take)
            story.befores.append(gathered.before)
            story.behinds.append(gathered.take)
        if words.events:
            from rendapil.explain.events import told as told_event

            story.behinds.append(lambda event: told_event(event, scan.latest if scan else []))
        told = progress()
        _, left_in, right_in, left_out, right_out, report = files.values()
        story.read(left_in, right_in, left_out, right_out, report, told)
        if told:
            print("\033[K", end="", file=sys.stderr, flush=True)
        if words.html and scan and changes:
            put_in_place(words.html, page.written(gathered, story, scan, changes))
    tell_form(words, story, scan, changes, text)


def tell_form(words: argparse.Namespace, story: Story, scan: "Scan | None", changes: "Changes | None", text: str) -> None:
    """Writes new settings, or tells in the form that is asked for."""
    if words.new_settings:
        put_in_place(words.new_settings, settings_with(text, worth_keeping(story)))
    if words.statics:
        print(statics(worth_keeping(story)), end="")
    elif scan and changes and words.payloads:
        tell_payloads(scan, changes, notes_in(words.notes)["cut"])
    elif scan and changes and words.json:
        tell_json(story, scan, changes)
    elif scan and changes and not (words.html or words.pcapng or words.new_settings or words.events):
        tell(story, scan)


def explain_files(words: argparse.Namespace) -> int:
    """Explains, where these are the files of a run. The status."""
    try:
        explain(words)
        return 0
    except ValueError as error:
        raise Fault(f"these aren't files of one run: {error}") from None


def main() -> int:
    """Reads the words, and does it. The status."""
    return ended("explain", lambda: explain_files(parsed()))


if __name__ == "__main__":
    sys.exit(main())
