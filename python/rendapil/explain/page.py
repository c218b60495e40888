"""The page of a run, written by the template page.html. Jinja escapes all that comes from the captures. Needs Debian's python3-jinja2."""
from ipaddress import IPv4Address
from pathlib import Path
from typing import NamedTuple

from rendapil.bindings import Binding
from rendapil.explain.changes import Changes, said_of
from rendapil.explain.gathered import PARTS, Gathered, Parts
from rendapil.explain.notes import NONE, Notes
from rendapil.explain.pictures import BOTTOM, HEIGHT, LEFT, TOP, WIDTH, Axis, Picture, Tick, clock, filled, span, stacked
from rendapil.explain.story import Story
from rendapil.explain.talks import Talks
from rendapil.explain.texts import Text, text_of
from rendapil.frames import Verdict
from rendapil.numbers import SIDES
from rendapil.pages import STYLE, page_by, part_of
from rendapil.payloads.applications import BREAKS, UNSURE
from rendapil.payloads.kept import LIKELY, MAYBE
from rendapil.payloads.scan import Scan, Told, plural, summary_of, told_rows

HERE = Path(__file__).resolve().parent
SHOWN_BINDINGS, SHOWN_REFUSED, SHOWN_ZONES = 500, 100, 50
"""The most rows of each table."""


class Bar(NamedTuple):
    """A binding as a row with a bar: where it was used and where it lasted, in hundredths of the run."""

    binding: Binding
    side: str
    host: str
    alias: str
    first: str
    last: str
    left: float
    used: float
    lasted: float
    told: str


def bar_of(one: Binding, axis: Axis) -> Bar:
    """The row of a binding."""
    host, alias, side = str(IPv4Address(one.host)), str(IPv4Address(one.alias)), SIDES[one.side]
    at = [max(0.0, min(100.0, axis.at(place, 0, 100))) for place in (one.first, one.last, one.last if one.fixed else one.end)]
    ended = "fixed" if one.fixed else f"ends {clock(one.end, 0)}" if one.end <= axis.end else "still lasts at the end of the run"
    told = f"{side} {host} is {alias} on the {SIDES[1 - one.side]}: used {one.uses:,} times, {clock(one.first)} to {clock(one.last)}; {ended}"
    widths = max(0.3, at[1] - at[0]), max(0.0, at[2] - at[1])
    left, used, lasted = (round(value, 2) for value in (min(at[0], 99.7), *widths))
    return Bar(one, side, host, alias, clock(one.first, 0), clock(one.last, 0), left, used, lasted, told)


GROUPS = ("pass", "held")
COLOURS = 7
"""How many reasons have a colour of their own: the most frequent ones."""


class Page:
    """Writes the page of a run."""

    def __init__(self, verdicts: dict[str, Verdict], names: dict[str, str], of: str = "", notes: Notes = NONE) -> None:
        self.verdicts, self.names, self.of, self.notes = verdicts, names, of, notes
        self.talks = Talks()
        self.texts: dict[str, Text] = {}
        self.classes: dict[str, str] = {}

    def todo_of(self, verdict: str) -> list[tuple[str, str]]:
        """What to do, in parts: each with the place on the page that tells more of it, or nothing. Those places are remembered."""
        found = []
        for words, link in self.verdicts[verdict].links if verdict in self.verdicts else []:
            text = text_of(link) if link else None
            if text:
                self.texts[text.place] = text
            found.append((words, text.place if text else ""))
        return found

    def group_of(self, verdict: str) -> str:
        """Under which class a verdict is drawn."""
        return self.classes.get(verdict, "g0")

    def _colour(self, run: Gathered) -> list[tuple[str, int]]:
        """Gives each verdict its class. The reasons, the most frequent first."""
        reasons = [(verdict, count) for verdict, count in run.counts.most_common() if verdict not in GROUPS]
        self.classes = {name: name for name in GROUPS if run.counts[name]}
        self.classes |= {verdict: f"g{number}" for number, (verdict, _) in enumerate(reasons[:COLOURS], 1)}
        return reasons

    def axes(self, run: Gathered) -> list[tuple[str, Parts, Axis]]:
        """Both ways to go through a run."""
        return [
            ("time", run.by_time, Axis(run.by_time.start or 0, run.by_time.end, True)),
            ("number", run.by_number, Axis(run.by_number.start or 0, run.by_number.end, False)),
        ]

    def frames_pictures(self, run: Gathered) -> list[tuple[str, list[Picture]]]:
        """The verdicts, by time and by number: of all frames, and of those that were refused. None where all are alike: it would say nothing."""
        refused = [f"g{number}" for number in (*range(1, COLOURS + 1), 0)]
        some = sum(count for verdict, count in run.counts.items() if verdict not in GROUPS)
        if len(run.counts) < 2:
            return []
        found = []
        for kind, parts, axis in self.axes(run):
            said = f"{plural(sum(run.counts.values()), 'frame')}, {some:,} of them refused"
            pictures = [stacked("All frames", said, parts, axis, self.group_of, [*GROUPS, *refused])]
            if some:
                pictures.append(stacked("Refused frames alone", f"{plural(some, 'frame')} refused", parts, axis, self.group_of, refused))
            found.append((kind, pictures))
        return found

    def pools_pictures(self, run: Gathered) -> list[tuple[str, list[Picture]]]:
        """How full the pools were, where more than statics were taken."""
        if not any(pool.most > pool.fixed for pool in run.table.pools):
            return []
        found = []
        for kind, parts, axis in self.axes(run):
            pictures = []
            for side, pool in enumerate(run.table.pools):
                said = f"{IPv4Address(pool.first)} to {IPv4Address(pool.last)}: {pool.size:,} addresses, {pool.fixed:,} of them fixed. "
                if pool.most > pool.fixed:
                    said += f"At most {pool.most:,} were taken ({100 * pool.most // pool.size} %), first at {clock(pool.most_at)}. "
                if run.first_empty[side]:
                    said += f"First PoolEmpty at {clock(run.first_empty[side])}."
                pictures.append(filled(said, parts, axis, side, pool))
            found.append((kind, pictures))
        return found

    @staticmethod
    def pools_said(run: Gathered) -> list[str]:
        """The pools in words."""
        return [
            f"{SIDES[side]} realm: {IPv4Address(pool.first)} to {IPv4Address(pool.last)}, {plural(pool.size, 'address').replace('addresss', 'addresses')}, "
            + (f"{pool.fixed:,} fixed, and at most {pool.most:,} taken" if pool.most > pool.fixed else f"{pool.fixed:,} fixed, and none taken by use")
            for side, pool in enumerate(run.table.pools)
        ]

    def verdict_of(self, run: Gathered, payloads: list[Told], changes: Changes) -> list[str]:
        """The run in some sentences."""
        total, passed = sum(run.counts.values()), run.counts["pass"]
        reasons = [(name, count) for name, count in run.counts.most_common() if name not in GROUPS]
        refused = sum(count for _, count in reasons)
        held = f", {run.counts['held']:,} {'was' if run.counts['held'] == 1 else 'were'} held as fragments" if run.counts["held"] else ""
        said = [
            f"{passed:,} of {plural(total, 'frame')} passed{held}"
            + (
                f", and {refused:,} {'was' if refused == 1 else 'were'} refused, {'most as ' if len(reasons) > 1 else ''}{reasons[0][0]}."
                if refused
                else ", and none was refused."
            )
        ]
        breaking = [row for row in payloads if row.weight == BREAKS and row.sure != MAYBE]
        unsure = [row for row in payloads if row.weight == UNSURE and row.sure != MAYBE]
        if breaking:
            names = ", ".join(f"{row.application} ({plural(row.frames, 'frame')})" for row in breaking[:5])
            likely = sum(row.sure == LIKELY for row in breaking)
            will = "will break" if not likely else "will likely break" if likely == len(breaking) else f"will break ({likely} of them likely)"
            said.append(
                f"What passed isn't all that works: {plural(len(breaking), 'application')} {will}, since the gateway leaves addresses alone or refuses the protocol: {names}."
            )
        else:
            said.append("No known application was found that breaks by addresses in its payloads.")
        if unsure:
            said.append(f"{plural(len(unsure), 'application')} without a known name carr{'ies' if len(unsure) == 1 else 'y'} addresses.")
        if changes.answers:
            said.append(f"{plural(changes.answers, 'DNS answer')} changed.")
        return said

    def findings(self, run: Gathered, scan: Scan, changes: Changes) -> dict[str, object]:
        """What the page says of the run as a whole: the verdict, what breaks, who speaks with whom, names that changed, and what to do."""
        payloads = told_rows(scan)
        talks, talks_count = self.talks.rows()
        return {
            **{
                "payloads": payloads,
                "payloads_said": summary_of(scan, payloads, self.notes["cut"]),
                "verdict_said": self.verdict_of(run, payloads, changes),
            },
            **{"of": self.of, "notes": self.notes, "pools_said": self.pools_said(run), "talks": talks, "talks_count": talks_count},
            **{"zones": changes.rows()[:SHOWN_ZONES], "zones_count": len(changes.zones), "said_of": said_of},
            **{"todo": self.todo_of, "texts": self.texts},
        }

    def written(self, run: Gathered, story: Story, scan: Scan, changes: Changes) -> str:
        """The page."""
        for parts in (run.by_time, run.by_number):
            parts.join_to(max(30, min(PARTS, sum(run.counts.values()))))
        reasons = self._colour(run)
        used = story.used()
        most_used = sorted(used, key=lambda one: -one.uses)[:SHOWN_BINDINGS]
        axis = self.axes(run)[0][2]
        style, script = part_of(STYLE), part_of(HERE / "page.js")
        total, refused = sum(run.counts.values()), sum(count for _, count in reasons)
        return page_by(
            HERE,
            {
                **{"story": story, "run": run, "names": self.names, "verdicts": self.verdicts, "classes": self.classes, "sides": SIDES},
                **{"clock": clock, "span": span, "plural": plural, "group_of": self.group_of},
                **{"width": WIDTH, "height": HEIGHT, "left": LEFT, "bottom": HEIGHT - BOTTOM, "top": TOP},
                **{"total": total, "refused_frames": refused, "reasons": reasons, "has_others": len(reasons) > COLOURS},
                "is_uneven": 4 * sum(bool(part.counts) for part in run.by_time.parts) < len(run.by_time.parts),
                "frames": self.frames_pictures(run),
                "pools": self.pools_pictures(run),
                "bars": [bar_of(one, axis) for one in sorted(most_used, key=lambda one: (one.side, one.host, one.first))],
                "bar_ticks": [(round(tick.at, 2), tick.text) for tick in self._hundredths(axis)],
                "bindings_count": len(used) + story.left_out,
                "refused": story.refusals.rows(SHOWN_REFUSED),
                "refused_count": len(story.refusals.rows()),
                **self.findings(run, scan, changes),
                "missed": story.missed + story.table.missed,
                "sessions": run.sessions.shown,
                **{"style": style[0], "style_hash": style[1], "script": script[0], "script_hash": script[1]},
            },
        )

    @staticmethod
    def _hundredths(axis: Axis) -> list[Tick]:
        """The marks over the bars."""
        return [Tick((tick.at - LEFT) / (WIDTH - LEFT) * 100, tick.text) for tick in axis.ticks(3)]
