"""How long proofs still take, by rt's plan: each crate as soon as those that it stands on are proved, the longest chain first, within the memory that
is free, of which rt gives a check room by the lines below it."""
import os
from dataclasses import dataclass, field
from pathlib import Path

from rendapil import crates

UNKNOWN = 45.0
"""The seconds of a crate that has no row: the mean of the others."""


@dataclass
class Plan:
    """The seconds and the lines of the crates that are proved, and which crates each stands on."""

    uses: dict[str, list[str]]
    seconds: dict[str, float]
    lines: dict[str, int]
    memory: float
    lanes: int = field(default_factory=lambda: len(os.sched_getaffinity(0)))

    def chains(self) -> dict[str, float]:
        """The seconds of the longest chain of crates that begins with each: those that stand on it come behind it."""
        found = dict.fromkeys(self.uses, 0.0)
        for name in reversed(self.uses):
            found[name] += self.seconds[name]
            for used in self.uses[name]:
                found[used] = max(found[used], found[name])
        return found

    def below(self, name: str) -> set[str]:
        """The crates below one."""
        return set(self.uses[name]).union(*map(self.below, self.uses[name]))

    def room(self, name: str) -> float:
        """The gigabytes that rt plans for a crate: half of what it may need, but 3.3 where it may need as much."""
        most = 1 + 0.002 * self.lines.get(name, 0) + 0.0012 * sum(self.lines.get(one, 0) for one in self.below(name))
        return most if most < 3.3 else max(3.3, most / 2)

    def times(self, reached: float) -> tuple[float, float]:
        """When all is proved, and when so many seconds of work are done, by the plan."""
        chains, rooms = self.chains(), {name: self.room(name) for name in self.uses}
        ahead, running, ended = set(self.uses), dict[str, float](), set[str]()
        clock = done = at = 0.0
        while ahead or running:
            while len(running) < self.lanes:
                taken = sum(rooms[name] for name in running)
                ready = [name for name in self.uses if name in ahead and ended.issuperset(self.uses[name])]
                ready = [name for name in ready if not running or taken + rooms[name] <= self.memory]
                if not ready:
                    break
                begun = max(ready, key=lambda name: chains[name])
                ahead.remove(begun)
                running[begun] = clock + self.seconds[begun]
            name = min((one for one in self.uses if one in running), key=lambda one: running[one])
            end, spent = running.pop(name), self.seconds[name]
            ended.add(name)
            if done < reached <= done + spent:
                at = clock + (end - clock) * (reached - done) / spent
            done += spent
            clock = end
        return clock, at


def free_memory() -> float:
    """The gigabytes that rt takes for proofs."""
    with open("/proc/meminfo", encoding="ascii") as file:
        free = next(int(line.split()[1]) for line in file if line.startswith("MemAvailable:"))
    return 0.85 * free / 976562.5


def seconds_to_go(table: Path, lines: dict[str, str], proved: dict[str, bool], passed: float, memory: float) -> int:
    """The seconds that proving these crates takes from now on. `proved` are those that are, and whether that took time, and `passed` the seconds that
    went by. What is left of the plan is stretched as its front was."""
    rows = [line.split("\t") for line in table.read_text("utf-8").splitlines()[1:]] if table.exists() else []
    known = {row[0]: float(row[2]) for row in rows}
    seconds = {name: known.get(name, UNKNOWN) if proved.get(name, True) else 0.0 for name in lines}
    uses = {name: [one for one in used if one in lines] for name, used in crates.uses_of(lines).items()}
    end, at = Plan(uses, seconds, {row[0]: int(row[1]) for row in rows}, memory).times(sum(seconds[name] for name in proved))
    return int((end - at) * (passed + 10) / (at + 10))  # ten seconds more of both, so that the first crate doesn't weigh too much
