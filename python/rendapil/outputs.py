"""The words of a run before it begins: no file is named twice, no other run writes an output, and names become what the program takes."""
import contextlib
import fcntl
import os
import stat
from collections.abc import Sequence
from dataclasses import dataclass, field
from typing import IO, TYPE_CHECKING, NoReturn

from rendapil.sayings import Fault, Stop, as_word, say

if TYPE_CHECKING:
    from rendapil.inputs import Feeder

CAPTURES = ("left_in", "right_in", "left_given", "right_given")
NOT_READ, NOT_OPENED = 5, 7
"""The statuses where an input can't be read, and where an output can't be opened."""


@dataclass
class Words:
    """The words of a run, an audit or a make: what each is called, and from which on they are outputs."""

    words: list[str]
    slots: tuple[str, ...]
    outputs: int
    given: list[str] = field(default_factory=list)
    """The words as the user gave them."""

    created: list[str] = field(default_factory=list)
    held: list[IO[bytes]] = field(default_factory=list)
    """The outputs that weren't there, and those that are locked."""

    inherited: list[int] = field(default_factory=list)
    """The numbers of files that the program gets open."""

    feeders: "dict[int, Feeder]" = field(default_factory=dict)
    """By their place the inputs that a process of its own writes."""

    def __post_init__(self) -> None:
        self.given = list(self.words)

    @property
    def command(self) -> str:
        """Which command it is."""
        return self.words[0]

    def refuse(self, place: int, why: str) -> NoReturn:
        """Ends: line and status are those of an output that can't be opened."""
        self.remove_unwritten()
        raise Stop(NOT_OPENED, f"{why}. Nothing was opened", line=f"open failed: {self.slots[place]}")

    def name_streams(self) -> None:
        """Takes - for a stream where it stands for one input or one output alone. The program itself takes it for the report."""
        is_run = self.command == "run"
        inputs = [1, 2, 3] if is_run else range(1, self.outputs)
        self._name_stream(inputs, "/dev/stdin")
        if is_run and self.words[6] != "-":
            self._name_stream([4, 5], "/dev/stdout")

    def _name_stream(self, places: Sequence[int], name: str) -> None:
        named = [place for place in places if self.words[place] == "-"]
        if len(named) == 1:
            self.words[named[0]] = name

    def name_by_number(self) -> None:
        """Opens inputs whose names aren't UTF-8, and names them by where they are open."""
        for place in range(1, self.outputs):
            if not is_utf8(self.words[place]):
                with contextlib.suppress(OSError):
                    number = os.open(self.words[place], os.O_RDONLY)
                    self.inherited.append(number)
                    self.words[place] = f"/dev/fd/{number}"

    def feed(self) -> None:
        """Has captures that the program can't read written into pipes: pcapng, what gzip packed, and folders."""
        from rendapil.inputs import Feeder, is_fed

        for place in range(2, self.outputs):
            if self.slots[place] in CAPTURES and is_fed(self.words[place]):
                try:
                    self.feeders[place] = feeder = Feeder(self.words[place])
                except Fault as error:
                    slot = self.slots[place]
                    raise Stop(NOT_READ, f"{slot}, {as_word(self.words[place])}: {error}", line=f"read failed: {slot}") from None
                self.words[place] = f"/dev/fd/{feeder.pipe.fileno()}"
                self.inherited.append(feeder.pipe.fileno())

    def end_feeders(self) -> dict[str, str]:
        """Ends them. By slots, what each said of damage."""
        return {self.slots[place]: said for place, feeder in self.feeders.items() if (said := feeder.end())}

    def refuse_one_file_twice(self) -> None:
        """Ends where an output is the file of another word, or one of its folder: it would be emptied, and the run could end well."""
        for place in range(self.outputs, len(self.words)):
            for other in range(1, place):
                if any(is_one_file(self.words[place], name) for name in names_of(self.words[other])):
                    self.refuse(place, f"{self.slots[place]} and {self.slots[other]} are one file, {as_word(self.words[place])}")

    def lock_outputs(self) -> None:
        """Opens the outputs that are files, or aren't there, and holds a lock on each as long as the run lasts. A second run into one of them ends."""
        for place in range(self.outputs, len(self.words)):
            name = self.words[place]
            if not name or name.startswith("-"):  # no name of a file
                continue
            if not os.path.exists(name):
                self.created.append(os.path.realpath(name))  # the file, where a link leads to it
            elif not os.path.isfile(name):
                continue
            try:
                file = open(name, "ab")
            except (OSError, ValueError):
                continue  # the program tells why
            self.held.append(file)
            try:
                fcntl.flock(file, fcntl.LOCK_EX | fcntl.LOCK_NB)
            except BlockingIOError:
                self.refuse(place, f"another run writes {self.slots[place]}, {as_word(name)}")
            except OSError:
                pass  # this file system has no locks

    def remove_unwritten(self) -> None:
        """Removes the outputs that a lock created and to which nothing was written."""
        for name in self.created:
            with contextlib.suppress(OSError):
                if os.path.getsize(name) == 0:
                    os.remove(name)

    def tell_faults(self) -> None:
        """Says which words are no words of a command."""
        if self.command == "make":
            say("NUMBER is from 0 to 4294967295 and COUNT from 1 to 100000, both without a zero in front")
        for slot, word in list(zip(self.slots, self.words))[1:]:
            if not word:
                say(f"{slot} is empty")
            elif word == "-" and slot != "report":
                say(f"{slot}: - can be one input alone, and one output alone. Write ./- for a file")
            elif word.startswith("-") and word != "-":
                say(f"{slot}: write {as_word('./' + word)} for a file")
            elif not is_utf8(word):
                say(f"{slot}: the name {as_word(word)} isn't UTF-8")


def names_of(word: str) -> list[str]:
    """A file, or those of a folder."""
    return [entry.path for entry in os.scandir(word)] if os.path.isdir(word) else [word]


def is_utf8(word: str) -> bool:
    """Whether a name is one that the program takes."""
    return not any("\udc80" <= one <= "\udcff" for one in word)


def is_one_file(output: str, other: str) -> bool:
    """Whether an output is the file of another word, whether it is there or not."""
    output = "/dev/stdout" if output == "-" else output
    try:
        mine = os.stat(output)
    except (OSError, ValueError):
        return os.path.realpath(output) == os.path.realpath(other)
    if not stat.S_ISREG(mine.st_mode):
        return False
    try:
        return are_one_file(mine, os.stat(other))
    except (OSError, ValueError):
        return False


def are_one_file(one: os.stat_result, other: os.stat_result) -> bool:
    """Whether two names lead to one file. In a container a file of an overlay may have one device number by the merged folder, and another one by the
    lower folder. Its number there (without the bits in front that name the layer), its size and its times are the same then."""
    if os.path.samestat(one, other):
        return True
    known = [(file.st_ino & 0xFFFFFFFF, file.st_size, file.st_mtime_ns, file.st_ctime_ns) for file in (one, other)]
    return one.st_dev != other.st_dev and known[0] == known[1]
