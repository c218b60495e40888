#!/usr/bin/env python3
"""tools/trusted.py >docs/TRUSTED.md: the definitions that the proved statements rest on, in reading order, with amounts, and what laws and worked cases
say of them. A word is found where it is imported. A local name that is the same as an imported one counts as that, so the amounts are a little high."""
import re
import sys
import textwrap
from collections import Counter, defaultdict
from collections.abc import Iterator
from dataclasses import dataclass, field
from itertools import groupby
from pathlib import Path

TOP = Path(__file__).resolve().parent.parent
CRATES = TOP / "crates"
sys.path.insert(0, str(TOP / "python"))
from rendapil.crates import lines_of  # noqa: E402

Word = tuple[str, str]
"""A module and a name that it defines, or a name of the toolchain."""

STATEMENTS: dict[str, Word] = {
    "Promised": ("Rattle.gate_model.specs.Promise", "Promised"),
    "KeepsPromise": ("Rattle.gateway.specs.Promise", "KeepsPromise"),
    "Answers": ("Rattle.gate_command.specs.Answers", "Answers"),
    "IsFinished": ("Rattle.gate_command.specs.Exit", "IsFinished"),
}
"""From the least to the greatest: each rests on the one before."""

BESIDE: dict[str, set[Word]] = {name: {("Rattle.run_setup.specs.Command", "command_of")} for name in ("Answers", "IsFinished")}
"""Words that the contract names beside its statement."""

DECIDING = (
    ("stream_model", "Refusals", "the tests of a segment of a session, in their order"),
    ("gate_model", "Frame", "the tests of a frame by itself, in their order, and which kind it is"),
    ("gate_model", "Units", "the tests of what DNS over TCP names"),
    ("gate_model", "Verdict", "all tests in their order, and which addresses a frame uses"),
    ("gate_model", "Remembered", "what holds of a session (`SessionIs`)"),
    ("gate_model", "Promise", "what is promised of each frame and each session (`Promised`)"),
    ("gate_model", "Called", "which frames name a pair of addresses"),
    ("gate_model", "Origins", "why an alias lives"),
    ("gate_model", "Transparent", "what gets through (`GetsThrough`), and comes back (`ComesBack`, `ComesHome`)"),
    ("gate_model", "ForGood", "what settings say for good (`IsFixed`)"),
    ("gateway", "Machine", "what each frame writes to the captures and the report"),
    ("gateway", "Promise", "where that stands in the files (`KeepsPromise`)"),
    ("gate_command", "Answers", "what the whole call answers (`Answers`)"),
)
"""The modules that decide what the statements say, each with what it says."""

NAME = r"[^\s.,;:(){}\[\]→λ]+"
HEAD = re.compile(rf"(?:(?:unfoldable|abbrev|pub) )*(?:(?:record|data) ({NAME})|({NAME}) :)")
IMPORT = re.compile(r"^(?:ghost )?(?:pub )?use ([\w.]+?)(?:\.\{(.*)\}| as (\w+));?$")
PLAIN_TYPE = re.compile(rf"(?:pub )?(?:record|data) {NAME} : Type")
BUILT = re.compile(rf"^  ({NAME}(?: {NAME})*) : ")
TOKEN = re.compile(rf"{NAME}(?:\.{NAME})?")
LAW = re.compile(r"^pub fn (\w+)(?:<[^>]*>)?\(", re.M)
READ_BACK = {"read_message", "write_message"}
"""Functions of dns_messages that aren't laws, and whose contracts hold what they give against a relation, as a law does."""
MINUTE = 700
"""How many characters of definitions are read in a minute: some ten lines."""
CONSTANT = re.compile(r"((?:^///.*\n)+)pub const (\w+): \w+ = (.+);", re.M)
GROUPS = re.compile(r"(?<=\d)_(?=\d)")
"""What stands between groups of digits."""
INSIDE = ".specs.Inside."
"""What stands in the names of modules that only proofs and private contracts need."""


@dataclass
class Module:
    """What a file defines and imports."""

    defined: dict[str, list[str]] = field(default_factory=dict)
    built: dict[str, str] = field(default_factory=dict)
    imported: dict[str, Word] = field(default_factory=dict)
    renamed: dict[str, str] = field(default_factory=dict)
    is_nested: bool = False
    """Some definitions stand in a module of their own within the file, where they aren't told apart."""

    def take_import(self, line: str) -> bool:
        """Whether a line imports, and then what."""
        if not (found := IMPORT.match(line)):
            return False
        module, names, other = found.groups()
        if other:
            self.renamed[other] = module
        for name in re.split(r",\s*", names or ""):
            old, _, new = name.partition(" as ")
            self.imported[new or old] = (module, old)
        return True


def read(path: Path) -> Module:
    """A module of definitions, without its comments. Constructors stand for their type."""
    module, name = Module(), ""
    for line in path.read_text("utf-8").splitlines():
        if not line.strip() or line.lstrip().startswith("--") or module.take_import(line) or re.match(r"(pub )?mod |infix", line):
            continue
        module.is_nested |= line.startswith("module ")
        if head := HEAD.match(line):
            name = head[1] or head[2]
        module.defined.setdefault(name, []).append(line)
        if module.defined[name][0].removeprefix("pub ").startswith("data ") and (built := BUILT.match(line)):
            module.built |= dict.fromkeys(built[1].split(), name)
    return module


def name_of(path: Path) -> str:
    """The name by which a file is imported."""
    return ".".join(("Rattle", *path.relative_to(CRATES).with_suffix("").parts))


MODULES = {name_of(path): read(path) for path in sorted(CRATES.glob("*/specs/**/*.antt"))}
ORDER = list(lines_of(TOP / "crates.txt"))
ROWS = (CRATES / "model_cases/proofs/RowsLimits.antt").read_text("utf-8")
IN_ROWS = {word for line in ROWS.splitlines() if not line.startswith(("use", "--")) for word in TOKEN.findall(line)}
"""The constants that stand in digits once more."""


def find(module: str, name: str) -> Word | None:
    """The definition that a name of a module means, if a crate has it."""
    while here := MODULES.get(module):
        name = here.built.get(name, name)
        if name in here.defined:
            return module, name
        if name not in here.imported:
            return None
        module, name = here.imported[name]
    return None


def cited(text: str, here: Module, own: str = "") -> set[Word]:
    """The definitions that a text names. `own` is the module of the text, if it is one of definitions."""
    tokens = set(TOKEN.findall(text))
    words = {token.partition(".")[0] for token in tokens}
    found = {find(here.renamed[front], back) for front, _, back in (token.partition(".") for token in tokens) if front in here.renamed and back}
    for name in here.imported.keys() | here.defined.keys() | here.built.keys():
        if name in words or "◌" in name and words.issuperset(filter(None, name.split("◌"))) or name == "◌>>=◌" and "do" in words:
            found.add(find(own, name) if own else find(*here.imported[name]))
    return {one for one in found if one}


def below(word: Word) -> set[Word]:
    """The definitions that a definition names."""
    here = MODULES[word[0]]
    return cited("\n".join(here.defined[word[1]]), here, word[0]) - {word}


def rests_on(start: set[Word], ends: frozenset[Word] = frozenset()) -> set[Word]:
    """The definitions that are reached from some, without going on from `ends`."""
    seen: set[Word] = set()
    waiting = list(start)
    while waiting:
        if (word := waiting.pop()) not in seen:
            seen.add(word)
            waiting += [] if word in ends else below(word)
    return seen


def laws() -> Iterator[tuple[str, str, set[Word]]]:
    """Each law with its crate and what its `ensures` name. A law is a public function that gives nothing and changes nothing."""
    for path in sorted(CRATES.glob("*/src/**/*.rt")):
        text, here = path.read_text("utf-8"), Module()
        for line in text.splitlines():
            here.take_import(line)
        for found in LAW.finditer(text):
            clauses = re.split(r"^\{", text[found.start() :], maxsplit=1, flags=re.M)[0]
            words, *parts = re.split(r"^    (?=(?:ensures|requires|decreases)\b)", clauses, flags=re.M)
            said = "\n".join(part for part in parts if part.startswith("ensures"))
            is_law = "->" not in words and not re.search(r"&mut|\bself\b", words)
            if said and (is_law or found[1] in READ_BACK):
                yield path.relative_to(CRATES).parts[0], found[1], cited(said, here)


def cases() -> set[Word]:
    """What the worked cases of the proofs name, and the words that they unfold."""
    found: set[Word] = set()
    for path in sorted(path for names in ("*Row*", "OnLiterals") for path in CRATES.glob(f"*/proofs/{names}.antt")):
        here = read(path)
        used = "\n".join(line for lines in here.defined.values() for line in lines)
        here.defined, here.built = {}, {}
        found |= cited(used, here)
    return found


def every_word() -> Iterator[Word]:
    """All definitions of all crates."""
    return ((module, name) for module, here in MODULES.items() for name in here.defined)


def standards(crate: str) -> str:
    """The standards that the comments of a crate cite."""
    texts = (path.read_text("utf-8") for path in [*(CRATES / crate).glob("specs/**/*.antt"), *(CRATES / crate).glob("src/**/*.rt")])
    found = {standard for text in texts for standard in re.findall(r"RFC \d+|X\.690", text)}
    return ", ".join(sorted(found, key=lambda name: (name[0], len(name), name)))


def crate_of(word: Word) -> str:
    """The crate of a definition."""
    return word[0].split(".")[1]


def length_of(words: set[Word]) -> int:
    """How many lines definitions have, without comments."""
    return sum(len(MODULES[module].defined[name]) for module, name in words)


def minutes_of(words: set[Word]) -> float:
    """How many minutes it takes to read definitions. A line that is broken in two takes no longer."""
    return sum(len(line.strip()) for module, name in words for line in MODULES[module].defined[name]) / MINUTE


def amounts(words: set[Word]) -> str:
    """How many definitions, lines and modules these are, as cells of a table."""
    return f"{len(words):,} | {length_of(words):,} | {len({module for module, _ in words}):,}"


class Page:
    """The page, part by part."""

    def __init__(self) -> None:
        self.needed = {name: rests_on({word} | BESIDE.get(name, set())) for name, word in STATEMENTS.items()}
        self.all = self.needed["IsFinished"]
        if astray := sorted(" ".join(word) for word in self.all if INSIDE in word[0]):
            sys.exit(f"tools/trusted.py: a statement rests on what only proofs should need: {', '.join(astray)}")
        for module in {word[0] for word in self.all}:
            origins = {origin for origin, _ in MODULES[module].imported.values()} | set(MODULES[module].renamed.values())
            if astray := sorted(origin for origin in origins if ".proofs." in origin and origin.split(".")[1] in ORDER):
                sys.exit(f"tools/trusted.py: {module} imports from proofs, where nothing is counted: {', '.join(astray)}")
        if nested := sorted({word[0] for word in self.all if MODULES[word[0]].is_nested}):
            sys.exit(f"tools/trusted.py: definitions of nested modules can't be told apart: {', '.join(nested)}")
        self.cases = cases() & self.all
        self.laws: dict[tuple[str, str], set[Word]] = defaultdict(set)
        self.by_law: set[Word] = set()
        plain = {word for word in self.all if PLAIN_TYPE.match(MODULES[word[0]].defined[word[1]][0])}
        for crate, rows in groupby(sorted(laws(), key=lambda law: ORDER.index(law[0])), key=lambda law: law[0]):
            others = {word for word in every_word() if crate_of(word) != crate}
            named = {
                name: rests_on(words, frozenset(self.all | others)) & self.all - plain
                for _, name, words in rows
                if not words & set(STATEMENTS.values())
            }
            self.laws |= {(crate, name): words - self.by_law for name, words in named.items()}
            self.by_law.update(*named.values())

    @staticmethod
    def by_crate(words: set[Word]) -> dict[str, set[Word]]:
        """Definitions, crate by crate."""
        found: dict[str, set[Word]] = defaultdict(set)
        for word in words:
            found[crate_of(word)].add(word)
        return found

    def names(self, words: set[Word]) -> str:
        """The names of definitions, with the mark of the least statement that needs them."""
        marks = {word: mark for mark, needed in reversed(list(zip(("", "¹", "²", "³"), self.needed.values()))) for word in words & needed}
        return ", ".join(f"`{name}`{marks[module, name]}" for module, name in sorted(words))

    def deciding(self) -> Iterator[str]:
        """What is read first."""
        yield "| Crate | Module | Lines | What it decides |\n|---|---|---|---|"
        read: set[Word] = set()
        for crate, module, what in DECIDING:
            path = f"Rattle.{crate}.specs.{module}"
            words = {word for word in self.all if word[0] == path}
            if not words:
                sys.exit(f"tools/trusted.py: no statement rests on {crate} {module}")
            read |= words
            yield f"| {crate} | `{module}` | {length_of(words)} | {what} |"
        yield f"\nThese are {length_of(read)} lines: some {round(minutes_of(read))} minutes, at {MINUTE} characters a minute."

    def by_statement(self) -> Iterator[str]:
        """The amounts of each statement."""
        yield "| Statement | Crate | Definitions | Lines | Modules | Crates | Hours |\n|---|---|---|---|---|---|---|"
        for name, words in self.needed.items():
            hours = minutes_of(words) / 60
            yield f"| `{name}` | {crate_of(STATEMENTS[name])} | {amounts(words)} | {len(self.by_crate(words))} | {hours:.1f} |"

    def constants(self) -> Iterator[str]:
        """The constants of the code that definitions name, with what they are."""
        yield "| Crate | Constant | Value | What it is |\n|---|---|---|---|"
        named: dict[str, set[str]] = defaultdict(set)
        for module, name in self.all:
            here = MODULES[module]
            for word in here.imported.keys() & TOKEN.findall("\n".join(here.defined[name])):
                origin, constant = here.imported[word]
                if ".TheConstants" in origin:
                    named[origin.split(".")[1]].add(constant)
        for crate in sorted(named, key=ORDER.index):
            text = "\n".join(path.read_text("utf-8") for path in sorted((CRATES / crate / "src").glob("**/*.rt")))
            found = {constant: (value, comment) for comment, constant, value in CONSTANT.findall(text)}
            if missing := named[crate] - found.keys():
                sys.exit(f"tools/trusted.py: {crate} has no public constant with a comment: {', '.join(sorted(missing))}")
            if ORDER.index(crate) <= ORDER.index("gate_model") and (missing := named[crate] - IN_ROWS):
                sys.exit(f"tools/trusted.py: no row of RowsLimits in model_cases has {', '.join(sorted(missing))}")
            for constant in sorted(named[crate]):
                value, comment = found[constant]
                said = " ".join(line.removeprefix("///").strip() for line in comment.splitlines())
                shown = value if "0x" in value else GROUPS.sub(",", value)
                yield f"| {crate} | `{constant}` | {shown} | {said[0].lower()}{said[1:].removesuffix('.')} |"

    def by_pin(self) -> Iterator[str]:
        """The amounts of what laws and cases name."""
        yield "| Definitions of `IsFinished` that | Number | Lines | Modules |\n|---|---|---|---|"
        yield f"| a law names | {amounts(self.by_law)} |"
        yield f"| no law names, but a case | {amounts(self.cases - self.by_law)} |"
        yield f"| neither names | {amounts(self.all - self.by_law - self.cases)} |"

    def table(self) -> Iterator[str]:
        """The amounts of each crate, for each statement."""
        yield "| Crate | `Promised` | `KeepsPromise` | `Answers` | `IsFinished` | Modules | Named by a law | By a case alone | By neither |\n|---|---|---|---|---|---|---|---|---|"
        for crate in ORDER:
            parts = [{word for word in words if crate_of(word) == crate} for words in self.needed.values()]
            if parts[-1]:
                cells = [f"{len(part)}, {length_of(part)}" if part else "" for part in parts]
                law, case = parts[-1] & self.by_law, parts[-1] & self.cases - self.by_law
                counts = [len({module for module, _ in parts[-1]}), len(law), len(case), len(parts[-1] - law - case)]
                yield f"| [{crate}](#{crate}) | {' | '.join([*cells, *map(str, counts)])} |"

    def section(self, crate: str) -> Iterator[str]:
        """The words of one crate."""
        words = {word for word in self.all if crate_of(word) == crate}
        if not words:
            return
        yield f"\n### {crate}\n"
        lines: Counter[str] = Counter()
        for word in words:
            lines[word[0].split(".specs.")[1]] += length_of({word})
        yield wrapped("Lines: " + ", ".join(f"`{module}` {count}" for module, count in sorted(lines.items())) + ".") + "\n"
        for (owner, law), said in self.laws.items():
            if named := said & words:
                kind = "Contract" if law in READ_BACK else "Law"
                yield wrapped(f"- {kind} `{law}`{f' of {owner}' if owner != crate else ''}: {self.names(named)}.")
        cited_there = f" (the crate cites {names})" if (names := standards(crate)) else ""
        for begin, said in (("Cases", self.cases & words - self.by_law), (f"To compare{cited_there}", words - self.by_law - self.cases)):
            if said:
                yield wrapped(f"- {begin}: {self.names(said)}.")

    def text(self) -> str:
        """The whole page."""
        tables = {name: "\n".join(getattr(self, name)()) for name in ("deciding", "by_statement", "constants", "by_pin", "table")}
        return FRAME.format(**tables, sections="\n".join(line for crate in ORDER for line in self.section(crate)))


def wrapped(line: str) -> str:
    """An item of a list, in lines of the pages' width."""
    return textwrap.fill(line, 150, subsequent_indent="  ", break_long_words=False, break_on_hyphens=False)


FRAME = """# What you have to believe

The prover shows that the code does what definitions say. Whether these say what a gateway has to do, no proof can tell: you read them. This page says
what there is to read, and how much. `tools/trusted.py >docs/TRUSTED.md` writes it, and `tests/run` fails where it isn't current.
[PROVED](PROVED.md) says what is proved in words, and what else is trusted. The [page of each crate](../crates/README.md) explains the words of its
definitions.

## Read these first

An hour is enough for what decides. Everything else on this page is what their words mean: formats, grammars, tables.

{deciding}

## What the statements rest on

`IsFinished` is the contract of the program over real files, `carry_out`: which exit status it ends with. It contains `Answers`, that of the one call
that carries out a command: a run, a make, an audit or a usage. That contains `KeepsPromise`, which is about what a run writes, and that `Promised`, which
is about the frames that come to the gate, whatever they are. Over real files `Answers` says nothing of contents, since a file doesn't tell them.

A definition counts if the statement names it, or the contract that applies the statement, or another one that counts. Types that the code declares
and words of the toolchain don't count. None stands in `specs/Inside/`, which has what only proofs and private contracts need.
Lines are those without comments, imports and empty lines. Hours are for {{minute}} characters a minute, some ten lines.

{by_statement}

Definitions also name these constants of the code. Code and definitions change together with them, so compare each value with its standard. Those of the
crates up to gate_model stand in digits once more, in the rows `RowsLimits` of model_cases. The prover refuses a constant that differs from its row. Lines and
hours don't count them.

{constants}

{by_pin}

A **law** is a proved function that computes nothing: only its clauses count. If a law names a word, something is proved that you expect of the word:
for instance, that what is written reads back. A law seldom says all of it. Words that a law has of its own are replaced by what they mean. Each word
stands under the laws of the lowest crate that has any. Plain types count as named by none. The contracts of two functions, `read_message` and
`write_message`, say the same as a law. What a law says of a word it says also of the words that this is made of. They count as named by none all the
same, since nobody can tell by a script how much of them it says.

**Cases** are examples in `proofs/`, whose results the prover computes. What neither names is only to be compared: with its RFC, or with what you
want of a gateway. [Tests and stored runs](GATE.md) hold more of it against real programs and frames. This page doesn't count them.

## The crates, lowest first

Under each statement stand its definitions and lines.

{table}

## Their words

Under each crate stand its modules with their lines, then what each law and the cases name, and at last what neither does, with the standards that
comments of the crate cite. A word with ¹ isn't needed for `Promised`, one with ² only for `Answers` and `IsFinished`, and one with ³ only for that.
{sections}
""".replace(
    "{{minute}}", str(MINUTE)
)


if __name__ == "__main__":
    sys.stdout.buffer.write(Page().text().encode())
