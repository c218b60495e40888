"""The edits that the prover has to refuse: those of the gate, in crates/CRATE/must-fail, and the others, in tests/wrong/CRATE."""
from collections.abc import Iterable, Iterator
from pathlib import Path

PROVED = ("src", "specs", "proofs")
"""The folders of a crate that an edit may change."""


class BadEdit(ValueError):
    """An edit that can't be applied."""


def pairs_of(edit: str) -> Iterator[tuple[str, str, str]]:
    """The file, the old text and the new text of each pair, in their order."""
    file = old = ""
    for line in edit.splitlines():
        key, _, text = line.partition(":")
        text = text.removeprefix(" ")
        match key:
            case "file":
                file = text
            case "old":
                old = text
            case "new":
                yield file, old, text
            case _:
                raise BadEdit(f"it has a line that begins with none of file:, old: and new:, '{line}'")


def text_of(crate: Path, file: str) -> str:
    """A file that an edit names."""
    parts = Path(file).parts
    if not parts or parts[0] not in PROVED or ".." in parts or not (crate / file).is_file():
        raise BadEdit(f"there is no file {file or 'named'} in src/, specs/ or proofs/ of the crate")
    return (crate / file).read_text(encoding="utf-8")


def edited(edit: str, crate: Path) -> dict[str, str]:
    """The files of a crate that an edit changes, as they are with it. Each pair applies to what the earlier ones made."""
    before: dict[str, str] = {}
    after: dict[str, str] = {}
    for file, old, new in pairs_of(edit):
        text = after.get(file) or before.setdefault(file, text_of(crate, file))
        if (count := text.count(old)) != 1:
            raise BadEdit(f"an old text stands {count} times in {file}, and not once: '{old.strip()}'")
        after[file] = text.replace(old, new)
    if before == after:
        raise BadEdit("it changes nothing")
    return after


def wrong(top: Path, crate: str) -> list[Path]:
    """The edits of a crate that aren't in the gate."""
    return sorted((top / "tests" / "wrong" / crate).glob("*.edit"))


def crates_of(paths: Iterable[str]) -> set[str]:
    """The crates of which paths from the top are what is proved, or an edit of tests/wrong."""
    found = set()
    for path in paths:
        match path.split("/"):
            case ["crates", crate, folder, _, *_] if folder in PROVED:
                found.add(crate)
            case ["tests", "wrong", crate, _]:
                found.add(crate)
    return found


def with_crates(top: Path) -> Iterator[tuple[Path, Path]]:
    """Each file where edits are kept, and the folder of its crate."""
    for edit in sorted((top / "crates").glob("*/must-fail/*")):
        yield edit, edit.parent.parent
    for edit in sorted((top / "tests" / "wrong").glob("*/*")):
        yield edit, top / "crates" / edit.parent.name


def faults(top: Path) -> list[str]:
    """What keeps an edit from being applied, a line for each."""
    found = []
    for edit, crate in with_crates(top):
        try:
            if edit.suffix != ".edit":
                raise BadEdit("its name doesn't end in .edit")
            edited(edit.read_text(encoding="utf-8"), crate)
        except BadEdit as why:
            found.append(f"{edit.relative_to(top)}: {why}")
    return found
