"""Which program this is: of which code, and what is known of its proofs.

`python3 -m rendapil.program --write PROGRAM` writes the file PROVED-PROGRAM of a built program, and puts the program under prebuilt/. `--check PROGRAM`
ends with 1 where that file doesn't name PROGRAM, which this kit has just proved of the code here, or where prebuilt/ doesn't have it. Where another kit
is named it only says so, and looks whether prebuilt/ has the program that is named."""
import contextlib
import hashlib
import os
import shutil
import subprocess
import sys
from functools import cache
from pathlib import Path

from rendapil import crates
from rendapil.places import BUILT, CRATES, INSTALLED, IS_CHECKOUT, MADE, PREBUILT, RECORD, TOP

HEAD = "# The program that was proved, its code and the kit. tools/proved_program.py writes this file, and .ci/run checks it.\n"

LEAST_GLIBC = (2, 34)
"""The oldest C library that the prebuilt program runs with."""


def files_of(top: Path, name: str, endings: tuple[str, ...]) -> list[str]:
    """The files of a crate with these endings, without what was built."""
    found = []
    for folder, below, names in os.walk(top / "crates" / name):
        below[:] = [one for one in below if one != "out"]
        found += [os.path.relpath(os.path.join(folder, one), top) for one in names if one.endswith(endings)]
    return found


def digest_of(top: Path, *endings: str) -> str:
    """The SHA-256 of what the program's crates hold: of their lines in crates.txt, and of their files by name and contents."""
    lines = crates.needed(top / "crates.txt")
    whole = hashlib.sha256("".join(f"{line}\n" for line in lines.values()).encode())
    for path in sorted((path for name in lines for path in files_of(top, name, endings)), key=os.fsencode):
        whole.update(f"{sum_of(top / path)}  {path}\n".encode())
    return whole.hexdigest()


@cache
def code_of(top: Path) -> str:
    """What is compiled."""
    return digest_of(top, ".rt")


@cache
def proofs_of(top: Path) -> str:
    """What is compiled, with the definitions and proofs."""
    return digest_of(top, ".rt", ".antt")


def sum_of(path: Path) -> str:
    """The SHA-256 of a file."""
    with open(path, "rb") as file:
        return hashlib.file_digest(file, "sha256").hexdigest()


@cache
def kit() -> str:
    """The one line that names the kit."""
    return subprocess.run(["rt", "version"], stdout=subprocess.PIPE, text=True, check=True).stdout.strip()


def entries_in(path: Path) -> dict[str, str]:
    """What stands in a file of the form of PROVED-PROGRAM: `program`, `code`, `kit` and maybe `proofs`. Nothing where it isn't there."""
    try:
        pairs = (line.partition(" ") for line in path.read_text("utf-8").splitlines())
    except FileNotFoundError:
        return {}
    return {word: rest for word, _, rest in pairs if word != "#"}


def text_of(program: Path, code: str, **more: str) -> str:
    """The text of such a file."""
    found = {"program": sum_of(program), "code": code, "kit": kit(), **more}
    return "".join(f"{word} {rest}\n" for word, rest in found.items())


def is_there(program: Path) -> bool:
    """Whether there is such a program, and may be run."""
    return os.access(program, os.X_OK) and program.is_file()


def is_built() -> bool:
    """Whether the program of the code here was built here."""
    if not IS_CHECKOUT or not is_there(BUILT):
        return False
    mine = {"program": sum_of(BUILT), "code": code_of(TOP)}
    return any(mine.items() <= entries_in(path).items() for path in (MADE, RECORD))


def used() -> Path | None:
    """The program that runs: the installed one, or of the code here the one that was built here or that comes with the checkout. None where there is
    none."""
    if not IS_CHECKOUT:
        return INSTALLED if is_there(INSTALLED) else None
    if is_built():
        return BUILT
    return PREBUILT if is_prebuilt() and not fault_of_prebuilt() else None


def is_prebuilt() -> bool:
    """Whether a program of the code here comes with the checkout."""
    return PREBUILT.exists() and entries_in(RECORD).get("code") == code_of(TOP)


def fault_of_prebuilt() -> str:
    """Why the program that comes with the checkout can't run here, if it can't."""
    name = PREBUILT.relative_to(TOP)
    if not PREBUILT.is_file() or sum_of(PREBUILT) != entries_in(RECORD).get("program"):
        return f"{name} isn't the program that PROVED-PROGRAM names"
    if not os.access(PREBUILT, os.X_OK):
        return f"{name} may not be run: chmod +x {name}"
    return fault_of_system(name)


def fault_of_system(name: Path) -> str:
    """Why no such program runs on this system, if none does."""
    machine = os.uname()
    if (machine.sysname, machine.machine) != ("Linux", "x86_64"):
        return f"{name} is for x86-64 Linux, and this is {machine.sysname} on {machine.machine}"
    library = ""
    with contextlib.suppress(OSError, ValueError):
        library = os.confstr("CS_GNU_LIBC_VERSION") or ""
    found = tuple(map(int, library.removeprefix("glibc ").split(".")[:2])) if library.startswith("glibc ") else ()
    if found < LEAST_GLIBC:
        return f"{name} needs glibc {'.'.join(map(str, LEAST_GLIBC))}, and this system has {library or 'another C library'}"
    return ""


def is_proved_here() -> bool:
    """Whether the proofs of just these sources were checked on this machine."""
    return is_built() and entries_in(MADE).get("proofs") == proofs_of(TOP)


def proof(program: Path) -> str:
    """What is known of the proof of a program."""
    made, record, own = entries_in(MADE), entries_in(RECORD), sum_of(program)
    code = code_of(TOP) if IS_CHECKOUT else ""
    if made.get("program") == own and made.get("proofs"):
        later = "" if made["proofs"] == proofs_of(TOP) else ", before these sources were changed"
        return f"its proofs were checked on this machine, by {made['kit']}{later}"
    if record.get("program") == own:
        return f"it is, byte for byte, the program that {record['kit']} proved" + (" from this code" if record["code"] == code else "")
    if not IS_CHECKOUT:
        return f"it isn't the program that {record.get('kit', 'any kit')} proved, and nothing is known of its proofs"
    if record.get("code") != code:
        return "its proofs were not checked: the code here isn't the code that was proved last"
    return f"its proofs were not checked: {made.get('kit')} made another program of this code than {record['kit']}, which proved it"


def tell_version() -> None:
    """Which program this is."""
    print(f"rendapil {(TOP / 'VERSION').read_text('ascii').strip()}")
    if program := used():
        print(f"program: SHA-256 {sum_of(program)}\nproof: {proof(program)}")
    elif is_there(BUILT):
        print("program: of other code than that of this checkout. The next use builds it anew")
    else:
        print("program: not built yet")


def check(program: Path) -> int:
    """Whether PROVED-PROGRAM names this program. The status."""
    record = entries_in(RECORD)
    if "kit" not in record:
        print(f"{RECORD} names no program", file=sys.stderr)
        return 1
    mend = f"'tools/proved_program.py --write {program}' does that"
    if fault := fault_of_prebuilt():
        print(f"{fault}: {mend}", file=sys.stderr)
        return 1
    if record["kit"] != kit():
        print(f"PROVED-PROGRAM names a program of '{record['kit']}', and this is '{kit()}': they aren't compared")
        return 0
    if {"program": sum_of(program), "code": code_of(TOP)}.items() <= record.items():
        print("PROVED-PROGRAM names the program, the code and the kit, and prebuilt/ has the program")
        return 0
    print(f"PROVED-PROGRAM doesn't name {program} and the code here: {mend}", file=sys.stderr)
    return 1


def write(program: Path) -> None:
    """Has PROVED-PROGRAM name a program, and puts it under prebuilt/. Who runs the old one goes on with it."""
    RECORD.write_text(HEAD + text_of(program, code_of(TOP)), "utf-8")
    PREBUILT.parent.mkdir(parents=True, exist_ok=True)
    new = PREBUILT.with_name("gateway_program.new")
    shutil.copyfile(program, new)
    new.chmod(0o755)
    new.replace(PREBUILT)


def main(words: list[str]) -> int:
    """Writes or checks PROVED-PROGRAM and prebuilt/."""
    if len(words) != 2 or words[0] not in ("--write", "--check") or not os.path.isfile(words[1]) or not CRATES.exists():
        print(str(__doc__).partition("\n\n")[2], file=sys.stderr)
        return 2
    if words[0] == "--check":
        return check(Path(words[1]))
    write(Path(words[1]))
    return 0


if __name__ == "__main__":
    sys.exit(main(sys.argv[1:]))
