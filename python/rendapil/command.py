"""The command: which of its commands the words are, and what is said where they are none."""
import os
import signal
import sys

from rendapil import sayings
from rendapil.places import IS_CHECKOUT, TOP
from rendapil.sayings import CANNOT, Stop, as_word, say

USAGE = 2
"""The status where the words are no command."""

COUNTS = {"run": 6, "audit": 7, "make": 3}
"""How many words stand behind these commands."""

WORDS_OF_RUN = "SETTINGS LEFT_IN RIGHT_IN LEFT_OUT RIGHT_OUT REPORT"

BUILDS = (
    """  build                                           builds the program from the code here
  prove                                           checks the proofs on this machine, and builds the program
"""
    if IS_CHECKOUT
    else ""
)

MORE = (
    "README.md has an example."
    if IS_CHECKOUT
    else "See rendapil(1), and rendapil-settings(5) for the settings. /usr/share/doc/rendapil has an example."
)

HELP = f"""usage: rendapil [--quiet] [--untag] COMMAND WORDS
  run {WORDS_OF_RUN}
  run SETTINGS LEFT_IN RIGHT_IN                   translates two captures, or shows the report alone
  audit SETTINGS LEFT_IN RIGHT_IN LEFT_GIVEN RIGHT_GIVEN REPORT_GIVEN REPORT
                                                  says whether such files are right
  make NUMBER COUNT REPORT                        runs over frames that it makes itself
  check SETTINGS [LEFT_IN RIGHT_IN]               warns of settings, and of frames that will be refused
  explain [OPTIONS] {WORDS_OF_RUN}
                                                  who had which address, and why frames were refused
  try CAPTURE [--left BLOCK.. [OPTIONS]]          makes two realms of one ordinary capture, and shows what happens
  fill CAPTURE NEW                                fills up frames that a capture has cut, so that run takes them
  plan LEFT RIGHT [OPTIONS]                       two networks before a merger: what overlaps, which settings they need, and what will break
  compare SETTINGS CAPTURE.. [OPTIONS]            says what a real device does otherwise, by its captures
  export KIND SETTINGS [OPTIONS]                  writes rules: nftables, iproute2; or cisco, junos, which are untried
  import nftables RULES                           writes settings of such rules
  test                                            tests the program and the tools
{BUILDS}  --version | --program                           which program this is; where it is
  COMMAND --help                                  more about a command
{MORE}"""

USAGES = {
    "run": f"""usage: rendapil run {WORDS_OF_RUN}
       rendapil run SETTINGS LEFT_IN RIGHT_IN
Reads what each realm sends to the gateway, LEFT_IN and RIGHT_IN. Writes what the gateway sends to each, LEFT_OUT and RIGHT_OUT, and a line for
each frame to REPORT. Outputs are overwritten. With three words it writes the report to standard output, and nothing else. Captures have Ethernet
frames or bare IPv4 packets, as pcap or pcapng, packed by gzip or not; a folder stands for all captures in it, in the order of their first frames.
--untag takes VLAN tags off. One input may be - for standard input, and one output - for standard output.
Status: 0 done, 3 the settings have a fault, 4 a capture has one, 5 to 7 a file can't be read, written or opened, 8 out of memory.""",
    "audit": """usage: rendapil audit SETTINGS LEFT_IN RIGHT_IN LEFT_GIVEN RIGHT_GIVEN REPORT_GIVEN REPORT
Says whether a gateway may have written LEFT_GIVEN, RIGHT_GIVEN and REPORT_GIVEN for these inputs: lawful (status 0), or unlawful with the first
frame that is wrong (status 9). REPORT may be - for standard output, and one input - for standard input. The other statuses are those of run.""",
    "make": """usage: rendapil make NUMBER COUNT REPORT
Runs the gateway over traffic that it makes in memory from NUMBER (0 to 4294967295). COUNT (1 to 100000) says how much: mostly some more frames. Writes
the last line of the report alone, by which two builds can be compared.""",
    "test": """usage: rendapil test
Runs the worked cases with the program, and the tests of the tools. Needs Python 3.11. The last line is 'N passed, M failed, K skipped'.""",
    "build": """usage: rendapil build
Builds the program from the code of this checkout in a minute or two, without checking its proofs. Says whether it is the program that PROVED-PROGRAM
names as proved, and the file under prebuilt/. Needs rt, the tool of Rattle.""",
    "prove": """usage: rendapil prove
Checks every proof that the program rests on, with all processors, and tells how long that will still take. Then it builds the program anew, and
says whether the one before was the same. Needs rt, the tool of Rattle.""",
}
"""What a command does that is no tool of its own."""

TOOLS = {
    "check": "rendapil.check.settings",
    "explain": "rendapil.explain.command",
    "try": "rendapil.trying.command",
    "fill": "rendapil.filling.command",
    "plan": "rendapil.planning.command",
    "compare": "rendapil.comparing.command",
    "export": "rendapil.exporting.command",
    "import": "rendapil.exporting.importing",
}
"""The commands that are tools of their own, and take any words, each with its module."""


def tool(name: str, words: list[str]) -> int:
    """Runs a tool. It is loaded only here, since the others don't need it."""
    import importlib

    sys.argv = [f"rendapil {name}", *words]
    status: int = importlib.import_module(TOOLS[name]).main()
    return status


def build() -> int:
    """Builds the program anew."""
    if not IS_CHECKOUT:
        raise Stop(CANNOT, "the installed command has no code: a checkout has")
    from rendapil import build as building

    building.build()
    return 0


def prove() -> int:
    """Checks all proofs, if they weren't checked of just these sources."""
    if not IS_CHECKOUT:
        raise Stop(CANNOT, "the installed command has no proofs: a checkout has")
    from rendapil import build, program

    if program.is_proved_here():
        raise Stop(0, "the program is proved, and no source has changed since")
    build.build_proved()
    return 0


def test() -> int:
    """Tests the program and the tools."""
    import subprocess

    from rendapil.build import have_program

    program = have_program()
    env = {name: value for name, value in os.environ.items() if name != "PYTHONSAFEPATH"}  # tests import each other by their folder
    return subprocess.run([sys.executable, TOP / "tests/cases", program], env=env, check=False).returncode


def refused(words: list[str]) -> int:
    """Says why the words are no command."""
    import difflib

    if words[0] in USAGES:
        print("\n".join(line for line in USAGES[words[0]].split("\n") if "rendapil" in line), file=sys.stderr)
        say(f"{words[0]} doesn't take {len(words) - 1} words")
        return USAGE
    near = difflib.get_close_matches(words[0], [*USAGES, *TOOLS, "--help", "--version"], 1)
    say(f"there is no command '{as_word(words[0])}'" + (f": is '{near[0]}' meant?" if near else ""))
    say("'rendapil --help' lists the commands")
    return USAGE


def without_options(words: list[str]) -> list[str]:
    """The words without --quiet and --untag, in front of the command or behind it."""
    for place, word in enumerate(words[:2]):
        if word in ("--quiet", "-q"):
            sayings.QUIET = True
        elif word == "--untag":
            os.environ["RENDAPIL_UNTAG"] = "1"  # for all that this command starts
        else:
            continue
        return without_options(words[:place] + words[place + 1 :])
    return words


def run(words: list[str]) -> int:
    """A run, an audit or a make."""
    from rendapil.running import run as run_words

    return run_words(words)


def tell_program() -> None:
    """Where the program is."""
    from rendapil.build import have_program

    print(have_program())


def tell_version() -> None:
    """Which program it is."""
    from rendapil import program

    program.tell_version()


def done(words: list[str]) -> int:
    """Does what the words say. The status."""
    match words:
        case ["help", command]:
            return done([command, "--help"])
        case ["run", _, _, _]:
            return run([*words, "/dev/null", "/dev/null", "-"])
        case [("run" | "audit" | "make") as command, *rest] if len(rest) == COUNTS[command]:
            return run(words)
        case [command, "-h" | "--help"] if command in USAGES:
            print(USAGES[command])
        case [command, *rest] if command in TOOLS:
            return tool(command, rest)
        case ["-h" | "--help" | "help"]:
            print(HELP)
        case ["-V" | "--version"]:
            tell_version()
        case ["--program"]:
            tell_program()
        case ["build"]:
            return build()
        case ["prove"]:
            return prove()
        case ["test"]:
            return test()
        case []:
            print(HELP, file=sys.stderr)
            return USAGE
        case _:
            return refused(words)
    return 0


def open_streams() -> None:
    """Closed streams take nothing, so that no file gets their numbers."""
    for number, name in ((0, "/dev/null"), (1, "/dev/full"), (2, "/dev/null")):
        try:
            os.fstat(number)
        except OSError:
            os.dup2(os.open(name, os.O_RDWR), number)
    sys.stdout = sys.stdout or open(1, "w", closefd=False)
    sys.stderr = sys.stderr or open(2, "w", closefd=False)


def main(words: list[str]) -> int:
    """Does what the words say. The status."""
    open_streams()
    signal.signal(signal.SIGPIPE, signal.SIG_DFL)
    try:
        status = done(without_options(words))
        sys.stdout.flush()
        return status
    except Stop as stop:
        return stop.tell()
    except KeyboardInterrupt:
        return 130
    except OSError as error:
        sys.stdout = open(os.devnull, "w")  # nothing more goes there
        say(f"{as_word(str(error.filename or 'standard output'))}: {error.strerror}")
        return CANNOT
