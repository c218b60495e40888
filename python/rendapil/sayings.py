"""What the command says on standard error."""
import os
import shlex
import sys

ESCAPES = {7: "\\a", 8: "\\b", 9: "\\t", 10: "\\n", 11: "\\v", 12: "\\f", 13: "\\r", 27: "\\E", 39: "\\'", 92: "\\\\"}

CANNOT = 70
"""The status where what is asked for can't be had."""

QUIET = False
"""Whether what isn't an error is left out."""


def as_word(text: str) -> str:
    """A name or a word. One with control characters, or that isn't text, is written as bash would take it."""
    if text.isprintable():
        return text
    octets = os.fsencode(text)
    return "$'" + "".join(ESCAPES.get(one) or (chr(one) if 32 <= one < 127 else f"\\{one:03o}") for one in octets) + "'"


def quoted(text: str) -> str:
    """A word as a shell takes it."""
    return shlex.quote(text) if text.isprintable() else as_word(text)


def called() -> str:
    """The command as the user called it. The script at the top says that; whoever calls the package itself didn't."""
    return quoted(os.environ.get("RENDAPIL_CALLED") or "rendapil")


def say(text: str) -> None:
    """A line."""
    sys.stdout.flush()
    print(f"rendapil: {text}", file=sys.stderr, flush=True)


def hint(text: str) -> None:
    """A line that --quiet leaves out."""
    if not QUIET:
        say(text)


class Fault(Exception):
    """What a tool tells the user, on one line, at its end."""


class Stop(Exception):
    """Ends the command with a status, and with a sentence if there is one. `line` is what the program would have said."""

    def __init__(self, status: int, sentence: str = "", line: str = "") -> None:
        super().__init__(sentence)
        self.status, self.sentence, self.line = status, sentence, line

    def tell(self) -> int:
        """Says it. The status."""
        if self.line:
            print(self.line, file=sys.stderr, flush=True)
        if self.sentence:
            say(self.sentence)
        return self.status
