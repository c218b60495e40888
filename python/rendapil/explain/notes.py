"""What `try` has to tell on the page of its run."""
from typing import TypedDict


class Notes(TypedDict):
    """The command, how many frames went to the gateway and were cut, what was left out and changed, the hosts that need a static, and how large pools have to be."""

    command: str
    went: int
    cut: int
    left_out: list[tuple[int, str]]
    changed: list[tuple[int, str]]
    lines: int
    statics: list[tuple[str, str, list[str]]]
    statics_count: int
    pools: list[str]
    odd: list[str]


NONE = Notes(command="", went=0, cut=0, left_out=[], changed=[], lines=0, statics=[], statics_count=0, pools=[], odd=[])
"""Those of a run that no `try` made."""
