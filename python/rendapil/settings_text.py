"""Settings as text: the tables that tools write, each with its end of line."""
from collections.abc import Iterable
from ipaddress import IPv4Address

from rendapil.bindings import Binding
from rendapil.numbers import SIDES


def same_line(blocks: Iterable[object]) -> str:
    """The blocks whose addresses mean the same hosts in both realms."""
    return "same = [" + ", ".join(f'"{block}"' for block in blocks) + "]\n"


def pool_table(side: int, first: int, last: int) -> str:
    """A realm with its pool, on a link of bare datagrams."""
    return f'[{SIDES[side]}]\npool_first = "{IPv4Address(first)}"\npool_last = "{IPv4Address(last)}"\nlink = "raw"\n'


def static_table(side: int, host: int, alias: int) -> str:
    """A host with its alias."""
    return f'[[static]]\nside = "{SIDES[side]}"\nhost = "{IPv4Address(host)}"\nalias = "{IPv4Address(alias)}"\n'


def oid_table(prefix: str, skip: int) -> str:
    """A rule for identifiers of SNMP."""
    return f'[[oid]]\nprefix = "{prefix}"\nskip = {skip}\n'


def statics(rows: Iterable[Binding]) -> str:
    """Hosts with their aliases as tables, with a line in front of each."""
    return "".join("\n" + static_table(one.side, one.host, one.alias) for one in sorted(rows, key=lambda one: (one.side, one.host)))
