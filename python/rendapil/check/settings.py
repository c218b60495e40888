"""What a settings file says, keys that the gateway doesn't know, and each fault with what is allowed; whether SNMP messages tell
aliases that no static keeps; and which frames of two captures will be refused by it. Ends with 1 where there is any."""
import argparse
import difflib
import re
import sys
import tomllib
from bisect import bisect_right
from collections.abc import Callable, Iterator
from dataclasses import dataclass
from ipaddress import IPv4Address, IPv4Network, collapse_addresses

from rendapil.bindings import pool_of
from rendapil.document import Document, Side, faultless
from rendapil.files import shown

LIMIT = 1_048_576
"""The most bytes of a settings file."""

DEEPEST = 64
"""The most parts of a key that is read: with many more the reader would take hours."""

MOST_UNKNOWN, LONGEST = 20, 60
"""The most unknown keys that are named, and the most characters of one or of a value."""

POOL_LIMIT = 65_536
"""The most addresses of a pool."""

OTHER: dict[Side, Side] = {"left": "right", "right": "left"}

PLACES = {"": "in front of all tables", "realm": "to left and right", "static": "to a static", "oid": "to an oid rule"}


@dataclass
class Form:
    """What a value may be: its type, a test of it, and the name of the fault where only the test fails."""

    words: str
    kind: type
    is_right: Callable[..., bool]
    needed: bool = False
    fault: str = "Kind"


def one_of(*words: str, needed: bool = False) -> Form:
    """One of these words."""
    return Form(" or ".join(f'"{word}"' for word in words), str, lambda text: text in words, needed)


def is_address(text: str) -> bool:
    """Whether a text is the address of a host."""
    try:
        first = IPv4Address(text).packed[0]
    except ValueError:
        return False
    return first not in (0, 127) and first < 224


def is_mac(text: str) -> bool:
    """Whether a text is a MAC address."""
    return bool(re.fullmatch(r"[0-9A-Fa-f]{2}(:[0-9A-Fa-f]{2}){5}", text))


def is_block(text: str) -> bool:
    """Whether a text is a block of addresses, as 203.0.113.0/24."""
    if not re.fullmatch(r"[0-9.]+/(0|[1-9][0-9]?)", text):
        return False
    try:
        IPv4Network(text)
    except ValueError:
        return False
    return True


def are_blocks(texts: list[str]) -> bool:
    """Whether all of these are blocks."""
    return all(map(is_block, texts))


def is_prefix(text: str) -> bool:
    """Whether a text is the front of an object identifier."""
    if not re.fullmatch(r"(0|[1-9][0-9]{0,9})(\.(0|[1-9][0-9]{0,9})){1,63}", text):
        return False
    first, second, *others = [int(arc) for arc in text.split(".")]
    return first <= 2 and second <= (39 if first < 2 else 4_294_967_215) and all(arc <= 4_294_967_295 for arc in others)


def is_skip(number: int) -> bool:
    """Whether a rule may skip so many parts of an identifier."""
    return 0 <= number <= 127


ADDRESS = Form('the address of a host, as "192.168.200.1"', str, is_address, True, "BadAddress")
MAC = Form('a MAC address, as "02:00:5e:10:00:01"', str, is_mac)
BLOCKS = Form('an array of blocks, each as "203.0.113.0/24", all bits behind the first 24 zero', list, are_blocks, fault="BadAddress")
TABLE = Form("a table", dict, lambda _: True, True)
TABLES = Form("an array of tables, each begun by two brackets: [[static]], [[oid]]", list, lambda _: True)

KEYS = {
    "": {
        "report": one_of("text", "json"),
        "fragments": one_of("refuse", "join"),
        "same": BLOCKS,
        "left": TABLE,
        "right": TABLE,
        "static": TABLES,
        "oid": TABLES,
    },
    "realm": {"pool_first": ADDRESS, "pool_last": ADDRESS, "link": one_of("raw", "ethernet", needed=True), "gateway_mac": MAC, "next_mac": MAC},
    "static": {"side": one_of("left", "right", needed=True), "host": ADDRESS, "alias": ADDRESS},
    "oid": {
        "prefix": Form('2 to 64 numbers joined by dots, as "1.3.6.1.2.1.4.20.1"', str, is_prefix, True),
        "skip": Form("a whole number from 0 to 127", int, is_skip, True),
    },
}


def tables_in(document: dict[str, object]) -> Iterator[tuple[str, str, dict[str, object]]]:
    """The tables of a document in the order of testing: which kind of keys each has, the front of their names, and the table."""
    for side in OTHER:
        if isinstance(table := document.get(side), dict):
            yield "realm", f"{side}.", table
    for kind in ("static", "oid"):
        tables = document.get(kind)
        for number, table in enumerate(tables if isinstance(tables, list) else [], 1):
            if isinstance(table, dict):
                yield kind, f"{kind}.{number}.", table


def hint_for(kind: str, front: str, key: str) -> str:
    """What may be meant by a key that isn't known: one of another place, or the one that is nearest."""
    for other, place in PLACES.items():
        if key in KEYS[other]:
            return f": it belongs {place}"
    near = difflib.get_close_matches(key[:LONGEST], KEYS[kind], 1)
    return f": is {front}{near[0]} meant?" if near else ""


def unknown_keys(document: dict[str, object]) -> list[str]:
    """A line for each key that the gateway ignores, up to a limit."""
    found = [(kind, front, key) for kind, front, table in [("", "", document), *tables_in(document)] for key in table if key not in KEYS[kind]]
    lines = [f"{front}{key[:LONGEST]} isn't known, and is ignored{hint_for(kind, front, key)}" for kind, front, key in found[:MOST_UNKNOWN]]
    if len(found) > MOST_UNKNOWN:
        lines.append(f"{len(found) - MOST_UNKNOWN} more keys aren't known, and are ignored")
    return lines


def fault_of(name: str, table: dict[str, object], key: str, form: Form) -> Iterator[str]:
    """The fault of one key, with what is allowed."""
    if key not in table:
        if form.needed:
            yield f"Missing {name}: {form.words}"
        return
    value = table[key]
    parts = value if isinstance(value, list) else []
    wanted = {"same": str, "static": dict, "oid": dict}.get(key, object)
    is_kind = isinstance(value, form.kind) and not isinstance(value, bool) and all(isinstance(part, wanted) for part in parts)
    if not is_kind or not form.is_right(value):
        wrong = [part for part in parts if form is BLOCKS and not (isinstance(part, str) and is_block(part))]
        told = repr(wrong[0] if wrong else value)
        yield f"{form.fault if is_kind else 'Kind'} {name}: {told if len(told) < LONGEST else 'the value'} isn't {form.words}"


def faults_of_keys(document: dict[str, object]) -> Iterator[str]:
    """The faults of single keys, in the order of testing."""
    tables = list(tables_in(document))
    for key, form in KEYS[""].items():
        yield from fault_of(key, document, key, form)
        for kind, front, table in tables:
            if front.split(".")[0] == key:
                for inner, inner_form in KEYS[kind].items():
                    yield from fault_of(front + inner, table, inner, inner_form)


class Realms:
    """Settings whose keys are right."""

    def __init__(self, document: Document) -> None:
        self.document = document
        self.pools = {side: pool_of(document, side) for side in OTHER}
        self.same = list(map(IPv4Network, document.get("same", [])))
        self._apart = list(collapse_addresses(self.same))  # in order, and no two share an address
        self.statics = [(row["side"], IPv4Address(row["host"]), IPv4Address(row["alias"])) for row in document.get("static", [])]

    def is_in_same(self, address: IPv4Address) -> bool:
        """Whether an address lies in a block of same."""
        place = bisect_right(self._apart, IPv4Network(address))
        return any(address in block for block in self._apart[max(0, place - 1) : place + 1])

    def is_in_pool(self, side: Side, address: IPv4Address) -> bool:
        """Whether an address is one of a realm's pool."""
        return self.pools[side][0] <= int(address) <= self.pools[side][1]

    def size(self, side: Side) -> int:
        """How many addresses a pool has."""
        return self.pools[side][1] - self.pools[side][0] + 1

    def faults(self) -> Iterator[str]:
        """What doesn't fit together, in the order of testing."""
        for side in OTHER:
            if not 1 <= self.size(side) <= POOL_LIMIT:
                yield f"PoolSize {side}: a pool has 1 to {POOL_LIMIT} addresses, and this one {max(0, self.size(side))}"
        for side, (first, last) in self.pools.items():
            for block in self.same:
                if int(block[0]) <= last and first <= int(block[-1]):
                    yield f"SameInPool {side}: {block} shares addresses with the pool"
        for number, (side, host, _) in enumerate(self.statics, 1):
            if self.is_in_pool(side, host) or self.is_in_same(host):
                yield f"HostInPool static.{number}: {host} isn't the {side} host's own address: it lies in the {side} pool or in same"
        for number, (side, _, alias) in enumerate(self.statics, 1):
            if not self.is_in_pool(OTHER[side], alias):
                yield f"StaticOutsidePool static.{number}: {alias} isn't in the {OTHER[side]} pool"
        yield from self.repeated()
        for side in OTHER:
            table = self.document[side]
            if table["link"] == "ethernet" and not {"gateway_mac", "next_mac"} <= set(table):
                yield f"MacMissing {side}: an Ethernet link needs gateway_mac and next_mac"

    def repeated(self) -> Iterator[str]:
        """Statics of one side with one host or one alias."""
        seen: set[tuple[str, str, IPv4Address]] = set()
        for number, (side, host, alias) in enumerate(self.statics, 1):
            names = {(side, "host", host), (side, "alias", alias)}
            if names & seen:
                yield f"StaticRepeated static.{number}: an earlier static of the {side} side has host {host} or alias {alias}"
            seen |= names

    def unkept(self) -> Iterator[str]:
        """That SNMP messages tell aliases which nothing keeps: whoever reads one may use it long after (RFC 2962, 3.2)."""
        bare = [side for side in OTHER if all(row[0] != side for row in self.statics)]
        if self.document.get("oid") and bare:
            yield (
                f"oid: SNMP messages tell aliases of {' and '.join(bare)} hosts, and don't keep them. A manager that stores one may reach another host later. "
                "Give each host that SNMP messages name a static (RFC 2962, 3.2)"
            )

    def tell(self) -> None:
        """What the settings say."""
        for side, (first, last) in self.pools.items():
            fixed = sum(row[0] != side for row in self.statics)
            print(f"{side} pool: {IPv4Address(first)} to {IPv4Address(last)}, {max(0, self.size(side))} addresses ", end="")
            print(f"for hosts of the {OTHER[side]} realm, {fixed} of them fixed")
        for side, host, alias in self.statics:
            print(f"static: {side} {host} is {alias} on the {OTHER[side]}")
        for block in self.same:
            print(f"same: {block}, {block.num_addresses} addresses that cross unchanged")
        for row in self.document.get("oid", []):
            print(f"oid: {row['prefix']}, skip {row['skip']}")
        links = ", ".join(f"{side} {self.document[side]['link']}" for side in OTHER)
        print(f"links: {links}; fragments: {self.document.get('fragments', 'refuse')}; report: {self.document.get('report', 'text')}")


def long_numbers(value: object) -> Iterator[int]:
    """The whole numbers in a value that have more than 64 bits."""
    if isinstance(value, int) and not -(1 << 63) <= value < 1 << 63:
        yield value
    for part in value.values() if isinstance(value, dict) else value if isinstance(value, list) else []:
        yield from long_numbers(part)


DEEP_KEY = re.compile(rf"""(?:^|[\[{{,])[ \t]*+(?:(?:[\w-]++|"[^"\n]*+"|'[^'\n]*+')[ \t]*+\.[ \t]*+){{{DEEPEST}}}""", re.M)


def read(octets: bytes) -> tuple[dict[str, object], list[str]]:
    """The document, and why it is none."""
    if len(octets) > LIMIT:
        return {}, [f"TooLong: it has more than {LIMIT} bytes"]
    try:
        text = octets.removeprefix(b"\xef\xbb\xbf").decode()
        if deep := DEEP_KEY.search(text):
            line = text.count("\n", 0, deep.end()) + 1
            return {}, [f"NotToml: line {line} has a key of more than {DEEPEST} parts, and isn't read here"]
        document = tomllib.loads(text)
        return document, [f"NotToml: {number} has more than 64 bits" for number in long_numbers(document)][:1]
    except UnicodeDecodeError as error:
        line = octets[: error.start].count(b"\n") + 1
        return {}, [f"NotToml: line {line} isn't text in UTF-8 (byte {octets[error.start]:#04x})"]
    except tomllib.TOMLDecodeError as error:
        return {}, [f"NotToml: {error}"]
    except RecursionError:
        return {}, ["NotToml: arrays or tables inside one another are too many"]
    except ValueError as error:
        return {}, [f"NotToml: {error}"]


def document_of(path: str) -> tuple[Document, str]:
    """What a settings file without faults says, and its text. Fault where it has some: only `check` tells them."""
    with open(path, "rb") as file:
        octets = file.read(LIMIT + 1)
    document, faults = read(octets)
    if faults or list(faults_of_keys(document)):
        from rendapil.sayings import Fault

        raise Fault(f"{shown(path)} has faults: 'rendapil check' tells them")
    return faultless(document), octets.removeprefix(b"\xef\xbb\xbf").decode()


def faults_of_captures(paths: list[str], realms: Realms) -> Iterator[str]:
    """What of the frames of both captures will be refused."""
    from rendapil.check.captures import told

    return told(paths, realms)


def lines_of(settings: str, captures: list[str], brief: bool) -> list[str]:
    """What is to be minded in a settings file, and in captures that are run with it. Tells what it says."""
    try:
        with open(settings, "rb") if settings != "-" else sys.stdin.buffer as file:
            document, faults = read(file.read(LIMIT + 1))
    except OSError as error:
        sys.exit(f"rendapil check: {shown(settings)}: {error.strerror}")
    lines = [] if faults else unknown_keys(document)
    faults = faults or list(faults_of_keys(document))
    realms = None if faults else Realms(faultless(document))
    faults += realms.faults() if realms else []
    if realms and not brief:
        realms.tell()
        lines += [] if faults else realms.unkept()
    lines = [f"{settings}: {line}" for line in lines + faults]
    return lines + list(faults_of_captures(captures, realms) if realms and captures and not faults else [])


def is_text(path: str) -> bool:
    """Whether a file may be settings: each capture has a zero byte in its head."""
    try:
        with open(path, "rb") as file:
            return b"\0" not in file.read(24)
    except OSError:
        return True


def main() -> int:
    """Checks each file, and says whether there is anything to mind."""
    parser = argparse.ArgumentParser(prog="rendapil check", description=__doc__)
    parser.add_argument("settings", metavar="SETTINGS", help="a file, or - for standard input")
    parser.add_argument(
        "more", metavar="FILE", nargs="*", help="LEFT_IN and RIGHT_IN, whose frames are looked at by these settings, or more SETTINGS"
    )
    parser.add_argument("--brief", action="store_true", help="tell the unknown keys and the faults alone")
    words = parser.parse_args()
    captures = words.more if len(words.more) == 2 else []
    if not captures and not all(map(is_text, words.more)):
        parser.error("give both captures, LEFT_IN and RIGHT_IN")
    count = 0
    for settings in [words.settings, *(words.more if not captures else [])]:
        for line in lines_of(settings, captures, words.brief):
            print(shown(line))
            count += 1
    return 1 if count else 0


if __name__ == "__main__":
    sys.exit(main())
