"""What settings without faults say: the types of their tables, as TOML has them."""
from typing import Literal, NotRequired, TypedDict, cast

Side = Literal["left", "right"]


class RealmTable(TypedDict):
    """A realm and its link."""

    pool_first: str
    pool_last: str
    link: Literal["raw", "ethernet"]
    gateway_mac: NotRequired[str]
    next_mac: NotRequired[str]


class StaticTable(TypedDict):
    """A host with its alias."""

    side: Side
    host: str
    alias: str


class OidTable(TypedDict):
    """A rule for identifiers of SNMP."""

    prefix: str
    skip: int


class Document(TypedDict):
    """The whole of it."""

    left: RealmTable
    right: RealmTable
    report: NotRequired[Literal["text", "json"]]
    fragments: NotRequired[Literal["refuse", "join"]]
    same: NotRequired[list[str]]
    static: NotRequired[list[StaticTable]]
    oid: NotRequired[list[OidTable]]


def faultless(document: dict[str, object]) -> Document:
    """A document that was found to have no faults."""
    return cast(Document, document)


def document_in(text: str) -> Document:
    """The document of a text that is known to have no faults."""
    import tomllib

    return faultless(tomllib.loads(text))
