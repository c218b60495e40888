"""Blocks of addresses that mean the same hosts everywhere."""
from ipaddress import IPv4Network, collapse_addresses

PRIVATE = [
    *map(
        IPv4Network,
        (
            "0.0.0.0/8",
            "10.0.0.0/8",
            "100.64.0.0/10",
            "127.0.0.0/8",
            "169.254.0.0/16",
            "172.16.0.0/12",
            "192.168.0.0/16",
            "198.18.0.0/15",
            "224.0.0.0/3",
        ),
    )
]
"""Blocks whose addresses don't mean the same host everywhere."""


def public_blocks(without: list[IPv4Network]) -> list[IPv4Network]:
    """All blocks of addresses that mean the same host everywhere, but for these."""
    left = [IPv4Network("0.0.0.0/0")]
    for hole in collapse_addresses([*PRIVATE, *without]):
        left = [
            part for block in left for part in (block.address_exclude(hole) if hole.subnet_of(block) else [] if block.subnet_of(hole) else [block])
        ]
    return sorted(left)
