"""A device that changes ports, or has several hosts share one alias (NAPT): its captures as if each host had an alias of its own and kept its ports. The
reference does no such thing, so its frames are compared with these. Addresses and ports in payloads stay as they are."""
import os
from array import array

from rendapil.bindings import Blocks, pool_of
from rendapil.comparing.bindings import APART, Learnt, identity, is_error
from rendapil.comparing.captures import Bare, Links, frames, ports
from rendapil.document import Document
from rendapil.numbers import SIDES, TCP, UDP
from rendapil.packet import ICMP, Packet, is_host

Flow = bytes


def flow_of(datagram: bytes, is_back: bool = False) -> Flow:
    """Protocol, addresses and ports: with `is_back` those of an answer, the other way round."""
    one, other = datagram[12:16], datagram[16:20]
    named = ports(datagram)
    if datagram[9] == ICMP:
        named = named[2:4]
    elif is_back:
        named = named[2:4] + named[:2]
    return datagram[9:10] + (other + one if is_back else one + other) + named


def is_flow(datagram: bytes) -> bool:
    """Whether it has ports, or is an echo."""
    return datagram[9] in (TCP, UDP) and len(datagram) >= 28 or datagram[9] == ICMP and len(datagram) >= 28 and not is_error(datagram)


def keys_of(datagram: bytes) -> tuple[bytes, bytes]:
    """What tells frames apart whose ports are changed: with the identification, which most devices keep, and without it."""
    key = identity(datagram, False)
    return datagram[4:6] + key, key


def flows_of(came: str, went: str) -> dict[Flow, tuple[bytes, bytes]]:
    """For each flow that went out with another port than it came with, or from an alias that hosts share: its host and port."""
    found: dict[Flow, tuple[bytes, bytes]] = {}
    seen: dict[bytes, tuple[int, bytes, bytes] | None] = {}
    incoming = frames(came)
    waiting = next(incoming, None)
    for moment, datagram in frames(went):
        while waiting and waiting[0] <= moment:
            if is_flow(waiting[1]):
                port = ports(waiting[1])
                one = waiting[0], waiting[1][12:16], port[2:4] if waiting[1][9] == ICMP else port[:2]
                for key in keys_of(waiting[1]):
                    known = seen.get(key, one)
                    seen[key] = one if known and (known[1:] == one[1:] or waiting[0] - known[0] > APART) else None
                if len(seen) > 1 << 18:
                    seen.clear()
            waiting = next(incoming, None)
        if not is_flow(datagram) or (flow := flow_of(datagram)) in found:
            continue
        last = next(filter(None, map(seen.get, keys_of(datagram))), None)
        if last and moment - last[0] <= APART:
            found[flow] = last[1:]
    return found


def own_aliases(settings: Document, learnt: Learnt, side: int, hosts: set[bytes]) -> int:
    """Gives each host without an alias one that is free, the greatest first. Says how many got one."""
    first, last = pool_of(settings, SIDES[1 - side])
    taken = {alias for (one, _), alias in learnt.chosen.items() if one == side}
    free = (alias for alias in range(last, first - 1, -1) if alias not in taken)
    given = 0
    own = pool_of(settings, SIDES[side])
    same = Blocks(settings.get("same", []))
    for host in sorted(map(int.from_bytes, hosts)):
        is_one = is_host(host) and host not in same and not own[0] <= host <= own[1]
        if is_one and (side, host) not in learnt.chosen and (alias := next(free, None)):
            learnt.chosen[side, host] = alias
            given += 1
    return given


def rewritten(file: Bare, flows: dict[Flow, tuple[bytes, bytes]], is_back: bool) -> None:
    """Writes a capture anew: with a host's own alias and port as source, or in answers as destination."""
    new = Bare(file.path + ".new", file.name)
    address_at = 16 if is_back else 12
    for number, (moment, datagram) in zip(file.numbers, frames(file.path)):
        if is_flow(datagram) and (one := flows.get(flow_of(datagram, is_back))):
            packet = Packet(datagram)
            packet.put(address_at, one[0])
            packet.put(packet.head + (4 if datagram[9] == ICMP else 2 if is_back else 0), one[1])
            datagram = bytes(packet.octets)
        new.put(moment, number, datagram)
    new.close()
    os.replace(new.path, file.path)
    file.numbers = array("I", new.numbers)


def undo_ports(settings: Document, links: Links, learnt: Learnt) -> tuple[int, int]:
    """Undoes it in both directions. Says how many flows had another port, and how many hosts shared an alias."""
    changed = shared = 0
    for side in (0, 1):
        flows = flows_of(links.came[side].path, links.went[1 - side].path)
        shared += own_aliases(settings, learnt, side, {host for flow, (host, _) in flows.items() if host != flow[1:5]})
        wanted: dict[Flow, tuple[bytes, bytes]] = {}
        for flow, (host, port) in flows.items():
            alias = learnt.chosen.get((side, int.from_bytes(host)))
            if host != flow[1:5] and alias and (alias.to_bytes(4), port) != (flow[1:5], flow[9:11]):
                wanted[flow] = alias.to_bytes(4), port
                changed += port != flow[9:11]
        rewritten(links.went[1 - side], wanted, False)
        rewritten(links.came[1 - side], wanted, True)
    learnt.faults = [fault for fault in learnt.faults if fault[0] != "one alias stands for two hosts"]
    return changed, shared
