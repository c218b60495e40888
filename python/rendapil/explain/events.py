"""A line of JSON for each frame of a run. The fields have the names of Suricata's eve.json, where it has them."""
import json
from ipaddress import IPv4Address

from rendapil.numbers import SIDES
from rendapil.frames import Event, address_of, ends, spoken, time_of
from rendapil.payloads.scan import Left


MOST_SAID = 4000
"""How many characters of what a frame says are written: names in a DNS answer may be a hundred times as long as the frame."""


def within(lines: list[str]) -> list[str]:
    """The lines that have room, and how many more there are."""
    room = MOST_SAID
    for place, line in enumerate(lines):
        room -= len(line)
        if room < 0:
            return [*lines[:place], f"and {len(lines) - place} lines more"]
    return lines


def told(event: Event, left: list[Left]) -> None:
    """Writes a frame's line, with the addresses that were left in its payload. Heartbeats have none."""
    if event.is_heartbeat:
        return
    action = event.verdict if event.verdict in ("pass", "held") else "refused"
    line: dict[str, object] = {"timestamp": time_of(event.moment), "event_type": "frame", "event": event.number, "side": SIDES[event.side]}
    line |= {"action": action, "verdict": event.verdict, "length": event.frame.length}
    if event.datagram:
        line |= ends(event.datagram)
    if event.images:
        line["nat"] = {"src_ip": address_of(event.images[0][12:16]), "dest_ip": address_of(event.images[0][16:20])}
        lines, images = spoken(event.datagram), [line for image in event.images for line in spoken(image)]
        if lines != images:
            line["lines"] = {"came": within(lines), "sent": within(images)}
    if left:
        line["payload"] = [
            {**one._asdict(), "address": str(IPv4Address(one.address)), "known_as": str(IPv4Address(one.known_as)) if one.known_as else None}
            for one in left
        ]
    line["sent"] = len(event.sent)
    print(json.dumps(line))
