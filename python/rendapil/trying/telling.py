"""What came of a try, in words."""
from collections import Counter
from ipaddress import IPv4Address, IPv4Network

from rendapil.explain.notes import Notes
from rendapil.files import Capture, lines, shown
from rendapil.frames import second_of, verdicts_of
from rendapil.numbers import SECOND, SIDES
from rendapil.sayings import quoted
from rendapil.trying.needs import Need
from rendapil.trying.two_realms import TwoRealms

FRAGMENTS, STATICS = 100_000, 50
"""The most packets whose fragments are followed at once, and the most hosts with statics that are named on the page."""


def counted(count: int, name: str) -> str:
    """So many of something."""
    return f"{count} {name}{'' if count == 1 else 's'}"


def tell_realms(realms: TwoRealms, counts: list[int], folder: str) -> None:
    """Which hosts and frames go to the gateway, what was mended, and what was left out."""
    needy, hosts = sum(host.contacted_first for host in realms.hosts.values()), len(realms.hosts)
    total = sum(counts)
    print(
        f"{counted(total, 'frame')} {'goes' if total == 1 else 'go'} to the gateway, {counts[0]} of the left realm and {counts[1]} of the right one."
    )
    need = f"{counted(needy, 'host')} of {hosts} {'is' if needy == 1 else 'are'} contacted before {'it speaks: it needs' if needy == 1 else 'they speak: these need'} a static."
    print(
        f"{need if needy else 'No host is contacted before it speaks, so none needs a static.'} {shown(folder)}/settings.toml is a draft for your own settings."
    )
    if same := realms.public_seen():
        mean = "public address means" if same == 1 else "public addresses mean"
        print(f"{same} {mean} the same in both realms. --public gives them aliases too.")
    if realms.left_out or realms.filled or realms.mended or realms.lines:
        print()
    for what, count in sorted(realms.left_out.items()):
        print(f"{count:8}  {'frame' if count == 1 else 'frames'} left out: {what}")
    for count, what in (
        (realms.filled, "that the capture has cut, and that were filled up with zeros: their payloads mean nothing"),
        (realms.mended, "with a checksum that was mended: whoever captures his own frames sees them before his card fills it in"),
    ):
        if count:
            print(f"{count:8}  {'frame' if count == 1 else 'frames'} {what}")
    if realms.lines:
        print(f"{realms.lines:8}  {'line' if realms.lines == 1 else 'lines'} of FTP that the gateway changes")
    for line in realms.oddities.lines():
        print(f"\n{line[0].upper()}{line[1:]}.")


def verdicts_in(report: str) -> Counter[str]:
    """How many frames had each verdict, by a report as text that the gateway wrote here."""
    with open(report, "rb", 1 << 18) as file:
        ends = Counter(line.split(b" ", 3)[-1] for line in file if not line.startswith(b"done "))
    verdicts: Counter[str] = Counter()
    for end, count in ends.items():
        verdicts[end.split()[0].decode()] += count
    return verdicts


def lost_fragments(left: str, right: str, report: str) -> int:
    """How many frames were held for a packet that never went out."""
    held: Counter[bytes] = Counter()
    lost = 0
    with Capture(left) as one, Capture(right) as other, open(report, "rb") as file:
        frames = one.frames(), other.frames()
        for line in lines(file, report):
            if isinstance(line, str):
                break
            octets = next(frames[line.side]).octets
            if len(octets) < 20 or not (octets[6] & 0x3F or octets[7]):
                continue
            key = bytes([line.side]) + octets[4:6] + octets[9:10] + octets[12:20]
            if line.verdict == "held":
                held[key] += 1
                if len(held) > FRAGMENTS:
                    lost += held.total()
                    held.clear()
            elif line.verdict == "pass":
                held.pop(key, None)
    return lost + held.total()


def tell_verdicts(verdicts: Counter[str], lost: int) -> None:
    """How many frames passed, and why the others didn't."""
    means = verdicts_of()
    total, passed, joined = verdicts.total(), verdicts["pass"], verdicts["held"] - lost
    if total and not passed:
        print("\nNOTHING PASSES: the lines below say why. So nothing can be told of what works behind the gateway.")
    print(
        f"\n{passed} of {counted(total, 'frame')} that {'goes' if total == 1 else 'go'} to the gateway pass{'es' if passed == 1 else ''}"
        + (f", and {joined} went out as parts of these." if joined else ".")
    )
    for name, count in verdicts.most_common():
        if name == "held":
            if joined:
                print(f"{joined:8}  held: fragments that waited for the others of their packet, which then passed")
            if lost:
                print(
                    f"{lost:8}  lost: fragments that were held, whose packet never went out. What to do: capture all fragments, and see why some are missing or overlap"
                )
            continue
        said = f"{means[name].means}. What to do: {means[name].todo}" if name in means else ""
        print(f"{count:8}  {name}{': ' + said if said else ''}")


def limits(verdicts: Counter[str], realms: TwoRealms) -> list[str]:
    """Where an open loop bites, and what helps."""
    found = []
    stuck, late = verdicts["Gap"] + verdicts["AckAhead"], verdicts["NoSession"]
    if 10 * stuck > verdicts.total():
        why = (
            "Here most follow frames that the capture has cut (Snapped): capture whole frames, by tcpdump -s 0."
            if verdicts["Snapped"]
            else "Public addresses mean the same hosts in both realms in most networks."
            if realms.public_names()
            else "Give addresses that mean the same hosts in both realms by --same."
        )
        found.append(
            f"{counted(stuck, 'frame')} {'is' if stuck == 1 else 'are'} Gap or AckAhead. The hosts of a capture don't answer anew: where the gateway makes a message longer or shorter, "
            f"or where the capture misses a frame, they go on as if nothing had happened. A live gateway doesn't meet this. {why}"
        )
    if 10 * late > verdicts.total():
        why = (
            "the capture has one direction of these connections alone. Capture where both directions pass"
            if realms.oddities.is_one_way
            else "the capture begins within these connections. Capture from before they begin"
        )
        found.append(f"{counted(late, 'frame')} {'is' if late == 1 else 'are'} NoSession: {why}.")
    if verdicts["PoolEmpty"]:
        found.append(
            f"{counted(verdicts['PoolEmpty'], 'frame')} found their pool full: give a larger one by --pool. The lines about pools say how large."
        )
    return found


def tell_limits(verdicts: Counter[str], realms: TwoRealms, again: list[str]) -> None:
    """The same, with the command that helps."""
    for line in limits(verdicts, realms):
        print(f"\n{line}")
        if " Gap " in line and not verdicts["Snapped"] and (names := realms.public_names()):
            print(f"So try:\n\n  {' '.join(again)} --same {' '.join(map(str, names))}")


def tell_needs(realms: TwoRealms) -> None:
    """How large the pools have to be, whatever they are now."""
    print("\nPools, if only hosts that others contact first had a static, by the times of docs/OPERATING.md")
    for side in (0, 1):
        need = realms.needs.by_side[1 - side]
        fixed = sum(host.contacted_first for host in realms.hosts.values() if host.side != side)
        print(f"  {pool_line(side, need, fixed)}")


def pool_line(side: int, need: Need, fixed: int) -> str:
    """What a pool needs."""
    least, front = fixed + need.most, f"{SIDES[side]} pool, for hosts of the {SIDES[1 - side]} realm"
    if not least:
        return f"{front}: nothing, since none of these has an alias"
    when = second_of(need.most_at // SECOND).replace("T", " ")
    busiest = f", {need.most} by use at the busiest moment ({when} UTC) and {need.in_hour} in the busiest hour" if need.most else ""
    return f"{front}: {counted(fixed, 'static')}{busiest}. So {least} address{'' if least == 1 else 'es'} at least; {least + -(-least // 2)} leave room to grow by half"


def notes_of(realms: TwoRealms, verdicts: Counter[str], lost: int, command: str) -> Notes:
    """The same for the page: the command, what was left out and mended, hosts that need a static, and how large pools have to be."""
    left_out = [(count, what) for what, count in sorted(realms.left_out.items(), key=lambda one: -one[1])]
    changed = [
        (realms.filled, "cut by the capture, and filled up with zeros"),
        (realms.mended, "whose checksum was mended"),
        (lost, "held as fragments, whose packet never went out"),
    ]
    statics: list[tuple[str, str, list[str]]] = [
        (str(IPv4Address(address)), SIDES[host.side], [name for name, _ in host.ports.most_common(3)])
        for address, host in realms.hosts.items()
        if host.contacted_first
    ]
    pools = [
        pool_line(side, realms.needs.by_side[1 - side], sum(host.contacted_first for host in realms.hosts.values() if host.side != side))
        for side in (0, 1)
    ]
    odd = [f"{line[0].upper()}{line[1:]}." for line in realms.oddities.lines()] + limits(verdicts, realms)
    return Notes(
        command=shown(command),
        went=verdicts.total(),
        cut=realms.filled,
        left_out=left_out,
        changed=[one for one in changed if one[0]],
        lines=realms.lines,
        statics=statics[:STATICS],
        statics_count=len(statics),
        pools=pools,
        odd=odd,
    )


def again_of(called: str, capture: str, left: list[IPv4Network]) -> list[str]:
    """The words of this try."""
    return [called, "try", quoted(capture), "--left", *map(str, left)]
