"""What the tests of the tools share: where all is, and how they ask it."""
import os
import struct
import subprocess
import sys
from collections.abc import Iterable
from importlib.machinery import SourceFileLoader
from importlib.util import module_from_spec, spec_from_loader
from ipaddress import IPv4Address
from types import ModuleType

sys.dont_write_bytecode = True
TESTS = os.path.dirname(os.path.realpath(__file__))
TOP = os.path.dirname(TESTS)
TOOLS = f"{TOP}/tools"
BUILT = [f"{TOP}/{name}/gateway_program" for name in ("crates/gateway_program/out", "prebuilt/x86_64-linux")]
PROGRAM = os.environ.get("PROGRAM", "") or next((path for path in BUILT if os.access(path, os.X_OK)), BUILT[0])
MERGER, LIVE = f"{TOP}/examples/merger", f"{TESTS}/live_case"
INPUTS = [f"{MERGER}/settings.toml", f"{MERGER}/north.pcap", f"{MERGER}/south.pcap"]
OUTPUTS = [f"{TESTS}/merger_run/{name}" for name in ("north-out.pcap", "south-out.pcap", "report.txt")]
CASE = [f"{LIVE}/{name}" for name in ("settings.toml", "left.pcap", "right.pcap", "left-out.pcap", "right-out.pcap", "report.txt")]
RIGHT = """
left = { pool_first = "192.168.200.1", pool_last = "192.168.200.254", link = "raw" }
right = { pool_first = "172.16.9.1", pool_last = "172.16.9.254", link = "raw" }
"""
"""Settings without a fault."""

sys.path[:0] = [f"{TOP}/python", f"{TOP}/examples/live", f"{TOP}/bench", TOOLS]
CHECK, EXPLAIN, TRY, PLAN, COMPARE, EXPORT = ((f"{TOP}/rendapil", command) for command in ("check", "explain", "try", "plan", "compare", "export"))


def said(*words: str) -> tuple[int, str]:
    """Status and output of a command, standard error with it."""
    done = subprocess.run(words, stdout=subprocess.PIPE, stderr=subprocess.STDOUT, text=True, check=False)
    return done.returncode, done.stdout


def script(path: str) -> ModuleType:
    """A script without an ending as a module."""
    loader = SourceFileLoader(f"script_{os.path.basename(path)}", path)
    spec = spec_from_loader(loader.name, loader)
    assert spec
    module = sys.modules[loader.name] = module_from_spec(spec)
    loader.exec_module(module)
    return module


def datagram(ways: str, protocol: int, payload: bytes) -> bytes:
    """A datagram without sums, between two addresses."""
    addresses = b"".join(IPv4Address(address).packed for address in ways.split(" > "))
    return struct.pack(">BBHHHBBH", 0x45, 0, 20 + len(payload), 0, 0, 64, protocol, 0) + addresses + payload


def capture(datagrams: Iterable[bytes]) -> bytes:
    """A capture of bare datagrams, a second apart."""
    head = struct.pack("<IHHiIII", 0xA1B2C3D4, 2, 4, 0, 0, 262144, 101)
    return head + b"".join(struct.pack("<IIII", second, 0, len(one), len(one)) + one for second, one in enumerate(datagrams, 1))
