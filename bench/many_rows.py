"""many_rows.py KIND ROWS FRAMES FOLDER: writes settings and two raw captures, the left one with so many frames of 60 octets.

KIND is hosts (UDP, each frame from the next of so many hosts), connections (TCP of one host, each frame on the next of so
many connections), or both (TCP, each frame from the next host, on a connection of its own)."""
import sys

from datagrams import paced, tcp, udp, write_run

kind, rows, frames, folder = sys.argv[1], int(sys.argv[2]), int(sys.argv[3]), sys.argv[4]
SETTINGS = """
left = { pool_first = "192.168.0.1", pool_last = "192.168.0.254", link = "raw" }
right = { pool_first = "172.16.0.0", pool_last = "172.16.255.255", link = "raw" }
static = [ { side = "right", host = "10.0.0.5", alias = "192.168.0.1" } ]
"""


def host(number: int) -> str:
    """A host by its number."""
    return "10.%d.%d.%d" % (1 + number // 65536, number // 256 % 256, number % 256)


def frame(number: int) -> bytes:
    """A frame by its number."""
    row = number % rows
    if kind == "hosts":
        return udp(host(row), 4000, "192.168.0.1", 4001, bytes(32))
    source = host(row) if kind == "both" else host(0)
    return tcp(source, 1024 + row % 60000, "192.168.0.1", 8000 + row // 60000, 16, row, 0, bytes(20))


write_run(folder, SETTINGS, paced(map(frame, range(frames)), 100000))
