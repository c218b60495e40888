"""Numbers that RFCs fix, and times by which the gateway keeps a binding (docs/OPERATING.md)."""
from rendapil.document import Side

SIDES: tuple[Side, Side] = ("left", "right")
ETHERNET = 1
SECOND = 10**9
UDP_TIMEOUT, PING_HOLD, NAME_HOLD, TCP_HOLD, LONG_TIMEOUT, JOIN_HOLD = (n * SECOND for n in (300, 60, 60, 240, 7440, 30))
TCP, UDP = 6, 17
FTP_PORT, DNS_PORT = 21, 53
FIN, SYN, RST, ACK = 1, 2, 4, 16
CHANGED = {(TCP, FTP_PORT), (TCP, DNS_PORT), (UDP, DNS_PORT), (UDP, 161), (UDP, 162)}
"""Ports whose payloads the gateway changes: what it left alone there stands both in what came and in what went out."""
