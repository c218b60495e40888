"""Clients of the right realm's servers, for `services` and `record`: clients.py WHAT [WORDS]."""
import ftplib
import io
import os
import random
import socket
import sys
import threading
import time
from collections import Counter
from collections.abc import Callable

FTP, PAGES, OWN = "192.168.200.7", "192.168.200.1", "10.0.0.5"
NAMES = 102
"""The files in the server's folder."""


def login(host: str = FTP, source: str = OWN, patience: float = 30) -> ftplib.FTP:
    """A login as anonymous."""
    client = ftplib.FTP(timeout=patience, source_address=(source, 0))
    client.connect(host)
    client.login()
    client.trust_server_pasv_ipv4_address = True  # type: ignore[attr-defined] # mypy's own types of ftplib lack it
    return client


def fetch(client: ftplib.FTP, name: str, is_passive: bool) -> bytes:
    """A file, by PASV or PORT."""
    client.set_pasv(is_passive)
    came = io.BytesIO()
    client.retrbinary(f"RETR pub/{name}", came.write)
    return came.getvalue()


def many(count: str, files: str, folder: str) -> str:
    """So many logins at once, from two hosts to three, which fetch so many files each."""
    ended: Counter[str] = Counter()

    def one(number: int) -> None:
        draw = random.Random(number)
        try:
            source, host = (OWN, "10.0.0.6")[number % 2], (FTP, "192.168.200.53", PAGES)[number % 3]
            client = login(host, source)
            for _ in range(int(files)):
                if fetch(client, "file-with-a-long-name-7", draw.random() < 0.5) != b"7\n":
                    raise ValueError("another file")
            if number % 10 == 0 and fetch(client, "large", True) != read(f"{folder}/pub/large"):
                raise ValueError("another file")
            client.quit()
            ended["all equal"] += 1
        except (OSError, EOFError, ValueError, ftplib.Error) as error:
            ended[f"{type(error).__name__} {error}"] += 1

    threads = [threading.Thread(target=one, args=(number,)) for number in range(int(count))]
    for thread in threads:
        thread.start()
    for thread in threads:
        thread.join()
    return f"{count} logins at once, {files} files each: {dict(ended)}"


def read(name: str) -> bytes:
    """A file's octets."""
    with open(name, "rb") as file:
        return file.read()


class Talk:
    """A control connection by hand, each write a segment of its own."""

    def __init__(self, nodelay: bool = True) -> None:
        self.socket = socket.create_connection((FTP, 21), 20, (OWN, 0))
        self.socket.setsockopt(socket.IPPROTO_TCP, socket.TCP_NODELAY, nodelay)
        self.answer()
        self.ask("USER anonymous")
        self.ask("PASS x")

    def answer(self) -> str:
        """The lines of one answer."""
        came = b""
        while not came.endswith(b"\n") or came.split(b"\n")[-2][3:4] != b" ":
            octets = self.socket.recv(4096)
            if not octets:
                break
            came += octets
        return came.decode()

    def ask(self, line: str) -> str:
        """A line in one write, and the answer."""
        self.socket.sendall(line.encode() + b"\r\n")
        return self.answer()

    def ask_in_pieces(self, line: str, draw: random.Random) -> str:
        """A line in writes of 1 to 9 octets, and the answer."""
        octets = line.encode() + b"\r\n"
        while octets:
            count = draw.randint(1, 9)
            self.socket.sendall(octets[:count])
            octets = octets[count:]
            time.sleep(draw.choice((0, 0.002, 0.02)))
        return self.answer()


def pieces(rounds: str) -> str:
    """PORT, EPRT and PASV written in pieces of 1 to 9 octets, and lists over the connections that they name."""
    draw, talk, wrong = random.Random(7), Talk(), 0
    for number in range(int(rounds)):
        with socket.create_server((OWN, 0)) as server:
            server.settimeout(15)
            port = server.getsockname()[1]
            line = f"PORT 10,0,0,5,{port >> 8},{port & 255}" if number % 2 else f"EPRT |1|10.0.0.5|{port}|"
            wrong += not talk.ask_in_pieces(line, draw).startswith("200")
            talk.socket.sendall(b"NLST pub\r\n")
            data, who = server.accept()
            with data, data.makefile("rb") as lines:
                wrong += len(lines.readlines()) != NAMES or who[0] != FTP
            said = talk.answer()
            wrong += "226" not in said and "226" not in talk.answer()
        wrong += "(192,168,200,7," not in talk.ask_in_pieces("PASV", draw)
    talk.ask("QUIT")
    return f"{rounds} rounds, {wrong} wrong answers"


def at_once(lines: str) -> str:
    """So many lines in one write, half of them PORT."""
    talk, count = Talk(), int(lines) // 2
    talk.socket.sendall(b"".join(b"PORT 10,0,0,5,%d,%d\r\nNOOP\r\n" % (40 + n % 100, n % 256) for n in range(count)))
    came = b""
    while came.count(b"\n") < 2 * count:
        came += talk.socket.recv(65_536)
    return f"{came.count(b'200 ')} of {2 * count} lines answered with 200"


def parts() -> str:
    """Lines in two writes, with Nagle's algorithm on, as it is unless a program turns it off."""
    said = []
    for first, second in (("NOOP", "\r\n"), ("PORT 10,0,0,5,200,7", "\r\n"), ("PASV", "\r\n"), ("P", "ASV\r\n")):
        talk = Talk(nodelay=False)
        talk.socket.settimeout(5)
        time.sleep(0.1)
        began = time.monotonic()
        try:
            talk.socket.send(first.encode())
            talk.socket.send(second.encode())
            talk.answer()
            said.append(f"{first!r} + {second!r} {(time.monotonic() - began) * 1000:.0f} ms")
        except TimeoutError:
            said.append(f"{first!r} + {second!r} no answer in 5 s")
        talk.socket.close()
    return "; ".join(said)


def short(count: str) -> str:
    """So many connections for a page each, one by one."""
    waits = []
    for _ in range(int(count)):
        began = time.monotonic()
        with socket.create_connection((PAGES, 8080), 10) as page, page.makefile("rb") as octets:
            page.sendall(b"GET /pub/hello HTTP/1.0\r\n\r\n")
            if not octets.read().endswith(b"hello\n"):
                return "another page"
        waits.append((time.monotonic() - began) * 1000)
    waits.sort()
    return f"{count} pages: median {waits[len(waits) // 2]:.1f} ms, 99 % within {waits[len(waits) * 99 // 100]:.1f} ms"


def noop(client: ftplib.FTP) -> str:
    """Whether a login still answers."""
    try:
        client.voidcmd("NOOP")
        return "goes on"
    except (OSError, EOFError, ftplib.Error) as error:
        return f"hangs ({type(error).__name__})"


def wait_for(name: str) -> None:
    """Tells that it waits, by a file, until that is taken away."""
    with open(name, "w", encoding="ascii"):
        pass
    while os.path.exists(name):
        time.sleep(0.05)


def across(name: str) -> str:
    """A login and a plain connection of the static host over whatever the caller does while the file is there."""
    client = login(patience=5)
    plain = socket.create_connection((PAGES, 8080), 5, (OWN, 0))
    wait_for(name)
    said = f"the FTP login {noop(client)}"
    try:
        plain.sendall(b"GET /pub/hello HTTP/1.0\r\n\r\n")
        said += f", plain TCP {'goes on' if plain.recv(100) else 'ends'}"
    except OSError as error:
        said += f", plain TCP: {error}"
    try:
        login(patience=5).quit()
        return said + ", a new login works"
    except (OSError, EOFError, ftplib.Error) as error:
        return said + f", a new login: {error}"


def again() -> str:
    """A second login from the same port."""
    said = []
    for _ in range(2):
        with socket.socket() as client:
            client.setsockopt(socket.SOL_SOCKET, socket.SO_REUSEADDR, 1)
            client.bind((OWN, 41_000))
            client.settimeout(4)
            try:
                client.connect((FTP, 21))
                said.append(client.recv(100).decode().strip())
                client.sendall(b"QUIT\r\n")
                while client.recv(100):
                    pass
            except OSError as error:
                said.append(str(error))
        time.sleep(0.5)
    return " / ".join(said)


def main() -> None:
    """Says what was seen in one line."""
    calls: list[Callable[..., str]] = [many, pieces, at_once, parts, short, across, again]
    print(next(call for call in calls if call.__name__ == sys.argv[1])(*sys.argv[2:]))


if __name__ == "__main__":
    main()
