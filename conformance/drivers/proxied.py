"""What the clients that test a proxy share: a server that replies with the bytes of a case, and a client of the proxy."""
import os
import re
import select
import socket
import subprocess
import sys
import tempfile
import time

import fed

sys.path.insert(0, os.path.join(os.path.dirname(os.path.realpath(__file__)), "..", "planted"))
import reader

GET = b"*2\r\n$3\r\nGET\r\n$1\r\nk\r\n"
# More commands than any case has replies.
COMMANDS = 210
# A proxy that has not passed on all bytes, and does nothing for so many seconds, waits.
QUIET = 0.03
PATIENCE = 10


def free_port():
    with socket.create_server(("127.0.0.1", 0)) as free:
        return free.getsockname()[1]


class Proxy:
    """A proxy in front of a server of this process. `start(work, port, server)` returns the words that start it, and `own`
    matches the errors that it sends itself."""

    def __init__(self, start, own):
        self.own = own
        self.listener = socket.create_server(("127.0.0.1", 0))
        self.port, self.server, self.server_bytes = free_port(), None, 0
        self.work = tempfile.TemporaryDirectory()
        words = start(self.work.name, self.port, self.listener.getsockname()[1])
        self.process = subprocess.Popen(words, stdin=subprocess.DEVNULL, stdout=subprocess.DEVNULL, stderr=subprocess.DEVNULL)

    def connected(self):
        """Makes a client of the proxy that has its reply to a first command. A proxy that has not noticed yet that its last
        connection ended replies with an error of its own, and is asked again."""
        until = time.monotonic() + PATIENCE
        while True:
            assert time.monotonic() < until, "the proxy does not serve"
            try:
                self.client = socket.create_connection(("127.0.0.1", self.port))
            except ConnectionRefusedError:
                time.sleep(0.01)
                continue
            self.client.setsockopt(socket.IPPROTO_TCP, socket.TCP_NODELAY, 1)
            self.received, self.is_closed = b"", False
            self.ask(1)
            if self.server and not self.received and not self.is_closed:
                break
            self.client.close()
        self.server.sendall(b"+OK\r\n")
        self.until(lambda: len(self.received) >= 5)
        assert self.received == b"+OK\r\n", self.received
        self.received = b""

    def ask(self, count):
        """Sends so many commands, until the server has them or the client has a reply."""
        self.server_bytes = 0
        self.client.sendall(GET * count)
        self.until(lambda: self.server_bytes >= count * len(GET) or self.received or self.is_closed)

    def until(self, is_done):
        until = time.monotonic() + PATIENCE
        while not is_done():
            assert time.monotonic() < until, "nothing arrives"
            self.turn(0.05)

    def turn(self, seconds):
        """Reads what has arrived. Returns whether something has."""
        open_ones = [self.listener, *([] if self.is_closed else [self.client]), *([self.server] if self.server else [])]
        ready, _, _ = select.select(open_ones, [], [], seconds)
        for one in ready:
            if one is self.listener:
                self.server = one.accept()[0]
                self.server.setsockopt(socket.IPPROTO_TCP, socket.TCP_NODELAY, 1)
                self.server_bytes = 0
                continue
            try:
                piece = one.recv(1 << 16)
            except ConnectionResetError:
                piece = b""
            if one is self.client:
                self.received, self.is_closed = self.received + piece, not piece
            elif piece:
                self.server_bytes += len(piece)
            elif one is self.server:
                self.server = None
        return bool(ready)

    def judged(self, version, pieces, values):
        """Adds the values that a client gets if its server sends these pieces, and returns how they ended."""
        self.connected()
        self.ask(COMMANDS)
        first = self.server
        for piece in pieces:
            if self.server is not first:
                break
            if piece is None:
                first.close()
                self.server = None
                break
            try:
                first.sendall(piece)
            except OSError:
                self.server = None
                break
            self.turn(0.002)
        total = sum(len(piece) for piece in pieces if piece)
        while len(self.received) < total and self.turn(QUIET):
            pass
        self.turn(0.001)
        is_lost = self.server is not first or self.is_closed
        found = []
        parser = reader.Reader(version, "none")
        is_bad = parser.feed(self.received, found) == "error"
        values += [value for value in found if not (value[0] == "error" and re.fullmatch(self.own, value[1]))]
        self.client.close()
        if self.server is first and first:
            first.close()
            self.server = None
        return "error" if is_bad or is_lost else "more"


def run(about, start, own):
    proxy = Proxy(start, own) if sys.argv[1:] != ["--about"] else None
    try:
        fed.run(about, lambda *words: proxy.judged(*words))
    finally:
        if proxy:
            proxy.process.kill()
