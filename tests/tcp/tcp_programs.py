"""What the tests over TCP share: running programs, clients, and a server of the test's own.

The program is that after --program in the words of the script, or the proved one.
"""
import contextlib
import os
import re
import resource
import socket
import subprocess
import sys
import tempfile
import time
from concurrent.futures import ThreadPoolExecutor

HERE = os.path.realpath(f"{os.path.dirname(os.path.realpath(__file__))}/../..")
PROGRAM = os.path.abspath(sys.argv[2]) if sys.argv[1:2] == ["--program"] else f"{HERE}/crates/resp/out/resp"
PING, PONG = b"*1\r\n$4\r\nPING\r\n", b"+PONG\r\n"
TOO_MANY = b"-ERR max number of clients reached\r\n"
LIMIT = 20
# The program of ./build unproved keeps this much of the memory that was freed, and 256 MB by default.
os.environ.setdefault("ASAN_OPTIONS", "quarantine_size_mb=1")


class Program:
    """A running `resp`, which prints to a file."""

    def __init__(self, *words, descriptors=None):
        self.log = tempfile.NamedTemporaryFile("wb")

        def limit():
            resource.setrlimit(resource.RLIMIT_NOFILE, (descriptors, 4096))

        self.process = subprocess.Popen(
            [PROGRAM, *words], stdin=subprocess.DEVNULL, stdout=self.log, stderr=subprocess.STDOUT,
            preexec_fn=limit if descriptors else None)
        listening = re.compile(rb'^(?:listening on |\{"kind":"listening","address":")([^"\n]*)["\n]', re.M)
        until(lambda: listening.search(self.printed()), "it doesn't listen")
        # The path of a Unix socket has no port.
        address = listening.search(self.printed())[1].decode()
        self.port = None if address.startswith(("/", "./")) else int(re.fullmatch(r"127\.0\.0\.1:(\d+)", address)[1])

    def printed(self):
        with open(self.log.name, "rb") as file:
            return file.read()

    def descriptors(self):
        return len(os.listdir(f"/proc/{self.process.pid}/fd"))

    def ticks(self):
        """Returns the processor time so far, in ticks of the system."""
        with open(f"/proc/{self.process.pid}/stat", encoding="ascii") as file:
            fields = file.read().rpartition(")")[2].split()
        return int(fields[11]) + int(fields[12])

    def is_idle(self, seconds=1.0):
        """Asserts that the program uses less than a tenth of a processor for this time."""
        before = self.ticks()
        time.sleep(seconds)
        used = (self.ticks() - before) / os.sysconf("SC_CLK_TCK")
        assert used < seconds / 10, f"{used} s of processor time in {seconds} s without work"


@contextlib.contextmanager
def running(*words, descriptors=None):
    program = Program(*words, descriptors=descriptors)
    try:
        yield program
        assert program.process.poll() is None, f"it has ended: {program.printed()[-500:]}"
    finally:
        program.process.kill()
        program.process.wait()


def until(holds, what):
    end = time.monotonic() + LIMIT
    while not holds():
        assert time.monotonic() < end, what
        time.sleep(0.01)


def command(*words):
    return b"*%d\r\n" % len(words) + b"".join(b"$%d\r\n%s\r\n" % (len(word), word) for word in words)


def connect_to(path):
    """Connects to a Unix socket."""
    stream = socket.socket(socket.AF_UNIX)
    stream.settimeout(LIMIT)
    stream.connect(path)
    return stream


def connect(port):
    stream = socket.create_connection(("127.0.0.1", port), timeout=LIMIT)
    stream.setsockopt(socket.IPPROTO_TCP, socket.TCP_NODELAY, 1)
    return stream


def hear(stream, text):
    """Reads as many bytes as the text has, and compares them with it."""
    heard = b""
    while len(heard) < len(text):
        piece = stream.recv(len(text) - len(heard))
        assert piece, f"the end of the stream after {heard[-100:]}"
        heard += piece
    assert heard == text, (heard[:100], text[:100])


def hear_end(stream):
    """Reads to the end of the stream."""
    heard = b""
    while piece := stream.recv(65_536):
        heard += piece
    return heard


def ask(stream, asked, reply):
    stream.sendall(asked)
    hear(stream, reply)


def has_reply(stream):
    """Whether a reply arrives within a moment."""
    stream.settimeout(0.3)
    try:
        return bool(stream.recv(1, socket.MSG_PEEK))
    except TimeoutError:
        return False
    finally:
        stream.settimeout(LIMIT)


def at_once(test, cases):
    """Runs a test with each case, all at the same time: a case waits for seconds, and uses no processor meanwhile."""
    with ThreadPoolExecutor(len(cases)) as pool:
        for _ in pool.map(test, cases):
            pass


def peak(process):
    """The most memory that a process has had, in bytes."""
    with open(f"/proc/{process.pid}/status", encoding="ascii") as file:
        return 1024 * int(re.search(r"VmHWM:\s*(\d+) kB", file.read())[1])


@contextlib.contextmanager
def busy(port, count):
    """Lets some clients send commands without end, and read their replies, in processes of their own."""
    text = f"""
import socket, threading
stream = socket.create_connection(("127.0.0.1", {port}))
asked = {PING!r} * 70_000
def read():
    buffer = bytearray(1 << 20)
    while stream.recv_into(buffer):
        pass
threading.Thread(target=read, daemon=True).start()
print("busy", flush=True)
while True:
    stream.sendall(asked)
"""
    clients = [subprocess.Popen([sys.executable, "-c", text], stdout=subprocess.PIPE, stderr=subprocess.DEVNULL)
               for _ in range(count)]
    try:
        for client in clients:
            assert client.stdout.readline() == b"busy\n"
        yield
        assert all(client.poll() is None for client in clients), "a busy client has ended"
    finally:
        for client in clients:
            client.kill()
            client.wait()


def busy_clients_delay_none(port, count, turns):
    """Other clients get their replies while some send without end."""
    with busy(port, count):
        time.sleep(0.3)
        begun = time.monotonic()
        streams = [connect(port) for _ in range(20)]
        for _ in range(turns):
            for stream in streams:
                stream.sendall(PING)
            for stream in streams:
                hear(stream, PONG)
        took = time.monotonic() - begun
        assert took < LIMIT, f"{20 * turns} replies took {took} s beside clients that send without end"
        for stream in streams:
            stream.close()


class Peer:
    """A listener for the connections that `tap` makes."""

    def __init__(self, port=0):
        self.listener = socket.create_server(("127.0.0.1", port), backlog=128)
        self.listener.settimeout(LIMIT)
        self.address = "127.0.0.1:%d" % self.listener.getsockname()[1]

    def accept(self):
        stream, _ = self.listener.accept()
        stream.settimeout(LIMIT)
        return stream

    @contextlib.contextmanager
    def accept_on(self, port):
        """A client that connects to this port, and the connection that is made for it here."""
        with connect(port) as client, self.accept() as server:
            yield client, server

    def accept_own(self):
        """Accepts a connection of a client's own that needs no other command first, and replies to the PING that it begins
        with."""
        stream = self.accept()
        hear(stream, PING)
        stream.sendall(PONG)
        return stream

    def close(self):
        """Closes the listener. A thread that waits in `accept` ends: otherwise it would keep the port open, and accept
        connections of another listener if its system call begins again once the descriptor has a new use."""
        with contextlib.suppress(OSError):
            self.listener.shutdown(socket.SHUT_RDWR)
        self.listener.close()
