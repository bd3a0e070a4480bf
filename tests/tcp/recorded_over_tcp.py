"""Tests `resp tap --record` over TCP on this machine; tests/over_tcp runs it. It tests that

- `--replay` of the file prints what the tap printed: of commands in single bytes and in a pipeline, of a value of
  300,000 bytes, of a half-closed and of an aborted connection, of a client over IPv6, and of a server at a Unix socket;
- a client that was rejected, or whose server was not there, keeps its number;
- the times of the file are those of the traffic;
- tcpdump reads the file, if it is installed, with right checksums of IPv4 and as many bytes as were sent;
- a file that exists is left unchanged, and a new one can be read by its owner alone;
- after a failed write the traffic is forwarded, one notice is printed, and the file has whole packets.
"""
import contextlib
import datetime
import os
import re
import resource
import shutil
import signal
import socket
import struct
import subprocess
import tempfile

from tcp_programs import PING, PONG, PROGRAM, TOO_MANY, command, connect, hear, hear_end, running, until


@contextlib.contextmanager
def recording(*words):
    """Runs a tap that records, and gives it with the name of its file."""
    with tempfile.TemporaryDirectory() as work:
        file = f"{work}/traffic.pcap"
        with running("tap", "--record", file, *words) as tap:
            yield tap, file


def replay(file, *options):
    done = subprocess.run([PROGRAM, "tap", "--replay", file, *options], capture_output=True, timeout=60, check=True)
    assert not done.stderr, done.stderr
    return done.stdout


def without_head(printed):
    """Returns what a tap has printed after its first line, which has the address."""
    return printed.partition(b"\n")[2]


def is_replayed(tap, file, last):
    """Asserts that the replay prints what the tap has printed up to this line."""
    until(lambda: last in tap.printed(), f"not printed: {last}")
    live, later = without_head(tap.printed()), replay(file, "--connections")
    assert live == later, [pair for pair in zip(live.split(b"\n"), later.split(b"\n")) if pair[0] != pair[1]][:1]


def talk(port):
    """Lets three clients talk: in single bytes and in a pipeline, with an end of one side, and with an abort."""
    with connect(port) as stream:
        for byte in command(b"CLIENT", b"SETNAME", b"slow") + PING:
            stream.sendall(bytes([byte]))
        heard = b""
        while not heard.endswith(PONG):
            heard += stream.recv(1000)
        stream.sendall(command(b"SET", b"k", b"x" * 300_000) + command(b"GET", b"k") + command(b"GET", b"none"))
        stream.shutdown(socket.SHUT_WR)
        assert hear_end(stream) == b"+OK\r\n$300000\r\n" + b"x" * 300_000 + b"\r\n$-1\r\n"
    with connect(port) as stream:
        stream.sendall(command(b"HELLO", b"3") + command(b"GET", b"none") + b"*1\r\n$9\r\nunfin")
        heard = b""
        while not heard.endswith(b"_\r\n"):
            heard += stream.recv(1000)
        stream.setsockopt(socket.SOL_SOCKET, socket.SO_LINGER, struct.pack("ii", 1, 0))


def recorded():
    """The replay prints what the tap has printed, also with a filter, with a table, and without the addresses."""
    with running("serve", "127.0.0.1:0") as serve:
        with recording("--connections", "127.0.0.1:0", f"127.0.0.1:{serve.port}") as (tap, file):
            talk(tap.port)
            is_replayed(tap, file, b"client 2 gone\n")
            printed = replay(file, "--command", "set")
            assert printed.count(b"  \"SET\" \"k\"") == 1 and b"GET" not in printed, printed[:200]
            assert b"SET" in replay(file, "--stats") and b"connected from" not in replay(file)
        with recording("--errors", "127.0.0.1:0", f"127.0.0.1:{serve.port}") as (tap, file):
            with connect(tap.port) as stream:
                stream.sendall(command(b"AUTH", b"secret") + PING)
                while not hear_one(stream).endswith(PONG):
                    pass
            until(lambda: b"gone" in replay(file), "the end is not recorded")
            # What is printed does not change what is recorded.
            assert b'"AUTH" "secret"' in replay(file, "--show-passwords") and b"secret" not in tap.printed()


def hear_one(stream):
    piece = stream.recv(1000)
    assert piece
    return piece


def numbers_stay():
    """A rejected client, and one whose server is not there, keep their numbers in the replay."""
    with running("serve", "127.0.0.1:0") as serve:
        with recording("--max-clients", "1", "127.0.0.1:0", f"127.0.0.1:{serve.port}") as (tap, file):
            with connect(tap.port) as stream:
                stream.sendall(PING)
                hear(stream, PONG)
                with connect(tap.port) as rejected:
                    hear(rejected, TOO_MANY)
            until(lambda: b"client 1 gone" in tap.printed(), "the first client does not go")
            with connect(tap.port) as stream:
                stream.sendall(PING)
                hear(stream, PONG)
            until(lambda: b"client 3 gone" in tap.printed(), "the third client does not go")
            live, later = without_head(tap.printed()), replay(file)
            assert live.replace(b"client 2: rejected by --max-clients", b"client 2 gone") == later, (live, later)
    with socket.create_server(("127.0.0.1", 0)) as closed:
        port = closed.getsockname()[1]
    with recording("127.0.0.1:0", f"127.0.0.1:{port}") as (tap, file):
        with connect(tap.port) as stream:
            assert hear_end(stream) == b""
        until(lambda: b"client 1 gone" in replay(file), "the end is not recorded")
        assert replay(file) == b"client 1 gone\n" and b"client 1: cannot connect to" in tap.printed(), replay(file)


def times_of_the_traffic():
    """The times of the replay ascend, and are those at which the traffic passed."""
    with running("serve", "127.0.0.1:0") as serve:
        with recording("127.0.0.1:0", f"127.0.0.1:{serve.port}") as (tap, file):
            before = datetime.datetime.now(datetime.timezone.utc)
            with connect(tap.port) as stream:
                stream.sendall(PING)
                hear(stream, PONG)
            until(lambda: b"gone" in tap.printed(), "the client does not go")
            after = datetime.datetime.now(datetime.timezone.utc)
            printed = replay(file, "--time").decode()
    times = re.findall(r" at (\d\d:\d\d:\d\d\.\d{6})", printed)
    assert len(times) == 4 and times == sorted(times) or after.date() > before.date(), printed
    first, last = before.strftime("%H:%M:%S.%f"), after.strftime("%H:%M:%S.%f")
    assert first <= times[0] and times[-1] <= last or last < first, (first, times, last)


def same_times():
    """The lines that were printed and those of the replay have the same times, except that of a connection that is gone."""
    with running("serve", "127.0.0.1:0") as serve:
        with recording("--time", "127.0.0.1:0", f"127.0.0.1:{serve.port}") as (tap, file):
            with connect(tap.port) as stream:
                for _ in range(50):
                    stream.sendall(PING)
                    hear(stream, PONG)
            until(lambda: b"client 1 gone" in tap.printed(), "the client does not go")
            live, later = without_head(tap.printed()), replay(file, "--time")

    def times(printed):
        return re.findall(rb"^client 1 ((?:command|reply|closed).*? at [0-9:.]{15})", printed, re.M)

    assert len(times(live)) == 101 and times(live) == times(later), [pair for pair in zip(times(live), times(later)) if pair[0] != pair[1]][:3]


def read_by_tcpdump():
    """tcpdump finds the packets, the checksums of their first heads, and the bytes of both sides."""
    if not shutil.which("tcpdump"):
        return
    with running("serve", "127.0.0.1:0") as serve:
        with recording("127.0.0.1:0", f"127.0.0.1:{serve.port}") as (tap, file):
            talk(tap.port)
            until(lambda: b"client 2 gone" in tap.printed(), "the client does not go")
            words = ["tcpdump", "-r", file, "-nn", "-v"]
            done = subprocess.run(words, capture_output=True, timeout=60, check=True, text=True)
    packets = re.findall(r"^    (\S+) > (\S+): Flags \[(\S+)\],.* length (\d+)$", done.stdout, re.MULTILINE)
    assert "bad cksum" not in done.stdout and "truncated" not in done.stdout
    assert [flags for _, _, flags, _ in packets].count("S") == 2, packets[:3]
    to_server = sum(int(count) for _, to, _, count in packets if to == f"127.0.0.1.{serve.port}")
    sent = command(b"CLIENT", b"SETNAME", b"slow") + PING + command(b"SET", b"k", b"x" * 300_000)
    sent += command(b"GET", b"k")
    sent += command(b"GET", b"none") + command(b"HELLO", b"3") + command(b"GET", b"none") + b"*1\r\n$9\r\nunfin"
    assert to_server == len(sent), (to_server, len(sent))


def new_file():
    """Only the owner reads the file. A file that exists is left unchanged, and nothing is served."""
    with running("serve", "127.0.0.1:0") as serve, tempfile.NamedTemporaryFile() as old:
        old.write(b"old")
        old.flush()
        words = [PROGRAM, "tap", "--record", old.name, "127.0.0.1:0", f"127.0.0.1:{serve.port}"]
        done = subprocess.run(words, capture_output=True, timeout=20, check=False)
        wanted = b"open failed: %s: File exists (os error 17)\n" % old.name.encode()
        assert (done.returncode, done.stdout, done.stderr) == (3, b"", wanted), done
        with open(old.name, "rb") as file:
            assert file.read() == b"old"
        with recording("127.0.0.1:0", f"127.0.0.1:{serve.port}") as (_, file):
            assert os.stat(file).st_mode & 0o777 == 0o600, oct(os.stat(file).st_mode)


def other_addresses():
    """Clients over IPv6, and a server at a Unix socket, have addresses of their own."""
    with tempfile.TemporaryDirectory() as work, socket.socket(socket.AF_UNIX) as server:
        server.bind(f"{work}/server")
        server.listen()
        words = [PROGRAM, "tap", "--record", f"{work}/traffic.pcap", "[::1]:0", f"{work}/server"]
        with subprocess.Popen(words, stdout=subprocess.PIPE) as tap:
            try:
                port = int(re.match(rb"listening on \[::1\]:(\d+)\n", tap.stdout.readline())[1])
                with socket.create_connection(("::1", port), 20) as stream:
                    own = stream.getsockname()[1]
                    stream.sendall(PING)
                    peer, _ = server.accept()
                    with peer:
                        hear(peer, PING)
                        peer.sendall(PONG)
                        hear(stream, PONG)
                until(lambda: b"gone" in replay(f"{work}/traffic.pcap"), "the end is not recorded")
                printed = replay(f"{work}/traffic.pcap", "--connections")
                assert printed.startswith(b"client 1 connected from 240.0.0.1:%d\nclient 1 command 1\n" % own), printed
                assert b'client 1 reply 1\n  simple "PONG" 4\n' in printed, printed
            finally:
                tap.kill()


def failed_write():
    """After a failed write all is forwarded, one notice is printed, and the file has whole packets."""
    def limit():
        signal.signal(signal.SIGXFSZ, signal.SIG_IGN)
        resource.setrlimit(resource.RLIMIT_FSIZE, (100_000, 100_000))

    with running("serve", "127.0.0.1:0") as serve, tempfile.TemporaryDirectory() as work:
        file = f"{work}/traffic.pcap"
        words = [PROGRAM, "tap", "--errors", "--record", file, "127.0.0.1:0", f"127.0.0.1:{serve.port}"]
        with open(f"{work}/log", "wb") as log:
            tap = subprocess.Popen(words, stdout=log, stderr=log, preexec_fn=limit, restore_signals=False)
        try:
            def printed():
                with open(f"{work}/log", "rb") as text:
                    return text.read()

            until(lambda: b"\n" in printed(), "it doesn't listen")
            port = int(re.match(rb"listening on 127\.0\.0\.1:(\d+)\n", printed())[1])
            for _ in range(2):
                with connect(port) as stream:
                    for _ in range(3):
                        stream.sendall(command(b"ECHO", b"y" * 90_000))
                        hear(stream, b"$90000\r\n" + b"y" * 90_000 + b"\r\n")
            until(lambda: b"recorded" in printed(), "no notice is printed")
            notice = b"recording failed: File too large (os error 27)\nnothing more is recorded; "
            assert without_head(printed()) == notice + b"traffic is still forwarded\n", printed()
            assert tap.poll() is None and os.path.getsize(file) <= 100_000
            assert replay(file).startswith(b"client 1 command 1\n  \"ECHO\" \"yyy"), replay(file)[:100]
        finally:
            tap.kill()
            tap.wait()


TESTS = [recorded, numbers_stay, times_of_the_traffic, same_times, read_by_tcpdump, new_file, other_addresses, failed_write]
