"""Compares `resp tap --replay` with `resp tap`: captured.py PROGRAM SERVER

SERVER is the port of a redis-server. tcpdump captures what a tap and the server send to each other. The replay of the
capture has to print for each client what the tap has printed: of redis-cli in both versions, of a pipeline in single
bytes, and of a value of 300,000 bytes. Without tcpdump, or without the right to capture, nothing is tested."""
import os
import re
import shutil
import socket
import subprocess
import sys
import tempfile
import time

program, server = sys.argv[1], sys.argv[2]


def command(*words):
    """Returns the encoding of a command."""
    parts = [b"*%d\r\n" % len(words)] + [b"$%d\r\n%s\r\n" % (len(word), word) for word in words]
    return b"".join(parts)


def waits_for(file, pattern):
    """Waits until a tap has printed a line, and returns the match."""
    for _ in range(200):
        with open(file, encoding="utf-8") as printed:
            found = re.search(pattern, printed.read(), re.MULTILINE)
        if found:
            return found
        time.sleep(0.1)
    raise AssertionError(f"not printed: {pattern}")


def of_clients(text):
    """Returns the lines about each client: those about its commands, and the others.

    The tap and tcpdump may see the two directions of a connection in another order.
    """
    clients = {}
    for lines in re.findall(r"^client \d+.*\n(?:  .*\n)*", text, re.MULTILINE):
        client, command = re.match(r"client (\d+)( command)?", lines).groups()
        clients.setdefault((int(client), bool(command)), []).append(lines)
    return clients


def talk(port):
    """Sends commands through the tap, and reads the replies."""
    for words in (["SET", "captured", "1"], ["-3", "INCR", "captured"], ["LPUSH", "captured", "x"], ["HELLO", "3"]):
        subprocess.run(["redis-cli", "-p", str(port), *words], capture_output=True, timeout=20, check=True)
    with socket.create_connection(("127.0.0.1", port), 10) as peer:
        peer.setsockopt(socket.IPPROTO_TCP, socket.TCP_NODELAY, 1)
        sent = command(b"HELLO", b"3") + command(b"HGETALL", b"none") + command(b"ECHO", b"end")
        for byte in sent:
            peer.sendall(bytes([byte]))
        peer.sendall(command(b"SET", b"captured", b"x" * 300_000) + command(b"ECHO", b"second"))
        heard = b""
        while not heard.endswith(b"second\r\n"):
            piece = peer.recv(65536)
            assert piece, heard
            heard += piece


def capture(work):
    """Captures a conversation, and returns what the tap has printed of it, or None if tcpdump can't capture."""
    words = ["tcpdump", "-i", "lo", "-B", "65536", "-s", "0", "-U", "-w", f"{work}/traffic.pcap", "tcp", "port", server]
    dump = subprocess.Popen(words, stderr=subprocess.PIPE, text=True)
    for line in iter(dump.stderr.readline, ""):
        if "listening on" in line:
            break
    else:
        return None
    with open(f"{work}/printed", "wb") as printed:
        tap = subprocess.Popen([program, "tap", "127.0.0.1:0", server], stdout=printed)
    try:
        talk(int(waits_for(printed.name, r"^listening on 127\.0\.0\.1:(\d+)$")[1]))
        waits_for(printed.name, "^client 5 gone$")
        # The last packets are captured.
        time.sleep(1)
    finally:
        tap.terminate()
        tap.wait(20)
        dump.terminate()
        dump.communicate(timeout=20)
    with open(printed.name, encoding="utf-8") as file:
        return file.read()


if not shutil.which("tcpdump"):
    print("skipped, since tcpdump isn't installed")
    sys.exit(0)
with tempfile.TemporaryDirectory() as work:
    printed = capture(work)
    if printed is None or not os.path.getsize(f"{work}/traffic.pcap"):
        print("skipped, since tcpdump can't capture")
        sys.exit(0)
    replayed = subprocess.run([program, "tap", "--replay", f"{work}/traffic.pcap"], capture_output=True, timeout=60, text=True)
    assert replayed.returncode == 0, replayed
    live, later = of_clients(printed), of_clients(replayed.stdout)
    assert live.keys() == later.keys() and len(live) == 10, (live.keys(), later.keys())
    for client, lines in live.items():
        differing = [(a[:200], b[:200]) for a, b in zip(lines, later[client]) if a != b]
        assert lines == later[client], (client, len(lines), len(later[client]), differing[:1])
    print(f"{sum(len(lines) for lines in live.values())} lines are the same")
