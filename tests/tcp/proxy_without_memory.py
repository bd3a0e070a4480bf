#!/usr/bin/env python3
"""Tests that no client of `resp proxy` gets a reply of another one when memory is out while a connection is lost:
proxy_without_memory.py [--program FILE]

The proved program runs with tests/memory/refused_allocations.c before the C library, which refuses the next allocations
after a signal. Without a C compiler the test is skipped.

A client waits for a reply over the connection of a setting. This connection is closed, and in the same turn another
client gets into the setting by a connection of its own, which clients may share from then on. The commands that the
lost connection had begun get an error before any reply of the new connection goes to a client.
"""
import contextlib
import os
import shutil
import signal
import subprocess
import sys
import tempfile
import time

sys.dont_write_bytecode = True
from proxy_over_tcp import LOST, bulk, get, line_of
from settings_over_tcp import OK, auth
from tcp_programs import HERE, PROGRAM, Peer, connect, hear

# At most so many allocations are refused in a row. One turn with a loss makes fewer.
MOST = 16


def compiled(folder):
    """The library that refuses allocations."""
    library = f"{folder}/refused.so"
    source = f"{HERE}/tests/memory/refused_allocations.c"
    subprocess.run(["gcc", "-O1", "-Wall", "-Werror", "-shared", "-fPIC", "-o", library, source, "-ldl"], check=True)
    return library


@contextlib.contextmanager
def proxied(library, refused):
    """A proxy whose next so many allocations fail after SIGUSR1, and its server."""
    peer = Peer()
    words = [PROGRAM, "proxy", "127.0.0.1:0", peer.address, "--server-timeout", "1m"]
    environment = {**os.environ, "LD_PRELOAD": library, "REFUSED": str(refused)}
    with subprocess.Popen(words, stdin=subprocess.DEVNULL, stdout=subprocess.PIPE, stderr=subprocess.DEVNULL,
                          env=environment) as ran:
        try:
            port = int(ran.stdout.readline().rpartition(b":")[2])
            with peer.accept() as server:
                yield ran, port, peer, server
            assert ran.poll() is None, f"the proxy has ended with {refused} refused allocations"
        finally:
            ran.kill()
            peer.close()


def replies_of(client, count):
    """The next replies, errors and bulk strings, or fewer if the client is closed."""
    found = []
    with contextlib.suppress(AssertionError, TimeoutError, OSError):
        while len(found) < count:
            line = line_of(client)
            if not line:
                break
            if line.startswith(b"$"):
                line += line_of(client)
            found.append(line)
    return found


def one_loss(library, refused):
    """Runs the loss once, and returns the replies to the client that comes into the setting."""
    with proxied(library, refused) as (ran, port, peer, server), connect(port) as first, connect(port) as second:
        first.sendall(auth(b"anna", b"secret") + get(b"a"))
        with peer.accept() as line:

            hear(line, auth(b"anna", b"secret"))
            line.sendall(OK)
            hear(first, OK)
            hear(line, get(b"a"))
            second.sendall(auth(b"anna", b"secret") + get(b"b"))
            check = peer.accept()
            hear(check, auth(b"anna", b"secret"))
            time.sleep(0.05)
            # The proxy finds both in one turn, the loss first.
            ran.send_signal(signal.SIGSTOP)
        check.sendall(OK)
        ran.send_signal(signal.SIGUSR1)
        ran.send_signal(signal.SIGCONT)
        with check:
            return talk(first, second, check, peer)


def talk(first, second, check, peer):
    """Replies to each command over the connection that clients share now, and checks what the clients get."""
    check.settimeout(0.3)
    lines = [check]
    second.sendall(get(b"c"))
    peer.listener.settimeout(0.3)
    end = time.monotonic() + 1.5
    while time.monotonic() < end:
        with contextlib.suppress(OSError):
            lines.append(peer.accept())
            lines[-1].settimeout(0.05)
        for line in lines:
            reply_to(line)
    second.settimeout(0.3)
    first.settimeout(0.3)
    got = replies_of(second, 3)
    wanted = [b"$", bulk(b"b"), bulk(b"c")]
    for reply, value in zip(got[1:], wanted[1:]):
        assert reply.startswith(b"-ERR ") or reply == value, f"the reply to the command for {value} is {reply}"
    lost = replies_of(first, 1)
    assert lost in ([LOST], []), f"the client of the lost connection got {lost}"
    for line in lines[1:]:
        line.close()
    return got


def reply_to(line):
    """Replies to the commands that have come over a connection: to GET by the key, to others by OK."""
    with contextlib.suppress(OSError):
        text = line.recv(65_536)
        for key in (b"a", b"b", b"c"):
            if get(key) in text:
                line.sendall(bulk(key))
        if text.count(b"AUTH"):
            line.sendall(OK)


def main():
    if not shutil.which("gcc"):
        print("proxy without memory: 0 passed, 0 failed (skipped: no C compiler)")
        return 0
    failed, entered = 0, 0
    with tempfile.TemporaryDirectory() as folder:
        library = compiled(folder)
        for refused in range(MOST + 1):
            try:
                got = one_loss(library, refused)
                entered += got[:1] == [OK]
            except AssertionError as error:
                failed += 1
                print(f"proxy without memory: {refused} refused allocations: {error}")
    if not entered:
        failed += 1
        print("proxy without memory: the client never got into the setting")
    print(f"proxy without memory: {MOST + 2 - failed} passed, {failed} failed")
    return 1 if failed else 0


sys.exit(main())
