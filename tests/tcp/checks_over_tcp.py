"""Tests --check-every and --check of `resp proxy`, with Python alone; tests/over_tcp runs them. They test that

- with --check-every a server that skips a reply or sends one twice is found out, and no client gets a reply of another;
- --check prints what the proxy would do with the commands of a server, or why it cannot.
"""
import contextlib
import os
import random
import re
import subprocess
import threading

from proxy_over_tcp import (LOST, NOT_CONNECTED, OUT_OF_STEP, Answering, bulk, get, hear_section, is_connected, line_of,
                            proxied)
from tcp_programs import LIMIT, PING, PONG, PROGRAM, command, connect, has_reply, hear, hear_end, running


def probe_of(server):
    """Reads a probe, and returns its word."""
    heard = b""
    while len(heard) < 53:
        piece = server.recv(53 - len(heard))
        assert piece, heard
        heard += piece
    assert re.fullmatch(rb"\*2\r\n\$4\r\nECHO\r\n\$32\r\n[0-9a-f]{32}\r\n", heard), heard
    return heard[-34:-2]


def probes():
    """With --check-every a skipped reply is found out: the commands that wait get an error, and the next connection is in
    step. No client is told of probes."""
    with proxied("--check-every", "1") as (proxy, peer, server), connect(proxy.port) as one, connect(proxy.port) as other:
        def asks(client, key):
            client.sendall(get(key))
            hear(server, get(key))
            return probe_of(server)

        words = [asks(one, b"a"), asks(other, b"b")]
        server.sendall(bulk(b"A") + bulk(words[0]) + bulk(b"B") + bulk(words[1]))
        hear(one, bulk(b"A"))
        hear(other, bulk(b"B"))
        one.sendall(command(b"INFO", b"proxy"))
        told = hear_section(one)
        assert b"\r\nclients:2\r\nclients_accepted:2\r\n" in told and b"\r\ncommands_waiting:0\r\n" in told, told
        words += [asks(one, b"c"), asks(other, b"d"), asks(one, b"e")]
        assert len(set(words)) == 5, words
        # The reply to c is skipped, so its client gets the word of a probe, and the probe gets the reply to d.
        server.sendall(bulk(words[2]) + bulk(b"D") + bulk(words[3]) + bulk(b"E"))
        hear(one, bulk(words[2]) + OUT_OF_STEP)
        hear(other, OUT_OF_STEP)
        with contextlib.suppress(ConnectionError):
            assert hear_end(server) == b""
        with peer.accept() as server:
            word = asks(other, b"f")
            server.sendall(bulk(b"F") + bulk(word))
            hear(other, bulk(b"F"))
            assert not has_reply(one) and not has_reply(other) and not has_reply(server)
        assert b"\nserver lost: out of step, since a probe got another reply\n" in proxy.printed(), proxy.printed()
    with proxied("--check-every", "3") as (proxy, _, server), connect(proxy.port) as client:
        for _ in range(2):
            client.sendall(PING)
            hear(server, PING)
            server.sendall(PONG)
            hear(client, PONG)
        assert not has_reply(server), "a probe comes early"
        client.sendall(PING)
        hear(server, PING)
        server.sendall(PONG + bulk(probe_of(server)))
        hear(client, PONG)
    with proxied() as (proxy, _, server), connect(proxy.port) as client:
        client.sendall(PING * 100)
        hear(server, PING * 100)
        assert not has_reply(server), "a probe is sent without --check-every"


def server_out_of_step():
    """Before a server that skips a reply or sends one twice from time to time, no client gets a reply to another one, if
    there is a probe between their commands."""
    for seed in range(2):
        source, right = random.Random(seed), [0]

        def reply(words):
            # Two skipped replies in a row, one of them that of a probe, would not be found out at once.
            times = source.choice([1] * 20 + [0, 2]) if right[0] > 20 else 1
            right[0] = right[0] + 1 if times == 1 else 0
            return bulk(words[1] if words[0] == b"ECHO" else b"value of " + words[1]) * times

        peer = Answering(reply)
        counts = {b"own": 0, b"error": 0}
        with running("proxy", "127.0.0.1:0", peer.address, "--check-every", "1", "--server-timeout", "300ms") as proxy:
            is_connected(proxy)
            wrong = []

            def talk(name):
                with connect(proxy.port) as stream:
                    for number in range(150):
                        key = b"%s %d" % (name, number)
                        stream.sendall(get(key))
                        line = line_of(stream)
                        if line.startswith((OUT_OF_STEP, LOST, NOT_CONNECTED)):
                            counts[b"error"] += 1
                            continue
                        heard = line_of(stream)[:-2]
                        if heard == b"value of " + key:
                            counts[b"own"] += 1
                        elif not re.fullmatch(rb"[0-9a-f]{32}", heard):
                            wrong.append((name, number, heard))

            threads = [threading.Thread(target=talk, args=(name,)) for name in (b"anna", b"bob", b"carl", b"dora")]
            for thread in threads:
                thread.start()
            for thread in threads:
                thread.join()
            assert not wrong, (seed, wrong[:5])
            assert counts[b"own"] > 50 and counts[b"error"] > 5, counts
        peer.close()


def listed(name, *flags, subcommands=()):
    """The entry of a command in the reply to COMMAND of Redis 7."""
    words = b"".join(b"+%s\r\n" % flag for flag in flags)
    return (b"*10\r\n" + bulk(name) + b":-1\r\n*%d\r\n" % len(flags) + words + b":0\r\n:0\r\n:0\r\n*0\r\n*0\r\n*0\r\n"
            + b"*%d\r\n" % len(subcommands) + b"".join(map(listed, subcommands)))


def checked(commands, *words, password=None):
    """The status, the output and the errors of --check before a server with these commands, and what it was sent."""
    peer, seen = Answering(None), []

    def reply(words):
        seen.append(words)
        return b"+OK\r\n" if words[0] == b"AUTH" else commands
    peer.reply = reply
    variables = {"PATH": os.environ["PATH"], **({"RESP_PASSWORD": password} if password else {})}
    done = subprocess.run([PROGRAM, "proxy", "--check", *words, "127.0.0.1:0", peer.address], env=variables,
                          stdin=subprocess.DEVNULL, capture_output=True, timeout=LIMIT)
    return done.returncode, done.stdout.replace(peer.address.encode(), b"SERVER"), done.stderr, seen


def check_of_commands():
    """--check prints the number of commands for each treatment and their names, and names the option for unknown ones."""
    commands = b"*6\r\n" + b"".join([
        listed(b"get", b"readonly"), listed(b"select"), listed(b"json.get", b"readonly"), listed(b"multi"), listed(b"ft.wait", b"blocking"),
        listed(b"client", subcommands=[b"client|id", b"client|kill", b"client|setinfo", b"client|new"])])
    status, printed, errors, seen = checked(commands)
    assert (status, errors, seen) == (1, b"", [[b"COMMAND"]])
    assert printed == b"""9 commands of SERVER
    1 shared: sent over the connection that clients share
    1 setting: the client moves to the connection of its version, database and user
    1 own: the client gets a connection of its own
    2 proxy: the proxy replies itself
    1 rejected: 'NAME' is not served by this proxy
    3 unknown: unknown command 'NAME'

setting:
  SELECT

own:
  MULTI

proxy:
  CLIENT ID, CLIENT SETINFO

rejected:
  CLIENT KILL

unknown:
  CLIENT NEW, FT.WAIT, JSON.GET

--also JSON.GET
sends these too; name only those that have one reply and do not wait

--learn sends JSON.GET
without their names, since the server says that they read or write
""", printed
    status, printed, errors, _ = checked(commands, "--all", "--also", "json.get,other")
    assert (status, errors) == (1, b"")
    assert printed == (b"shared GET\nshared JSON.GET\nsetting SELECT\nown MULTI\nproxy CLIENT ID\nproxy CLIENT SETINFO\n"
                       b"rejected CLIENT KILL\nunknown CLIENT NEW\nunknown FT.WAIT\n"), printed
    status, printed, errors, _ = checked(b"*1\r\n" + listed(b"SELECT"), "--all", "--max-shared", "1")
    assert (status, printed, errors) == (0, b"own SELECT\n", b"")
    known = b"*2\r\n" + listed(b"GET") + listed(b"ping")
    status, printed, errors, seen = checked(known, "--all", "--local-ping", password="secret")
    assert (status, printed, errors) == (0, b"shared GET\nproxy PING\n", b"")
    assert seen == [[b"AUTH", b"secret"], [b"COMMAND"]]
    status, printed, errors, _ = checked(b"-NOPERM no COMMAND for you\r\n")
    assert (status, printed) == (1, b"") and errors.endswith(b': the server replied "NOPERM no COMMAND for you"\n'), errors
    status, printed, errors, _ = checked(b"*1\r\n:1\r\n")
    assert (status, printed) == (1, b"") and errors.endswith(b": the reply to COMMAND is not a list of commands\n"), errors
    status, printed, errors, _ = checked(b"?")
    assert (status, printed) == (1, b"") and errors.startswith(b"reply 1: "), errors
    for silent in (b"", b"*1\r\n"):
        status, printed, errors, _ = checked(silent, "--server-timeout", "300ms")
        assert (status, printed) == (3, b""), (status, printed)
        assert re.fullmatch(rb"127\.0\.0\.1:\d+: no reply within the time of --server-timeout\n", errors), errors


TESTS = [check_of_commands, probes, server_out_of_step]
