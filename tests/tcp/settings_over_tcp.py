"""Tests that clients of `resp proxy` in one setting share a connection, with Python alone; tests/over_tcp runs them.

A setting is a version, a database and a user. The servers are of the tests' own. They test that

- HELLO, AUTH, SELECT and RESET move a client to the connection of its setting, once the commands before them have their
  replies, and the next client in this setting opens no other one;
- the bytes behind such a command go over the connection of the new setting, at any cut, and each reply is one of the
  client's own setting, for many clients that move at random;
- the server checks each password: a client with a wrong one gets the refusal and stays where it was, also if a connection of
  this user is open;
- a client whose SELECT, HELLO or AUTH the server refuses stays where it was, and goes on;
- a connection that is lost is opened again in its setting, with the password that was accepted last;
- CLIENT ID and the name of a client stay the same, and HELLO has this id;
- a connection of a client's own begins in the client's setting;
- --max-shared limits the settings, and a setting without clients gives its place to another;
- lines on standard error name the setting and no password, and INFO proxy adds the settings up;
- a server that sends no reply, or a push, delays and harms no client of another setting.
"""
import contextlib
import os
import random
import re
import threading
import time
import unittest.mock

from own_over_tcp import MULTI, Listening
from proxy_over_tcp import (LOST, NOT_CONNECTED, bulk, commands_of, cut, get, hear_section, is_connected, line_of,
                            proxied)
from tcp_programs import LIMIT, PING, PONG, Peer, ask, command, connect, has_reply, hear, hear_end, running, until

OK = b"+OK\r\n"
HELLO = command(b"HELLO", b"3")
WELCOME = b"%1\r\n+proto\r\n:3\r\n"
REFUSED = b"-WRONGPASS invalid username-password pair or user is disabled.\r\n"


def hello_of(number):
    """The reply of a server in version 3 to HELLO over the connection of this number."""
    return b"%3\r\n$6\r\nserver\r\n$5\r\nredis\r\n$2\r\nid\r\n:" + b"%d" % number + b"\r\n$7\r\nmodules\r\n*0\r\n"


def auth(*words):
    return command(b"AUTH", *words)


def select(word):
    return command(b"SELECT", word)


@contextlib.contextmanager
def accepted(peer, *exchanges):
    """The next connection to the server, after these commands and their replies."""
    with peer.accept() as line:
        for asked, reply in exchanges:
            hear(line, asked)
            line.sendall(reply)
        yield line


def is_alone(peer):
    """Asserts that no connection is opened now."""
    assert not has_reply(Listening(peer.listener)), "another connection is opened"
    peer.listener.settimeout(LIMIT)


def number_of(client):
    """The reply to CLIENT ID."""
    client.sendall(command(b"CLIENT", b"ID"))
    return int(line_of(client)[1:])


def settings_share_connections():
    """A setting is entered after the replies to the commands before. A second client shares its connection."""
    with proxied() as (proxy, peer, server), connect(proxy.port) as first, connect(proxy.port) as second:
        first.sendall(get(b"a") + HELLO + get(b"b"))
        hear(server, get(b"a"))
        is_alone(peer)
        server.sendall(bulk(b"A"))
        hear(first, bulk(b"A"))
        with accepted(peer, (HELLO, hello_of(77))) as third:
            hear(first, hello_of(1))
            hear(third, get(b"b"))
            second.sendall(PING + HELLO + get(b"c"))
            hear(server, PING)
            server.sendall(PONG)
            hear(second, PONG + hello_of(2))
            hear(third, get(b"c"))
            # The replies come in the order of the connection, and each goes to its own client.
            third.sendall(b"%1\r\n+b\r\n,1.5\r\n")
            hear(first, b"%1\r\n+b\r\n,1.5\r\n")
            assert not has_reply(second)
            third.sendall(b"_\r\n")
            hear(second, b"_\r\n")
            ask(first, command(b"RESET"), b"+RESET\r\n")
            first.sendall(get(b"d"))
            hear(server, get(b"d"))
            server.sendall(b"$-1\r\n")
            hear(first, b"$-1\r\n")
            ask(first, command(b"hello", b"3"), hello_of(1))
            ask(first, command(b"HELLO"), hello_of(1))
            is_alone(peer)
            assert not has_reply(server) and not has_reply(third)


def settings_of_words():
    """The connection of a setting begins with AUTH, HELLO and SELECT, as far as the setting needs them."""
    peer = Peer()
    own = auth(b"the proxy's")
    anna = auth(b"anna", b"secret")
    # What a client sends, what the connection begins with, the replies to that, and the reply to the client.
    steps = [
        [(select(b"7"), [own, select(b"7")], [OK, OK], OK),
         (anna, [anna, select(b"7")], [OK, OK], OK),
         (HELLO, [anna, HELLO, select(b"7")], [OK, hello_of(9), OK], hello_of(1))],
        [(auth(b"plain"), [auth(b"plain")], [OK], OK),
         (select(b"1"), [auth(b"plain"), select(b"1")], [OK, OK], OK)],
        [(command(b"HELLO", b"3", b"AUTH", b"anna", b"x"), [auth(b"anna", b"x"), HELLO], [OK, hello_of(9)], hello_of(3)),
         (command(b"HELLO", b"3", b"SETNAME", b"me", b"AUTH", b"bea", b"y"), [auth(b"bea", b"y"), HELLO], [OK, hello_of(9)],
          hello_of(3)),
         (command(b"hello", b"3", b"auth", b"cleo", b"y", b"setname", b"me"), [auth(b"cleo", b"y"), HELLO],
          [OK, hello_of(9)], hello_of(3)),
         (command(b"HELLO", b"2", b"AUTH", b"cleo", b"y"), [auth(b"cleo", b"y")], [OK], hello_2(3)),
         (HELLO, [], [], hello_of(3))],
    ]
    with (unittest.mock.patch.dict(os.environ, RESP_PASSWORD="the proxy's"),
          running("proxy", "127.0.0.1:0", peer.address, "--server-timeout", "1m") as proxy, contextlib.ExitStack() as stack):
        server = stack.enter_context(peer.accept())
        hear(server, own)
        server.sendall(OK)
        is_connected(proxy)
        for client_steps in steps:
            client = stack.enter_context(connect(proxy.port))
            for asked, sent, replies, reply in client_steps:
                client.sendall(asked)
                if sent:
                    line = stack.enter_context(peer.accept())
                    hear(line, b"".join(sent))
                    line.sendall(b"".join(replies))
                hear(client, reply)
                is_alone(peer)


def passwords_are_checked():
    """Each password is checked over a connection of its own, also if the setting has one already."""
    with proxied() as (proxy, peer, server):
        with connect(proxy.port) as first, connect(proxy.port) as second, connect(proxy.port) as third:
            first.sendall(auth(b"anna", b"secret") + get(b"a"))
            with accepted(peer, (auth(b"anna", b"secret"), OK)) as line:
                hear(first, OK)
                hear(line, get(b"a"))
                line.sendall(bulk(b"A"))
                hear(first, bulk(b"A"))
                second.sendall(auth(b"anna", b"guess") + get(b"b"))
                with peer.accept() as check:
                    hear(check, auth(b"anna", b"guess"))
                    assert not has_reply(line) and not has_reply(server), "it is let in before the server has replied"
                    check.sendall(REFUSED)
                    hear(second, REFUSED)
                    assert hear_end(check) == b""
                hear(server, get(b"b"))
                server.sendall(bulk(b"B"))
                hear(second, bulk(b"B"))
                third.sendall(auth(b"anna", b"new") + get(b"c"))
                with peer.accept() as check:
                    hear(check, auth(b"anna", b"new"))
                    check.sendall(OK)
                    hear(third, OK)
                    assert hear_end(check) == b"", "a second connection of the setting stays open"
                hear(line, get(b"c"))
                line.sendall(bulk(b"C"))
                hear(third, bulk(b"C"))
            # The line is lost. It is opened again with the password that was accepted last.
            with accepted(peer, (auth(b"anna", b"new"), OK)) as line:
                first.sendall(get(b"d"))
                hear(line, get(b"d"))
                line.sendall(bulk(b"D"))
                hear(first, bulk(b"D"))
            with peer.accept() as line:
                hear(line, auth(b"anna", b"new"))
                line.sendall(REFUSED)
            ask(first, get(b"e"), NOT_CONNECTED + REFUSED[1:])
        printed = proxy.printed()
        for word in (b"secret", b"guess", b"new"):
            assert word not in printed, printed
        assert b"\nserver connected: version 2, database 0, user anna\n" in printed, printed
        why = b"\ncannot connect to %s: version 2, database 0, user anna: " % peer.address.encode() + REFUSED[1:-2] + b"\n"
        assert why in printed, printed


def refusals():
    """A client whose command the server refuses gets the refusal, and goes on where it was."""
    refused = [
        (select(b"99"), [select(b"99")], b"-ERR DB index is out of range\r\n"),
        (select(b"one"), [select(b"one")], b"-ERR value is not an integer or out of range\r\n"),
        (auth(b"anna", b"no"), [auth(b"anna", b"no")], REFUSED),
        (command(b"HELLO", b"3", b"AUTH", b"anna", b"no"), [auth(b"anna", b"no"), HELLO], REFUSED),
        (HELLO, [HELLO], b"-ERR unknown command 'HELLO'\r\n"),
        # The server judges the words of these.
        (command(b"HELLO", b"4"), [command(b"HELLO", b"4")], b"-NOPROTO unsupported protocol version\r\n"),
        (command(b"HELLO", b"3", b"SETNAME", b"a b"), [command(b"HELLO", b"3", b"SETNAME", b"a b")], b"-ERR names\r\n"),
        (command(b"SELECT"), [command(b"SELECT")], b"-ERR wrong number of arguments for 'select' command\r\n"),
        (auth(b"a", b"b", b"c"), [auth(b"a", b"b", b"c")], b"-ERR syntax error\r\n"),
    ]
    with proxied() as (proxy, peer, server), connect(proxy.port) as client:
        number_of(client)
        before = proxy.descriptors()
        for asked, sent, refusal in refused:
            client.sendall(asked + get(b"a"))
            with peer.accept() as check:
                hear(check, b"".join(sent))
                check.sendall(refusal + refusal * (len(sent) - 1))
                hear(client, refusal)
                assert hear_end(check) == b""
            hear(server, get(b"a"))
            server.sendall(b"$-1\r\n")
            hear(client, b"$-1\r\n")
        until(lambda: proxy.descriptors() == before, "descriptors of connections that have gone are open")
        # The server accepts a command that the proxy does not understand: the client has a connection of its own.
        client.sendall(command(b"HELLO", b"4") + get(b"a"))
        with accepted(peer, (command(b"HELLO", b"4"), hello_of(1))):
            with peer.accept_own() as own:
                hear(own, command(b"HELLO", b"4") + get(b"a"))
                own.sendall(b"whatever")
                hear(client, b"whatever")


def server_that_opens_no_setting():
    """Without a connection, or without a reply in time, the client gets the reason and is closed: the PING behind its
    SELECT is for another database, and no server gets it."""
    with proxied("--server-timeout", "700ms") as (proxy, peer, server):
        with connect(proxy.port) as client:
            client.sendall(select(b"3") + PING)
            with peer.accept() as silent:
                hear(silent, select(b"3"))
                assert hear_end(client) == NOT_CONNECTED + b"timed out\r\n"
                assert hear_end(silent) == b""
        with connect(proxy.port) as client:
            client.sendall(select(b"3") + PING)
            with peer.accept() as closing:
                hear(closing, select(b"3"))
            assert hear_end(client) == NOT_CONNECTED + b"closed during AUTH\r\n"
        with connect(proxy.port) as client:
            client.sendall(select(b"3") + PING)
            with accepted(peer, (select(b"3"), OK + b":1\r\n")) as talking:
                assert hear_end(client) == NOT_CONNECTED + b"the server rejected AUTH\r\n"
                assert hear_end(talking) == b""
        peer.close()
        with connect(proxy.port) as client:
            client.sendall(select(b"3") + PING)
            assert hear_end(client).startswith(NOT_CONNECTED + b"connection refused")
        with connect(proxy.port) as client:
            ask_through(client, server, get(b"a"), bulk(b"1"))


def hello_without_a_connection():
    """A client whose HELLO gets no connection goes on where it was: the error says that its version stays."""
    with proxied("--server-timeout", "700ms") as (proxy, peer, server), connect(proxy.port) as client:
        client.sendall(HELLO + get(b"a"))
        with peer.accept() as silent:
            hear(silent, HELLO)
            hear(client, NOT_CONNECTED + b"timed out\r\n")
            assert hear_end(silent) == b""
        hear(server, get(b"a"))
        server.sendall(bulk(b"1"))
        hear(client, bulk(b"1"))


def ask_through(client, server, asked, reply):
    """Asserts that a command of a client goes to this server, and that the client gets its reply."""
    client.sendall(asked)
    hear(server, asked)
    server.sendall(reply)
    hear(client, reply)


def client_that_goes_while_it_moves():
    """Nothing is left of a client that goes before its setting is open."""
    with proxied() as (proxy, peer, server):
        before = proxy.descriptors()
        with connect(proxy.port) as client:
            client.sendall(HELLO + get(b"a"))
            with peer.accept() as line:
                hear(line, HELLO)
                client.close()
                line.sendall(hello_of(3))
                # The connection is shared from now on, and the client's command runs.
                hear(line, get(b"a"))
                line.sendall(b"_\r\n")
                with connect(proxy.port) as other:
                    ask(other, HELLO, hello_of(2))
                    until(lambda: proxy.descriptors() <= before + 2, "the client is open")
        with connect(proxy.port) as other:
            other.sendall(PING)
            hear(server, PING)
            server.sendall(PONG)
            hear(other, PONG)


def names_and_ids():
    """CLIENT ID and the name stay the same; HELLO sets a name, and RESET removes it; no two clients have one id."""
    null = {2: b"$-1\r\n", 3: b"_\r\n"}
    name = command(b"CLIENT", b"GETNAME")
    with proxied() as (proxy, peer, _), contextlib.ExitStack() as stack:
        clients = [stack.enter_context(connect(proxy.port)) for _ in range(3)]
        ids = [number_of(client) for client in clients]
        assert len(set(ids)) == 3
        ask(clients[0], command(b"CLIENT", b"SETNAME", b"first"), OK)
        clients[0].sendall(HELLO)
        stack.enter_context(accepted(peer, (HELLO, hello_of(50))))
        hear(clients[0], hello_of(ids[0]))
        ask(clients[0], name, bulk(b"first"))
        ask(clients[1], HELLO + name, hello_of(ids[1]) + null[3])
        ask(clients[2], command(b"HELLO", b"3", b"SETNAME", b"third") + name, hello_of(ids[2]) + bulk(b"third"))
        assert [number_of(client) for client in clients] == ids
        ask(clients[0], command(b"RESET") + name, b"+RESET\r\n" + null[2])
        ask(clients[2], command(b"HELLO", b"2") + name, hello_2(ids[2]) + bulk(b"third"))
        assert [number_of(client) for client in clients] == ids
        with connect(proxy.port) as last:
            assert number_of(last) not in ids


def hello_2(number):
    """The proxy's own reply to HELLO in version 2."""
    pairs = [b"server", b"redis", b"version", b"7.0.15", b"proto", 2, b"id", number, b"mode", b"standalone", b"role",
             b"master", b"modules"]
    texts = [b":%d\r\n" % word if isinstance(word, int) else bulk(word) for word in pairs]
    return b"*14\r\n" + b"".join(texts) + b"*0\r\n"


def own_connections_of_settings():
    """A connection of a client's own begins in the setting of the client, and --max-dedicated limits only these."""
    with proxied("--max-dedicated", "1") as (proxy, peer, _), connect(proxy.port) as client, connect(proxy.port) as other:
        client.sendall(command(b"HELLO", b"3", b"AUTH", b"anna", b"secret"))
        steps = [(auth(b"anna", b"secret") + HELLO, OK + hello_of(8))]
        with accepted(peer, *steps):
            hear(client, hello_of(1))
            client.sendall(MULTI + get(b"a"))
            with accepted(peer, *steps) as own:
                hear(own, MULTI + get(b"a"))
                own.sendall(OK + b"+QUEUED\r\n")
                hear(client, OK + b"+QUEUED\r\n")
                other.sendall(command(b"HELLO", b"3", b"AUTH", b"anna", b"secret"))
                with accepted(peer, *steps):
                    hear(other, hello_of(2))
                needs = b"-ERR 'MULTI' needs a connection of its own, and no more are allowed\r\n"
                other.sendall(MULTI + command(b"CLIENT", b"ID"))
                assert hear_end(other) == needs, "a command after a refused one is answered"


def most_settings():
    """With --max-shared 2 there is one more setting. A client that asks for a third has a connection of its own. A setting without
    clients gives its place to another."""
    with proxied("--max-shared", "2") as (proxy, peer, server), connect(proxy.port) as other:
        with connect(proxy.port) as client:
            client.sendall(select(b"1"))
            with accepted(peer, (select(b"1"), OK)) as line:
                hear(client, OK)
                other.sendall(select(b"2") + get(b"a"))
                with peer.accept_own() as own:
                    hear(own, select(b"2") + get(b"a"))
                    own.sendall(OK)
                    hear(other, OK)
                client.sendall(get(b"b"))
                hear(line, get(b"b"))
                client.close()
                line.sendall(bulk(b"B"))
                until(lambda: b"\r\nclients:2\r\n" in info_of(proxy.port), "the client is open")
                with connect(proxy.port) as next_one:
                    next_one.sendall(select(b"3") + get(b"c"))
                    with accepted(peer, (select(b"3"), OK)) as third:
                        hear(next_one, OK)
                        assert hear_end(line) == b""
                        hear(third, get(b"c"))
                        third.sendall(bulk(b"C"))
                        hear(next_one, bulk(b"C"))
    with proxied("--max-shared", "1") as (proxy, peer, server), connect(proxy.port) as client:
        client.sendall(command(b"HELLO", b"4") + get(b"a"))
        with peer.accept_own() as own:
            hear(own, command(b"HELLO", b"4") + get(b"a"))


def info_of(port):
    with connect(port) as client:
        client.sendall(command(b"INFO", b"proxy") + command(b"QUIT"))
        return hear_end(client)


def lost_connection_of_a_setting():
    """Only the clients of the setting get errors. INFO proxy adds the settings up."""
    with proxied() as (proxy, peer, server), connect(proxy.port) as client, connect(proxy.port) as other:
        client.sendall(HELLO)
        with accepted(peer, (HELLO, hello_of(4))) as line:
            hear(client, hello_of(1))
            client.sendall(get(b"a"))
            hear(line, get(b"a"))
            other.sendall(get(b"b"))
            hear(server, get(b"b"))
            text = info_of(proxy.port)
            for counted in (b"clients:3", b"clients_accepted:3", b"clients_own:0", b"commands:2", b"commands_waiting:2",
                            b"server_connections:2", b"server_lines:2"):
                assert b"\r\n" + counted + b"\r\n" in text, (counted, text)
            # A push is no reply to a command.
            line.sendall(b">1\r\n+news\r\n")
            hear(client, LOST)
            assert hear_end(line) == b""
        server.sendall(bulk(b"B"))
        hear(other, bulk(b"B"))
        with accepted(peer, (HELLO, hello_of(5))) as line:
            client.sendall(get(b"c"))
            hear(line, get(b"c"))
            line.sendall(b"_\r\n")
            hear(client, b"_\r\n")
            ask(client, HELLO, hello_of(1))
        printed = proxy.printed()
        lost = rb"\nserver lost: version 3, database 0: reply is a push\n|\nserver lost: version 3, database 0: .*push.*\n"
        assert re.search(lost, printed), printed


def errors_of_settings():
    """INFO proxy counts the commands and the errors of all settings, in each of them."""
    with proxied() as (proxy, peer, server), connect(proxy.port) as client, connect(proxy.port) as other:
        client.sendall(HELLO)
        with accepted(peer, (HELLO, hello_of(4))) as line:
            hear(client, hello_of(1))
            client.sendall(PING + PING)
            hear(line, PING + PING)
            line.sendall(b"-ERR one\r\n-OOM two\r\n")
            hear(client, b"-ERR one\r\n-OOM two\r\n")
            other.sendall(PING)
            hear(server, PING)
            server.sendall(b"-ERR three\r\n")
            hear(other, b"-ERR three\r\n")
            for asking in client, other:
                # The sum may be 100 ms old.
                for _ in range(50):
                    asking.sendall(command(b"INFO", b"proxy"))
                    found = hear_section(asking)
                    errors = b"\r\nerrorstat_ERR:count=2\r\nerrorstat_OOM:count=1\r\n\r\n"
                    if found.endswith(errors) and b"\r\ncmdstat_ping:calls=3\r\n" in found:
                        break
                    time.sleep(0.1)
                else:
                    raise AssertionError(found)


class Settings(Peer):
    """A server whose replies name the setting of their connection. It checks passwords: that of a user is its name twice."""

    def __init__(self, source):
        super().__init__()
        self.listener.settimeout(None)
        self.source, self.opened = source, 0
        threading.Thread(target=self.serve, daemon=True).start()

    def serve(self):
        with contextlib.suppress(OSError):
            while True:
                stream, _ = self.listener.accept()
                self.opened += 1
                threading.Thread(target=self.answer, args=(stream,), daemon=True).start()

    def reply(self, setting, words):
        name = words[0].upper()
        if name == b"AUTH":
            if words[2] != words[1] * 2:
                return REFUSED
            setting["user"] = words[1]
            return OK
        if name == b"SELECT":
            if int(words[1]) > 9:
                return b"-ERR DB index is out of range\r\n"
            setting["database"] = words[1]
            return OK
        if name == b"HELLO":
            setting["version"] = words[1]
            return WELCOME
        if name == b"RESET":
            setting.update(version=b"2", database=b"0", user=b"nobody")
            return b"+RESET\r\n"
        if name == b"PING":
            return b"+PONG\r\n"
        text = b"%s of %s" % (words[1], shown(setting))
        return bulk(text) if setting["version"] == b"2" else b"=%d\r\ntxt:%s\r\n" % (len(text) + 4, text)

    def answer(self, stream):
        setting, rest = {"version": b"2", "database": b"0", "user": b"nobody"}, b""
        source = random.Random(self.source.random())
        with stream, contextlib.suppress(OSError):
            while piece := stream.recv(65_536):
                found, rest = commands_of(rest + piece)
                for part in cut(b"".join(self.reply(setting, words) for words in found), source):
                    stream.sendall(part)


def shown(setting):
    return b"%(version)s %(database)s %(user)s" % {name.encode(): word for name, word in setting.items()}


def settings_at_random():
    """Clients that move at random get replies of their own commands and settings, in order, at any cut."""
    for seed in range(3):
        peer = Settings(random.Random(seed))
        with running("proxy", "127.0.0.1:0", peer.address, "--max-shared", ("16", "3", "64")[seed]) as proxy:
            is_connected(proxy)
            wrong = []

            def talk(number, proxy=proxy, wrong=wrong, seed=seed):
                source = random.Random(f"{seed} {number}")
                with connect(proxy.port) as stream:
                    asked, wanted = journey(number, source)
                    sending = threading.Thread(
                        target=lambda: [stream.sendall(piece) for piece in cut(asked, source)], daemon=True)
                    sending.start()
                    try:
                        hear(stream, wanted)
                    except (AssertionError, OSError) as error:
                        wrong.append((number, error))

            threads = [threading.Thread(target=talk, args=(number,)) for number in range(1, 25)]
            for thread in threads:
                thread.start()
            for thread in threads:
                thread.join()
            assert not wrong, (seed, wrong[0])
        peer.close()


def journey(number, source):
    """Commands of a client that moves from setting to setting, and the replies that it has to get."""
    setting, asked, wanted = {"version": b"2", "database": b"0", "user": b"nobody"}, b"", b""
    for turn in range(120):
        kind = source.choice(("get", "get", "get", "get", "select", "auth", "hello", "wrong", "range", "reset"))
        if kind == "get":
            key = b"key %d of client %d%s" % (turn, number, b"." * source.choice((0, 3, 3000)))
            text = b"%s of %s" % (key, shown(setting))
            asked += get(key)
            wanted += bulk(text) if setting["version"] == b"2" else b"=%d\r\ntxt:%s\r\n" % (len(text) + 4, text)
        elif kind == "select":
            setting["database"] = source.choice((b"0", b"5"))
            asked, wanted = asked + select(setting["database"]), wanted + OK
        elif kind == "auth":
            setting["user"] = source.choice((b"anna", b"bea"))
            asked, wanted = asked + auth(setting["user"], setting["user"] * 2), wanted + OK
        elif kind == "hello" and setting["version"] == b"2":
            setting["version"] = b"3"
            asked, wanted = asked + HELLO, wanted + WELCOME
        elif kind == "wrong":
            asked, wanted = asked + auth(b"anna", b"guess"), wanted + REFUSED
        elif kind == "range":
            asked, wanted = asked + select(b"77"), wanted + b"-ERR DB index is out of range\r\n"
        elif kind == "reset":
            setting = {"version": b"2", "database": b"0", "user": b"nobody"}
            asked, wanted = asked + command(b"RESET"), wanted + b"+RESET\r\n"
    return asked, wanted


TESTS = [settings_share_connections, settings_of_words, passwords_are_checked, refusals, server_that_opens_no_setting, hello_without_a_connection,
         client_that_goes_while_it_moves, names_and_ids, own_connections_of_settings, most_settings,
         lost_connection_of_a_setting, errors_of_settings, settings_at_random]
