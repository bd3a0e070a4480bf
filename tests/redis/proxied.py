#!/usr/bin/env python3
"""Tests that no client of `resp proxy` gets a reply of another, while redis-server is killed and started again:
proxied.py RESP [--clients N] [--seconds S] [--seeds N..]

Without options it takes 20 seconds. Before a release: --clients 1000 --seconds 3600 --seeds 4

Each client has a name. Its keys, its values and its ECHOs name it. It sends pipelines of random commands, cut at random,
and compares each reply with its command. Some clients close in the middle of a reply and come back. Some get a connection
to the server of their own, in the middle of a pipeline: by a transaction, a subscription or a blocking command. Some move to
another version, database or user, in the middle of a pipeline too, and try wrong passwords and databases. A reply is wrong if it names another client, if it does not fit its command, or if it is missing. After the
server was lost a command may get one of the two errors of the proxy, and a client with a connection of its own may be
closed. A client gets the end of its connection after such an error to SELECT, AUTH, RESET or HELLO with a user. The expected replies come from the commands alone:

- ECHO is answered by its own text, and each text is sent once;
- GET and each member of MGET are answered by null, or by a value that this client has sent for the key;
- SET and MSET are answered by OK, INCR, APPEND, STRLEN and DEL by an integer, and LRANGE by values of the list;
- GET after SET is answered by the value of the SET, unless an error or a start of the server lies between;
- the commands of a transaction are answered by QUEUED, and EXEC by their replies;
- HELLO, SELECT, AUTH and RESET are answered as Redis does. After them null is that of the client's version, ACL WHOAMI is
  answered by its user, and a key has its value in its database;
- SUBSCRIBE and UNSUBSCRIBE are answered by the channel, which names the client, and BLPOP of no list by null.
"""
import argparse
import asyncio
import os
import random
import re
import signal
import socket
import subprocess
import sys
import tempfile
import time

LOST = b"ERR connection to server lost; the command may have run"
NOT_CONNECTED = b"ERR cannot connect to server"
NAMED = re.compile(rb"<client \d+>")


def command(*words):
    return b"*%d\r\n" % len(words) + b"".join(b"$%d\r\n%s\r\n" % (len(word), word) for word in words)


def is_between(text):
    """Whether an error is one of the proxy about its server, or that of a server which has just begun."""
    return text == LOST or text.startswith((NOT_CONNECTED, b"LOADING "))


async def read_value(reader):
    """Reads a value: bytes, an int, a list, or a pair of a line, an error, null or a map and its text, version or members."""
    line = await reader.readuntil(b"\r\n")
    kind, rest = line[:1], line[1:-2]
    if kind == b"+":
        return ("line", rest)
    if kind == b"-":
        return ("error", rest)
    if kind == b":":
        return int(rest)
    if kind == b"$":
        return ("null", 2) if rest == b"-1" else (await reader.readexactly(int(rest) + 2))[:-2]
    if kind == b"_":
        return ("null", 3)
    if kind == b"%":
        return ("map", [await read_value(reader) for _ in range(2 * int(rest))])
    assert kind in b"*>", line[:100]
    return [await read_value(reader) for _ in range(int(rest))]


def is_hello(reply, version):
    """Whether this is a reply to HELLO in this version, with its seven pairs."""
    members = reply if isinstance(reply, list) else reply[1] if reply[0] == "map" else []
    pairs = dict(zip(map(bytes, members[:-1:2]), members[1::2]))
    return isinstance(reply, tuple) == (version == 3) and pairs.get(b"proto") == version and isinstance(pairs.get(b"id"), int)


def texts_of(value):
    """Returns all texts in a value."""
    if isinstance(value, list):
        return [text for member in value for text in texts_of(member)]
    if isinstance(value, tuple):
        return [value[1]] if isinstance(value[1], bytes) else texts_of(value[1])
    return [value] if isinstance(value, bytes) else []


class Client:
    """A client of the proxy, which knows what it has sent. Each connection has keys of its own, since the commands of a
    connection that has closed may run later."""

    def __init__(self, number, source, counts):
        self.name = b"<client %d>" % number
        self.source, self.counts = source, counts
        self.count, self.connection = 0, 0

    def begin(self):
        """Begins a connection: no value was sent for any of its keys."""
        self.connection += 1
        # Whether a command was sent that needs a connection to the server of the client's own.
        self.is_own = False
        # Whether it got no connection for another database or another user.
        self.is_refused = False
        # The setting, as the replies so far say.
        self.version, self.user = 2, b"default"
        # The values that were sent for each key; and the one that a key has, as long as it is known.
        self.sent = {self.key(number): set() for number in range(6)}
        self.known = {}

    def key(self, number):
        return b"%s connection %d key %d" % (self.name, self.connection, number)

    def value(self):
        self.count += 1
        length = self.source.choice((0, 0, 10, 300, 5_000, 40_000))
        return b"%s value %d%s" % (self.name, self.count, b"." * length)

    def draw(self):
        """Returns a command, and the function that says whether a reply to it is right."""
        key = self.key(self.source.randrange(6))
        kind = self.source.choice(("echo", "echo", "get", "get", "set", "set", "mget", "mset", "incr", "push", "range", "wrong",
                                   "whoami", "nothing"))
        return getattr(self, kind)(key)

    def echo(self, _):
        text = self.value()
        return command(b"ECHO", text), lambda reply: reply == text

    def set(self, key):
        text = self.value()

        def fits(reply):
            self.known[key] = text
            return reply == ("line", b"OK")

        self.sent[key].add(text)
        return command(b"SET", key, text), fits

    def mset(self, key):
        other = self.key(6 - 1 - int(key[-1:]))
        first, second = self.value(), self.value()

        def fits(reply):
            self.known.update({key: first, other: second})
            return reply == ("line", b"OK")

        self.sent[key].add(first)
        self.sent[other].add(second)
        return command(b"MSET", key, first, other, second), fits

    def has(self, key, value):
        if key in self.known:
            return value == self.known[key]
        return value == ("null", self.version) or isinstance(value, bytes) and value in self.sent[key]

    def get(self, key):
        return command(b"GET", key), lambda reply: self.has(key, reply)

    def mget(self, key):
        other = self.key(6 - 1 - int(key[-1:]))
        return command(b"MGET", key, other), lambda reply: (
            isinstance(reply, list) and len(reply) == 2 and self.has(key, reply[0]) and self.has(other, reply[1]))

    def incr(self, _):
        return command(b"INCR", self.name + b" count"), lambda reply: isinstance(reply, int)

    def push(self, _):
        return command(b"RPUSH", self.name + b" list", self.value()), lambda reply: isinstance(reply, int)

    def range(self, _):
        return command(b"LRANGE", self.name + b" list", b"-2", b"-1"), lambda reply: (
            isinstance(reply, list) and all(self.name in member for member in reply))

    def wrong(self, _):
        return command(b"INCRBY", self.name + b" count", self.name), lambda reply: (
            reply == ("error", b"ERR value is not an integer or out of range"))

    def whoami(self, _):
        return command(b"ACL", b"WHOAMI"), lambda reply: reply == self.user

    def nothing(self, _):
        return command(b"GET", self.name + b" nothing"), lambda reply: reply == ("null", self.version)

    def draw_setting(self):
        """Returns a command that moves the client to another setting, or that the server refuses, and the function for its
        reply."""
        self.counts["moves"] += 1
        user = self.source.choice((b"anna", b"bea"))
        kind = self.source.choice(("select", "select", "hello", "hello", "auth", "both", "reset", "range", "guess"))
        if kind == "range":
            return command(b"SELECT", b"99"), lambda reply: reply == ("error", b"ERR DB index is out of range")
        if kind == "guess":
            refused = b"WRONGPASS invalid username-password pair or user is disabled."
            return command(b"AUTH", user, b"guess"), lambda reply: reply == ("error", refused)
        changed = {}
        if kind == "hello":
            changed = {"version": self.source.choice((2, 3))}
            text, is_right = command(b"HELLO", b"%d" % changed["version"]), lambda reply: is_hello(reply, changed["version"])
        elif kind == "both":
            changed = {"version": 3, "user": user}
            text, is_right = command(b"HELLO", b"3", b"AUTH", user, user * 2), lambda reply: is_hello(reply, 3)
        elif kind == "auth":
            changed = {"user": user}
            text, is_right = command(b"AUTH", user, user * 2), lambda reply: reply == ("line", b"OK")
        elif kind == "select":
            text, is_right = command(b"SELECT", b"%d" % self.source.randrange(3)), lambda reply: reply == ("line", b"OK")
        else:
            changed = {"version": 2, "user": b"default"}
            text, is_right = command(b"RESET"), lambda reply: reply == ("line", b"RESET")

        def fits(reply):
            self.known = {}
            self.version, self.user = changed.get("version", self.version), changed.get("user", self.user)
            return is_right(reply)

        return text, fits

    def draw_own(self):
        """Returns the commands, each with the function for its reply, of something that needs a connection of its own."""
        self.counts["own"] += not self.is_own
        self.is_own = True
        return getattr(self, self.source.choice(("transaction", "subscription", "blocking")))()

    def transaction(self):
        key, text = self.key(self.source.randrange(6)), self.value()
        self.sent[key].add(text)
        queued = ("line", b"QUEUED")

        def fits(reply):
            self.known[key] = text
            return reply == [("line", b"OK"), text]

        return [(command(b"MULTI"), lambda reply: reply == ("line", b"OK")),
                (command(b"SET", key, text), lambda reply: reply == queued),
                (command(b"GET", key), lambda reply: reply == queued),
                (command(b"EXEC"), fits)]

    def subscription(self):
        channel = self.name + b" channel"
        return [(command(b"SUBSCRIBE", channel), lambda reply: reply == [b"subscribe", channel, 1]),
                (command(b"PING"), lambda reply: reply == ([b"pong", b""] if self.version == 2 else ("line", b"PONG"))),
                (command(b"UNSUBSCRIBE", channel), lambda reply: reply == [b"unsubscribe", channel, 0])]

    def blocking(self):
        return [(command(b"BLPOP", self.name + b" nothing", b"0.01"),
                 lambda reply: reply == ([] if self.version == 2 else ("null", 3)))]

    async def run(self, port, until, starts):
        """Sends pipelines until that time."""
        while time.monotonic() < until:
            reader, writer = await asyncio.open_connection("127.0.0.1", port, limit=1 << 20)
            self.begin()
            start = starts[0]
            try:
                await self.talk(reader, writer, until, starts)
            except (EOFError, OSError):
                # Only a client with a connection of its own loses it with the server.
                if not self.is_own or (start == starts[0] and start % 2 == 0):
                    raise
                self.counts["closed"] += 1
            finally:
                writer.close()

    async def talk(self, reader, writer, until, starts):
        """Sends pipelines over one connection, until that time or until it closes in the middle of a reply."""
        while time.monotonic() < until:
            asked = [self.draw() for _ in range(self.source.choice((1, 1, 3, 10, 50)))]
            if self.source.random() < 0.3:
                at = self.source.randrange(len(asked) + 1)
                asked[at:at] = [self.draw_setting()]
            if self.source.random() < (0.5 if self.is_own else 0.05):
                at = self.source.randrange(len(asked) + 1)
                asked[at:at] = self.draw_own()
            start = starts[0]
            sending = asyncio.ensure_future(self.send(writer, b"".join(text for text, _ in asked)))
            if self.source.random() < 0.04:
                await self.leave(reader, sending)
                return
            try:
                for text, fits in asked:
                    reply = await asyncio.wait_for(read_value(reader), 30)
                    # A server that is killed forgets all keys, so a value is known only within the life of a server.
                    if start % 2 or start != starts[0]:
                        self.known = {}
                    self.judge(text, fits, reply)
                    if start % 2 or start != starts[0]:
                        self.known = {}
                    if self.is_refused:
                        after = await asyncio.wait_for(reader.read(100), 30)
                        assert not after, f"{self.name} gets {after} after a failed {text[:100]}"
                        return
            finally:
                if not sending.done():
                    await asyncio.wait([sending], timeout=5)
                await asyncio.gather(sending, return_exceptions=True)

    async def send(self, writer, text):
        while text:
            length = self.source.choice((1, 5, 100, 3_000, 100_000))
            writer.write(text[:length])
            text = text[length:]
            await writer.drain()
            if self.source.random() < 0.2:
                await asyncio.sleep(self.source.random() / 50)

    async def leave(self, reader, sending):
        """Reads some bytes, and sends no more."""
        try:
            await asyncio.wait_for(reader.read(self.source.choice((1, 3, 50, 4_000))), 0.2)
        except (asyncio.TimeoutError, OSError):
            pass
        sending.cancel()
        await asyncio.gather(sending, return_exceptions=True)
        self.counts["gone"] += 1

    def judge(self, text, fits, reply):
        others = [name for found in texts_of(reply) for name in NAMED.findall(found) if name != self.name]
        assert not others, f"{self.name} gets a reply of {others[0]} to {text[:100]}"
        self.counts["replies"] += 1
        if isinstance(reply, tuple) and reply[0] == "error" and is_between(reply[1]):
            self.known = {}
            self.counts["errors"] += 1
            moves = re.match(rb"\*\d\r\n\$\d\r\n(SELECT|AUTH|RESET|HELLO\r\n\$1\r\n\d\r\n\$4\r\nAUTH)\r\n", text)
            self.is_refused = bool(moves) and reply[1].startswith(NOT_CONNECTED)
            return
        assert fits(reply), f"{self.name} gets {str(reply)[:200]} to {text[:100]}"


class Servers:
    """redis-server, which is killed and started again, and the proxy in front of it."""

    def __init__(self, resp):
        self.work = tempfile.TemporaryDirectory()
        with socket.create_server(("127.0.0.1", 0)) as free:
            self.port = free.getsockname()[1]
        self.redis = None
        self.start()
        self.log = open(f"{self.work.name}/proxy", "wb+")
        words = [resp, "proxy", "127.0.0.1:0", f"127.0.0.1:{self.port}", "--max-clients", "5000", "--max-shared", "32"]
        self.proxy = subprocess.Popen(words, stdin=subprocess.DEVNULL, stdout=self.log, stderr=self.log)
        while b"\n" not in self.printed():
            assert self.proxy.poll() is None, self.printed()
            time.sleep(0.01)
        self.proxied = int(re.match(rb"listening on 127\.0\.0\.1:(\d+)\n", self.printed())[1])

    def printed(self):
        with open(self.log.name, "rb") as file:
            return file.read()

    def start(self):
        words = ["redis-server", "--bind", "127.0.0.1", "--port", str(self.port), "--save", "", "--appendonly", "no",
                 *(word for name in ("anna", "bea") for word in ("--user", name, "on", f">{name * 2}", "~*", "&*", "+@all"))]
        self.redis = subprocess.Popen(words, cwd=self.work.name, stdin=subprocess.DEVNULL, stdout=subprocess.DEVNULL)

    def kill(self):
        self.redis.send_signal(signal.SIGKILL)
        self.redis.wait()

    def stop(self):
        for process in (self.redis, self.proxy):
            process.kill()
            process.wait()
        self.log.close()
        self.work.cleanup()


async def kill_and_start(servers, source, until, starts):
    """Kills and starts the server. `starts` is counted up before it is killed and after it has begun, so it is odd
    in between."""
    while True:
        await asyncio.sleep(source.uniform(0.6, 1.6))
        if time.monotonic() > until - 1:
            return
        starts[0] += 1
        servers.kill()
        await asyncio.sleep(source.choice((0, 0.05, 0.3)))
        servers.start()
        await asyncio.sleep(0.2)
        starts[0] += 1


async def play(resp, seed, count, seconds):
    """Runs the clients by this seed, and returns what they counted."""
    source = random.Random(seed)
    counts = {"replies": 0, "errors": 0, "gone": 0, "own": 0, "closed": 0, "moves": 0}
    starts = [0]
    servers = Servers(resp)
    try:
        until = time.monotonic() + seconds
        clients = [Client(number, random.Random(f"{seed} {number}"), counts) for number in range(count)]
        await asyncio.gather(kill_and_start(servers, source, until, starts),
                             *(client.run(servers.proxied, until, starts) for client in clients))
        assert servers.proxy.poll() is None, f"the proxy has ended: {servers.printed()[-500:]}"
        lost = servers.printed().count(b"server lost: ")
        assert lost >= 1, "the server was never lost"
        counts["lost"] = lost
        return counts
    finally:
        servers.stop()


def main():
    parser = argparse.ArgumentParser()
    parser.add_argument("resp")
    parser.add_argument("--clients", type=int, default=100)
    parser.add_argument("--seconds", type=float, default=6)
    parser.add_argument("--seeds", type=int, nargs="*", default=[1, 2, 3])
    words = parser.parse_args()
    for seed in words.seeds:
        try:
            counts = asyncio.run(play(os.path.realpath(words.resp), seed, words.clients, words.seconds))
            assert counts["replies"] > 20 * words.seconds, counts
        except (AssertionError, EOFError, OSError, asyncio.TimeoutError) as error:
            print(f"seed {seed}: {type(error).__name__}: {str(error)[:1000]}")
            return 1
        print(f"seed {seed}: " + ", ".join(f"{number} {name}" for name, number in counts.items()))
    return 0


sys.exit(main())
