#!/usr/bin/env python3
"""A small Redis for tests, in a process of its own, with Python alone: small_redis.py [--seed N] [--piece N]

It listens on a free port of 127.0.0.1 and prints the port. It has 16 databases, and its commands have the replies of
Redis 7. Users have the password `secret`, and the user `default` may have any. With --piece it reads at most so many
bytes at a time. With --seed it stops reading at random, for up to 30 ms. SIGUSR1 closes all connections.
"""
import argparse
import asyncio
import contextlib
import os
import random
import shlex
import signal
import socket
import subprocess
import sys

WRONG_PASSWORD = b"-WRONGPASS invalid username-password pair or user is disabled.\r\n"
NULLS = {2: b"$-1\r\n", 3: b"_\r\n"}
OK = b"+OK\r\n"


def bulk(text):
    return b"$%d\r\n%s\r\n" % (len(text), text)


def array(version, *members):
    """An array of replies in version 2, and a push in version 3, as subscribers get it."""
    return b"%s%d\r\n%s" % (b"*" if version == 2 else b">", len(members), b"".join(members))


def hello_of(version, number):
    """The reply to HELLO."""
    pairs = [b"server", b"redis", b"version", b"7.0.15", b"proto", version, b"id", number, b"mode", b"standalone",
             b"role", b"master", b"modules"]
    texts = [b":%d\r\n" % word if isinstance(word, int) else bulk(word) for word in pairs]
    return (b"*14\r\n" if version == 2 else b"%7\r\n") + b"".join(texts) + b"*0\r\n"


class Reader:
    """Finds the commands in the bytes of a client. A long command is looked at again once all its bytes may be
    there."""

    def __init__(self):
        self.text = bytearray()
        self.needed = 1

    def commands(self, piece):
        """Takes some bytes, and returns the commands that end in them."""
        self.text += piece
        found, begin = [], 0
        while len(self.text) - begin >= self.needed:
            words, end = self.command(begin)
            if words is None:
                self.needed = end - begin
                break
            self.needed = 1
            begin = end
            if words:
                found.append(words)
        del self.text[:begin]
        return found

    def command(self, begin):
        """Returns the words of the command at this place, and its end; or `None`, and a place before which it does not
        end."""
        text = self.text
        at = text.find(b"\n", begin)
        if at < 0:
            return None, len(text) + 1
        if text[begin] != ord("*"):
            return [word.encode() for word in shlex.split(text[begin:at].decode())], at + 1
        count, at, words = int(text[begin + 1 : at]), at + 1, []
        for _ in range(count):
            end = text.find(b"\n", at)
            if end < 0:
                return None, len(text) + 1
            length = int(text[at + 1 : end])
            at = end + 1 + length + 2
            if len(text) < at:
                return None, at
            words.append(bytes(text[end + 1 : at - 2]))
        return words, at


class Session:
    """What a server knows of a client: its setting, its transaction and its channels."""

    def __init__(self, databases, number):
        self.databases, self.number = databases, number
        self.version, self.database = 2, 0
        self.queue, self.channels = None, set()

    def reply(self, words):
        name = words[0].decode().upper()
        if self.queue is not None and name not in ("EXEC", "DISCARD"):
            self.queue.append(words)
            return b"+QUEUED\r\n"
        act = getattr(self, "do_" + name.lower(), None)
        return act(*words[1:]) if act else b"-ERR unknown command '%s'\r\n" % words[0]

    def keys(self):
        return self.databases[self.database]

    def do_ping(self, *words):
        if self.channels and self.version == 2:
            return array(2, bulk(b"pong"), bulk(b"".join(words)))
        return bulk(words[0]) if words else b"+PONG\r\n"

    def do_echo(self, text):
        return bulk(text)

    def do_get(self, key):
        text = self.keys().get(key)
        return NULLS[self.version] if text is None else bulk(text)

    def do_set(self, key, text):
        self.keys()[key] = text
        return OK

    def do_del(self, *keys):
        return b":%d\r\n" % sum(self.keys().pop(key, None) is not None for key in keys)

    def do_incr(self, key):
        self.keys()[key] = b"%d" % (int(self.keys().get(key, b"0")) + 1)
        return b":%s\r\n" % self.keys()[key]

    def do_flushall(self):
        for keys in self.databases:
            keys.clear()
        return OK

    def do_select(self, word):
        if not word.isdigit() or int(word) >= len(self.databases):
            return b"-ERR DB index is out of range\r\n"
        self.database = int(word)
        return OK

    def do_auth(self, *words):
        return OK if words[0] == b"default" or words[-1] == b"secret" else WRONG_PASSWORD

    def do_hello(self, *words):
        if len(words) >= 4 and words[1].upper() == b"AUTH" and self.do_auth(*words[2:4]) != OK:
            return WRONG_PASSWORD
        self.version = int(words[0]) if words else self.version
        return hello_of(self.version, self.number)

    def do_reset(self):
        self.version, self.database = 2, 0
        self.channels.clear()
        return b"+RESET\r\n"

    def do_multi(self):
        self.queue = []
        return OK

    def do_exec(self):
        if self.queue is None:
            return b"-ERR EXEC without MULTI\r\n"
        queue, self.queue = self.queue, None
        return b"*%d\r\n" % len(queue) + b"".join(map(self.reply, queue))

    def do_discard(self):
        if self.queue is None:
            return b"-ERR DISCARD without MULTI\r\n"
        self.queue = None
        return OK

    def do_watch(self, *_):
        return OK

    def do_unwatch(self):
        return OK

    def do_subscribe(self, channel):
        self.channels.add(channel)
        return array(self.version, bulk(b"subscribe"), bulk(channel), b":%d\r\n" % len(self.channels))

    def do_unsubscribe(self, channel):
        self.channels.discard(channel)
        return array(self.version, bulk(b"unsubscribe"), bulk(channel), b":%d\r\n" % len(self.channels))

    def do_blpop(self, *_):
        return b"*-1\r\n" if self.version == 2 else NULLS[3]


class Connection(asyncio.BufferedProtocol):
    """A client of the server. It is not read while it does not read its replies."""

    def __init__(self, server):
        self.server = server
        self.reader = Reader()
        self.session = Session(server.databases, server.next_number())
        self.buffer = bytearray(server.piece)
        self.transport = None

    def connection_made(self, transport):
        self.transport = transport
        self.server.transports.add(transport)

    def connection_lost(self, _):
        self.server.transports.discard(self.transport)

    def get_buffer(self, _):
        return self.buffer

    def buffer_updated(self, count):
        found = self.reader.commands(memoryview(self.buffer)[:count])
        self.transport.write(b"".join(map(self.session.reply, found)))
        if self.server.source and self.server.source.random() < min(0.02, self.server.piece / 500_000):
            self.pause_writing()
            asyncio.get_running_loop().call_later(self.server.source.random() * 0.03, self.resume_writing)

    def pause_writing(self):
        self.transport.pause_reading()

    def resume_writing(self):
        if not self.transport.is_closing():
            self.transport.resume_reading()


class Server:
    """The state of all clients, and how the server reads."""

    def __init__(self, piece, source):
        self.piece, self.source = piece, source
        self.databases = [{} for _ in range(16)]
        self.number = 0
        self.transports = set()

    def close_all(self):
        for transport in list(self.transports):
            transport.abort()

    def next_number(self):
        self.number += 1
        return self.number


async def serve(piece, seed):
    """Serves until the process ends."""
    listener = socket.socket()
    listener.bind(("127.0.0.1", 0))
    server = Server(piece or 1 << 18, random.Random(seed) if seed is not None else None)
    loop = asyncio.get_running_loop()
    loop.add_signal_handler(signal.SIGUSR1, server.close_all)
    serving = await loop.create_server(lambda: Connection(server), sock=listener, backlog=1_024)
    print(listener.getsockname()[1], flush=True)
    await serving.serve_forever()


class SmallRedis:
    """The server as a process, for the tests that import this file."""

    def __init__(self, *words):
        self.process = subprocess.Popen([sys.executable, os.path.realpath(__file__), *words], stdin=subprocess.DEVNULL,
                                        stdout=subprocess.PIPE)
        self.port = int(self.process.stdout.readline())
        self.address = f"127.0.0.1:{self.port}"

    def stop(self):
        """Stops the process. The system still accepts connections for it, and nothing is read from them."""
        self.process.send_signal(signal.SIGSTOP)

    def go_on(self):
        self.process.send_signal(signal.SIGCONT)

    def close_all(self):
        """Closes all connections, and accepts new ones."""
        self.process.send_signal(signal.SIGUSR1)


@contextlib.contextmanager
def small_redis(*words):
    server = SmallRedis(*words)
    try:
        yield server
        assert server.process.poll() is None, "the small Redis has ended"
    finally:
        server.process.kill()
        server.process.wait()
        server.process.stdout.close()


def main():
    parser = argparse.ArgumentParser()
    parser.add_argument("--piece", type=int, default=0)
    parser.add_argument("--seed", type=int)
    words = parser.parse_args()
    asyncio.run(serve(words.piece, words.seed))


if __name__ == "__main__":
    main()
