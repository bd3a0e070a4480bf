#!/usr/bin/env python3
"""Tests `resp proxy`, `resp tap` or `resp serve` with random clients, with Python alone:
proxy_random.py [--program FILE] [--what proxy|tap|serve] [--seconds N] [--seed N]

Each seed has other options of the program, another server and other clients. The clients send pipelines of 1 to 2,000
commands with values of 1 byte to 8 MiB, whole, cut or byte by byte. They read at once, slowly or late. They end their
sending side, close in the middle of a command or without reading, and come back. To the proxy and tap they also send
SELECT, HELLO, AUTH, RESET, MULTI, SUBSCRIBE and BLPOP in the middle of a pipeline. The server of the proxy and of tap
is the small Redis of tests/tcp/small_redis.py, which stops reading at random.

The values of a client name it, and each reply is compared with the one that its command has. From time to time all
clients finish what they have begun, and nobody sends anything for a second. Then nobody may wait:

- each client has got all its replies, and those that have ended their side were closed;
- no received byte waits in a socket of the program, and no byte that it has sent;
- the program has no socket without a client;
- `INFO proxy` counts the open clients, and no command and no byte that waits;
- the program uses no processor.

If no byte arrives anywhere for longer than the patience while a client waits, the test fails and names the client. In
the end the program has no more descriptors than in the beginning, and not much more memory than in the middle.
"""
import argparse
import asyncio
import collections
import contextlib
import os
import random
import re
import resource
import socket
import struct
import sys
import time

sys.dont_write_bytecode = True
import tcp_programs
from proxy_over_tcp import hear_section
from small_redis import Session, small_redis
from tcp_programs import command, connect, hear, running

# The time in which some byte has to arrive while a client waits, in seconds.
PATIENCE = 10
LARGEST = 8 << 20
MOST_OF_A_PIPELINE = 24 << 20
# How much the clients do between two quiet seconds: a command counts 1, and so do 2,000 bytes of a value.
WORK = 10_000
ANY_HELLO = object()
NAMED = re.compile(rb"<client \d+ \d+>")


def ticks_of(process):
    """The processor time of a process so far."""
    with open(f"/proc/{process.pid}/stat", encoding="ascii") as file:
        fields = file.read().rpartition(")")[2].split()
    return int(fields[11]) + int(fields[12])


class Waits(Exception):
    """A client waits in vain, or the program keeps something."""


class Player:
    """A client that sends random pipelines, and knows the reply to each of its commands."""

    def __init__(self, number, game):
        self.number, self.game = number, game
        self.source = random.Random(f"{game.seed} {number}")
        self.stream, self.session = None, None
        # The replies that the client is owed, as texts; the first one is compared from this place on.
        self.owed, self.at = collections.deque(), 0
        self.hello = b""
        self.databases = [{} for _ in range(16)]
        # Whether it has closed in the middle of something, so that only a quiet second tells what has run.
        self.rests = False
        self.connections, self.values = 0, 0
        self.what, self.is_playing = "nothing", False

    # What it sends.

    def name(self):
        return b"<client %d %d>" % (self.number, self.connections)

    def key(self):
        return b"client %d key %d" % (self.number, self.source.randrange(4))

    def value(self, most):
        """A value that names the client, of 1 byte to 8 MiB, and mostly of few."""
        drawn = self.source.random()
        size = 300 if drawn < 0.8 else 20_000 if drawn < 0.97 else 300_000 if drawn < 0.998 else LARGEST
        size = 1 + int(self.source.random() * min(size, most))
        self.values += 1
        text = b"%s value %d " % (self.name(), self.values)
        return (text * (size // len(text) + 1))[:size]

    def simple(self, most):
        """A command that every program has."""
        kind = self.source.choice(("echo", "echo", "get", "get", "set", "set", "set", "del", "ping"))
        if kind == "echo":
            return [b"ECHO", self.value(most)]
        if kind == "set":
            return [b"SET", self.key(), self.value(most)]
        if kind == "ping":
            return [b"PING"]
        return [kind.encode().upper(), self.key()]

    def setting(self):
        """A command that moves a client of the proxy to another setting, or that the server rejects."""
        number = b"%d" % self.source.randrange(5)
        return self.source.choice((
            [b"SELECT", number], [b"SELECT", number], [b"SELECT", b"99"], [b"HELLO", b"3"], [b"HELLO", b"2"],
            [b"HELLO", b"3", b"AUTH", b"anna", b"secret"], [b"AUTH", b"anna", b"secret"], [b"AUTH", b"anna", b"wrong"],
            [b"RESET"]))

    def for_itself(self):
        """Commands that need a connection of the client's own."""
        key, channel = self.key(), self.name() + b" channel"
        return self.source.choice((
            [[b"MULTI"], [b"SET", key, self.value(1_000)], [b"GET", key], [b"EXEC"]],
            [[b"MULTI"], [b"SET", key, self.value(1_000)], [b"DISCARD"]],
            [[b"WATCH", key], [b"MULTI"], [b"GET", key], [b"EXEC"]],
            [[b"SUBSCRIBE", channel], [b"PING"], [b"UNSUBSCRIBE", channel]],
            [[b"BLPOP", self.name(), b"0.01"]]))

    def pipeline(self):
        """Returns the words of some commands."""
        length = self.source.choice((1, 1, 2, 5, 16, 16, 100, 500, 2_000))
        length = max(1, min(length, self.game.left // 4))
        most = min(LARGEST, MOST_OF_A_PIPELINE // length, max(1, self.game.left) * 2_000)
        found = [self.simple(most) for _ in range(length)]
        self.game.left -= length + sum(len(words[-1]) for words in found) // 2_000
        for share, draw in self.game.others(self):
            if self.source.random() < share:
                at = self.source.randrange(len(found) + 1)
                found[at:at] = draw()
        return found

    def text_of(self, words):
        """A command as an array, or as a line if it is short."""
        if self.game.has_lines and self.source.random() < 0.05 and len(words[-1]) < 100:
            return b" ".join(b"'%s'" % word for word in words) + b"\r\n"
        return command(*words)

    # What it is owed.

    def owe(self, words):
        reply = self.session.reply(words)
        if words[0] == b"HELLO" and not reply.startswith(b"-"):
            self.owed.append(ANY_HELLO)
        elif self.owed and self.owed[-1] is not ANY_HELLO and len(self.owed[-1]) < 1 << 16:
            self.owed[-1] += reply
        else:
            self.owed.append(bytearray(reply))

    def take(self, piece):
        """Compares some bytes with the replies that are owed."""
        while piece:
            if not self.owed:
                raise Waits(f"{self} gets {bytes(piece[:200])}, and is owed nothing")
            if self.owed[0] is ANY_HELLO:
                piece = self.take_hello(piece)
                continue
            wanted = memoryview(self.owed[0])[self.at : self.at + len(piece)]
            if wanted != piece[: len(wanted)]:
                self.differs(bytes(wanted), bytes(piece[: len(wanted)]))
            piece = piece[len(wanted) :]
            self.at += len(wanted)
            wanted.release()
            if self.at == len(self.owed[0]):
                self.owed.popleft()
                self.at = 0

    def take_hello(self, piece):
        """Takes the reply to HELLO, which ends with an empty array, and returns the bytes after it."""
        before = len(self.hello)
        self.hello += bytes(piece[:1_000])
        end = self.hello.find(b"*0\r\n")
        if not self.hello.startswith((b"%7\r\n"[: len(self.hello)], b"*14\r\n"[: len(self.hello)])) or end > 400:
            raise Waits(f"{self} gets {self.hello[:200]} to HELLO")
        if end < 0:
            return b""
        self.hello = b""
        self.owed.popleft()
        return piece[end + 4 - before :]

    def differs(self, wanted, got):
        at = next(at for at, (one, other) in enumerate(zip(wanted, got)) if one != other)
        others = [found for found in NAMED.findall(got) if found != self.name()]
        whose = f", which names {others[0]}" if others else ""
        raise Waits(f"{self} gets {got[max(0, at - 30) : at + 200]}{whose}, not {wanted[max(0, at - 30) : at + 200]}")

    def owed_now(self):
        """What it waits for."""
        if not self.owed:
            return "the end"
        text = "a reply to HELLO" if self.owed[0] is ANY_HELLO else bytes(self.owed[0][self.at : self.at + 60])
        return f"{text}, from {self.stream and self.stream.getsockname()[1]}"

    def __str__(self):
        return f"client {self.number} in connection {self.connections} ({self.what})"

    # How it sends and reads.

    async def act(self):
        """Sends a pipeline, and reads the replies."""
        if not self.stream:
            await self.begin()
        source = self.source
        words = self.pipeline()
        reads = source.choice(("at once", "at once", "at once", "slowly", "late"))
        end = source.choices(("goes on", "half", "dies", "leaves"), (20, 3, 2, 1))[0]
        self.game.counts[end] += 1
        text = b"".join(map(self.text_of, words))
        if end in ("half", "dies"):
            text += self.part(source.choice((0, 1, 10, 1_000, 60_000, 1_000_000)) if end == "half" else
                              source.choice((1, 10, 1_000, 40_000, 300_000, 3_000_000)))
        sends = source.choice((self.whole, self.whole, self.cut, self.one_by_one if len(text) < 400 else self.cut))
        self.what = f"{len(words)} commands, {sends.__name__}, reads {reads}, {end}"
        for found in words:
            self.owe(found)
        self.game.counts["commands"] += len(words)
        if end in ("dies", "leaves"):
            await self.leave(sends, text, end)
            return
        await asyncio.gather(self.send(sends, text, end == "half"), self.read(reads))
        if end == "half":
            await self.hear_end()
        self.what = f"done: {self.what}"

    async def begin(self):
        self.connections += 1
        self.stream = socket.socket()
        self.stream.setblocking(False)
        self.stream.setsockopt(socket.IPPROTO_TCP, socket.TCP_NODELAY, 1)
        await self.game.loop.sock_connect(self.stream, ("127.0.0.1", self.game.port))
        self.session = Session(self.databases, 0)

    def part(self, size):
        """The beginning of a command, of so many bytes."""
        return command(b"SET", self.key(), bytes(2 * size + 10))[:size]

    async def send(self, sends, text, is_half):
        await sends(memoryview(text))
        if is_half:
            self.stream.shutdown(socket.SHUT_WR)

    async def piece(self, piece):
        await self.game.loop.sock_sendall(self.stream, piece)
        self.game.moved()

    async def whole(self, text):
        for at in range(0, len(text), 1 << 18):
            await self.piece(text[at : at + (1 << 18)])

    async def cut(self, text):
        while text:
            length = self.source.choice((1, 5, 100, 3_000, 16_384, 100_000))
            if len(text) > 200_000:
                length = max(length, 3_000)
            await self.piece(text[:length])
            text = text[length:]
            if self.source.random() < 0.1:
                await asyncio.sleep(self.source.random() / 100)

    async def one_by_one(self, text):
        for at in range(len(text)):
            await self.piece(text[at : at + 1])
            await asyncio.sleep(0)

    async def read(self, reads):
        if reads == "late":
            await asyncio.sleep(self.source.random() * 0.4)
        count = 0
        while self.owed:
            size = self.source.choice((1, 100, 5_000, 40_000)) if reads == "slowly" and count < 200 else 1 << 18
            await self.hear_some(size)
            if reads == "slowly" and count < 200:
                await asyncio.sleep(0.002)
            count += 1

    async def hear_some(self, size):
        piece = await self.game.loop.sock_recv(self.stream, size)
        if not piece:
            raise Waits(f"{self} was closed before it had all replies")
        self.game.moved()
        self.game.counts["bytes"] += len(piece)
        self.take(memoryview(piece))

    async def hear_end(self):
        """Waits until the program closes the connection."""
        piece = await self.game.loop.sock_recv(self.stream, 1_000)
        if piece:
            raise Waits(f"{self} gets {piece[:200]} behind its last reply")
        self.close()

    async def leave(self, sends, text, end):
        """Closes in the middle of a command or of the replies."""
        sending = asyncio.ensure_future(self.send(sends, text, False))
        pause = self.source.choice((0, 0, 0.001, 0.01, 0.1))
        if end == "dies":
            # It reads meanwhile, since it could not send all otherwise.
            reading = asyncio.ensure_future(self.read("at once"))
            await asyncio.wait([sending, reading], return_when=asyncio.FIRST_EXCEPTION, timeout=1)
        else:
            await asyncio.sleep(pause)
            reading = sending
        for task in (sending, reading):
            task.cancel()
        wrong = await asyncio.gather(sending, reading, return_exceptions=True)
        for error in wrong:
            if isinstance(error, Waits):
                raise error
        if self.source.random() < 0.4:
            self.stream.setsockopt(socket.SOL_SOCKET, socket.SO_LINGER, struct.pack("ii", 1, 0))
        self.close()
        self.rests = True

    def close(self):
        if self.stream:
            self.stream.close()
        self.stream = None
        self.owed.clear()
        self.at, self.hello = 0, b""

    def forget(self):
        """Begins anew after all keys were removed."""
        for keys in self.databases:
            keys.clear()
        self.rests = False


class Game:
    """The program, its clients and what they have done."""

    def __init__(self, words):
        self.seed, self.kind, self.seconds = words.seed, words.what, words.seconds
        self.source = random.Random(f"{words.seed} game")
        source = self.source
        self.count = source.choice((5, 20, 60, 60, 150, 400))
        self.tests = source.random() < 0.5
        self.has_lines = self.kind != "serve" or self.tests
        self.counts = collections.Counter()
        self.options = getattr(self, "options_of_" + self.kind)(source)
        pieces = source.choice(([], [], ["--piece", "500"], ["--piece", "5000"]))
        self.server_options = ["--seed", str(self.seed), *pieces]
        self.program = self.server = self.loop = self.port = None
        self.last = time.monotonic()
        self.left = 0
        self.players = [Player(number, self) for number in range(self.count)]
        self.sizes = []

    def options_of_proxy(self, source):
        return ["--server-timeout", f"{PATIENCE}s", "--max-clients", "1000",
                "--server-buffer", source.choice(("1", "1K", "20K", "64K", "1M")),
                "--client-buffer", source.choice(("1", "1000", "64K", "1M")),
                "--pipeline", source.choice(("1", "10", "100", "1024")),
                "--max-shared", source.choice(("1", "2", "4", "16")),
                *source.choice(([], [], ["--check-every", "1"], ["--check-every", "50"]))]

    def options_of_tap(self, source):
        return ["--max-clients", "1000", *source.choice((["--stats"], ["--errors"], ["--shown", "32"]))]

    def options_of_serve(self, source):
        buffer = source.choice(("1", "1000", "64K", "1M"))
        return ["--max-clients", "1000", "--client-buffer", buffer, *(["--test-server"] * self.tests)]

    def others(self, player):
        """How often a pipeline has something else than simple commands, and what."""
        if self.kind == "serve":
            number = b"%d" % player.source.randrange(5)
            choice = [[b"SELECT", number]] if self.tests else [[b"HELLO", b"3"], [b"HELLO", b"2"]]
            return [(0.3, lambda: [player.source.choice(choice)])]
        return [(0.15, lambda: [player.setting()]), (0.5 if player.number % 5 == 0 else 0.02, player.for_itself)]

    def moved(self):
        self.last = time.monotonic()

    # Quiet seconds.

    def sockets(self):
        """The sockets of the program over TCP, each with its ports, its state and the bytes that wait in it."""
        folder = f"/proc/{self.program.process.pid}/fd"
        inodes = set()
        for name in os.listdir(folder):
            with contextlib.suppress(FileNotFoundError):
                inodes.update(re.findall(r"^socket:\[(\d+)\]$", os.readlink(f"{folder}/{name}")))
        found = {}
        with open("/proc/net/tcp", encoding="ascii") as file:
            for line in file.readlines()[1:]:
                fields = line.split()
                if fields[9] in inodes and fields[3] != "0A":
                    ports = [int(field.split(":")[1], 16) for field in fields[1:3]]
                    sent, received = (int(field, 16) for field in fields[4].split(":"))
                    found[fields[9]] = (*ports, int(fields[3], 16), sent, received)
        return list(found.values())

    def numbers(self):
        """What INFO proxy says, to a client that is closed afterwards."""
        with connect(self.port) as client:
            client.sendall(command(b"INFO", b"proxy"))
            text = hear_section(client)
        return {name.decode(): int(number) for name, number in re.findall(rb"(\w+):(\d+)\r\n", text)}

    def complain(self, what):
        """Raises an error with what the program has open and says."""
        busy = [f"{local}-{remote} state {state} sent {sent} received {received}"
                for local, remote, state, sent, received in self.sockets() if sent or received or state != 1]
        numbers = ""
        if self.kind == "proxy":
            with contextlib.suppress(OSError, AssertionError):
                found = self.numbers()
                numbers = {name: found[name] for name in found if not name.startswith(("cmd", "error", "reply"))}
        lines = [line[:200] for line in self.program.printed().split(b"\n")[-6:]] if self.kind == "proxy" else ""
        raise Waits(f"{what}\n  sockets with bytes or ends: {busy[:10]}\n  INFO proxy: {numbers}\n  lines: {lines}")

    def check(self, players):
        """Nobody sends anything for a second, and nobody waits."""
        self.be_quiet()
        end = time.monotonic() + 5
        # The table of sockets that the system shows changes while it is read, so it is read again.
        while fault := self.fault(players):
            if time.monotonic() > end:
                self.complain(fault)
            time.sleep(0.1)
        self.remember_size()

    def fault(self, players):
        """Returns what the program keeps or somebody waits for, or `None`."""
        count = sum(player.stream is not None for player in players)
        sockets = self.sockets()
        near = [one for one in sockets if one[0] == self.port]
        if len(near) != count:
            return f"the program has {len(near)} sockets of {count} clients"
        if any(sent or received for _, _, _, sent, received in sockets):
            return "bytes wait in sockets of the program"
        for player in players:
            if player.stream:
                with contextlib.suppress(BlockingIOError):
                    return f"{player} gets {player.stream.recv(200)} in a quiet second"
        return getattr(self, "fault_of_" + self.kind)(len(sockets) - len(near), count)

    def be_quiet(self):
        """Waits for a second in which the program and its server use no processor. Until then they may run the commands
        of clients that have gone."""
        end = time.monotonic() + 2 * PATIENCE
        while True:
            before = self.ticks()
            time.sleep(1)
            used = [now - then for now, then in zip(self.ticks(), before)]
            if max(used) <= 0.05 * os.sysconf("SC_CLK_TCK"):
                return
            if time.monotonic() > end:
                self.complain(f"the program and its server use {used} ticks in a second, and nobody sends anything")

    def ticks(self):
        """The processor time of the program, and of its server if it has one."""
        return [ticks_of(ran.process) for ran in (self.program, self.server) if ran]

    def fault_of_proxy(self, far, count):
        numbers = self.numbers()
        wanted = {"clients": count + 1, "commands_waiting": 0, "bytes_unsent": 0, "clients_rejected": 0,
                  "clients_unread": 0, "commands_failed": 0}
        wrong = {name: numbers[name] for name in wanted if numbers[name] != wanted[name]}
        if wrong:
            return f"INFO proxy says {wrong}, with {count} clients beside the one that asks"
        if not 1 <= far - numbers["clients_own"] <= self.most_shared():
            return f"{far} sockets to the server, and {numbers['clients_own']} clients with their own"
        return None

    def fault_of_tap(self, far, count):
        return None if far == count else f"tap has {far} sockets to the server, and {count} clients"

    def fault_of_serve(self, far, _):
        return f"serve has {far} sockets that are not those of its clients" if far else None

    def most_shared(self):
        """The most connections to the server that clients of the proxy share."""
        return int(self.options[self.options.index("--max-shared") + 1]) if self.kind == "proxy" else 0

    def remember_size(self):
        """Notes the memory of the program."""
        with open(f"/proc/{self.program.process.pid}/status", encoding="ascii") as file:
            self.sizes.append(1024 * int(re.search(r"VmRSS:\s*(\d+) kB", file.read())[1]))

    def forget(self, players):
        """Removes all keys, and lets the clients begin anew."""
        if self.kind == "serve" and not self.tests:
            keys = [b"client %d key %d" % (player.number, number) for player in players for number in range(4)]
            with connect(self.port) as client:
                client.sendall(command(b"DEL", *keys))
                assert client.recv(100).startswith(b":")
        else:
            with connect(self.server.port if self.server else self.port) as client:
                client.sendall(command(b"FLUSHALL"))
                hear(client, b"+OK\r\n")
        for player in players:
            player.forget()

    # Rounds.

    async def watch(self, tasks):
        """Fails if no byte arrives for too long."""
        self.moved()
        while True:
            done, _ = await asyncio.wait(tasks, timeout=0.5, return_when=asyncio.FIRST_EXCEPTION)
            for task in done:
                if task.exception():
                    raise task.exception()
            if len(done) == len(tasks):
                return
            if time.monotonic() - self.last > PATIENCE + 1:
                waiting = [player for player in self.players if player.is_playing]
                names = "\n  ".join(f"{player} for {player.owed_now()}" for player in waiting[:5])
                self.complain(f"{len(waiting)} clients wait in vain:\n  {names}")

    async def round(self, players, seconds):
        """Lets the clients play for some time and finish, and checks that nobody waits."""
        self.loop = asyncio.get_running_loop()
        until = time.monotonic() + seconds
        self.left = WORK

        async def play(player):
            while self.left > 0 and time.monotonic() < until and not player.rests:
                player.is_playing = True
                await player.act()
                player.is_playing = False
                if player.source.random() < 0.2:
                    await asyncio.sleep(player.source.random() * 0.2)

        tasks = [asyncio.ensure_future(play(player)) for player in self.source.sample(players, len(players))]
        try:
            await self.watch(tasks)
        finally:
            for task in tasks:
                task.cancel()
            await asyncio.gather(*tasks, return_exceptions=True)

    def rounds(self):
        """Plays until the time is over, closes all clients and checks once more."""
        begun = time.monotonic()
        first = self.program.descriptors()
        players = self.players
        try:
            while self.counts["rounds"] == 0 or time.monotonic() - begun < self.seconds:
                self.counts["rounds"] += 1
                asyncio.run(self.round(players, self.source.choice((0.3, 1, 1, 2))))
                self.check(players)
                self.forget(players)
                for player in players:
                    if player.source.random() < 0.2:
                        player.close()
        finally:
            for player in players:
                player.close()
        self.check(players)
        left = self.program.descriptors() - first
        if left > self.most_shared():
            self.complain(f"{left} descriptors are left")
        self.judge_sizes()

    def judge_sizes(self):
        """The memory is not much more than it was in the middle."""
        middle = max(self.sizes[: len(self.sizes) // 2 + 1])
        if self.sizes[-1] > middle + (64 << 20):
            self.complain(f"{self.sizes[-1]} bytes of memory, and {middle} in the middle")

    def play(self):
        with contextlib.ExitStack() as stack:
            words = [self.kind, "127.0.0.1:0", *self.options]
            if self.kind != "serve":
                self.server = stack.enter_context(small_redis(*self.server_options))
                words.insert(2, self.server.address)
            self.program = stack.enter_context(running(*words, descriptors=4_096))
            self.port = self.program.port
            if self.kind == "proxy":
                tcp_programs.until(lambda: b"\nserver connected\n" in self.program.printed(), "it does not connect")
            self.rounds()


def main():
    parser = argparse.ArgumentParser()
    parser.add_argument("--program", default=tcp_programs.PROGRAM)
    parser.add_argument("--what", choices=("proxy", "tap", "serve"), default="proxy")
    parser.add_argument("--seconds", type=float, default=10)
    parser.add_argument("--seed", type=int, default=int.from_bytes(os.urandom(3), "big"))
    words = parser.parse_args()
    tcp_programs.PROGRAM = os.path.abspath(words.program)
    resource.setrlimit(resource.RLIMIT_NOFILE, (4_096, 4_096))
    game = Game(words)
    shown = f"{words.what} random: seed {words.seed}, {game.count} clients, {' '.join(game.options)}"
    try:
        game.play()
    except (Waits, AssertionError, OSError) as error:
        print(f"{shown}, server {' '.join(game.server_options)}\n  {type(error).__name__}: {str(error)[:3000]}")
        return 1
    print(f"{shown}: passed, " + ", ".join(f"{number} {name}" for name, number in game.counts.items()) +
          f", memory {[size >> 20 for size in game.sizes]}")
    return 0


if __name__ == "__main__":
    sys.exit(main())
