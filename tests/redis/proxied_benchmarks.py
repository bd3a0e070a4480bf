#!/usr/bin/env python3
"""Tests that each run of redis-benchmark through `resp proxy` ends, with redis-server behind the proxy:
proxied_benchmarks.py RESP [--all] [--times N]

Without --all some runs are made, in less than 20 seconds. With it there are runs with 1, 50, 500, 1,000 and 5,000
clients, pipelines of 1, 16 and 100 commands, and values of 16 bytes to 1 MiB, each by SET and by GET. Those are left
out whose pipelines do not fit into 200 MB together. A run hangs if the proxy and redis-benchmark use no processor for
10 seconds. After each run no client is left, no command waits, and no byte.
"""
import argparse
import contextlib
import itertools
import os
import re
import resource
import socket
import subprocess
import sys
import tempfile
import time

CLIENTS, PIPELINES, SIZES = (1, 50, 500, 1_000, 5_000), (1, 16, 100), (16, 1_024, 65_536, 1 << 20)
SOME = ((1, 1, 16), (1, 16, 1 << 20), (50, 1, 65_536), (50, 16, 1_024), (500, 16, 1_024), (500, 100, 16),
        (1_000, 16, 1_024))
# The most bytes of the pipelines of all clients, and the most bytes and commands of a run.
MOST, MOST_OF_A_RUN, MOST_COMMANDS = 200_000_000, {True: 256_000_000, False: 40_000_000}, {True: 200_000, False: 30_000}
SILENCE = 10


def ticks(process):
    """The processor time of a process so far, or `None` after its end."""
    with contextlib.suppress(OSError):
        with open(f"/proc/{process.pid}/stat", encoding="ascii") as file:
            fields = file.read().rpartition(")")[2].split()
        return int(fields[11]) + int(fields[12])
    return None


class Servers:
    """redis-server, and the proxy in front of it."""

    def __init__(self, stack, resp, clients):
        work = stack.enter_context(tempfile.TemporaryDirectory())
        with socket.create_server(("127.0.0.1", 0)) as free:
            port = free.getsockname()[1]
        words = ["redis-server", "--bind", "127.0.0.1", "--port", str(port), "--save", "", "--appendonly", "no"]
        self.redis = self.start(stack, words, work)
        words = [resp, "proxy", "127.0.0.1:0", f"127.0.0.1:{port}", "--max-clients",
                 str(clients + 10), "--max-dedicated", "4"]
        self.proxy = self.start(stack, words, work)
        self.port = int(self.proxy.stdout.readline().rpartition(b":")[2])

    def start(self, stack, words, work):
        process = subprocess.Popen(words, cwd=work, stdin=subprocess.DEVNULL, stdout=subprocess.PIPE,
                                   stderr=subprocess.DEVNULL)
        stack.callback(process.wait)
        stack.callback(process.kill)
        if words[0] == "redis-server":
            while b"Ready to accept connections" not in process.stdout.readline():
                assert process.poll() is None, "redis-server has ended"
        return process

    def numbers(self):
        """What INFO proxy says."""
        with socket.create_connection(("127.0.0.1", self.port), timeout=SILENCE) as client:
            client.sendall(b"INFO proxy\r\nQUIT\r\n")
            text = b""
            while piece := client.recv(65_536):
                text += piece
        return {name.decode(): int(number) for name, number in re.findall(rb"(\w+):(\d+)\r\n", text)}

    def is_quiet(self):
        """Asserts that nothing is left of the clients of a run."""
        wanted = {"clients": 1, "commands_waiting": 0, "bytes_unsent": 0, "commands_failed": 0}
        end = time.monotonic() + SILENCE
        while True:
            numbers = self.numbers()
            wrong = {name: numbers[name] for name in wanted if numbers[name] != wanted[name]}
            if not wrong:
                return
            assert time.monotonic() < end, f"INFO proxy says {wrong} after the end of redis-benchmark"
            time.sleep(0.1)

    def run(self, clients, pipeline, size, count):
        """Runs redis-benchmark by SET and GET, and returns the seconds that it took."""
        words = ["redis-benchmark", "-p", str(self.port), "-r", "1000", "-q", "-t", "set,get", "-c", str(clients), "-P",
                 str(pipeline), "-d", str(size), "-n", str(count)]
        begun = last = time.monotonic()
        used = None
        with subprocess.Popen(words, stdin=subprocess.DEVNULL, stdout=subprocess.PIPE, stderr=subprocess.STDOUT) as ran:
            try:
                while True:
                    with contextlib.suppress(subprocess.TimeoutExpired):
                        said = ran.communicate(timeout=0.5)[0]
                        break
                    now = ticks(self.proxy), ticks(ran)
                    if now != used:
                        used, last = now, time.monotonic()
                    assert time.monotonic() < last + SILENCE, f"it hangs, and INFO proxy says {self.shown()}"
            finally:
                ran.kill()
        assert ran.returncode == 0, f"status {ran.returncode}: {said[-300:]}"
        return time.monotonic() - begun

    def shown(self):
        """The numbers that tell where commands wait."""
        found = self.numbers()
        return {name: found[name] for name in found if not name.startswith(("cmd", "error", "reply"))}


def count_of(clients, pipeline, size, is_all):
    """How many commands a run sends: some pipelines of each client, if there are not too many bytes. After a pipeline
    that is cut off, redis-benchmark may end with an error although all replies came."""
    most = min(MOST_COMMANDS[is_all], MOST_OF_A_RUN[is_all] // size)
    count = min(max(5_000, 5 * clients * pipeline), most)
    return max(pipeline, count - count % pipeline)


def main():
    parser = argparse.ArgumentParser()
    parser.add_argument("resp")
    parser.add_argument("--all", action="store_true")
    parser.add_argument("--times", type=int, default=1)
    words = parser.parse_args()
    resource.setrlimit(resource.RLIMIT_NOFILE, (min(12_000, resource.getrlimit(resource.RLIMIT_NOFILE)[1]),) * 2)
    runs = list(itertools.product(CLIENTS, PIPELINES, SIZES)) if words.all else SOME
    failed = passed = 0
    for clients, pipeline, size in runs:
        shown = f"{clients} clients, pipelines of {pipeline}, values of {size} bytes"
        if clients * pipeline * size > MOST:
            print(f"left out: {shown}")
            continue
        for _ in range(words.times):
            try:
                # Each run has its own servers, since a client that hangs would be left to the next one.
                with contextlib.ExitStack() as stack:
                    servers = Servers(stack, os.path.realpath(words.resp), clients)
                    count = count_of(clients, pipeline, size, words.all)
                    took = servers.run(clients, pipeline, size, count)
                    servers.is_quiet()
                passed += 1
                if words.all or took > 5:
                    print(f"{shown}: {count} commands took {took:.1f} s", flush=True)
            except (AssertionError, OSError) as error:
                failed += 1
                print(f"{shown}: {error}", flush=True)
    print(f"benchmarks through the proxy: {passed} passed, {failed} failed")
    return 1 if failed else 0


sys.exit(main())
