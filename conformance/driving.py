"""Runs drivers: isolates a crash, a hang and a case that takes much memory, and collects the verdicts."""
import glob
import json
import os
import resource
import selectors
import shutil
import subprocess
import sys
import tempfile
import time

import suite

# A driver that says nothing for so many seconds hangs.
PATIENCE = 10
# A process may take so many bytes more than for the bytes `+OK\r\n`, and so many for each byte of its input.
MEMORY = 64 << 20
MEMORY_A_BYTE = 300
# No process gets more memory of its own than this. Addresses that a runtime only reserves do not count.
MOST_MEMORY = 4 << 30
# So many lines are with a driver at once.
AT_ONCE = 400


def output(command, text=b""):
    return subprocess.run(command, input=text, stdout=subprocess.PIPE, check=True).stdout.decode()


class Results:
    """The verdicts on one driver: for each case the worst, and how it came about."""

    def __init__(self, about, cases):
        self.about = about
        self.cases = cases
        self.worst = {}
        self.places = {}

    def note(self, case, feed, got, word=None):
        word = word or suite.verdict(case, feed, got, self.about)
        before = self.worst.get(case["id"])
        if before is None or suite.WORST_FIRST.index(word) < suite.WORST_FIRST.index(before[0]):
            self.worst[case["id"]] = (word, feed[0], got)
        if self.about.get("reports_at") and case["must"] == "reject" and got.get("end") == "error" and word == "right":
            if feed[0] != "end" and got.get("at") not in case["at"]:
                self.places[case["id"]] = f"{case['id']} ({feed[0]}): rejected at {got.get('at')} and not at {case['at']}: {case['bytes'][:80]}"

    def failures(self, known=()):
        """Returns the cases that failed, each as a sentence, without those whose id begins as one of `known`."""
        found = []
        for case in self.cases:
            word, feed, got = self.worst.get(case["id"], ("outside", "", {}))
            if word not in ("right", "outside") and not case["id"].startswith(tuple(known)):
                said = {key: got[key] for key in ("values", "end", "at") if key in got}
                found.append(f"{case['id']} ({feed}): {suite.VERDICTS[word]}: {case['bytes'][:100]}\n"
                             f"    must {case['must']} {json.dumps(case['values'])[:200]}\n    got {json.dumps(said)[:300]}\n"
                             f"    {case['section']}: {case['rule']}")
        return found + list(self.places.values())

    def counts(self):
        words = [word for word, _, _ in self.worst.values()]
        return ", ".join(f"{words.count(word)} {word}" for word in reversed(suite.WORST_FIRST) if words.count(word))

    def row(self, name):
        return {"parser": self.about.get("parser", name), "name": name, "cells": {key: word for key, (word, _, _) in self.worst.items()}}


def judge(command, cases, until_first=False):
    """Judges a driver by these cases, or until the first that fails."""
    about = json.loads(output([*command, "--about"]))
    results = Results(about, cases)
    for case in cases:
        if case["profile"] not in about["profiles"]:
            results.worst[case["id"]] = ("outside", "", {})
    inside = [case for case in cases if case["profile"] in about["profiles"]]
    together = [(case, feed) for case in inside if "memory" not in case["flags"] for feed in suite.feeds_of(case, about.get("feeds"))]
    apart = [case for case in inside if "memory" in case["flags"]]
    # Most errors show in a case that comes whole.
    ways = [judged_together(command, [it for it in together if it[1][0] == "whole"]), judged_apart(command, apart),
            judged_together(command, [it for it in together if it[1][0] != "whole"])]
    for case, feed, got, word in (it for way in ways for it in way):
        results.note(case, feed, got, word)
        if until_first and results.worst[case["id"]][0] != "right":
            break
    return results


def judged_together(command, asked):
    """Yields each case and way of feeding with what the driver said, in as few processes as it lives through."""
    for case, feed, got in told(command, asked):
        yield case, feed, got or {"end": "crash"}, word_of(case, got)


def word_of(case, got):
    """Returns the verdict on a driver that died, or that said nothing: a parser that blocks waits for more bytes. None if it
    said something."""
    if got is None:
        return "crash"
    if got["end"] == "hang":
        return {"accept": "silent", "reject": "waits", "may": "waits"}.get(case["must"], "right")
    return None


def judged_apart(command, cases):
    """Yields the same for cases that need a process of their own, whose memory is measured."""
    if not cases:
        return
    base = alone(command, {"version": 2, "hex": b"+OK\r\n".hex(), "must": "accept", "flags": []})[1]
    for case in cases:
        got, most = alone(command, case)
        is_large = most > base + MEMORY + MEMORY_A_BYTE * len(suite.bytes_of(case))
        yield case, ("alone", [], False, False), got or {"end": "crash"}, "crash" if is_large else word_of(case, got)


def alone(command, case):
    """Runs a driver for one case. Returns its answer, or None if it died, and the most memory that it had."""
    line = suite.line_of(0, case, ("whole", [suite.bytes_of(case)], False, False)).encode()
    with tempfile.TemporaryFile() as said, tempfile.TemporaryFile() as asked:
        asked.write(line)
        asked.seek(0)
        process = subprocess.Popen(command, stdin=asked, stdout=said, stderr=subprocess.DEVNULL, preexec_fn=limit)
        until = time.monotonic() + PATIENCE
        while True:
            pid, status, usage = os.wait4(process.pid, os.WNOHANG)
            if pid:
                break
            if time.monotonic() > until:
                process.kill()
                os.wait4(process.pid, 0)
                process.returncode = 1
                return {"end": "hang"}, 0
            time.sleep(0.002)
        process.returncode = status
        said.seek(0)
        try:
            return json.loads(said.readline()), usage.ru_maxrss << 10
        except ValueError:
            return None, usage.ru_maxrss << 10


def limit():
    resource.setrlimit(resource.RLIMIT_DATA, (MOST_MEMORY, MOST_MEMORY))
    resource.setrlimit(resource.RLIMIT_CORE, (0, 0))


def told(command, asked):
    """Yields each case and way of feeding with the answer of the driver, or None if it died there."""
    begin = 0
    while begin < len(asked):
        done, is_hanging = begin, False
        for got in answers(command, asked[begin:]):
            case, feed = asked[done]
            done += 1
            is_hanging = got["end"] == "hang"
            yield case, feed, got
        if done < len(asked) and not is_hanging:
            case, feed = asked[done]
            done += 1
            yield case, feed, None
        begin = done


def answers(command, asked):
    """Yields the answers of one process of a driver, until it dies or hangs."""
    lines = [suite.line_of(number, case, feed).encode() for number, (case, feed) in enumerate(asked)]
    process = subprocess.Popen(command, stdin=subprocess.PIPE, stdout=subprocess.PIPE, stderr=subprocess.DEVNULL, preexec_fn=limit)
    os.set_blocking(process.stdin.fileno(), False)
    os.set_blocking(process.stdout.fileno(), False)
    waiting, rest, sent, heard = b"", b"", 0, 0
    with selectors.DefaultSelector() as ready:
        ready.register(process.stdout, selectors.EVENT_READ)
        ready.register(process.stdin, selectors.EVENT_WRITE)
        try:
            while heard < len(asked):
                while not waiting and sent < len(lines) and sent - heard < AT_ONCE:
                    waiting, sent = waiting + lines[sent], sent + 1
                writes = ready.get_map().get(process.stdin.fileno())
                if waiting and not writes:
                    ready.register(process.stdin, selectors.EVENT_WRITE)
                elif not waiting and writes:
                    ready.unregister(process.stdin)
                events = ready.select(PATIENCE)
                if not events:
                    yield {"end": "hang"}
                    return
                for key, _ in events:
                    if key.fileobj is process.stdin:
                        waiting = waiting[os.write(process.stdin.fileno(), waiting[:65536]):]
                        continue
                    piece = os.read(process.stdout.fileno(), 1 << 20)
                    if not piece:
                        return
                    *whole, rest = (rest + piece).split(b"\n")
                    for line in whole:
                        got = json.loads(line)
                        if got["id"] != str(heard):
                            return
                        heard += 1
                        yield got
        except (BrokenPipeError, ValueError):
            return
        finally:
            process.kill()
            process.wait()


class Driver:
    """A driver of drivers/: how it is made, and what it needs."""

    def __init__(self, path):
        self.path = path
        self.name = os.path.basename(path).rsplit(".", 1)[0]
        with open(path, encoding="utf-8") as file:
            head = [line for line in file if line.lstrip("/*#%-; ").startswith(("needs:", "make:", "run:", "known:", "ours"))]
        told = dict(line.lstrip("/*#%-; ").rstrip().rstrip("*/ ").split(":", 1) for line in head if ":" in line)
        self.needs = told.get("needs", "").split()
        self.make = [line.split(":", 1)[1].rstrip("*/ \n").split() for line in head if line.lstrip("/*#%-; ").startswith("make:")]
        self.run = told.get("run", "").split()
        self.known = told.get("known", "").split()
        self.is_ours = any(line.lstrip("/*#%-; ").startswith("ours") for line in head)

    def made(self):
        """Returns the command of the driver, or what is missing."""
        room = os.path.join(suite.HERE, "out")
        os.makedirs(room, exist_ok=True)
        top = os.path.dirname(suite.HERE)
        places = {"FILE": self.path, "OUT": os.path.join(room, self.name), "TOP": top,
                  "C": os.environ.get("RESP_PREFIX", f"{top}/out/c"), "PYTHON": os.environ.get("RESP_PYTHON", f"{top}/out/python"),
                  "NODE": os.environ.get("RESP_NODE", f"{top}/out/node")}
        fill = lambda words: [word.format(**places) for word in words]
        for need in fill(self.needs):
            if not (shutil.which(need) or glob.glob(need)):
                return [], f"{need} is not installed"
        for command in self.make:
            run = subprocess.run(fill(command), stdout=subprocess.PIPE, stderr=subprocess.STDOUT, cwd=suite.HERE)
            if run.returncode:
                return [], "it can't be built: " + run.stdout.decode(errors="replace").strip()[:300]
        return fill(self.run), ""


def drivers():
    found = [Driver(path) for path in sorted(glob.glob(os.path.join(suite.HERE, "drivers", "*.*")))]
    return [driver for driver in found if driver.run]
