#!/usr/bin/env python3
"""The crates of crates.txt, for the scripts.

    crates.py below CRATE..    the crates that these depend on, the lowest first, and these
    crates.py above CRATE..    these crates and those that depend on them, in the order of the file
    crates.py tried            the crates that the gate runs without a proof
    crates.py lanes BYTES      how many jobs that need so much memory may run at once
"""
import os
import re
import sys

FILE = f"{os.path.dirname(os.path.realpath(__file__))}/crates.txt"


def crates_of(text):
    """Returns the crates of the text of crates.txt, each with the crates of that text that it depends on."""
    lines = (line.partition("#")[0].partition(":") for line in text.splitlines())
    named = {head.split()[0]: rest.split() for head, colon, rest in lines if colon}
    return {name: [it for it in below if it in named] for name, below in named.items()}


def read():
    with open(FILE, encoding="utf-8") as file:
        return file.read()


def below(crates, name):
    """Returns the crates that a crate depends on, the lowest first."""
    found = []
    for it in crates[name]:
        found += [under for under in [*below(crates, it), it] if under not in found]
    return found


def above(crates, names):
    """Returns these crates and those that depend on them."""
    found = {*names}
    while more := {it for it, needed in crates.items() if found & {*needed}} - found:
        found |= more
    return [it for it in crates if it in found]


def tried(text):
    """Returns the crates after the line `# Tried`."""
    return [*crates_of(text.partition("\n# Tried:")[2])]


def lanes(need):
    """Returns how many jobs may run at once: at most one for each processor, and as many as fit into free memory."""
    with open("/proc/meminfo", encoding="ascii") as file:
        free = 1024 * int(re.search(r"MemAvailable:\s+(\d+)", file.read())[1])
    return max(1, min(len(os.sched_getaffinity(0)), free // need))


def main(words):
    if len(words) == 2 and words[0] == "lanes":
        return [str(lanes(int(words[1])))]
    text = read()
    crates = crates_of(text)
    if words == ["tried"]:
        return tried(text)
    unknown = [it for it in words[1:] if it not in crates]
    if unknown:
        sys.exit(f"{os.path.basename(sys.argv[0])}: no crate is named {' '.join(unknown)}")
    if words[:1] == ["above"]:
        return above(crates, words[1:])
    if words[:1] == ["below"]:
        return [*dict.fromkeys(it for name in words[1:] for it in [*below(crates, name), name])]
    sys.exit(__doc__)


if __name__ == "__main__":
    print("\n".join(main(sys.argv[1:])))
