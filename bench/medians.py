#!/usr/bin/env python3
"""Runs a command several times and prints its output once: medians.py RUNS COMMAND..

A number that is not the same in all runs is printed as its median, and then its range as `(LEAST to MOST)`."""
import re
import statistics
import subprocess
import sys

NUMBER = re.compile(r"(?<![\w.])(\d+(?:,\d{3})*(?:\.\d+)?)(?!\w)")


def value_of(text):
    return float(text.replace(",", ""))


def median_of(texts):
    """Returns the text of numbers that are written alike: the one text, or the median and the range."""
    if len(set(texts)) == 1:
        return texts[0]
    decimals = len(texts[0].partition(".")[2])
    values = sorted(map(value_of, texts))
    median, least, most = (f"{it:,.{decimals}f}" for it in (statistics.median(values), values[0], values[-1]))
    return f"{median} ({least} to {most})"


def joined(outputs):
    """Returns one output for those of several runs, which may differ in their numbers and spaces only."""
    runs = [NUMBER.split(re.sub(r"[ \t]+", " ", output)) for output in outputs]
    if len({tuple(run[::2]) for run in runs}) > 1:
        sys.exit("bench: the runs print different texts:\n" + "\n".join(outputs))
    columns = [*zip(*runs)]
    return "".join(median_of(it) if number % 2 else it[0] for number, it in enumerate(columns))


def main(words):
    run = lambda: subprocess.run(words[1:], check=True, stdout=subprocess.PIPE, text=True).stdout
    print(joined([run() for _ in range(int(words[0]))]), end="")


if __name__ == "__main__":
    main(sys.argv[1:])
