#!/usr/bin/env python3
"""This project's package for Python.
ours
needs: {PYTHON}/resp
run: env PYTHONPATH={PYTHON} /usr/bin/python3 {FILE}
"""
import sys

import fed
import resp

NOTHING = object()
# To print big numbers.
sys.set_int_max_str_digits(0)


class Failure(Exception):
    pass


def told(value):
    if value is None or isinstance(value, bool):
        return ["null"] if value is None else ["boolean", value]
    if isinstance(value, Failure):
        return ["error", value.args[0].encode("utf-8").decode("latin-1")]
    if isinstance(value, (int, float)):
        return ["integer", str(value)] if isinstance(value, int) else ["double", repr(value)]
    if isinstance(value, resp.Pairs):
        return ["map", [[told(key), told(item)] for key, item in value]]
    if isinstance(value, dict):
        return ["map", [[told_key(key), told(item)] for key, item in value.items()]]
    if isinstance(value, (list, tuple)):
        return ["push" if isinstance(value, resp.Push) else "array", [told(item) for item in value]]
    return ["bulk", value]


def told_key(key):
    """A map that is a key is the tuple of its pairs."""
    if isinstance(key, tuple) and key and all(isinstance(pair, tuple) and len(pair) == 2 for pair in key):
        return ["map", [[told_key(name), told_key(item)] for name, item in key]]
    return told(key)


def judged(version, pieces, values):
    reader = resp.Reader(protocol=version, encoding="latin-1", replyError=Failure, notEnoughData=NOTHING, convertSetsToLists=True)
    try:
        for piece in pieces:
            reader.feed(piece or b"")
            while (value := reader.gets()) is not NOTHING:
                values.append(told(value))
    except resp.ProtocolError:
        return "error"
    return "more"


fed.run({"parser": "resp, Python", "profiles": ["resp2", "resp3", "streamed"], "drops": ["attribute", "format"], "errors": "utf-8",
         "same": [["null", "nullbulk", "nullarray"], ["bulk", "simple", "verbatim"], ["integer", "big"], ["error", "bulkerror"],
                  ["array", "set", "map"]]}, judged)
