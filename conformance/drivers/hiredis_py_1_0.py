#!/usr/bin/env python3
"""hiredis-py 1.0 (python3-hiredis).
needs: /usr/lib/python3/dist-packages/hiredis
run: /usr/bin/python3 {FILE}
"""
import fed
import hiredis


class Failure(Exception):
    pass


def told(value):
    if value is None:
        return ["null"]
    if isinstance(value, Failure):
        return ["error", value.args[0]]
    if isinstance(value, list):
        return ["array", [told(item) for item in value]]
    return ["integer", str(value)] if isinstance(value, int) else ["bulk", fed.text(value)]


def judged(version, pieces, values):
    reader = hiredis.Reader(protocolError=ValueError, replyError=Failure, encoding="latin-1")
    try:
        for piece in pieces:
            reader.feed(piece or b"")
            while (value := reader.gets()) is not False:
                values.append(told(value))
    except ValueError:
        return "error"
    return "more"


fed.run({"parser": "hiredis-py 1.0.1", "profiles": ["resp2"], "same": [["null", "nullbulk", "nullarray"], ["bulk", "simple"]]}, judged)
