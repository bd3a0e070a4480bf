#!/usr/bin/env python3
"""aioredis 1.3 (python3-aioredis): its parser in Python.
needs: /usr/lib/python3/dist-packages/aioredis
run: /usr/bin/python3 {FILE}
"""
import fed
from aioredis.errors import ProtocolError, ReplyError
from aioredis.parser import PyReader


def told(value):
    if value is None:
        return ["null"]
    if isinstance(value, ReplyError):
        return ["error", value.args[0].encode("utf-8").decode("latin-1")]
    if isinstance(value, list):
        return ["array", [told(item) for item in value]]
    return ["integer", str(value)] if isinstance(value, int) else ["bulk", fed.text(value)]


def judged(version, pieces, values):
    reader = PyReader(encoding="latin-1")
    try:
        for piece in pieces:
            reader.feed(piece or b"")
            while (value := reader.gets()) is not False:
                values.append(told(value))
    except (ProtocolError, ValueError, TypeError):
        return "error"
    return "more"


fed.run({"parser": "aioredis 1.3.1", "profiles": ["resp2"], "same": [["null", "nullbulk", "nullarray"], ["bulk", "simple"]]}, judged)
