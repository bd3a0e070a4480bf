#!/usr/bin/env python3
"""redis-py 4.3 (python3-redis): its parser in Python.
needs: /usr/lib/python3/dist-packages/redis
run: /usr/bin/python3 {FILE}
"""
import fed
from redis.connection import SERVER_CLOSED_CONNECTION_ERROR, BaseParser, Encoder, PythonParser
from redis.exceptions import InvalidResponse, RedisError


class Connection:
    encoder = Encoder("latin-1", "strict", True)
    socket_timeout = None


def told(value):
    if value is None:
        return ["null"]
    if isinstance(value, RedisError):
        return ["error", fed.text(str(value))]
    if isinstance(value, list):
        return ["array", [told(item) for item in value]]
    return ["integer", str(value)] if isinstance(value, int) else ["bulk", fed.text(value)]


def judged(version, pieces, values):
    connection, parser = Connection(), PythonParser(65536)
    connection._sock = fed.Pieces(pieces)
    parser.on_connect(connection)
    while True:
        try:
            values.append(told(parser.read_response()))
        except fed.Dry:
            return "more"
        except RedisError as error:
            if isinstance(error, InvalidResponse):
                return "error"
            if str(error) == SERVER_CLOSED_CONNECTION_ERROR:
                return "more"
            values.append(told(error))
        except (OSError, ValueError, TypeError):
            return "error"


fed.run({"parser": "redis-py 4.3.4", "profiles": ["resp2"], "error_words": list(BaseParser.EXCEPTION_CLASSES),
         "same": [["null", "nullbulk", "nullarray"], ["bulk", "simple"]]}, judged)
