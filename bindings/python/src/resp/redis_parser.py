"""Parsers for redis-py that read with this package, in both protocols:

    server = redis.Redis.from_url("redis://localhost:6379/0", parser_class=resp.redis_parser.Parser)

    server = redis.asyncio.Redis.from_url("redis://localhost:6379/0", parser_class=resp.redis_parser.AsyncParser)
"""
import asyncio
import socket
import ssl

from redis.exceptions import ConnectionError, InvalidResponse, TimeoutError

import resp

try:
    # redis-py 5 and later.
    from redis._parsers.base import BaseParser
except ImportError:
    from redis.connection import BaseParser

__all__ = ["AsyncParser", "Parser"]
CLOSED = "Connection closed by server."
# No reply is complete.
NOTHING = object()
# The timeout of a socket doesn't change.
UNCHANGED = object()


def invalidates(push):
    """Returns whether a push is one of client side caching."""
    return bool(push) and push[0] in (b"invalidate", "invalidate")


class _Replies:
    """The replies of one connection, and the functions that get its pushes."""

    _reader = None
    _next = NOTHING
    _on_publication = _on_invalidation = None

    def _begin(self, encoder):
        """Starts to read replies, whose texts are decoded as the connection's encoder says."""
        encoding = encoder.encoding if encoder.decode_responses else None
        errors = encoder.encoding_errors if encoding else None
        self._reader = resp.Reader(
            protocolError=InvalidResponse,
            replyError=BaseParser().parse_error,
            encoding=encoding,
            errors=errors,
            notEnoughData=NOTHING,
            protocol=3,
        )
        self._next = NOTHING

    def _end(self):
        self._reader = None
        self._next = NOTHING

    def _check(self):
        if self._reader is None:
            raise ConnectionError(CLOSED)

    def _has_reply(self):
        """Returns whether a reply has been received whole."""
        self._check()
        if self._next is NOTHING:
            self._next = self._reader.gets()
        return self._next is not NOTHING

    def _reply(self, decodes):
        """Returns the next reply, or NOTHING."""
        self._check()
        if self._next is NOTHING:
            return self._reader.gets(decodes)
        reply, self._next = self._next, NOTHING
        return reply

    def _received(self, piece):
        if not piece:
            raise ConnectionError(CLOSED)
        self._reader.feed(piece)

    def set_pubsub_push_handler(self, handler):
        """Sets the function that gets each push that is not an invalidation."""
        self._on_publication = handler

    def set_invalidation_push_handler(self, handler):
        """Sets the function that gets the pushes of client side caching."""
        self._on_invalidation = handler

    def _handler(self, push):
        return self._on_invalidation if invalidates(push) else self._on_publication

    @staticmethod
    def _raised(reply):
        """Returns a reply. Raises it if it is an error of the connection."""
        first = reply[0] if isinstance(reply, list) and reply else reply
        if isinstance(first, ConnectionError):
            raise first
        return reply


class Parser(_Replies):
    """Reads the replies of a connection of redis.Redis."""

    def __init__(self, socket_read_size):
        self._buffer = bytearray(socket_read_size)
        self._sock = None
        self._socket_timeout = None

    def __del__(self):
        self.on_disconnect()

    def on_connect(self, connection, **_):
        """Starts to read from the connection's socket."""
        self._sock = connection._sock
        self._socket_timeout = connection.socket_timeout
        self._begin(connection.encoder)

    def on_disconnect(self):
        """Stops reading."""
        self._sock = None
        self._end()

    def can_read(self, timeout):
        """Returns whether a reply, or a part of it, has arrived within so many seconds."""
        return self._has_reply() or self._receive(timeout, raises=False)

    def _receive(self, timeout=UNCHANGED, raises=True):
        """Receives a piece. Returns False if none arrives in time, unless that raises an error."""
        sock = self._sock
        try:
            if timeout is not UNCHANGED:
                sock.settimeout(timeout)
            count = sock.recv_into(self._buffer)
            self._received(memoryview(self._buffer)[:count])
            return True
        except socket.timeout as error:
            if raises:
                raise TimeoutError("Timeout reading from socket") from error
            return False
        except (BlockingIOError, ssl.SSLWantReadError, ssl.SSLWantWriteError) as error:
            if raises:
                raise ConnectionError(f"Error while reading from socket: {error.args}") from error
            return False
        finally:
            if timeout is not UNCHANGED:
                sock.settimeout(self._socket_timeout)

    def read_response(self, disable_decoding=False, push_request=False):
        """Returns the next reply. A push goes to its function; if `push_request` is true, what that returns is returned."""
        while True:
            reply = self._reply(not disable_decoding)
            while reply is NOTHING:
                self._receive()
                reply = self._reply(not disable_decoding)
            if not isinstance(reply, resp.Push):
                return self._raised(reply)
            handler = self._handler(reply)
            handled = handler(reply) if handler else reply
            if push_request:
                return handled


class _Within:
    """Limits the time of a block as `asyncio.timeout` does. That of Python 3.11.2 fails in a task that was cancelled before and
    caught it, as `async_timeout` does when it expires: it raises CancelledError in place of TimeoutError."""

    def __init__(self, seconds):
        self._seconds = seconds
        self._timer = None
        self._has_expired = False

    async def __aenter__(self):
        self._task = asyncio.current_task()
        self._cancelled_before = self._task.cancelling()
        loop = asyncio.get_running_loop()
        if self._seconds is not None:
            self._timer = loop.call_later(self._seconds, self._expire)

    def _expire(self):
        self._has_expired = True
        self._task.cancel()

    async def __aexit__(self, kind, error, _):
        if self._timer:
            self._timer.cancel()
        if self._has_expired and self._task.uncancel() <= self._cancelled_before and kind is asyncio.CancelledError:
            raise asyncio.TimeoutError from error


class AsyncParser(_Replies):
    """Reads the replies of a connection of redis.asyncio.Redis."""

    def __init__(self, socket_read_size):
        self._read_size = socket_read_size
        self._stream = None
        self._socket_timeout = None

    def on_connect(self, connection):
        """Starts to read from the connection's stream."""
        self._stream = connection._reader
        self._socket_timeout = connection.socket_timeout
        self._begin(connection.encoder)

    def on_disconnect(self):
        """Stops reading."""
        self._stream = None
        self._end()

    async def can_read(self, timeout):
        """Returns whether a reply, or a part of it, has arrived within so many seconds."""
        return self._has_reply() or await self._receive(timeout, raises=False)

    async def can_read_destructive(self):
        """Returns whether a reply, or a part of it, has arrived."""
        return await self.can_read(0)

    async def _receive(self, timeout, raises=True):
        """Receives a piece. Returns False if none arrives in time, unless that raises an error."""
        try:
            async with _Within(timeout):
                piece = await self._stream.read(self._read_size)
        except asyncio.TimeoutError as error:
            if raises:
                raise TimeoutError("Timeout reading from socket") from error
            return False
        self._received(piece)
        return True

    async def read_response(self, disable_decoding=False, push_request=False):
        """Returns the next reply. A push goes to its function; if `push_request` is true, what that returns is returned."""
        while True:
            reply = self._reply(not disable_decoding)
            while reply is NOTHING:
                await self._receive(self._socket_timeout)
                reply = self._reply(not disable_decoding)
            if not isinstance(reply, resp.Push):
                return self._raised(reply)
            handler = self._handler(reply)
            handled = handler(reply) if handler else reply
            if asyncio.iscoroutine(handled):
                handled = await handled
            if push_request:
                return handled
