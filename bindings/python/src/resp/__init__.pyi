from collections.abc import Callable
from typing import Any, SupportsIndex

from typing_extensions import Buffer

__all__ = ["NO_REPLY", "Pairing", "Pairs", "ProtocolError", "Push", "Reader", "ReplyError", "RespError", "__version__",
           "pack"]
__version__: str

class NoReply: ...

NO_REPLY: NoReply

class RespError(Exception): ...

class ProtocolError(RespError):
    cause: str
    at: int | None

class ReplyError(RespError): ...
class Push(list[Any]): ...
class Pairs(list[tuple[Any, Any]]): ...

class Reader:
    def __init__(
        self,
        protocolError: Callable[[str], Exception] = ...,
        replyError: Callable[[str], Any] = ...,
        encoding: str | None = None,
        errors: str | None = None,
        notEnoughData: Any = ...,
        protocol: int = 2,
        depth: int = 32,
        length: int = 536870912,
        total: int = 1073741824,
        items: int = 1099511627776,
        streamed: bool = True,
        doubles: bool = True,
        convertSetsToLists: bool = False,
    ) -> None: ...
    def feed(self, bytes: Buffer, from_: SupportsIndex = 0, length: SupportsIndex = -1, /) -> None: ...
    def gets(self, shouldDecode: bool = True, /) -> Any: ...
    def has_data(self) -> bool: ...
    def len(self) -> int: ...
    def getmaxbuf(self) -> int: ...
    def setmaxbuf(self, most: SupportsIndex | None, /) -> None: ...
    def set_encoding(self, encoding: str | None = None, errors: str | None = None) -> None: ...
    def set_protocol(self, protocol: int, /) -> None: ...

class Pairing:
    def __init__(
        self,
        protocolError: Callable[[str], Exception] = ...,
        replyError: Callable[[str], Any] = ...,
        encoding: str | None = None,
        errors: str | None = None,
        notEnoughData: Any = ...,
        protocol: int = 2,
        depth: int = 32,
        length: int = 536870912,
        total: int = 1073741824,
        items: int = 1099511627776,
        streamed: bool = True,
        doubles: bool = True,
        convertSetsToLists: bool = False,
    ) -> None: ...
    def feed(self, bytes: Buffer, from_: SupportsIndex = 0, length: SupportsIndex = -1, /) -> None: ...
    def gets(self, shouldDecode: bool = True, /) -> Any: ...
    def has_data(self) -> bool: ...
    def queue(self, *words: Buffer | str | int) -> int: ...
    def protocol(self) -> int: ...

def pack(*words: Buffer | str | int | float) -> bytes: ...
