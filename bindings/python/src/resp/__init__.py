"""Reads RESP2 and RESP3, the wire protocol of Redis."""
from resp._resp import NO_REPLY, Pairing, Pairs, ProtocolError, Push, Reader, ReplyError, RespError, __version__, pack

__all__ = ["NO_REPLY", "Pairing", "Pairs", "ProtocolError", "Push", "Reader", "ReplyError", "RespError", "__version__",
           "pack"]
