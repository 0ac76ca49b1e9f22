"""Messages of the protocol, as they go over a stream (JSON-RPC with headers)."""
from __future__ import annotations

import json
from typing import IO, Any, Dict, Optional

Message = Dict[str, Any]
LONGEST = 1 << 26

PARSE_ERROR = -32700
INVALID_REQUEST = -32600
METHOD_NOT_FOUND = -32601
INTERNAL_ERROR = -32603
NOT_INITIALIZED = -32002
REQUEST_FAILED = -32803


class Refusal(Exception):
    """A request that gets an error for its answer."""

    def __init__(self, code: int, message: str) -> None:
        super().__init__(message)
        self.code, self.message = code, message


def read_message(stream: IO[bytes]) -> Optional[Message]:
    """The next message, or None at the end of the stream. Raises Refusal for one that is none."""
    length = None
    while True:
        line = stream.readline(4096)
        if not line:
            return None
        name, _, value = line.partition(b":")
        if name.strip().lower() == b"content-length" and value.strip().isdigit():
            length = int(value)
        if not line.strip():
            break
    if length is None or length > LONGEST:
        raise Refusal(PARSE_ERROR, "no Content-Length, or too long a message")
    text = stream.read(length)
    if len(text) < length:
        return None
    try:
        message = json.loads(text)
    except (ValueError, RecursionError) as error:
        raise Refusal(PARSE_ERROR, str(error)) from None
    if not isinstance(message, dict):
        raise Refusal(INVALID_REQUEST, "a message is an object")
    return message


def write_message(stream: IO[bytes], message: Message) -> None:
    """Writes a message."""
    text = json.dumps({"jsonrpc": "2.0", **message}, separators=(",", ":")).encode()
    stream.write(b"Content-Length: %d\r\n\r\n" % len(text) + text)
    stream.flush()
