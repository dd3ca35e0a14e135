"""Messages of the language server protocol: JSON-RPC, each after a head that says how long it is."""
from __future__ import annotations

import json
from typing import Any, BinaryIO, Dict, Optional

Message = Dict[str, Any]
PARSE_ERROR, NO_METHOD, WRONG_WORDS, FAILED = -32700, -32601, -32602, -32803


class Refused(Exception):
    """A request is answered by an error: its number, and what is said."""

    def __init__(self, code: int, told: str) -> None:
        self.code = code
        super().__init__(told)


def read_message(stream: BinaryIO) -> Optional[Message]:
    """The next message; None at the end. Raises Refused where it is none."""
    length = None
    while True:
        line = stream.readline()
        if not line:
            return None
        name, _, value = line.decode("ascii", "replace").partition(":")
        if name.strip().lower() == "content-length" and value.strip().isdigit():
            length = int(value)
        if line in (b"\r\n", b"\n") and length is not None:
            break
    try:
        message = json.loads(stream.read(length))
    except (ValueError, RecursionError) as fault:
        raise Refused(PARSE_ERROR, f"this is no JSON: {fault}") from fault
    if not isinstance(message, dict):
        raise Refused(PARSE_ERROR, "a message is an object")
    return message


def write_message(stream: BinaryIO, message: Message) -> None:
    """Writes a message with its head."""
    data = json.dumps({"jsonrpc": "2.0", **message}, separators=(",", ":")).encode()
    stream.write(b"Content-Length: %d\r\n\r\n%b" % (len(data), data))
    stream.flush()
