"""Messages of JSON, each after a header with its length, as the Debug Adapter and the Language Server Protocol have
them."""

from __future__ import annotations

import json
import os
from typing import IO, Any

from common.calling import Failed

Message = dict[str, Any]


class Malformed(Failed):
    """What came is no message. The next one can be read."""


def read(source: IO[bytes]) -> Message | None:
    """The next message, or None at the end. Lines before a header with a length count for nothing."""
    length = 0
    while True:
        line = source.readline()
        if not line:
            return None
        name, _, value = line.partition(b":")
        if name.strip().lower() == b"content-length" and value.strip().isdigit():
            length = int(value)
        if length and not line.strip():
            break
    try:
        found = json.loads(source.read(length))
    except (ValueError, RecursionError) as wrong:
        raise Malformed(f"a message that isn't JSON: {wrong}") from None
    if not isinstance(found, dict):
        raise Malformed("a message that is no object")
    return found


def own_output() -> IO[bytes]:
    """Standard output for messages alone: what else is written goes to standard error from then on."""
    sink = os.fdopen(os.dup(1), "wb")
    os.dup2(2, 1)
    return sink


def write(sink: IO[bytes], message: Message) -> None:
    body = json.dumps(message).encode()
    sink.write(b"Content-Length: %d\r\n\r\n" % len(body) + body)
    sink.flush()
