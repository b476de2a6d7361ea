"""A client of a server over standard streams, by a script: what it asks, line by line, and what has to come."""

from __future__ import annotations

import json
import os
import re
import subprocess
import sys
from typing import Any

from common import calling
from . import wire

PROGRAM = os.environ.get("PIP") or calling.PROVED
PATHS = {name: os.path.normpath(os.path.join(calling.REPOSITORY, path)) for name, path in (
    ("TOP", "."), ("MONITOR", "examples/monitor.s"), ("FIRST", "examples/first.pip"),
    ("RACE", "tools/authors/race.asmx"))}
NAMED = re.compile(r"\$([A-Z]+)\b")
VALUE = re.compile(r'"\$(\w[\w:]*)"')


class Client:
    """An editor's side of a protocol; `command` is the server's, and `made` does what a line of a script says."""

    command = ""

    def __init__(self) -> None:
        words = [sys.executable, "-B", os.path.join(calling.REPOSITORY, "tools", self.command), "--program",
                 calling.direct(PROGRAM)]
        self.process = subprocess.Popen(words, stdin=subprocess.PIPE, stdout=subprocess.PIPE)
        self.sent = 0

    def end(self) -> None:
        raise NotImplementedError

    def made(self, command: str, given: str) -> Any:
        raise NotImplementedError

    def value(self, name: str) -> Any:
        """What `"$name"` is in the arguments of a request."""
        raise NotImplementedError

    def arguments(self, given: str) -> dict[str, Any]:
        found: dict[str, Any] = json.loads(VALUE.sub(lambda one: json.dumps(self.value(one[1])), given) or "{}")
        return found

    def write(self, **message: Any) -> None:
        self.write_body(json.dumps(message).encode())

    def write_body(self, body: bytes, length: object = None) -> None:
        assert self.process.stdin
        self.process.stdin.write(b"Content-Length: %s\r\n\r\n" % str(length or len(body)).encode() + body)
        self.process.stdin.flush()

    def read(self) -> wire.Message:
        assert self.process.stdout
        message = wire.read(self.process.stdout)
        assert message is not None
        return message


def play(client: Client, text: str) -> None:
    """Makes the requests of a script, in order, each of whose answers has to have what is after its =>. Lines that are
    further in go on with the one above them."""
    try:
        for line in re.sub(r"\n +", " ", text).splitlines():
            asked, _, due = NAMED.sub(lambda found: PATHS[found[1]], line).partition(" => ")
            got = client.made(*asked.strip().partition(" ")[::2])
            assert not due or has(got, json.loads(due)), f"{line}: {got!r}"
    finally:
        client.end()


def has(got: Any, due: Any) -> bool:
    """Whether a value has all that is due: of an object these names, of a list as many, of a text after ~ a pattern."""
    if isinstance(due, dict):
        return isinstance(got, dict) and all(has(got.get(name), value) for name, value in due.items())
    if isinstance(due, list):
        return isinstance(got, list) and len(got) == len(due) and all(map(has, got, due))
    if isinstance(due, str) and due.startswith("~"):
        return re.search(due[1:], str(got)) is not None
    return bool(got == due)
