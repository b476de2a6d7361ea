"""Sessions of the adapter, by a scripted client: what an editor asks, and what it is told, as adapter.txt has it."""

from __future__ import annotations

import unittest
from typing import Any

from common.blocks import blocks
from . import scripted, wire
from .scripted import Client


class Editor(Client):
    """An editor's side of the protocol. Beside requests a session has these words: `launch`, with all that comes
    before its answer; `+REQUEST`, whose answer is the stop after it; `&REQUEST`, for whose answer nobody waits;
    `refused REQUEST`; `top`, the frame in which the thread of the last stop is; `scope NAME`, its variables by their
    names, and `names NAME` these; `output` and `console`, what was written in all or for the console; `malformed`."""

    command = "debug_adapter"

    def __init__(self) -> None:
        super().__init__()
        self.events: list[wire.Message] = []
        self.thread = 1

    def end(self) -> None:
        self.ask("disconnect")
        self.process.communicate(timeout=10)

    def send(self, command: str, **arguments: Any) -> int:
        self.sent += 1
        self.write(seq=self.sent, type="request", command=command, arguments={"threadId": self.thread, **arguments})
        return self.sent

    def receive(self) -> wire.Message | None:
        """The next message, or None after an event, which is kept."""
        message = self.read()
        if message["type"] == "event":
            self.events.append(message)
            return None
        return message

    def response(self, command: str, **arguments: Any) -> wire.Message:
        sent = self.send(command, **arguments)
        while True:
            message = self.receive()
            if message and message["request_seq"] == sent:
                return message

    def ask(self, command: str, **arguments: Any) -> Any:
        found = self.response(command, **arguments)
        assert found["success"], found
        return found.get("body")

    def event(self, name: str) -> Any:
        while True:
            for message in self.events:
                if message["event"] == name:
                    self.events.remove(message)
                    return message.get("body")
            self.receive()

    def scope(self, name: str) -> Any:
        return next(one["variablesReference"] for one in self.ask("scopes", frameId=self.value("frame"))["scopes"]
                    if one["name"].startswith(name))

    def variables(self, name: str) -> dict[str, Any]:
        return {one["name"]: one for one in self.ask("variables", variablesReference=self.scope(name))["variables"]}

    def value(self, name: str) -> Any:
        scope, _, variable = name.partition(":")
        if name == "frame":
            return self.ask("stackTrace")["stackFrames"][0]["id"]
        return self.variables(scope)[variable]["variablesReference"] if variable else self.scope(scope)

    def output(self, *categories: str) -> list[str]:
        bodies = [one["body"] for one in self.events if one["event"] == "output"]
        return [body["output"] for body in bodies if not categories or body["category"] in categories]

    def made(self, command: str, given: str) -> Any:
        if command == "malformed":
            self.write_body(b"{")
            return self.receive()
        if command == "refused":
            command, _, given = given.partition(" ")
            found = self.response(command, **self.arguments(given))
            assert not found["success"], found
            return found
        if command in ("scope", "names"):
            return self.variables(given) if command == "scope" else sorted(self.variables(given))
        if command in ("output", "console"):
            return "".join(self.output()) if command == "output" else self.output("console")
        if command == "top":
            return self.ask("stackTrace")["stackFrames"][0]
        return self.asked(command, self.arguments(given))

    def asked(self, command: str, arguments: dict[str, Any]) -> Any:
        if command == "launch":
            capabilities = self.ask("initialize", adapterID="pip", linesStartAt1=True)
            self.ask("launch", **arguments)
            self.event("initialized")
            return capabilities
        if command.startswith("&"):
            return self.send(command[1:], **arguments)
        if not command.startswith("+"):
            return self.ask(command, **arguments)
        self.ask(command[1:], **arguments)
        stop = self.event("stopped")
        self.thread = stop["threadId"]
        return stop


class Sessions(unittest.TestCase):
    def test_sessions(self) -> None:
        for title, text in blocks("adapter.txt", __file__).items():
            with self.subTest(title=title):
                scripted.play(Editor(), text)
