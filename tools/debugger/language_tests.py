"""Sessions of the language server, by a scripted client: what an editor asks, and what it is told, as language.txt has
it."""

from __future__ import annotations

import json
import os
import shlex
import tempfile
import unittest
from typing import Any

from authors import why
from common import calling
from common.blocks import blocks
from . import scripted
from .scripted import PROGRAM, Client

EXAMPLES = os.path.join(calling.REPOSITORY, "examples")
INCLUDED = ("make_child.asmx", "counts.asmx", "guests.asmx", "bad_line.pip")


class Editor(Client):
    """An editor's side of the protocol, with a folder for its texts. `file` writes one there. `open` answers what is
    wrong, `LINE:COLUMN-END SEVERITY MESSAGE` each; `definition` a file and a line, `line` that line; `completion` the
    names, with their count; `rename` the texts that it changes, or null where it is refused."""

    command = "language_server"

    def __init__(self) -> None:
        super().__init__()
        self.folder = tempfile.TemporaryDirectory()
        self.texts: dict[str, str] = {}
        assert self.ask("initialize", capabilities={})["capabilities"]["hoverProvider"]
        self.tell("initialized")

    def end(self) -> None:
        self.ask("shutdown")
        self.tell("exit")
        self.process.communicate(timeout=10)
        self.folder.cleanup()

    def tell(self, method: str, **params: Any) -> None:
        self.write(jsonrpc="2.0", method=method, params=params)

    def ask(self, method: str, **params: Any) -> Any:
        self.sent += 1
        self.write(jsonrpc="2.0", id=self.sent, method=method, params=params)
        message = self.read()
        assert message["id"] == self.sent, message
        return message.get("result")

    def path(self, name: str) -> str:
        return os.path.join(os.path.realpath(self.folder.name), name)

    def opened(self, path: str, text: str) -> list[str]:
        self.texts[path] = text
        self.tell("textDocument/didOpen", textDocument={"uri": "file://" + path, "text": text, "version": 1,
                                                        "languageId": "pip"})
        message = self.read()
        assert message["method"] == "textDocument/publishDiagnostics"
        return [f"{one['range']['start']['line']}:{one['range']['start']['character']}-"
                f"{one['range']['end']['character']} {one['severity']} " + one["message"].partition("\n")[0]
                for one in message["params"]["diagnostics"]]

    def place(self, path: str, line: str, column: str) -> dict[str, int]:
        if line.isdigit():
            return {"line": int(line), "character": int(column)}
        lines = self.texts[path].split("\n")
        at = next(k for k, text in enumerate(lines) if text.strip().startswith(line))
        return {"line": at, "character": lines[at].index(column) + 1}

    def made(self, command: str, given: str) -> Any:
        if command in ("open", "file"):
            name, _, told = given.partition(" ")
            path = self.path(name)
            text = json.loads(told) if told else calling.contents(path).decode()
            return self.opened(path, text) if command == "open" else calling.write(path, text.encode())
        name, *words = shlex.split(given)
        return self.asked(command, self.path(name), words)

    def asked(self, command: str, path: str, words: list[str]) -> Any:
        document = {"uri": "file://" + path}
        if command == "symbols":
            return [one["name"] for one in self.ask("textDocument/documentSymbol", textDocument=document)]
        method = "textDocument/" + ("definition" if command == "line" else command)
        found = self.ask(method, textDocument=document, position=self.place(path, *words[:2]),
                         newName=words[-1], context={"includeDeclaration": True})
        if command == "hover":
            return found["contents"]["value"]
        if command == "definition":
            return f"{os.path.basename(found['uri'])}:{found['range']['start']['line']}"
        if command == "line":
            return self.texts[path].split("\n")[found["range"]["start"]["line"]]
        if command == "references":
            return [f"{os.path.basename(one['uri'])}:{one['range']['start']['line']}:"
                    f"{one['range']['start']['character']}" for one in found]
        if command == "completion":
            return {"count": len(found), **{one["label"]: True for one in found}}
        return found and (found["placeholder"] if command == "prepareRename" else self.renamed(found["changes"]))

    def renamed(self, changes: dict[str, Any]) -> dict[str, str]:
        """The texts after the edits, by the names of their files."""
        made: dict[str, str] = {}
        for uri, edits in changes.items():
            path = uri[len("file://"):]
            lines = (self.texts.get(path) or calling.contents(path).decode()).split("\n")
            for edit in sorted(edits, key=lambda one: -int(one["range"]["start"]["character"])):
                at, first, end = edit["range"]["start"]["line"], edit["range"]["start"], edit["range"]["end"]
                lines[at] = lines[at][:first["character"]] + edit["newText"] + lines[at][end["character"]:]
            made[os.path.basename(path)] = "\n".join(lines)
        return made


class Sessions(unittest.TestCase):
    def editor(self) -> Editor:
        found = Editor()
        self.addCleanup(found.end)
        return found

    def test_sessions(self) -> None:
        for title, text in blocks("language.txt", __file__).items():
            with self.subTest(title=title):
                scripted.play(Editor(), text)

    def test_all_examples_are_right(self) -> None:
        editor = self.editor()
        for folder, _, names in os.walk(EXAMPLES):
            for name in sorted(names):
                if name.endswith((".pip", ".s", ".asmx")) and name not in INCLUDED:
                    path = os.path.join(folder, name)
                    text = calling.contents(path).decode()
                    found = [one.split(" ", 2)[2] for one in editor.opened(path, text)]
                    is_part = "solutions" in path and name.endswith(".pip") and "boot" not in text
                    self.assertEqual(found, ["no machine was begun before"] if is_part else [], path)

    def test_wrong_lines_are_told_as_by_why(self) -> None:
        text = "boot 32 1\nld 0 00\n"
        sentences, _ = why.why(PROGRAM, "a.pip", text.encode(), False)
        self.assertIn(self.editor().opened("/nowhere/a.pip", text)[0].split(" ", 2)[2], sentences[0])

    def test_what_is_no_message_is_answered(self) -> None:
        """The server goes on after it, and after a request whose parts are of other kinds."""
        editor = self.editor()
        for body in (b"{", b"[1]", b"[" * 100000):
            editor.write_body(body)
            told = editor.read()
            self.assertEqual((told["id"], told["error"]["code"]), (None, -32700))
        editor.write_body(b"nothing\r\n", "x")
        self.assertIsNone(editor.ask("textDocument/hover", textDocument=None))
        self.assertIsNone(editor.ask("textDocument/hover", textDocument={"uri": 5}, position=[]))
        self.assertEqual(editor.opened("/nowhere/still.pip", "boot 32 1\n"), [])
