"""The Language Server Protocol over standard streams, for scripts (.pip), assembly texts (.s) and sources (.asmx).

    tools/language_server

It says what is wrong, in the words of tools/asmx, what a word means, in those of docs/FORMATS.md, where a
name is defined, and what can be typed. Where no program is built, what is wrong comes from the reference."""

from __future__ import annotations

import argparse
import contextlib
import os
import re
import sys
from collections.abc import Iterator
from dataclasses import dataclass, replace
from typing import IO, Any
from urllib.parse import unquote, urlparse

from authors import asmx, why
from common import calling, meanings
from common.calling import Failed, ensure
from common.meanings import ASSEMBLY, FORMS
from common.machine import instructions, script
from . import wire
from .wire import Message

WORD = re.compile(r"[<>]?[.A-Za-z0-9_]+:?")
NAME_IN = re.compile(r"(?<![A-Za-z0-9_.])[A-Za-z_][A-Za-z0-9_]*")
LETTER = re.compile(r"[A-Za-z]")
GIVEN = re.compile(r"(?!r(?:[0-9]|1[0-5])$)[A-Za-z_][A-Za-z0-9_]{0,31}")     # a name that can be given
KEYWORD, NAME, CONSTANT, REGISTER = 14, 6, 21, 10        # kinds of completions, by the protocol's numbers


@dataclass(frozen=True)
class Wrong:
    """A line that is wrong, from 0 on, from a column on, and why."""

    line: int
    column: int
    why: str
    severity: int = 1                # by the protocol's numbers: 2 is a warning


@dataclass(frozen=True)
class Found:
    """Where a name is written, from line and column 0 on."""

    file: str
    line: int
    column: int


@dataclass(frozen=True)
class Defined:
    """Where a name is defined."""

    file: str
    line: int
    text: str


class Texts(asmx.Files):
    """The files of a source, of which an editor may have some with another text."""

    def __init__(self, open_texts: dict[str, str]) -> None:
        super().__init__()
        self.open = open_texts                   # by real path

    def contents(self, path: str) -> bytes:
        real = os.path.realpath(path)
        return self.open[real].encode() if real in self.open else super().contents(path)


# What is wrong

def wrong_of(program: str, path: str, texts: Texts) -> list[Wrong]:
    """All lines that are wrong; those of an included file are told at the first line."""
    if not path.endswith(".asmx"):
        return list(wrong_lines(program, texts.contents(path), path.endswith(".s")))
    try:
        _, text = asmx.processed(path, texts)
    except asmx.AllWrong as wrong:
        return [of_asmx(path, one) for one in wrong.wrongs[:why.MOST_TOLD]]
    except Failed as wrong:
        return [of_asmx(path, wrong) if isinstance(wrong, asmx.Wrong) else Wrong(0, 0, str(wrong))]
    return [replace(of_asmx(path, warning), severity=2) for warning in text.warnings()]


def of_asmx(path: str, wrong: asmx.Wrong) -> Wrong:
    is_here = wrong.place.file == path
    return Wrong(wrong.place.line - 1, wrong.column - 1, wrong.why) if is_here else Wrong(0, 0, str(wrong))


def wrong_lines(program: str, text: bytes, is_assembly: bool) -> Iterator[Wrong]:
    lines = script.lines(text)
    kind = why.ASSEMBLY if is_assembly else why.SCRIPT
    for place, _, cause in why.bad_lines(kind, why.by_program(program, kind), lines):
        line = lines[place - 1] if place <= len(lines) else b""
        yield Wrong(place - 1, len(line[:max(cause.column - 1, 0)].decode("utf-8", "replace")), told(cause))


def told(cause: why.Cause) -> str:
    """What is there, and the rule."""
    return f"{cause.here}\nrule: {meanings.CAUSES[cause.name][1]}"


# What words mean

def of_call(number: str, values: list[str]) -> str:
    """A call by its number, with its arguments beside their names."""
    try:
        name, arguments = meanings.CALLS[int(number, 0)]
    except (KeyError, ValueError):
        return f"no call has the number {number}"
    given = f"\n\nhere: {', '.join(values)}" if values else ""
    return f"call {number}, **{name}**: {arguments}{given}"


def of_vector(number: str) -> str:
    """A vector by its number, and what it comes from."""
    try:
        vector = int(number, 0)
    except ValueError:
        return ""
    if not 0 <= vector < 256:
        return "a vector is below 256"
    told = meanings.VECTORS.get(vector)
    plain = "" if vector in meanings.LINES else ": a trap or a yield with this vector"
    return f"vector {vector}: {told}" if told else meanings.of_vector(vector) + plain


def meaning_in_script(words: list[str], word: str, at: int) -> str:
    """What a word of a script's line means, by its place: a vector, a call, or the line's form."""
    is_yield = words[0] == "call" and words[2:3] in (["8"], ["0x8"])
    if (words[0], at) == ("trap", 2) or is_yield and at == 4:
        return of_vector(word)
    if words[0] == "call" and len(words) > 2 and at:
        return of_call(words[2], words[3:])
    return FORMS.get(words[0], "")


# Names

def uses(name: str, path: str, texts: Texts) -> Iterator[Found]:
    """Where a name is written in a text and in what it includes."""
    for place, words in asmx.lines_of(path, texts):
        first = 1 if words and words[0].endswith(":") else 0
        for number, word in enumerate(words):
            if number == first and word in ASSEMBLY:
                continue
            for found in NAME_IN.finditer(word):
                if found[0] == name:
                    yield Found(place.file, place.line - 1, word.column - 1 + found.start())


def definitions(path: str, texts: Texts) -> dict[str, Defined]:
    """Each name of a text and of what it includes."""
    found: dict[str, Defined] = {}
    try:
        for place, words in asmx.lines_of(path, texts):
            if words and words[0].endswith(":"):
                found.setdefault(words[0][:-1], Defined(place.file, place.line - 1, " ".join(words)))
            elif words[:1] == [".equ"] and len(words) > 2:
                found.setdefault(words[1], Defined(place.file, place.line - 1, " ".join(words)))
    except Failed:
        pass
    return found


def addresses(path: str, texts: Texts) -> dict[str, int]:
    """Of each name its address or number, where the text is right."""
    try:
        _, text = asmx.processed(path, texts)
    except Failed:
        return {}
    return {**text.constants, **{name: label.address for name, label in text.labels.items()}}


# The server

class Server:
    """An editor's texts, and what is asked about them."""

    def __init__(self, source: IO[bytes], sink: IO[bytes], program: str) -> None:
        self.source, self.sink, self.program = source, sink, program
        self.texts: dict[str, str] = {}          # by path
        self.uris: dict[str, str] = {}

    def serve(self) -> None:
        while True:
            try:
                message = wire.read(self.source)
            except wire.Malformed as malformed:
                self.send(id=None, error={"code": -32700, "message": str(malformed)})
                continue
            if message is None or message.get("method") == "exit":
                return
            self.take(message)

    def take(self, message: Message) -> None:
        name = str(message.get("method", "")).replace("/", "_").replace("$", "").lower()
        work = getattr(self, "on_" + name, None)
        try:
            result = work(message.get("params") or {}) if work else None
            if "id" in message:
                self.send(id=message["id"],
                          **({"result": result} if work else {"error": {"code": -32601, "message": name}}))
        except (Failed, LookupError, ValueError, TypeError, AttributeError) as failed:
            if "id" in message:
                self.send(id=message["id"], error={"code": -32603, "message": str(failed)})

    def send(self, **words: Any) -> None:
        wire.write(self.sink, {"jsonrpc": "2.0", **words})

    def files(self) -> Texts:
        return Texts(self.texts)

    def on_initialize(self, given: Any) -> Any:
        return {"serverInfo": {"name": "pip"}, "capabilities": {
            "textDocumentSync": 1, "hoverProvider": True, "definitionProvider": True, "documentSymbolProvider": True,
            "referencesProvider": True, "renameProvider": {"prepareProvider": True},
            "completionProvider": {"triggerCharacters": [".", "<", ">"]}}}

    def on_shutdown(self, given: Any) -> Any:
        return None

    def on_textdocument_didopen(self, given: Any) -> None:
        self.changed(given["textDocument"]["uri"], given["textDocument"]["text"])

    def on_textdocument_didchange(self, given: Any) -> None:
        self.changed(given["textDocument"]["uri"], given["contentChanges"][-1]["text"])

    def on_textdocument_didclose(self, given: Any) -> None:
        self.texts.pop(path_of(given["textDocument"]["uri"]), None)

    def changed(self, uri: str, text: str) -> None:
        path = path_of(uri)
        self.texts[path], self.uris[path] = text, uri
        lines = text.split("\n")
        found = [diagnostic(lines, wrong) for wrong in wrong_of(self.program, path, self.files())]
        self.send(method="textDocument/publishDiagnostics", params={"uri": uri, "diagnostics": found})

    # What is asked at a place

    def place(self, given: Any) -> tuple[str, str, int]:
        """The path, the line and the column."""
        path = path_of(given["textDocument"]["uri"])
        lines = self.files().contents(path).decode("utf-8", "replace").split("\n")
        at = given["position"]
        line = lines[at["line"]] if at["line"] < len(lines) else ""
        return path, line, index_of(line, at["character"])

    def on_textdocument_hover(self, given: Any) -> Any:
        path, line, column = self.place(given)
        found = next((found for found in WORD.finditer(line) if found.start() <= column <= found.end()), None)
        if not found or line.lstrip().startswith("#"):
            return None
        at = len(line[:found.start()].split())
        told = self.meaning(path, line.split("#")[0].split(), found[0], at)
        return {"contents": {"kind": "markdown", "value": told}} if told else None

    def meaning(self, path: str, words: list[str], word: str, at: int) -> str:
        if path.endswith(".pip"):
            return meaning_in_script(words, word, at)
        if words[0].endswith(":") and word != words[0]:
            words = words[1:]
        if words[:1] == ["sys"] and len(words) > 1 and word in words:
            return of_call(words[1], []) + ("\n\n" + ASSEMBLY["sys"] if word == "sys" else "")
        if words[0] in ("int", ".handler") and words[1:2] == [word]:
            return of_vector(word)
        if word in ASSEMBLY and word == words[0] or word in instructions.OPCODES:
            return ASSEMBLY.get(word, "")
        return self.meaning_of_name(path, word.strip("<>:"))

    def meaning_of_name(self, path: str, name: str) -> str:
        defined = definitions(path, self.files()).get(name)
        if defined is None:
            return ""
        value = addresses(path, self.files()).get(name)
        where = "" if os.path.realpath(defined.file) == path else f" of {os.path.basename(defined.file)}"
        told = "" if value is None else f": 0x{value % (1 << 32):08x}"
        return f"`{defined.text}`, line {defined.line + 1}{where}{told}"

    def name_at(self, given: Any) -> tuple[str, str, int]:
        """The path, the name at a place, "" where none of the text's is, and its column."""
        path, line, column = self.place(given)
        found = next((found for found in NAME_IN.finditer(line) if found.start() <= column <= found.end()), None)
        known = found and not path.endswith(".pip") and found[0] in definitions(path, self.files())
        return (path, found[0], found.start()) if found and known else (path, "", 0)

    def uri(self, path: str) -> str:
        real = os.path.realpath(path)
        return self.uris.get(real, "file://" + real)

    def on_textdocument_definition(self, given: Any) -> Any:
        path, name, _ = self.name_at(given)
        if not name:
            return None
        defined = definitions(path, self.files())[name]
        return {"uri": self.uri(defined.file), "range": range_of(defined.line, 0, len(defined.text))}

    def found(self, path: str, name: str) -> list[Found]:
        """Where a name is written, in the text, in what it includes, and in open texts that include the same."""
        files = self.files()
        here = list(uses(name, path, files))
        others = [other for other in self.texts if other != path and not other.endswith(".pip")]
        for other in others:
            with contextlib.suppress(Failed):
                more = list(uses(name, other, files))
                if {os.path.realpath(one.file) for one in more} & {os.path.realpath(one.file) for one in here}:
                    here += more
        return sorted({(os.path.realpath(one.file), one.line, one.column): one for one in here}.values(),
                      key=lambda one: (one.file, one.line, one.column))

    def on_textdocument_references(self, given: Any) -> Any:
        path, name, _ = self.name_at(given)
        return [{"uri": self.uri(one.file), "range": range_of(one.line, one.column, one.column + len(name))}
                for one in (self.found(path, name) if name else [])]

    def on_textdocument_preparerename(self, given: Any) -> Any:
        _, name, column = self.name_at(given)
        line = given["position"]["line"]
        return {"range": range_of(line, column, column + len(name)), "placeholder": name} if name else None

    def on_textdocument_rename(self, given: Any) -> Any:
        path, name, _ = self.name_at(given)
        new = given["newName"]
        ensure(name, "no name of this text is here")
        ensure(GIVEN.fullmatch(new), f"{new!r} can't be a name: it has letters, digits and _, at most 32, and is no "
               "register")
        ensure(new not in definitions(path, self.files()), f"{new} is defined already")
        changes: dict[str, list[Any]] = {}
        for one in self.found(path, name):
            changes.setdefault(self.uri(one.file), []).append(
                {"range": range_of(one.line, one.column, one.column + len(name)), "newText": new})
        return {"changes": changes}

    def on_textdocument_documentsymbol(self, given: Any) -> Any:
        path = path_of(given["textDocument"]["uri"])
        if path.endswith(".pip"):
            return []
        return [{"name": name, "kind": 12 if one.text.startswith(name) else 14,
                 "range": range_of(one.line, 0, len(one.text)), "selectionRange": range_of(one.line, 0, len(one.text))}
                for name, one in definitions(path, self.files()).items() if os.path.realpath(one.file) == path]

    def on_textdocument_completion(self, given: Any) -> Any:
        path, line, column = self.place(given)
        before = line[:column].split(" ")
        if path.endswith(".pip"):
            return [item(*one) for one in script_items(before)]
        return [item(*one) for one in self.assembly_items(path, before)]

    def assembly_items(self, path: str, before: list[str]) -> Iterator[tuple[str, int, str]]:
        ahead = [word for word in before[:-1] if word]
        if ahead[:1] == [".may"] and len(ahead) < 3:
            yield from deed_items(len(ahead))
        elif ahead[:1] == [".may"] and ahead[2:] == ["call"]:
            yield from call_items()
        elif len([word for word in before if word]) < 2 or before[-2:-1] and before[-2].endswith(":"):
            known = ((name, text) for name, text in ASSEMBLY.items() if LETTER.search(name))
            yield from ((name, KEYWORD, text) for name, text in known if name != "NAME:")
        elif before[-2:-1] == ["sys"]:
            yield from call_items()
        else:
            yield from ((f"r{number}", REGISTER, "") for number in range(16))
            for name, one in definitions(path, self.files()).items():
                yield name, CONSTANT if one.text.startswith(".equ") else NAME, one.text


def script_items(before: list[str]) -> Iterator[tuple[str, int, str]]:
    """First words of a script's line; after `call P` the calls."""
    if len(before) == 1:
        yield from ((name, KEYWORD, text) for name, text in FORMS.items())
    elif before[0] == "call" and len(before) == 3:
        yield from call_items()


def call_items() -> Iterator[tuple[str, int, str]]:
    yield from ((str(number), KEYWORD, f"{name}: {told}") for number, (name, told) in meanings.CALLS.items())


def deed_items(place: int) -> Iterator[tuple[str, int, str]]:
    """The words of `.may`: whose deed it is, and then what."""
    if place == 1:
        yield "each", KEYWORD, "every partition but the root; else the name of one"
    else:
        yield from ((name, KEYWORD, FORMS[name]) for name in asmx.DEEDS)


def item(label: str, kind: int, told: str) -> dict[str, Any]:
    return {"label": label, "kind": kind, "documentation": {"kind": "markdown", "value": told}}


def path_of(uri: str) -> str:
    return os.path.realpath(unquote(urlparse(uri).path))


def units(text: str) -> int:
    """How long a text is to the protocol, which counts units of UTF-16."""
    return len(text.encode("utf-16-le")) // 2


def index_of(line: str, character: int) -> int:
    """The place in a line of a number of such units."""
    return len(line.encode("utf-16-le")[:2 * character].decode("utf-16-le", "ignore"))


def range_of(line: int, first: int, end: int) -> dict[str, Any]:
    return {"start": {"line": line, "character": first}, "end": {"line": line, "character": max(end, first)}}


def diagnostic(lines: list[str], wrong: Wrong) -> dict[str, Any]:
    """A wrong line for the editor, from its column to the end of the word there."""
    text = lines[wrong.line] if wrong.line < len(lines) else ""
    found = re.compile(r"\S+").match(text, wrong.column)
    end = found.end() if found and wrong.column else len(text)
    return {"range": range_of(wrong.line, units(text[:wrong.column]), units(text[:end])), "severity": wrong.severity,
            "source": "pip", "message": wrong.why}


def built(program: str) -> str:
    """The program, or the reference where it isn't built."""
    try:
        return calling.direct(program)
    except Failed:
        return os.path.join(calling.REPOSITORY, "dev", "reference", "program.py")


def main() -> None:
    parser = argparse.ArgumentParser(description="The Language Server Protocol over standard streams, for editors.")
    calling.take_program(parser)
    given = parser.parse_args()
    sink = wire.own_output()
    calling.guarded("language_server", lambda: Server(sys.stdin.buffer, sink, built(given.program)).serve())
