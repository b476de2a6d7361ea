"""The grammar for editors: it knows every word of the repository's scripts and assembly texts, and every mnemonic."""

from __future__ import annotations

import glob
import json
import os
import re
import shutil
import subprocess
import unittest
from typing import Any

from common.blocks import blocks, escaped
from common.machine import instructions

HERE = os.path.dirname(os.path.abspath(__file__))
REPOSITORY = os.path.dirname(os.path.dirname(HERE))

COMMANDS = "boot ld lb st sb fetch trap call raise poll peek reg pc".split()
DIRECTIVES = ".frames .cpus .line .page .word .zero".split()


def grammar(name: str) -> Any:
    with open(os.path.join(HERE, name), encoding="utf-8") as file:
        return json.load(file)


def patterns(told: Any) -> list[tuple[str, re.Pattern[str]]]:
    return [(pattern["name"], re.compile(pattern["match"])) for pattern in told["patterns"]]


PATTERNS, OF_ASMX = (patterns(grammar(f"{name}.tmLanguage.json")) for name in ("pip", "asmx"))
LINES = blocks("tests.txt", __file__)


def tokens(line: str, patterns: list[tuple[str, re.Pattern[str]]] = PATTERNS) -> list[tuple[str | None, str]]:
    """A line's parts with their scopes, as an editor finds them: the first match, and of two the earlier pattern."""
    at = 0
    found: list[tuple[str | None, str]] = []
    while at < len(line):
        matches = [(match.start(), order, name, match.group()) for order, (name, pattern) in enumerate(patterns)
                   for match in [pattern.search(line, at)] if match and match.group()]
        start, _, name, text = min(matches, default=(len(line), 0, None, ""))
        if line[at:start].strip(" \t"):
            found.append((None, line[at:start]))
        if name:
            found.append((name, text))
        at = start + len(text)
    return found


def scopes(line: str, patterns: list[tuple[str, re.Pattern[str]]] = PATTERNS) -> list[str]:
    """The scopes of a line's parts, each without what is after its last dot."""
    return [(name or "").rpartition(".")[0] for name, _ in tokens(line, patterns)]


def is_known(line: str) -> bool:
    return all(name and not name.startswith("invalid") for name, _ in tokens(line))


def read(path: str) -> str:
    with open(path, encoding="utf-8") as file:
        return file.read()


def bad_line(path: str) -> int | None:
    """The number of a script's bad line, as the answers beside it say."""
    answers = path[:-len("pip")] + "out"
    if not path.endswith(".pip") or not os.path.exists(answers):
        return None
    last = read(answers).split("\n")[-2:][0]
    return int(last.split()[-1]) if last.startswith("bad line") else None


class TestOfAsmx(unittest.TestCase):
    def test_every_source_of_the_repository_is_known(self) -> None:
        paths = [path for ending in ("asmx", "s")
                 for path in glob.glob(os.path.join(REPOSITORY, "**", "*." + ending), recursive=True)]
        self.assertGreater(len([path for path in paths if path.endswith(".asmx")]), 4)
        for path in paths:
            for number, line in enumerate(read(path).split("\n"), 1):
                if any(name is None for name, _ in tokens(line, OF_ASMX)):
                    self.fail(f"{os.path.relpath(path, REPOSITORY)}, line {number}: {tokens(line, OF_ASMX)}")

    def test_what_is_wrong_has_no_colour(self) -> None:
        for line in ("ld r1 r0 4", "li r17 00", ".equ A 0X1"):
            self.assertIn(None, [name for name, _ in tokens(line, OF_ASMX)], line)

    def test_mnemonics(self) -> None:
        for name in [*instructions.OPCODES, "la", "j"]:
            self.assertEqual(tokens(name + " r1", OF_ASMX)[0][0], "support.function.mnemonic.pip", name)


class TestPackage(unittest.TestCase):
    def test_what_it_names_is_there(self) -> None:
        told = grammar("package.json")["contributes"]
        languages = {language["id"]: language for language in told["languages"]}
        for language in told["grammars"]:
            self.assertEqual(grammar(language["path"])["scopeName"], language["scopeName"])
            endings = [ending.lstrip(".") for ending in languages.pop(language["language"])["extensions"]]
            self.assertEqual(endings, grammar(language["path"])["fileTypes"])
            self.assertNotIn("s", endings)             # another language's
        self.assertEqual(languages, {})
        version = read(os.path.join(REPOSITORY, "VERSION")).strip()
        self.assertEqual(grammar("package.json")["version"], version)
        for language in told["languages"]:
            self.assertEqual(grammar(language["configuration"]), {"comments": {"lineComment": "#"}})


@unittest.skipUnless(shutil.which("node"), "no node")
class TestExtension(unittest.TestCase):
    def test_an_editor_is_told_what_the_tools_say(self) -> None:
        """Beside a stand-in for the editor's own module."""
        done = subprocess.run(["node", os.path.join(HERE, "stand_in.js")], stdout=subprocess.PIPE, check=True,
                              timeout=300)
        told = json.loads(done.stdout)
        self.assertEqual(told["wrong"], [[3, "'jmp' is no instruction; did you mean jal or j?"]])
        self.assertIn("createPartition", told["hover"])
        self.assertEqual(told["definition"], 3)
        self.assertEqual(told["references"], [[3, 0, 3, 5], [3, 11, 3, 16]])
        self.assertEqual(told["edits"], [[[3, 0, 3, 5], "begin"], [[3, 11, 3, 16], "begin"]])
        self.assertIn("can't be a name", told["refused"])
        self.assertEqual(told["nowhere"], "no name of this text is here")
        self.assertLess({"li", "la", "call", "not", ".handler"}, set(told["completion"]))
        self.assertEqual((told["debug"][0], told["debug"][1][1].split("/")[-1]), ("python3", "debug_adapter"))


class TestGrammar(unittest.TestCase):
    def test_every_text_of_the_repository_is_known(self) -> None:
        paths = [path for ending in ("pip", "s") for path in
                 glob.glob(os.path.join(REPOSITORY, "examples", "**", "*." + ending), recursive=True)]
        paths.append(os.path.join(REPOSITORY, "tools", "common", "draw", "pictures.asm"))
        self.assertGreater(len(paths), 10)
        for path in paths:
            allowed = bad_line(path)
            for number, line in enumerate(read(path).split("\n"), 1):
                if number != allowed and not is_known(line):
                    self.fail(f"{os.path.relpath(path, REPOSITORY)}, line {number}: {tokens(line)}")

    def test_each_first_word_has_its_scope(self) -> None:
        for name in COMMANDS:
            self.assertEqual(scopes(name + " 0")[0], "keyword.control.command", name)
        for name in DIRECTIVES:
            self.assertEqual(scopes(name + " 0")[0], "keyword.control.directive", name)
        for name in instructions.OPCODES:
            self.assertEqual(scopes(name + " r1")[0], "support.function.mnemonic", name)

    def test_parts_of_lines(self) -> None:
        for known, title in (PATTERNS, "scripts and assembly texts"), (OF_ASMX, "sources"):
            for line in re.sub(r"\n +", " ", LINES[title]).splitlines():
                text, _, due = line.partition(" => ")
                self.assertEqual(scopes(escaped(text).decode(), known), due.split(), text)

    def test_what_makes_a_line_bad_is_seen(self) -> None:
        for line in ("ld 0 00", "ld 0 0X1f", "ld 0 0x1F", "LD 0 0", "ld  0 0", " ld 0 0", "ld 0 0 ", "ld\t0 0",
                     "ld 0 0\r", "load 0 0",
                     "ld 0 +1", "ld 0 1_000", "ld 0 0x", "ld 0 0x123456789", "ld 0 0 # a remark", "9x:", "x: 1",
                     ".pages 1"):
            self.assertFalse(is_known(line), line)
