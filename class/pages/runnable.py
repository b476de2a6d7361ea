"""What each block of code in a document is, and what runs of it. The site and the check `documents` have this one rule.

A block is told by its text and by the line above it, `[FILE](..):` or `From [FILE](..):`. A mark, a comment of its own
above the block, tells one that is none of these: `<!-- output of COMMAND -->` is what that command writes of the
program above, with the menu above it; `<!-- menu -->`, `<!-- grammar -->` and `<!-- text -->` don't run."""

from __future__ import annotations

import enum
import os
import re
from collections.abc import Iterator, Sequence
from dataclasses import dataclass, field
from pathlib import Path
from typing import Union


class Kind(enum.Enum):
    SCRIPT = "script"
    PROGRAM = "program"
    SESSION = "session"
    OUTPUT = "output"
    MENU = "menu"
    COMMANDS = "commands"          # of a shell; they need what a page hasn't
    PLAIN = "plain"


MARK = re.compile(r"<!-- (output of|menu|grammar|text)(?: (.*))? -->")
SOURCE = re.compile(r"(From )?\[[^\]\n]+\]\(([^)\n]+)\):")
ITEM = re.compile(r" *(?:[-*]|\d+\.) +")
INDENT = 4
# What begins a line of a shell: a program of the top of a checkout, a tool of it, or one of these
COMMAND = re.compile(r"(?:\$ )?(?:[A-Z_]+=\S+ +)*(?:\./\w+|\.ci/run|(?:tools|class|dev)/[\w./]+|"
                     r"(?:apt-get|cargo|cat|cp|echo|for|git|grep|head|mkdir|node|"
                     r"parallel|printf|python3|rt|sed|seq|sort|tail|tar|wc) )")
BARE = re.compile(r"\./\w+ (?!--)(?!.*  )")         # a command of a program alone, without a remark beside it
PROGRAM = re.compile(r"\./\w+")
ASMX = "tools/asmx"
HERE = {ASMX, "cat", "echo", "printf", "tail", "head", "grep", "sed", "wc"}     # that the shell of a page has, too
DEFAULT = ("1000", "1")                             # steps and seed of a program for which nothing says them
ASSEMBLE, ABOVE, IMAGE, MENU = "./pip asm", "above.s", "above.img", "above.may"


@dataclass(frozen=True)
class Block:
    line: int                      # of the document: that of the first line of the text, or of its fence
    text: str
    kind: Kind | None              # none: nothing tells it
    source: str | None = None      # the file that this is, or of which it is a part
    is_part: bool = False
    words: str = ""                # of its mark
    language: str = ""             # of its fence


@dataclass(frozen=True)
class Script:
    before: str                    # the lines that run first and aren't shown
    lines: list[tuple[str, str | None]]             # each with the answer that is shown


@dataclass(frozen=True)
class Program:
    before: str
    text: str
    after: str
    steps: str
    seed: str
    due: list[str] | None          # lines that its trace has, one after the other


@dataclass(frozen=True)
class Session:
    before: list[str]              # the commands that run first and aren't shown
    commands: list[tuple[str, list[str] | None]]    # each with the lines that are shown below it
    is_piece: bool = False         # of what the one command writes
    files: dict[str, str] = field(default_factory=dict)


Runs = Union[Script, Program, Session]


def blocks(path: str, text: str) -> list[Block]:
    """The blocks of a document, whose path is from the top of the repository."""
    return [told(path, *found) for found in raw(text.split("\n"))]


def raw(lines: Sequence[str]) -> Iterator[tuple[int, list[str], str, str, str]]:
    """Of each block its first line, its text, the two lines above it that aren't blank, and the language of a fence."""
    at, above = 0, ["", ""]
    while at < len(lines):
        line = lines[at]
        if line.lstrip().startswith("```"):
            end = next(k for k in range(at + 1, len(lines)) if lines[k].lstrip().startswith("```"))
            yield at + 1, list(lines[at + 1:end]), above[0], above[1], line.strip("` ")
            at = end + 1
            continue
        indent = inside(above[0], lines[at - 1] if at else "")
        if indent and line.startswith(" " * indent) and line.strip():
            end = end_of(lines, at, indent)
            yield at + 1, [told[indent:] for told in lines[at:end]], above[0], above[1], ""
            at = end
            continue
        if line.strip():
            above = [line, above[0]]
        at += 1


def inside(above: str, before: str) -> int:
    """How far the lines of a block are indented that may begin here; 0 where none can."""
    if before.strip() and not before.lstrip().startswith("<!--"):
        return 0
    item = ITEM.match(above)
    return INDENT + (item.end() if item else len(above) - len(above.lstrip(" ")))


def end_of(lines: Sequence[str], at: int, indent: int) -> int:
    """Where an indented block ends: blank lines belong to it if more of it follows."""
    last = at
    for k in range(at, len(lines)):
        if lines[k].strip() and not lines[k].startswith(" " * indent):
            break
        last = k if lines[k].strip() else last
    return last + 1


def told(path: str, line: int, lines: list[str], above: str, further: str, language: str) -> Block:
    mark = MARK.fullmatch(above.strip())
    named = SOURCE.fullmatch((further if mark else above).strip())
    source = os.path.normpath(os.path.join(os.path.dirname(path), named[2])) if named else None
    if source and not source.startswith("examples/"):
        source = None
    of_marks = {"output of": Kind.OUTPUT, "menu": Kind.MENU}
    kind = of_marks.get(mark[1], Kind.PLAIN) if mark else Kind.PLAIN if language else kind_of(lines, source)
    return Block(line, "".join(told + "\n" for told in lines), kind, source, bool(named and named[1]),
                 (mark[2] or "") if mark else "", language)


def kind_of(lines: list[str], source: str | None) -> Kind | None:
    if any("→" in line for line in lines):
        return Kind.SCRIPT
    is_session = lines[0].startswith("$ ")             # which may show a program
    if source and source.endswith(".s") or not is_session and any(line.startswith(".frames ") for line in lines):
        return Kind.PROGRAM
    if source and source.endswith(".session") and not any(line.startswith("$ ") for line in lines):
        return Kind.SESSION
    told = [command for command, _ in commands(lines)] if is_session else lines
    if all(COMMAND.match(command) for command in told):
        is_bare = told is not lines or all(BARE.match(command) for command in told)
        return Kind.SESSION if is_bare and all(map(runs_here, told)) else Kind.COMMANDS
    return Kind.COMMANDS if COMMAND.match(lines[0]) else None


def runs_here(command: str) -> bool:
    """Whether a page can run it: each word that begins a part is one of a program or of the page's shell."""
    for part in re.split(r"[|;]", re.sub(r"'[^']*'|\"[^\"]*\"", "_", command)):
        words = part.split()
        if words and not PROGRAM.fullmatch(words[0]) and words[0] not in HERE:
            return False
        if words and words[0] == ASMX and not words[1].startswith("examples/"):
            return False           # of a text that a command wrote
    return True


def commands(lines: Sequence[str]) -> list[tuple[str, list[str]]]:
    """The commands of a session, each with the lines below it."""
    found: list[tuple[str, list[str]]] = []
    for line in lines:
        if line.startswith("$ "):
            found.append((line[2:], []))
        else:
            found[-1][1].append(line)
    return found


class Wrong(Exception):
    """A block that isn't in the file that it names, or has no program above it."""


class Document:
    """A document of a checkout, and what runs of its blocks."""

    def __init__(self, top: Path, path: str) -> None:
        self.top, self.path = top, path
        self.text = self.contents(path)
        self.blocks = blocks(path, self.text)

    def contents(self, path: str) -> str:
        return (self.top / path).read_text(encoding="utf-8")

    def runs(self, at: int) -> Runs | None:
        block = self.blocks[at]
        lines = block.text.split("\n")[:-1]
        if block.kind is Kind.SCRIPT:
            return self.script(at, lines)
        if block.kind is Kind.PROGRAM:
            return self.program(at)
        if block.kind is Kind.SESSION:
            return self.session(block, lines)
        return self.output(at, lines) if block.kind is Kind.OUTPUT else None

    def script(self, at: int, lines: list[str]) -> Script:
        block = self.blocks[at]
        pairs = [(told.rstrip() if arrow else told, answer.strip() if arrow else None)
                 for told, arrow, answer in (line.partition("→") for line in lines)]
        told = [line for line, _ in pairs]
        if block.source:
            whole = self.contents(block.source).split("\n")[:-1]
            return Script(joined(whole[:place(told, whole, block)]), pairs)
        if any(line.startswith("boot ") for line in told):
            return Script("", pairs)
        before = next((self.script(k, self.blocks[k].text.split("\n")[:-1]) for k in range(at - 1, -1, -1)
                       if self.blocks[k].kind is Kind.SCRIPT), None)
        if before is None:
            raise Wrong(f"line {block.line}: a script begins with a boot line")
        return Script(before.before + joined([line for line, _ in before.lines]), pairs)

    def program(self, at: int) -> Program:
        block = self.blocks[at]
        if block.source is None:
            return Program("", block.text, "", *DEFAULT, None)
        whole = self.contents(block.source)
        before, found, after = whole.partition(block.text)
        if not found:
            raise Wrong(f"line {block.line}: this is no part of {block.source}")
        return Program(before, block.text, after, *self.steps(at, block.source))

    def steps(self, at: int, source: str) -> tuple[str, str, list[str] | None]:
        """STEPS and SEED with the trace: of the session that follows the program, or of the file .run beside it."""
        for block in self.blocks[at + 1:at + 4]:
            if block.kind is Kind.SESSION and block.source:
                for command, out in commands(self.contents(block.source).split("\n")[:-1]):
                    if found := re.fullmatch(r"\./\w+ run (\d+) (\d+) < \S+", command):
                        return found[1], found[2], out
        return steps_beside(self.top, source)

    def session(self, block: Block, lines: list[str]) -> Session:
        if not lines[0].startswith("$ "):
            if not block.source:
                return Session([], [(line, None) for line in lines])
            whole = commands(self.contents(block.source).split("\n")[:-1])
            for k, (command, out) in enumerate(whole):
                if has_part(out, lines):
                    return Session([told for told, _ in whole[:k]], [(command, lines)], True)
            raise Wrong(f"line {block.line}: this is no part of {block.source}")
        shown: list[tuple[str, list[str] | None]] = [(command, out) for command, out in commands(lines)]
        if not block.source:
            return Session([], shown)
        whole = commands(self.contents(block.source).split("\n")[:-1])
        first = place([command for command, _ in shown], [command for command, _ in whole], block)
        return Session([command for command, _ in whole[:first]], shown)

    def output(self, at: int, lines: list[str]) -> Session:
        """What a command writes of the last program above, with the menu between."""
        block = self.blocks[at]
        program = next((k for k in range(at - 1, -1, -1) if self.blocks[k].kind is Kind.PROGRAM), None)
        if program is None:
            raise Wrong(f"line {block.line}: no program is above")
        files = {ABOVE: self.blocks[program].text}
        files.update({MENU: menu.text for menu in self.blocks[program:at] if menu.kind is Kind.MENU})
        given = f"cat {IMAGE} {MENU} | {block.words}" if MENU in files else f"{block.words} < {IMAGE}"
        return Session([f"{ASSEMBLE} < {ABOVE} > {IMAGE}"], [(given, lines)], files=files)


def steps_beside(top: Path, source: str) -> tuple[str, str, list[str] | None]:
    """STEPS and SEED of a program by the file .run beside it, with the trace; the default where there is none."""
    beside = (top / source).with_suffix(".run")
    if beside.exists():
        head, *trace = beside.read_text(encoding="utf-8").split("\n")[:-1]
        if found := re.fullmatch(r"run (\d+) (\d+)", head):
            return found[1], found[2], trace
    return (*DEFAULT, None)


def joined(lines: Sequence[str]) -> str:
    return "".join(line + "\n" for line in lines)


def has_part(whole: Sequence[str], part: Sequence[str]) -> bool:
    return any(list(whole[at:at + len(part)]) == list(part) for at in range(len(whole)))


def place(part: Sequence[str], whole: Sequence[str], block: Block) -> int:
    """Where a part is in the lines of its file."""
    for at in range(len(whole)):
        if list(whole[at:at + len(part)]) == list(part):
            return at
    raise Wrong(f"line {block.line}: this is no part of {block.source}")
