"""The words of a source and of an export, for their comparison. It shares nothing with tokens.py, which the exporter
uses, so that no fault of one of them hides in the comparison."""

import re
from dataclasses import dataclass

from .tokens import Trouble

PIECE = re.compile(r"""
    \s+ | (?P<comment> //[^\n]* | /\*.*?\*/ )
  | (?P<code> b?r(?P<fence>\#*)".*?"(?P=fence) | b?"(?:[^"\\]|\\.)*" | b?'(?:[^\\]|\\.[^']*)' | '\w+
            | \d\w*(?:\.\d\w*)? | \w+ | (?!/\*)[^"'] )
""", re.S | re.X)
NAME = r"\s*(?:[^\W\d]\w*\s*)?"
CLAUSE, GHOST, IMPORT = re.compile(rf"\s*\*?{NAME}\{{"), re.compile(rf"{NAME}[:=]?\s*\{{"), re.compile(r"\s*use [^;]*;")
OTHERWISE = re.compile(r"\s*=\s*\{")       # what a trait says for those that say nothing else of a name
# What counts in a group: braces, but for those in a text or a character. A quote after a letter is part of a name: x'
BRACES = re.compile(r"""[{}]|"(?:[^"\\]|\\.)*"|(?<![^\W_])'.'""", re.S)


@dataclass
class Word:
    """A piece of code with the line on which it begins. Its kind is code, clause, ghost or comment."""

    text: str
    line: int
    kind: str = "code"


def words_of(text: str, proofs: bool) -> list[Word]:
    """All words of a text. With `proofs` a clause is one, and so is a ghost item."""
    found, at, line = [], 0, 1
    while at < len(text):
        piece = PIECE.match(text, at)
        if piece is None:
            raise Trouble(f"something that begins in line {line} doesn't end")
        kind, end = piece.lastgroup, piece.end()
        if proofs and piece[0] in ("requires", "ensures"):
            kind, end = "clause", group_end(text, CLAUSE, end)
        elif proofs and piece[0] == "ghost":
            kind, end = "ghost", ghost_end(text, end)
        if kind:
            found.append(Word(text[at:end], line, kind))
        line += text.count("\n", at, end)
        at = end
    return found


def ghost_end(text: str, at: int) -> int:
    """Where what follows the word `ghost` ends: an import, or a name, `:` or `=`, a group in braces, and `,` or `;`."""
    if found := IMPORT.match(text, at):
        return found.end()
    at = group_end(text, GHOST, at)
    if OTHERWISE.match(text, at):
        at = group_end(text, OTHERWISE, at)
    return at + (text[at:at + 1] in (",", ";"))


def group_end(text: str, head: "re.Pattern[str]", at: int) -> int:
    """Where a group in braces ends, whose head is there."""
    begun = head.match(text, at)
    if begun is None:
        raise Trouble(f"no group follows, but {text[at:at + 40]!r}")
    depth = 1
    for found in BRACES.finditer(text, begun.end()):
        depth += {"{": 1, "}": -1}.get(found[0], 0)
        if depth == 0:
            return found.end()
    raise Trouble(f"a group doesn't end: {text[at:at + 40]!r}")
