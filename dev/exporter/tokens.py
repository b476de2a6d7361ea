"""The tokens of a source: those of Rust, with each clause and each ghost item as one token."""

import re
from dataclasses import dataclass

from common.calling import Failed

CLAUSES = ("requires", "ensures")

PATTERN = re.compile(r"""
    (?P<comment> //[^\n]* | /\*.*?\*/ )
  | (?P<text>    b?r(?P<marks>\#*)".*?"(?P=marks) | b?"(?:\\.|[^"\\])*" )
  | (?P<char>    b?'(?:\\(?:x[0-9a-fA-F]{2}|u\{[0-9a-fA-F_]+\}|.)|[^'\\\n])' )
  | (?P<life>    '[^\W\d]\w* )
  | (?P<word>    [^\W\d]\w* )
  | (?P<number>  \d\w*(?:\.\d\w*)? )
  | (?P<punct>   \S )
""", re.S | re.X)
BLANKS = re.compile(r"\s*")
BLANKS_AND_COMMENTS = re.compile(r"(?:\s+|//[^\n]*)*")
NAME = re.compile(r"[^\W\d]\w*")


class Trouble(Failed):
    """A form of text that the exporter doesn't know."""


@dataclass
class Token:
    """A piece of the text: a comment, text, char, life, word, number, punct, clause or ghost."""

    kind: str
    start: int
    end: int
    text: str

    def is_punct(self, text: str) -> bool:
        return self.kind == "punct" and self.text == text

    def is_word(self, text: str) -> bool:
        return self.kind == "word" and self.text == text


def tokens(text: str) -> list[Token]:
    """All tokens of a file. Blanks are none."""
    found: list[Token] = []
    at = after(BLANKS, text, 0)
    while at < len(text):
        token = token_at(text, at)
        found.append(token)
        at = after(BLANKS, text, token.end)
    return found


def after(pattern: re.Pattern[str], text: str, at: int) -> int:
    """Where what the pattern takes from a place on ends; the place itself, where it takes nothing."""
    found = pattern.match(text, at)
    return found.end() if found else at


def token_at(text: str, at: int) -> Token:
    match = PATTERN.match(text, at)
    if match is None:
        raise Trouble(f"no token: {text[at:at + 40]!r}")
    kind, end = match.lastgroup or "", match.end()
    if kind == "word" and match.group() in CLAUSES:
        kind, end = "clause", clause_end(text, end)
    elif kind == "word" and match.group() == "ghost":
        kind, end = "ghost", ghost_end(text, end)
    elif kind == "punct" and match.group() in "\"'":
        raise Trouble(f"a text that doesn't end: {text[at:at + 40]!r}")
    return Token(kind, at, end, text[at:end])


def clause_end(text: str, at: int) -> int:
    """Where a clause ends whose word ends at `at`: a star, a name and braces may follow."""
    at = after(BLANKS_AND_COMMENTS, text, at + 1 if text.startswith("*", at) else at)
    name = NAME.match(text, at)
    if name:
        at = after(BLANKS_AND_COMMENTS, text, name.end())
    if not text.startswith("{", at):
        raise Trouble(f"a clause without braces: {text[at:at + 40]!r}")
    return braces_end(text, at)


def ghost_end(text: str, at: int) -> int:
    """Where a ghost item ends whose word ends at `at`. Its `;` or `,` belongs to it."""
    at = after(BLANKS_AND_COMMENTS, text, at)
    if re.compile(r"use\b").match(text, at):
        return text.index(";", at) + 1
    while at < len(text) and text[at] not in ";,}":
        at = braces_end(text, at) if text[at] == "{" else at + 1
    if at == len(text):
        raise Trouble("a ghost item that doesn't end")
    return at if text[at] == "}" else at + 1  # the last field of a struct may have no comma


# What may hold a brace that opens and closes nothing: a text, and a character.
QUOTED = re.compile(r'"(?:\\.|[^"\\])*"|\'[{}"]\'', re.S)


def braces_end(text: str, at: int) -> int:
    """Where the braces end that open at `at`, in a clause."""
    depth = 0
    while at < len(text):
        quoted = QUOTED.match(text, at)
        if quoted:
            at = quoted.end()
            continue
        depth += (text[at] == "{") - (text[at] == "}")
        at += 1
        if depth == 0:
            return at
    raise Trouble("braces that don't close")
