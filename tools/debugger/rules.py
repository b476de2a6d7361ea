"""Rules of a source or of a command line: `never` or `always` a condition on words and registers, at each state."""

from __future__ import annotations

import re
from collections.abc import Callable, Sequence
from typing import Any, NamedTuple

from common.calling import Failed
from common.machine.model import World

SIGNS = ("==", "!=", "<", ">", "<=", ">=")
JOINS = ("or", "and")                    # the second one first
REGISTER = re.compile(r"(?:(\w+):)?(r(\d+)|pc|part)")
WORD = re.compile(r"f(\d+):(\d+)")
FORM = "a rule is A == B or A in B C .., joined by 'and' and 'or'"


class Rule(NamedTuple):
    """A rule: its text, `never` or `always`, and its condition as the searching process takes it."""

    text: str
    kind: str
    tokens: tuple[str, ...]


class BadRule(Failed):
    """Words that are no rule."""


class Names(NamedTuple):
    """What the names of a source mean: a sum as a number, and the root's address of a word of its pages."""

    number: Callable[[str], int]
    address: Callable[[str], int]


def rule_of(words: Sequence[Any], text: Any) -> Rule:
    """The rule of a line `.never` or `.always` of a source, by the names of its text."""
    def number(part: str) -> int:
        value: int = text.number(next(word for word in words[1:] if part in word).put(part), True) % (1 << 32)
        return value

    def address(part: str) -> int:
        label = text.labels.get(re.split("[+-]", part)[0])
        return number(part) + (int(label.page.address - label.page.seen) if label else 0)

    try:
        tokens = joined(words[1:], JOINS, Names(number, address))
    except BadRule as bad:
        raise words[min(len(words) - 1, 1)].wrong(str(bad)) from None
    return Rule(" ".join(words)[1:], words[0][1:], tuple(tokens))


def joined(words: Sequence[str], joins: Sequence[str], names: Names) -> list[str]:
    """A condition, what is compared or joined before its sign."""
    if not joins:
        return compared(words, names)
    join, *rest = joins
    at = next((at for at, word in enumerate(words) if word == join), len(words))
    left = joined(words[:at], rest, names)
    return [*left, *joined(words[at + 1:], joins, names), join] if at < len(words) else left


def compared(words: Sequence[str], names: Names) -> list[str]:
    if len(words) < 3 or words[1] != "in" and (words[1] not in SIGNS or len(words) > 3):
        raise BadRule(f"{FORM}, and not {' '.join(words)!r}")
    left, sign, *rights = (word if word in SIGNS else word if word == "in" else operand(word, names) for word in words)
    each = [[left, right, "==" if sign == "in" else sign] for right in rights]
    return each[0] + [token for one in each[1:] for token in (*one, "or")]


def operand(word: str, names: Names) -> str:
    """`rN`, `pc`, `part`, the same after `P:`, `fF:I`, `[NAME]`, `[P:ADDRESS]` or a number, as the process has it."""
    if found := REGISTER.fullmatch(word):
        number = {"pc": 16, "part": 17}.get(found[2], int(found[3] or 0))
        if found[3] and number > 15:
            raise BadRule(f"there is no register {word}: they are r0 to r15")
        return f"p{names.number(found[1])}:{number}" if found[1] else f"r{number}"
    inner = word[1:-1] if word.startswith("[") and word.endswith("]") else ""
    if found := WORD.fullmatch(inner or word):
        return f"f{int(found[1])}:{int(found[2])}"
    part, colon, address = inner.partition(":")
    if colon:
        return f"@{names.number(part)}:{names.number(address)}"
    return f"@1:{names.address(inner)}" if inner else str(names.number(word))


def differing(shown: str, world: World, peek: Callable[[int, int], int | None]) -> list[str]:
    """Of what a process shows of a state that breaks a rule, as `f38:0 5` and `p1:3 7`, what is otherwise in this
    world, with the words that `peek` shows of its frames."""
    runs = {at.name: [*at.context.registers, at.context.pc, at.name] for at in world.processors if at}
    words, wrong = shown.split(), []
    for word, number in zip(words[::2], words[1::2]):
        first, second = map(int, word[1:].split(":"))
        found = peek(first, second) if word[0] == "f" else runs[first][second] if first in runs else None
        if found != int(number):
            wrong.append(f"{word} {number}")
    return wrong
