"""Which works are the same text but for remarks, names and how numbers are written, or for registers and pages, too, or
nearly so."""

import itertools
import re
from collections import Counter
from collections.abc import Iterator, Mapping, Sequence

MOST_LINES = 3000            # of a work that are looked at
LEAST_LINES = 16             # a shorter work is like another one only where it is the same
LEAST_MOVED = 12             # and is like one with other registers or pages only from here on
NEAR = 0.92                  # of the lines are in both
WORD = re.compile(r"[<>]?[A-Za-z_.][A-Za-z0-9_.]*|0x[0-9a-f]+|-?[0-9]+|\S")
NUMBER = re.compile(r"0x[0-9a-f]{1,13}|[0-9]{1,16}")
NAME = re.compile(r"[A-Za-z_][A-Za-z0-9_]*")
REGISTER = re.compile(r"r([0-9]|1[0-5])")
PAGE = 4096


def essence(text: bytes, is_program: bool) -> list[str]:
    """The lines of a text without remarks and blank lines, names numbered as they come, and numbers decimal."""
    names: dict[str, str] = {}
    lines = text.decode("utf-8", "replace").split("\n")
    told = (" ".join(plain(words, names, is_program)) for words in map(words_of, lines) if words)
    return list(itertools.islice(told, MOST_LINES))


def words_of(line: str) -> list[str]:
    return WORD.findall(line.split("#", 1)[0])


def plain(words: list[str], names: dict[str, str], is_program: bool) -> Iterator[str]:
    for place, word in enumerate(words):
        half, name = (word[0], word[1:]) if word[0] in "<>" else ("", word)
        if NUMBER.fullmatch(word):
            yield str(int(word, 16) if word.startswith("0x") else int(word))
        elif is_program and NAME.fullmatch(name) and not REGISTER.fullmatch(name) and (place or words[1:2] == [":"]):
            yield half + names.setdefault(name, f"name{len(names)}")
        else:
            yield word


def shape(text: Sequence[str]) -> tuple[str, ...]:
    """The same lines with registers, pages and frames numbered as they come: those that were renamed or moved are the
    same."""
    known: dict[tuple[str, int], int] = {}

    def number(kind: str, value: int) -> str:
        return f"{kind}{known.setdefault((kind, value), len(known))}"

    def moved(first: str, place: int, word: str) -> str:
        if REGISTER.fullmatch(word):
            return number("r", int(word[1:]))
        if not NUMBER.fullmatch(word):
            return word
        value = int(word)
        if (first, place) == ("peek", 1) or first == "lih":
            return number(first, value)
        return word if value < PAGE else f"{number('page', value // PAGE)}+{value % PAGE}"

    lines = (line.split(" ") for line in text)
    return tuple(" ".join(moved(words[0], place, word) for place, word in enumerate(words)) for words in lines)


def alike(texts: Mapping[str, Sequence[str]]) -> list[tuple[str, list[str]]]:
    """The works that are the same text, and of different texts those that are the same but for registers and pages, or
    nearly the same: how, and whose they are."""
    same: dict[tuple[str, ...], list[str]] = {}
    for who, text in texts.items():
        if text:
            same.setdefault(tuple(text), []).append(who)
    shapes = {text: shape(text) for text in same}
    pairs = ((likeness(a, b, shapes), [who[0], others[0]])
             for (a, who), (b, others) in itertools.combinations(same.items(), 2))
    return [("the same text", who) for who in same.values() if len(who) > 1] + [(how, who) for how, who in pairs if how]


def likeness(a: tuple[str, ...], b: tuple[str, ...], shapes: Mapping[tuple[str, ...], tuple[str, ...]]) -> str:
    """How two different texts are alike; nothing where they aren't."""
    if len(a) >= LEAST_MOVED and shapes[a] == shapes[b]:
        return "the same text with other registers or pages"
    return "nearly the same text" if is_near(a, b) or is_near(shapes[a], shapes[b]) else ""


def is_near(a: Sequence[str], b: Sequence[str]) -> bool:
    """Whether most lines are in both, in any order: no text makes this slow."""
    if min(len(a), len(b)) < LEAST_LINES:
        return False
    return 2 * sum((Counter(a) & Counter(b)).values()) >= NEAR * (len(a) + len(b))
