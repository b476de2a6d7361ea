"""Assembly texts made of the phrases of phrases.txt, and lines that are bad or nearly so, by a seed."""

import random
import re
from collections.abc import Mapping
from typing import TypeVar

from common.blocks import blocks, listed

T = TypeVar("T")
Names = Mapping[str, object]

PHRASES = {name: text.splitlines() for name, text in blocks("phrases.txt", __file__).items() if name[0] != "="}
WORDS = dict(name[2:].split(" ", 1) for name in blocks("phrases.txt", __file__) if name[0] == "=")
LINE = re.compile(r"(?:(\w+)% )?(?:(\S+) \* )?(.*)")
LINES = {title: listed(text) for title, text in blocks("lines.txt", __file__).items()}
LAST_WORDS = (b"0%s", b"4294967296", b"0x000000000", b"0xABC", b"-1")      # in the place of the last word, `%s`
RANGE = re.compile(r"(r?)(\d+)\.\.(\w+)")


class Drawing:
    """What is made by a seed."""

    def __init__(self, seed: int) -> None:
        self.random = random.Random(seed)

    def chance(self, share: float) -> bool:
        return self.random.random() < share

    def pick(self, *options: T) -> T:
        return self.random.choice(options)


class Text(Drawing):
    """An assembly text in the making."""

    def __init__(self, seed: int) -> None:
        super().__init__(seed)
        self.lines: list[str] = []
        self.labels = 0

    def label(self) -> str:
        self.labels += 1
        return f"{self.pick('at', 'L', '_x', 'r', 'loop')}_{self.labels}"

    # Lines

    def say(self, *words: object) -> None:
        self.lines.append(" ".join(map(str, words)))

    def set(self, register: str, value: object) -> None:
        """A register gets a value of 32 bits."""
        number = int(str(value), 0)
        self.say("li", register, number & 0xFFFF)
        if number > 0xFFFF:
            self.say("lih", register, number >> 16)

    def call(self, number: object, *arguments: object) -> None:
        for register, argument in enumerate(arguments, 1):
            self.set(f"r{register}", argument)
        self.say("sys", number)

    def store(self, address: object, word: object) -> None:
        self.set("r7", address)
        self.set("r8", word)
        self.say("stw r8 r7 0")

    # Phrases

    def tell(self, name: str, **names: object) -> None:
        """The lines of a phrase, or those of the method that has its place; `names` are words that it may use."""
        if name not in PHRASES:
            getattr(self, name)()
            return
        own = {line[:-1]: self.label() for line in PHRASES[name] if line.endswith(":")}
        for line in PHRASES[name]:
            found = LINE.fullmatch(line)
            assert found
            share, times, rest = found.groups()
            if share is None or self.chance(int(self.word(share, names)) / 100):
                for _ in range(int(self.word(times, names)) if times else 1):
                    self.made(rest, {**names, **own})

    def made(self, line: str, names: Names) -> None:
        if line.startswith("<"):
            self.tell(self.chosen(str(names.get(line[1:-1], line[1:-1]))), **names)
        elif line.endswith(":"):
            self.say(f"{names[line[:-1]]}:")
        else:
            words = [self.word(word, names) for word in line.split(" ")]
            if words[0] in ("set", "call", "store"):
                getattr(self, words[0])(*words[1:])
            else:
                self.say(*words)

    def chosen(self, told: str) -> str:
        """One of some words, of which `2*a` counts twice."""
        counted = [re.fullmatch(r"(?:(\d+)\*)?(.*)", word) for word in told.split("|")]
        options = [found[2] for found in counted if found]
        return self.random.choices(options, [int(found[1] or 1) for found in counted if found])[0]

    def word(self, told: str, names: Names) -> str:
        """A word of a line: with one choice made, and added up."""
        word = self.chosen(told)
        if "+" in word:
            return str(sum(int(self.word(part, names), 0) for part in word.split("+")))
        if found := RANGE.fullmatch(word):
            return found[1] + str(self.random.randint(int(found[2]), int(found[3], 0)))
        other = str(names.get(word, WORDS.get(word, word)))
        return other if other == word else self.word(other, names)


def spoilt_line(rng: random.Random, line: bytes) -> bytes:
    """A line that is bad, or nearly so, made of a good one."""
    words = line.split(b" ")
    last = rng.choice(LAST_WORDS).replace(b"%s", words[-1])
    return rng.choice((
        line + b" ", b" " + line, line + b"\r", line + b" 0", line + bytes([rng.randrange(128, 256)]), line.upper(),
        line.replace(b" ", b"  ", 1), line.replace(b" ", b"\t", 1), b" ".join(words[:-1]),
        b" ".join(words[:1] + [b"4"] + words[2:]), *4 * [b" ".join([*words[:-1], last])]))
