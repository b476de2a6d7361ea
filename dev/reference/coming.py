"""Judges what `against` says of labels that come: goes through a loop, and draws fair choices against a bound."""

from __future__ import annotations

import random
import re
from collections.abc import Iterator

from common.machine import against, image as images, runs
from common.machine.against import Moment
from common.machine.runs import AT_FIRST, After

LINE = re.compile(r"(comes .*): (?:within (.*)|no((?: [^ :]+(?::d\d+)?(?:x\d+)?)*) :((?: \S+)+))")
COUNT = re.compile(r"(\d+) of (\w+)")
RUN = re.compile(r"(\d+|raise\d+|\d+:d\d+)(?:x(\d+))?")
WALKS = 4                                        # how many sequences of fair choices are drawn for a bound


def wrong(words: list[str], data: bytes, output: bytes) -> list[str]:
    """The lines of a label that comes which are wrong in the output of these words and this input."""
    if not output.startswith(b"image ") or b"\ncomes " not in output:
        return []
    lines = output.decode("utf-8", "surrogateescape").split("\n")
    image, text = images.parted(data)
    first = int(words[2]) if words[2:] and words[2] != "after" else 0
    place = words.index("after") if "after" in words else len(words)
    after = After(*map(int, words[place + 1:])) if words[place:] else AT_FIRST
    judge = Judge(image, first, after, against.menu_of(text))
    return [line for line in lines if not judge.is_right(line)]


class Judge:
    """What can happen to an image, choice by choice."""

    def __init__(self, image: images.Image, first: int, after: After, menu: against.Menu) -> None:
        self.moments = against.Moments(image, first, runs.steps(image, *after), menu.deeds)
        self.names = {self.moments.choice_text(choice): choice for choice in reversed(self.moments.choices)}

    def is_right(self, line: str) -> bool:
        """Whether a line is none of these, or a right one."""
        found = LINE.fullmatch(line)
        if not found:
            return True
        label = found[1][len("comes "):]
        return self.is_bound(label, found[2]) if found[2] else self.is_loop(label, found[3], found[4])

    def choices(self, runs: str) -> list[int]:
        """The choices of a way."""
        found = [RUN.fullmatch(run) for run in runs.split()]
        return [self.names[one[1]] for one in found if one for _ in range(int(one[2] or 1))]

    def shows(self, moment: Moment, choice: int, label: str) -> tuple[Moment, bool]:
        after, shown = self.moments.after(moment, choice)
        return after, shown is not None and f"{shown[0]} {shown[1]}" == label

    def is_loop(self, label: str, way: str, loop: str) -> bool:
        """Whether a loop leads back, with each class and without the label."""
        at = self.moments.start
        for choice in self.choices(way):
            at, _ = self.moments.after(at, choice)
        start, choices = at, self.choices(loop)
        for choice in choices:
            at, shown = self.shows(at, choice, label)
            if shown:
                return False
        return at == start and set(range(self.moments.usual)) <= set(choices)

    def is_bound(self, label: str, text: str) -> bool:
        """Whether a label was shown in time, by each of some sequences of fair choices."""
        found = [COUNT.fullmatch(part) for part in text.split(", ")]
        named = [(one[2], int(one[1])) for one in found if one]
        if [name for name, _ in named] != [*map(self.moments.choice_text, range(self.moments.usual))]:
            return False
        rng = random.Random(text)
        return all(self.is_shown(rng, label, [count for _, count in named]) for _ in range(WALKS))

    def is_shown(self, rng: random.Random, label: str, counts: list[int]) -> bool:
        windows = [rng.choice((self.moments.usual, self.moments.usual + 1, 9, 30)) for _ in range(self.moments.usual)]
        bound = sum(count * window for count, window in zip(counts, windows))
        at = self.moments.start
        for _ in range(rng.randrange(60)):
            at, _ = self.moments.after(at, rng.choice(self.moments.choices))
        for choice, _ in zip(self.fair(rng, windows), range(bound)):
            at, shown = self.shows(at, choice, label)
            if shown:
                return True
        return False

    def fair(self, rng: random.Random, windows: list[int]) -> Iterator[int]:
        """Choices of which among as many in a row as a window says is one of the class: the one that is due next is
        made where all others could no longer be in time."""
        due = list(windows)
        while True:
            order = sorted(due)
            free = all(limit > place + 1 for place, limit in enumerate(order))
            choice = rng.choice(self.moments.choices) if free else due.index(order[0])
            due = [limit - 1 for limit in due]
            if choice < self.moments.usual:
                due[choice] = windows[choice]
            yield choice
