"""What can happen to an image over all interleavings, where partitions may do anything of a menu; and the text of a
menu.

A partition is hostile where a deed of the menu is its own. Where it runs, its program has no turns: it waits for a
line, or does one of its deeds. A moment is a world without its caches, and the turns made so far, counted up to the one
from which on lines can come. A turn that changes nothing, for its processor runs nothing, stands for all that are left.
"""

from __future__ import annotations

from collections.abc import Callable, Sequence
from dataclasses import replace
from typing import NamedTuple

from . import script
from .image import Image
from .model import ROOT, WORDS as WORDS_OF_PAGE, Done, Running, Tree, World
from .runs import Turn
from .script import BadLine

EACH, AGAIN, COMES = b"each", b"again", b"comes"
ASKS = (AGAIN, COMES)                                   # the words before a label
LEFT_OUT = {b"any": ((script.WORD,), 64), b"free": ((script.WORD,), 256),    # the limits of numbers, and of lines
            b"seen": ((script.WORD, WORDS_OF_PAGE), 256), b"entry": ((script.WORD,) * 2, 256),
            b"row": ((script.WORD,) * 4, 256)}
WORDS = (b"ld", b"lb", b"st", b"sb", b"trap", b"call")       # the lines of scripts that are deeds
MOST_DEEDS, MOST_LABELS, MOST_LINES = 1024, 16, 65536    # of a menu


class Deed(NamedTuple):
    """What a partition may do: a word of scripts and the numbers after the processor. `name` is None for each but the
    root; `line` is the line of the menu.
    """

    name: int | None
    word: str
    numbers: tuple[int, ...]
    line: str

    def is_of(self, partition: int) -> bool:
        return partition != ROOT if self.name is None else partition == self.name


class Menu(NamedTuple):
    """What partitions may do, the labels of which it is asked whether they can come again, those of which it is asked
    whether they come, and the numbers of lines that leave words out."""

    deeds: list[Deed]
    again: list[str]
    comes: list[str]
    out: dict[bytes, list[tuple[int, ...]]]


# The text of a menu


def menu_of(data: bytes) -> Menu:
    """The menu that a text is."""
    menu = Menu([], [], [], {word: [] for word in LEFT_OUT})
    for place, line in enumerate(script.lines(data), 1):
        if len(line) > script.LONGEST:
            raise BadLine(place, "long")
        if line and not line.startswith(b"#"):
            add(menu, place, line)
        if place > MOST_LINES or len(menu.deeds) > MOST_DEEDS or len(menu.again) + len(menu.comes) > MOST_LABELS \
                or any(len(menu.out[word]) > most for word, (_, most) in LEFT_OUT.items()):
            raise BadLine(place, "many")
    return menu


def add(menu: Menu, place: int, line: bytes) -> None:
    """Adds what a line says that is neither blank nor a remark."""
    who, _, what = line.partition(b" ")
    if who in LEFT_OUT:
        menu.out[who].append(left_out(place, LEFT_OUT[who][0], what.split(b" ")))
    elif who not in ASKS:
        menu.deeds.append(deed_of(place, line))
    elif what:
        (menu.again if who == AGAIN else menu.comes).append(what.decode("utf-8", "surrogateescape"))
    else:
        raise BadLine(place, "what")


def left_out(place: int, limits: tuple[int, ...], words: list[bytes]) -> tuple[int, ...]:
    """The numbers after `any`, `free`, `seen`, `entry` or `row`."""
    try:
        numbers = tuple(map(script.number, words))
    except script.Bad:
        raise BadLine(place, "what") from None
    if len(numbers) != len(limits) or any(number >= limit for number, limit in zip(numbers, limits)):
        raise BadLine(place, "what")
    return numbers


def deed_of(place: int, line: bytes) -> Deed:
    who, *words = line.split(b" ")
    try:
        name = None if who == EACH else script.number(who)
    except script.Bad:
        raise BadLine(place, "who") from None
    try:
        return Deed(name, *what_of(words), line.decode())
    except script.Bad:
        raise BadLine(place, "what") from None


def what_of(words: list[bytes]) -> tuple[str, tuple[int, ...]]:
    """The event of a deed."""
    word, numbers = b"".join(words[:1]), tuple(map(script.number, words[1:]))
    if word not in WORDS:
        raise script.Bad
    limits = (script.WORD,) * min(max(len(numbers), 1), 6) if word == b"call" else script.FORMS[word][1:]
    if len(numbers) != len(limits) or any(number >= limit for number, limit in zip(numbers, limits) if limit):
        raise script.Bad
    return word.decode(), numbers


# What is done


class Hostile(Turn):
    """A turn of a hostile partition: it takes a line if it can, and else does its deed, if it is to do one."""

    def __init__(self, world: World, cpu: int, step: int, told: Callable[[str], object], deed: Deed | None) -> None:
        super().__init__(world, cpu, step, told)
        self.deed = deed

    def take(self) -> None:
        if isinstance(self.tell_switch(self.world.poll(self.cpu)), Done):
            self.do()

    def do(self) -> None:
        if self.deed is None:
            return
        outcome = script.event(self.world, self.deed.word.encode(), self.cpu, *self.deed.numbers)
        if self.deed.word == "call":
            self.tell(f"call {self.deed.numbers[0]} {script.outcome_text(outcome)}")
        else:
            self.tell_switch(outcome)


def is_hostile(at: Running | None, deeds: Sequence[Deed]) -> bool:
    """Whether what runs on a processor has a deed."""
    return at is not None and any(deed.is_of(at.name) for deed in deeds)


# Choice by choice

Label = tuple[int, str]                          # a processor, and a line of the trace without it and the step


class Moment(NamedTuple):
    """Two moments are one state where all of this is equal. A moment isn't changed: `world` makes one of its own."""

    turns: int
    tree: Tree
    processors: list[Running | None]

    def world(self) -> World:
        nodes = {name: replace(x, tables=list(x.tables), more=list(x.more), rows=dict(x.rows), pending=set(x.pending))
                 for name, x in self.tree.nodes.items()}
        words = {page: dict(words) for page, words in self.tree.words.items()}
        return World(Tree(self.tree.frames, nodes, words), list(self.processors))


class Moments:
    """The moments of an image from a world on, and the choices that lead from one to another: the turn of a processor,
    a line of the image's plans, and each deed of a menu on all processors, before the next."""

    def __init__(self, image: Image, first: int, start: World, deeds: Sequence[Deed] = ()) -> None:
        self.cpus, self.first, self.deeds = image.cpus, first, deeds
        self.lines = [plan.line for plan in image.plans]
        self.usual = self.cpus + len(self.lines)                 # choices that aren't deeds
        self.choices = range(self.usual + self.cpus * len(deeds))
        self.start = Moment(0, start.tree, start.processors)

    def choice_text(self, choice: int) -> str:
        if choice < self.usual:
            return str(choice) if choice < self.cpus else f"raise{self.lines[choice - self.cpus]}"
        deed, cpu = divmod(choice - self.usual, self.cpus)
        return f"{cpu}:d{deed + 1}"

    def after(self, before: Moment, choice: int) -> tuple[Moment, Label | None]:
        """The moment after a choice, and what the choice shows."""
        if choice < self.cpus:
            return self.after_turn(before, choice, None)
        if choice >= self.usual:
            deed, cpu = divmod(choice - self.usual, self.cpus)
            at = before.processors[cpu]
            is_own = at is not None and self.deeds[deed].is_of(at.name)
            return self.after_turn(before, cpu, self.deeds[deed]) if is_own else (before, None)
        world = before.world()
        if before.turns >= self.first:
            world.raise_line(self.lines[choice - self.cpus])
        return Moment(before.turns, world.tree, world.processors), None

    def after_turn(self, before: Moment, cpu: int, deed: Deed | None) -> tuple[Moment, Label | None]:
        world, at, told = before.world(), before.processors[cpu], list[str]()
        is_own = not is_hostile(at, self.deeds)
        (Turn(world, cpu, 0, told.append) if is_own else Hostile(world, cpu, 0, told.append, deed)).take()
        stays_idle = at is None and world.processors[cpu] is None
        turns = self.first if stays_idle else min(before.turns + 1, self.first)
        return Moment(turns, world.tree, world.processors), (cpu, told[0].split(" ", 2)[2]) if told else None
