"""Ways of the commands `every` and `against`: choice by choice, and as a script.

They are made again by dev/reference, of which nothing is proved.
"""

from __future__ import annotations

import itertools
import re
from collections.abc import Callable, Iterator, Sequence
from typing import NamedTuple

from common.calling import Failed, ensure
from common.machine import against, image as images, runs, script as scripts
from common.machine.against import Deed
from common.machine.image import Image
from common.machine.model import (LOAD, NOWHERE, PAGE, ROOT, SAVED, Context, Outcome, Parked, Place, Switched, Tree,
                                  World)
from common.machine.runs import AT_FIRST, After
from common.machine.script import outcome_text, word_text
from . import trace

CHOICES = re.compile(r"(\d(?::d[1-9]\d*)?|raise\d+)(?:x(\d+))?")
MOST_CHOICES = 1_000_000
BLOCK = 17                       # words of a block: a pc and 16 registers


class Choice(NamedTuple):
    """The turn of a processor, or a line that is raised."""

    number: int                  # of the processor, or of the line
    raises: bool = False
    deed: Deed | None = None     # what is done in the turn


Way = list[Choice]
Menu = Sequence[Deed]


def read(image: Image, text: str, menu: Menu = ()) -> Way:
    """The choices of a way's text."""
    words = choices_of(text)
    choices = {word: choice_of(image, word, menu) for word in dict.fromkeys(words)}
    return [choices[word] for word in words]


def choices_of(text: str) -> list[str]:
    """The words of a way's text, each as often as it says."""
    words: list[str] = []
    for word in text.split(" "):
        found = CHOICES.fullmatch(word)
        if not found:
            raise Failed(f"{word!r} is no choice of a way")
        count = int(found[2] or "1")
        if len(words) + count > MOST_CHOICES:
            raise Failed(f"a way of more than {MOST_CHOICES} choices isn't made again")
        words += [found[1]] * count
    return words


def choice_of(image: Image, word: str, menu: Menu) -> Choice:
    number, _, deed = word.removeprefix("raise").partition(":d")
    if word.startswith("raise"):
        return Choice(int(number), True)
    ensure(int(number) < image.cpus and int(deed or "0") <= len(menu), f"{word!r} is no choice of this image")
    return Choice(int(number), False, menu[int(deed) - 1] if deed else None)


def before(image: Image, after: After) -> Way:
    """The choices that the steps before a search are, without the turns that change nothing."""
    world, way = images.world(image), list[Choice]()
    for step, cpu, raised in runs.drawn(image, world, after.steps, after.seed):
        way += [Choice(line, True) for line in raised]
        if not is_idle(world, cpu):
            way.append(Choice(cpu))
            runs.Turn(world, cpu, step, lambda line: None).take()
    return way


def is_idle(world: World, cpu: int) -> bool:
    """Whether a turn of this processor would change nothing now: it runs nothing, and takes no line."""
    root = world.tree.nodes[ROOT]
    takes = ROOT not in world.running() and any(world.tree.handler(root, 32 + line) for line in root.pending)
    return world.processors[cpu] is None and not takes


def text_of(way: Way) -> str:
    """The text of a way without deeds: choices that are the same in a row as one, with their number."""
    names = (f"raise{choice.number}" if choice.raises else str(choice.number) for choice in way)
    grouped = ((name, len(list(same))) for name, same in itertools.groupby(names))
    return " ".join(name if count == 1 else f"{name}x{count}" for name, count in grouped)


class Waiting(trace.Watched, against.Hostile):
    """A turn of a hostile partition that notes what it did."""

    def do(self) -> None:
        self.note(self.deed.line if self.deed else "it waits")
        super().do()


def turn_of(world: World, choice: Choice, menu: Menu, step: int, told: Callable[[str], object]) -> trace.Watched:
    """The turn that a choice is."""
    if against.is_hostile(world.processors[choice.number], menu):
        return Waiting(world, choice.number, step, told, choice.deed)
    return trace.Watched(world, choice.number, step, told)


# Choice by choice


class Made(NamedTuple):
    """A choice that was made: its turn, if it isn't a line that was raised, with its lines, and the world after it."""

    step: int
    choice: Choice
    turn: trace.Watched | None
    lines: list[str]
    world: World


def made(image: Image, way: Way, menu: Menu = (), after: After = AT_FIRST) -> Iterator[Made]:
    world = runs.steps(image, *after)
    for step, choice in enumerate(way):
        lines: list[str] = []
        turn = None
        if choice.raises:
            world.raise_line(choice.number)
        else:
            turn = turn_of(world, choice, menu, step, lines.append)
            turn.take()
        yield Made(step, choice, turn, lines, world)


# As a script


class Told(World):
    """A world that says each event as a line of a script.

    A script changes no registers but by calls and where a partition is entered. So before an event that saves a context
    the partition writes it into the block to which it will be saved, and enters itself by that block.
    """

    def __init__(self, image: Image) -> None:
        first = images.world(image)
        super().__init__(first.tree, first.processors)
        self.other = scripts.Script()                    # the script on its way
        self.lines: list[str] = []
        self.answers: list[str] = []
        self.say(f"boot {image.frames} {image.cpus}")
        for vpage, words in image.pages:
            for index, word in enumerate(words):
                if word:
                    self.say(f"st 0 {word_text(PAGE * vpage + 4 * index)} {word_text(word)}")

    @property
    def script_world(self) -> World:
        assert self.other.world is not None
        return self.other.world

    def say(self, line: str) -> str:
        answer = self.other.line(line.encode())
        assert answer is not None
        self.lines.append(line)
        self.answers.append(answer)
        return answer

    def remark(self, text: str) -> None:
        self.lines.append(f"# {text}"[:scripts.LONGEST])

    def event(self, cpu: int, line: str, make: Callable[[], Outcome], block: int = SAVED) -> Outcome:
        """Makes an event. Where it saves what runs there, that is by the block of this vector."""
        self.mask()
        at = self.processors[cpu]
        outcome = make()
        if at and isinstance(outcome, (Switched, Parked)) and block < NOWHERE:
            self.bring(cpu, at.context, block, outcome)
        if self.say(line) != outcome_text(outcome):
            raise Failed(f"a script can't tell this way: '{line}' is answered by {self.answers[-1]!r}, "
                         f"and in the run there is {outcome_text(outcome)!r}")
        return outcome

    def bring(self, cpu: int, context: Context, vector: int, outcome: Outcome) -> None:
        """The script's processor gets this context, where this outcome will save it."""
        world = self.script_world
        node, tree = world.node_on(cpu), world.tree
        place, address = tree.save_place(node, vector), tree.block(node, vector)
        if place is None or address is None or world.running_on(cpu).context == context:
            return
        is_read = reads(tree, outcome, place)
        old = [tree.word(place.page, place.index + index) for index in range(BLOCK)]
        self.write(cpu, address, old, [context.pc, *context.registers])
        was_masked = node.masked
        self.say(f"call {cpu} 8 1 {vector} {NOWHERE}")
        if is_read:
            self.write(cpu, address, [context.pc, *context.registers], old)
        if was_masked and not node.masked and context.registers[:2] == (0, 0):
            self.say(f"call {cpu} 10")

    def write(self, cpu: int, address: int, old: list[int], new: list[int]) -> None:
        for index, word in enumerate(new):
            if word != old[index]:
                self.say(f"st {cpu} {word_text(address + 4 * index)} {word_text(word)}")

    def mask(self) -> None:
        """The script's root gets the mask of the way's, which it lost at a yield to itself. It has to run for that."""
        world = self.script_world
        for cpu, at in enumerate(world.processors):
            if at and at.name == ROOT and world.node_on(cpu).masked != self.tree.nodes[ROOT].masked:
                self.say(f"call {cpu} {10 if self.tree.nodes[ROOT].masked else 11}")

    # The events of a turn

    def poll(self, cpu: int) -> Outcome:
        return self.event(cpu, f"poll {cpu}", lambda: super(Told, self).poll(cpu))

    def fetch(self, cpu: int) -> Outcome:
        return self.event(cpu, f"fetch {cpu}", lambda: super(Told, self).fetch(cpu))

    def load(self, cpu: int, address: int, is_word: bool) -> Outcome:
        line = f"{'ld' if is_word else 'lb'} {cpu} {word_text(address)}"
        return self.event(cpu, line, lambda: super(Told, self).load(cpu, address, is_word))

    def store(self, cpu: int, address: int, is_word: bool, value: int) -> Outcome:
        line = f"{'st' if is_word else 'sb'} {cpu} {word_text(address)} {value}"
        return self.event(cpu, line, lambda: super(Told, self).store(cpu, address, is_word, value))

    def trap(self, cpu: int, vector: int, a: int, b: int) -> Outcome:
        line = f"trap {cpu} {vector} {word_text(a)} {word_text(b)}"
        return self.event(cpu, line, lambda: super(Told, self).trap(cpu, vector, a, b))

    def call(self, cpu: int, number: int, arguments: list[int]) -> Outcome:
        line = " ".join([f"call {cpu} {number}", *map(word_text, arguments)])
        block = arguments[2] if number == 8 else NOWHERE
        return self.event(cpu, line, lambda: super(Told, self).call(cpu, number, arguments), block)

    def raise_line(self, line: int) -> Outcome:
        return self.event(0, f"raise {line}", lambda: super(Told, self).raise_line(line))

    def set_context(self, cpu: int, context: Context) -> Outcome:
        """Of what an instruction changes a script has the pc alone."""
        outcome = super().set_context(cpu, context)
        if self.script_world.running_on(cpu).context.pc != context.pc:
            self.say(f"pc {cpu} {word_text(context.pc)}")
        return outcome


def reads(tree: Tree, outcome: Outcome, place: Place) -> bool:
    """Whether a switch reads its handler in the block at that place, or beside it in words of that."""
    if not isinstance(outcome, Switched):
        return False
    taker = tree.nodes[outcome.target]
    address = tree.block(taker, outcome.vector)
    read = tree.reach(taker, address, LOAD, True) if address is not None else None
    return isinstance(read, Place) and read.page == place.page and abs(read.index - place.index) < BLOCK


def script(image: Image, way: Way, menu: Menu = (), after: After = AT_FIRST) -> tuple[str, list[str]]:
    """A script that makes the events of the steps before a way and those of the way, and its answers."""
    world = Told(image)
    if after.steps:
        make(world, before(image, after))
        world.remark(f"after {after.steps} steps by the seed {after.seed}")
    make(world, way, menu)
    ends_as_the_way(world)
    return "".join(line + "\n" for line in world.lines), world.answers


def make(world: Told, way: Way, menu: Menu = ()) -> None:
    for step, choice in enumerate(way):
        if choice.raises:
            world.remark(f"{step} line {choice.number} is raised")
            world.raise_line(choice.number)
            continue
        place = len(world.lines)
        lines: list[str] = []
        turn = turn_of(world, choice, menu, step, lines.append)
        turn.take()
        did = turn.did or trace.without_instruction([line.split(" ", 2)[2] for line in lines])
        world.lines.insert(place, f"# {step} {choice.number} {did}"[:scripts.LONGEST])
        if lines and " out " in lines[-1]:
            world.remark(lines[-1])


def ends_as_the_way(world: Told) -> None:
    """At the end all frames are those of the way, but for the mask of a root that parked and hasn't run since."""
    world.mask()
    root, other = world.tree.nodes[ROOT], world.script_world.tree
    if root.masked != other.nodes[ROOT].masked:
        word = "masked" if root.masked else "unmasked"
        world.remark(f"no line can say this here: the root is {word}, word 14 of frame 1")
        other.nodes[ROOT].masked = root.masked
    ensure(runs.core_lines(world.tree) == runs.core_lines(other), "the frames after the script aren't those after the "
           "way")
