"""Scripts: their lines, their answers and how they end, in the words of docs/FORMATS.md."""

from __future__ import annotations

import io
import re
from collections.abc import Callable
from dataclasses import dataclass

from . import layout
from .model import WORDS, Done, Idle, Outcome, Parked, Reply, Switched, Word, World

LONGEST = 120            # bytes of a line, its newline not counted
MOST = 1 << 24           # bytes of an input

NUMBER = re.compile(rb"0|[1-9][0-9]*|0x[0-9a-f]{1,8}")

# What each number of a form is below: processors by the boot line
WORD = 1 << 32
BYTE = 256
CPU = None

FORMS: dict[bytes, tuple[int | None, ...]] = {
    b"ld": (CPU, WORD), b"lb": (CPU, WORD), b"st": (CPU, WORD, WORD), b"sb": (CPU, WORD, BYTE), b"fetch": (CPU,),
    b"trap": (CPU, BYTE, WORD, WORD), b"raise": (16,), b"poll": (CPU,), b"peek": (WORD, WORD), b"reg": (CPU, 17),
    b"pc": (CPU, WORD)}


class Bad(Exception):
    """A line is outside the grammar."""


@dataclass(eq=False)
class BadLine(Exception):
    """The first bad line of a text, counted from 1, and of which kind its fault is, where faults have kinds."""

    line: int
    kind: str = ""


def number(text: bytes) -> int:
    """The number that a word is."""
    if not NUMBER.fullmatch(text) or (value := int(text, 16 if text.startswith(b"0x") else 10)) >= WORD:
        raise Bad
    return value


def word_text(word: int) -> str:
    return f"0x{word:08x}"


def outcome_text(outcome: Outcome) -> str:
    if isinstance(outcome, Word):
        return word_text(outcome.word)
    if isinstance(outcome, Reply):
        return f"reply {int(outcome.status)} {word_text(outcome.value)}"
    return " ".join([{Done: "done", Switched: "switch", Parked: "park", Idle: "idle"}[type(outcome)],
                     *map(str, outcome)])


class Script:
    """A script on its way: the world, once there is one."""

    def __init__(self) -> None:
        self.world: World | None = None

    def line(self, line: bytes) -> str | None:
        """The answer of a line, or None where it has none."""
        if len(line) > LONGEST:
            raise Bad
        if not line or line.startswith(b"#"):
            return None
        name, *operands = line.split(b" ")
        numbers = [number(operand) for operand in operands]
        if self.world is None:
            return self.boot(name, numbers)
        form = (CPU, *(WORD,) * min(max(len(numbers) - 1, 1), 6)) if name == b"call" else FORMS.get(name)
        cpus = len(self.world.processors)
        if form is None or len(numbers) != len(form):
            raise Bad
        if any(x >= (cpus if limit is CPU else limit) for x, limit in zip(numbers, form)):
            raise Bad
        if name == b"peek":
            return peek(self.world, *numbers)
        return register(self.world, *numbers) if name == b"reg" else outcome_text(event(self.world, name, *numbers))

    def boot(self, name: bytes, numbers: list[int]) -> str:
        if name != b"boot" or len(numbers) != 2:
            raise Bad
        frames, cpus = numbers
        if not 16 <= frames <= 4096 or not 1 <= cpus <= 4:
            raise Bad
        self.world = World.boot(frames, cpus)
        return f"boot {frames} {cpus}"


def call(world: World, cpu: int, number: int, *arguments: int) -> Outcome:
    """A call; the arguments that aren't given are 0."""
    return world.call(cpu, number, [*arguments, *[0] * (5 - len(arguments))])


def event(world: World, name: bytes, *x: int) -> Outcome:
    """What a line with these numbers does, but for those that only look."""
    if name == b"call":
        return call(world, *x)
    if name in (b"ld", b"lb"):
        return world.load(x[0], x[1], name == b"ld")
    if name in (b"st", b"sb"):
        return world.store(x[0], x[1], name == b"st", x[2])
    others: dict[bytes, Callable[..., Outcome]] = {
        b"fetch": world.fetch, b"trap": world.trap, b"raise": world.raise_line, b"poll": world.poll,
        b"pc": world.set_pc}
    return others[name](*x)


def peek(world: World, frame: int, index: int) -> str:
    is_there = frame < world.tree.frames and index < WORDS
    return word_text(layout.word(world.tree, frame, index)) if is_there else "none"


def register(world: World, cpu: int, number: int) -> str:
    at = world.processors[cpu]
    return word_text((*at.context.registers, at.context.pc)[number]) if at else "idle"


def lines(text: bytes) -> list[bytes]:
    """The lines of an input: what stands between newlines, and a rest that isn't empty."""
    found = text.split(b"\n")
    return found if found[-1] else found[:-1]


def run(text: bytes) -> tuple[bytes, int]:
    """What the command `script` writes for an input, and its status: 0, 2 or 6."""
    return ended(text)[:2]


def ended(text: bytes) -> tuple[bytes, int, World | None]:
    """The same, and the world that the script leaves; None where the status isn't 0 or no line made one."""
    written: list[bytes] = []
    status, world = answered(io.BytesIO(text).readline, written.append)
    return b"".join(written), status, world


def answered(read: Callable[[], bytes], write: Callable[[bytes], object]) -> tuple[int, World | None]:
    """Answers lines as they come. Of an input beyond the limit those are judged that are whole, or too long, before it.
    """
    script, taken = Script(), 0
    for place, line in enumerate(iter(read, b""), 1):
        taken += len(line)
        inside = line[:len(line) - max(taken - MOST, 0)]
        if taken > MOST and len(inside) <= LONGEST:
            return 6, None
        try:
            answer = script.line(inside.removesuffix(b"\n"))
        except Bad:
            write(b"bad line %d\n" % place)
            return 2, None
        if answer is not None:
            write(answer.encode() + b"\n")
    return 0, script.world
