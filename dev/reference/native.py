"""Native runs of an image, and time slots: children of the root are built of its pages. A monitor of the root runs them
in turn; or they have the slots of a round, again and again: each one slot of so many turns in turn, or those that are
given."""

from __future__ import annotations

from collections import deque
from collections.abc import Iterable, Sequence

from common.machine.image import Image, world as image_world
from common.machine.model import (EXECUTE, HANDLERS, NOWHERE, PAGE, READ, ROOT, SAVED, WRITE, Done, Reply, Status,
                                  Switched, World, pages_needed)
from common.machine.runs import Turn, first_line, raise_lines
from common.machine.script import call, outcome_text, word_text

MOST_CHILDREN = 8
PROGRAM = 0x400000                           # where a child has its program, and the root the first of them
BLOCK = HANDLERS + 0x400                     # after the 256 entries of a handler table
WANTS = ((PROGRAM, READ | WRITE | EXECUTE), (HANDLERS, READ | WRITE))


def frames_needed(n: int) -> int:
    """The least frames for n children: 13 pages for each, and what the kernel has of the root."""
    return 13 * n + 13


# The children


def fresh(n: int, i: int, j: int) -> int:
    """The address of page j of the twelve that child i takes beside the page of its program."""
    return PROGRAM + PAGE * (n + 12 * i + j)


def pool(n: int, i: int) -> list[int]:
    pages = [fresh(n, i, j) for j in range(12)]
    return pages[:8] + [PROGRAM + PAGE * i] + pages[8:]


def store(world: World, address: int, word: int) -> None:
    assert world.store(0, address, True, word) == Done()


def ask(world: World, number: int, *arguments: int) -> None:
    reply = call(world, 0, number, *arguments)
    assert isinstance(reply, Reply) and reply.status == Status.OK


def build(world: World, pages: Iterable[int], wants: Iterable[tuple[int, int]]) -> int:
    """The root builds a child of these pages: its configuration first, then for each want the tables that it lacks, as
    a chain, and the page that it gets there. Answers the address of its descriptor."""
    left = iter(pages)
    base = [next(left) for _ in range(5)]
    ask(world, 0, *base)
    child = world.tree.child_at(world.tree.nodes[ROOT], base[0])
    assert child is not None
    for address, rights in wants:
        chain = [next(left) for _ in range(pages_needed(child, address))]
        for page, following in zip(chain, chain[1:]):
            store(world, page, following)
        if chain:
            ask(world, 3, base[0], address, chain[0])
        ask(world, 5, next(left), base[0], address, rights)
    assert not list(left)
    return base[0]


def children(world: World, n: int) -> list[int]:
    """Builds n children, each with a handler of vector 63 that begins at its program, and answers their addresses."""
    for vector in range(256):
        store(world, HANDLERS + 4 * vector, BLOCK)
    built = []
    for i in range(n):
        page = fresh(n, i, 11)
        store(world, page + 4 * SAVED, BLOCK)
        store(world, page + BLOCK % PAGE, PROGRAM)
        built.append(build(world, pool(n, i), WANTS))
    return built


# The monitor


def root_runs(world: World) -> bool:
    at = world.processors[0]
    return at is not None and at.name == ROOT


def decided(world: World, alive: deque[tuple[int, int]]) -> str | None:
    """The root yields to the next child, which goes to the end of those that are alive, or drops it. None where there
    is nobody."""
    if not alive:
        return None
    i, address = alive.popleft()
    answer = call(world, 0, 8, address, SAVED, NOWHERE)
    if isinstance(answer, Switched):
        alive.append((i, address))
        return f"run {i}"
    assert isinstance(answer, Reply)
    return f"drop {i} {int(answer.status)}"


# The command


def begun(image: Image, n: int) -> tuple[list[str], World, list[int]]:
    """The first lines, the world of an image, and n children in it."""
    world = image_world(image)
    built = children(world, n)
    return [first_line(image)] + [f"built {i} {word_text(address)}" for i, address in enumerate(built)], world, built


def native(image: Image, n: int, count: int) -> tuple[list[str], World]:
    """The text, line by line, of that many steps in which a monitor runs n children, and the last world."""
    told, world, built = begun(image, n)
    alive = deque(enumerate(built))
    for step in range(count):
        raise_lines(image, world, step)
        if not root_runs(world):
            Turn(world, 0, step, told.append).take()
        elif decision := decided(world, alive):
            told.append(f"{step} 0 {decision}")
    return told + [f"end {count}"], world


# Slots


LINE = 0                 # the interrupt line that ends a slot
MOST_SLOTS = 64          # in a round that is given

Round = Sequence[tuple[int, int]]    # of each slot its child, counted from 0, and its turns


def slot(world: World, told: list[str], first: int, child: int, turns: int) -> None:
    """From a step on the root yields into the child, the processor has its turns, and line 0 ends the slot."""
    told.append(f"{first} 0 call 8 {outcome_text(call(world, 0, 8, child, SAVED, NOWHERE))}")
    last = first + 1 + turns
    for step in range(first + 1, last):
        if not root_runs(world):
            Turn(world, 0, step, told.append).take()
    if not root_runs(world):
        world.raise_line(LINE)
        Turn(world, 0, last, told.append).tell_switch(world.poll(0))


def slots(image: Image, n: int, round: Round, rounds: int) -> tuple[list[str], World]:
    """The text, line by line, and the last world."""
    told, world, built = begun(image, n)
    step = 0
    for _ in range(rounds):
        for child, turns in round:
            slot(world, told, step, built[child], turns)
            step += turns + 2
    return told + [f"end {step}"], world
