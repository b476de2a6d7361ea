"""How the instructions of a command grow with its input: four sizes, each ten times the one before, of two programs.

What a size takes is without what the smallest input takes. A slope of 1.00 is linear: the last size takes ten times
what the one before it takes.
"""

import math
from collections.abc import Callable, Iterator
from typing import NamedTuple

from common.machine import runs, script
from .count import Counted
from .timing import example, keys

SIZES = (100, 1000, 10_000, 100_000)


class Growing(NamedTuple):
    """A command over inputs of sizes: its words, with {} for the size, and the input of a size."""

    what: str
    words: str
    text: Callable[[Counted, int], bytes]
    sizes: tuple[int, ...] = SIZES


def repeated(head: str, line: str) -> Callable[[Counted, int], bytes]:
    return lambda program, count: (head + f"{line}\n" * count).encode()


def assembled(program: Counted, count: int) -> bytes:
    """That many instructions, a thousand a page."""
    pages = (f".page {0x400000 + 4096 * page:#x}\n" + "li r1 5\n" * min(1000, count - 1000 * page)
             for page in range((count + 999) // 1000))
    return (".frames 1024\n.cpus 1\n" + "".join(pages)).encode()


def children(program: Counted, count: int) -> bytes:
    """The text of a memory whose root has that many children."""
    told = script.Script()
    told.line(b"boot 4096 1")
    for child in range(count):
        pages = " ".join(f"{0x400000 + 4096 * (5 * child + page):#x}" for page in range(5))
        told.line(f"call 0 0 {pages}".encode())
    assert told.world is not None
    return "".join(f"{line}\n" for line in [*runs.core_lines(told.world.tree), "end 0"]).encode()


def monitor(program: Counted, count: int) -> bytes:
    return example(program, "examples/monitor.s")


GROWING = (
    Growing("lines `ld` of a script", "script", repeated("boot 16 1\n", "ld 0 0x400000")),
    Growing("lines `li` of an assembly text", "asm", assembled),
    Growing("remarks of an assembly text", "asm", repeated(".frames 16\n.cpus 1\n", "# a remark")),
    Growing("steps of `run`", "run {} 1", monitor),
    Growing("states of `every`", "every {}", monitor),
    Growing("children of a memory by `audit`", "audit 4096", children, (1, 8, 80, 800)),
    Growing("lines of `merge`", "merge", lambda program, count: keys(program, str(count))),
)


def counts(growing: Growing, program: Counted) -> list[int]:
    found = [program.instructions(growing.text(program, size), *growing.words.format(size).split())
             for size in growing.sizes]
    return [count - found[0] for count in found[1:]]


def rows(ours: Counted, plain: Counted) -> Iterator[str]:
    """A row for each, with the slope of the last decade."""
    for growing in GROWING:
        both = [counts(growing, program) for program in (ours, plain)]
        slopes = [math.log10(last / before) for *_, before, last in both]
        cells = [growing.what, *(f"{count:,}" for count in both[0]), *(f"{slope:.2f}" for slope in slopes)]
        yield f"| {' | '.join(cells)} |"
