"""Writes inputs that cost a command most, as far as such were found.

    dev/bench/worst names prefixes COUNT     an assembly text of that many labels, which begin with the same 26 letters
    dev/bench/worst chain DEPTH BYTES KIND   a script that works at the end of a chain of partitions
    dev/bench/worst events DEPTH EVENT       a script whose last line is delivered by a chain of partitions, or a poll
    dev/bench/worst audit                    a text of 4096 frames
    dev/bench/worst build WANTS COUNT        a script: a child is built with that many wants and ended, again and again
    dev/bench/worst calls                    an assembly text, for `run`: its root makes and ends a child in a loop
    dev/bench/worst faults                   an assembly text, for `native`, `slots`: children fault at each instruction
    dev/bench/worst fill                     an assembly text, for `every`: it stores a word in place after place

KIND of a chain: `create` makes and ends a child again and again, `prepare` gives a child tables and takes them back.
BYTES is the size of the script, at most. EVENT is load, store, fetch, trap or poll: all partitions but the root have a
handler whose block is nowhere, and what is saved goes to another page than the entries; all lines are pending, and the
last alone has a block. DEPTH is at most 90. WANTS, at most 990, are each in a directory of its own."""

import os
import sys
from collections.abc import Callable, Iterator

from common import calling
from step import walk
from . import deletions

Memory = dict[int, dict[int, int]]


# ---- names

def labels(kind: str, count: str) -> Iterator[str]:
    """Names of 32 letters that differ only in the last six."""
    if kind != "prefixes":
        raise calling.Failed(f"there are no names of the kind {kind}")
    yield from (".frames 16", ".cpus 1", ".page 0x400000")
    yield from (f"{'a' * 26}{k:06}:" for k in range(int(count)))


# ---- chains

def chain(depth: str, most: str, kind: str) -> Iterator[str]:
    """The lines that make a chain, and then the same few lines until there is no more room."""
    lines = ["boot 4096 1"]
    pages = [0x400000 + 4096 * k for k in range(1, 4060)]
    for left in reversed(range(int(depth))):
        lines += deletions.family(pages, 9 * left + 9) + [deletions.call(8, pages[0], 64, 256)]
        pages = deletions.CHILD_PAGES
    child, place = pages[0], 0x10000000
    made = deletions.call(0, *pages[:5])
    if kind == "create":
        again = [made, deletions.call(1, child)]
    else:
        links = deletions.table(pages, 5, place)
        lines += [made] + links[:-1]
        again = [links[-1], deletions.call(4, child, place)]
    yield from lines
    room = int(most) - sum(len(line) + 1 for line in lines)
    for _ in range(room // sum(len(line) + 1 for line in again)):
        yield from again


# ---- events that are delivered

GONE, BLOCKS = 0xFFFFE000, 0x401000      # an address with a table and no row, and a page for the root's blocks
EVENTS = {"load": ["ld 0 0x20000000"], "store": ["st 0 0x20000000 1"], "fetch": ["fetch 0"], "trap": ["trap 0 14 0 0"],
          "poll": [*(f"raise {line}" for line in range(16)), "poll 0"]}


def events(depth: str, event: str) -> Iterator[str]:
    """A chain in which each partition has its entries in a page of its own, and then the event."""
    yield "boot 4096 1"
    yield from (entry(0xFFFFF000, 32 + line, GONE) for line in range(15))
    yield from (entry(0xFFFFF000, vector, BLOCKS + 0x100 * k) for k, vector in enumerate((47, 14, 63)))
    pages = [0x400000 + 4096 * k for k in range(2, 4060)]
    for left in reversed(range(int(depth))):
        made = deletions.family(pages, 10 * left + 10)
        lent = made.index(deletions.lend(pages, 8, 1, 0xFFFFF000)[0])
        yield from made[:lent]
        yield from (entry(pages[8], 14, GONE), entry(pages[8], 63, deletions.CHILD_PAGES[0]))
        yield from (*made[lent:], deletions.call(8, pages[0], 64, 256))
        pages = deletions.CHILD_PAGES[1:]
    yield from EVENTS[event]


def entry(page: int, vector: int, block: int) -> str:
    """The root, or who has a page of its own there, has its block for a vector at an address."""
    return f"st 0 {page + 4 * vector:#x} {block:#x}"


# ---- children that are built

def built(wants: str, count: str) -> Iterator[str]:
    """The events of `build` of pip_parent: for each want stores that chain a table's pages, a prepare, an addVAddr."""
    pages = iter(0x400000 + 4096 * k for k in range(4075))
    base = [next(pages) for _ in range(5)]
    lines = [deletions.call(0, *base)]
    for k in range(int(wants)):
        chain = [next(pages) for _ in range(4 if k and k % 170 == 0 else 3)]
        lines += [f"st 0 {page:#x} {following:#x}" for page, following in zip(chain, chain[1:])]
        place = 0x400000 * (k + 1)
        lines += [deletions.call(3, base[0], place, chain[0]), deletions.call(5, next(pages), base[0], place, 3)]
    yield "boot 4096 1"
    for _ in range(int(count)):
        yield from lines
        yield deletions.call(1, base[0])


# ---- programs

# The word of an access to an address where there is nothing: it is made again and again
FAULTS = ".frames 117\n.cpus 1\n" + "\n".join(f".page {0x400000 + 4096 * child:#x}\nldw r1 r0 0" for child in range(8))


# ---- memories

def slow_memory() -> Memory:
    """A root that tells of 3000 children. They share their 1024 tables, but have two sets of first shadows by turns."""
    tables = range(1000, 2024)
    children = [*range(60, 1000), *range(2024, 4084)]
    memory: Memory = {2: {i: table * 4096 + 1 for i, table in enumerate(tables)},
                      51: {i: 0x400001 for i in range(1024)}}
    for k, child in enumerate(children):
        memory.setdefault(tables[k // 1024], {})[k % 1024] = child * 4096 + 0x1F
    put_list(memory, 10, tables, lambda k: 51 if k < 3 else 52)
    put_list(memory, 20, tables, lambda k: 52)
    put_list(memory, 30, tables, lambda k: 50)
    put_descriptor(memory, 1, 10)
    for k, child in enumerate(children):
        put_descriptor(memory, child, 30 if k % 2 == 0 else 20)
    return memory


def put_list(memory: Memory, first: int, tables: range, shadow: Callable[[int], int]) -> None:
    """Seven list pages with a slot for each table."""
    for page in range(first, first + 6):
        memory.setdefault(page, {})[0] = page + 1
    for k, table in enumerate(tables):
        words = memory.setdefault(first + k // 170, {})
        for pair, frame in enumerate((table, shadow(k), 53)):
            words[2 + 6 * (k % 170) + 2 * pair + 1] = frame


def put_descriptor(memory: Memory, frame: int, first: int) -> None:
    memory[frame] = {1: frame, 3: 2, 5: 2, 7: 2, 9: first, 11: 1, 12: 1024}


KINDS: dict[str, Callable[..., Iterator[str]]] = {
    "names": labels, "chain": chain, "events": events, "build": built,
    "audit": lambda: iter(walk.core_text(slow_memory()).splitlines()),
    "calls": lambda: text_of("calls.s"), "faults": lambda: iter(FAULTS.split("\n")), "fill": lambda: text_of("fill.s")}


def text_of(name: str) -> Iterator[str]:
    return iter(calling.contents(os.path.join(calling.REPOSITORY, "dev", "bench", name)).decode().splitlines())


def lines(kind: str, *words: str) -> Iterator[str]:
    """The lines of an input."""
    return KINDS[kind](*words)


def main() -> None:
    if not sys.argv[1:] or sys.argv[1] not in KINDS:
        sys.exit(__doc__)
    calling.guarded("worst.py", lambda: sys.stdout.writelines(f"{line}\n" for line in lines(*sys.argv[1:])))
