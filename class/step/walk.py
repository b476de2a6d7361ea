"""The tree of partitions, read off frames: from the root's descriptor on, by the words of docs/FORMATS.md."""

from collections.abc import Callable, Iterable, Sequence
from dataclasses import dataclass
from typing import NamedTuple

ROOT = 1
PAGE = 4096
WORDS = 1024
SLOTS = 170
USES = ("free", "desc", "conf", "lent")          # of a page, by the low bits of its word in the first shadow table

Words = dict[int, dict[int, int]]    # of each frame, those that aren't 0, by index


class Row(NamedTuple):
    """The words of the three tables."""

    vpage: int
    word: int
    first: int
    second: int


@dataclass(frozen=True)
class Table:
    """Three frames, and the three words that lead there."""

    index: int
    frames: list[int]
    entries: list[int]


class Partition(NamedTuple):
    name: int
    up: int
    depth: int
    born: int
    masked: int
    pending: int
    directories: tuple[int, int, int]
    lists: list[int]
    tables: list[Table]
    rows: list[Row]


class Looker:
    """Looks at words, and keeps those that it saw and that aren't 0."""

    def __init__(self, words: Callable[[int, Sequence[int]], list[int]]) -> None:
        self.of = words                  # words of a frame at some indexes
        self.seen: Words = {}

    def words(self, frame: int, indexes: Sequence[int]) -> list[int]:
        found = self.of(frame, indexes)
        kept = self.seen.setdefault(frame, {})
        kept.update((index, word) for index, word in zip(indexes, found) if word)
        return found

    def filled(self, frame: int) -> dict[int, int]:
        """The words of a frame that aren't 0, by index."""
        return {index: word for index, word in enumerate(self.words(frame, range(WORDS))) if word}


def of_memory(memory: Words) -> Looker:
    return Looker(lambda frame, indexes: [memory.get(frame, {}).get(index, 0) for index in indexes])


def partitions(looker: Looker) -> list[Partition]:
    """All partitions: each before its children, and these by their addresses."""
    found, waiting = [], [(ROOT, 0)]
    while waiting:
        name, depth = waiting.pop()
        found.append(partition(looker, name, depth))
        born = sorted((row.first - 1, row.word // PAGE) for row in found[-1].rows if row.first % PAGE == 1)
        waiting += [(child, depth + 1) for _, child in reversed(born)]
    return found


def partition(looker: Looker, name: int, depth: int) -> Partition:
    words = looker.words(name, range(16))
    directories = words[3], words[5], words[7]
    tables = []
    for index, entry in looker.filled(directories[0]).items():
        entries = [entry] + [looker.words(directory, [index])[0] for directory in directories[1:]]
        tables.append(Table(index, [word // PAGE for word in entries], entries))
    rows = [row for table in tables for row in table_rows(looker, table)]
    lists = list_pages(looker, words[9], words[12])
    return Partition(name, words[11], depth, words[0], words[14] & 1, words[15], directories, lists, tables, rows)


def again(looker: Looker, tree: list[Partition], words: Words) -> tuple[list[Partition], Words]:
    """The same partitions, whose descriptors alone are looked at anew: masks and lines may have changed."""
    told = [looker.words(x.name, range(16)) for x in tree]
    found = [x._replace(masked=descriptor[14] & 1, pending=descriptor[15]) for x, descriptor in zip(tree, told)]
    return (tree if found == tree else found), {**words, **looker.seen}


def table_rows(looker: Looker, table: Table) -> list[Row]:
    leaves = looker.filled(table.frames[0])
    places = list(leaves)
    first, second = (looker.words(frame, places) for frame in table.frames[1:])
    return [Row(WORDS * table.index + place, leaves[place], a, b) for place, a, b in zip(places, first, second)]


def list_pages(looker: Looker, page: int, tables: int) -> list[int]:
    found = []
    while page:
        found.append(page)
        slots = min(max(tables - SLOTS * (len(found) - 1), 0), SLOTS)
        page = looker.words(page, range(2 + 6 * slots))[0]
    return found


# What each frame is for

class Role(NamedTuple):
    kind: str            # descriptor, directory, table or list page
    partition: int
    level: int = 0       # of a directory or a table
    place: int = 0       # of a table its directory index, of a list page its number


def roles(tree: Iterable[Partition]) -> dict[int, Role]:
    """The role of each frame that is configuration of a partition."""
    found: dict[int, Role] = {}
    for x in tree:
        found[x.name] = Role("descriptor", x.name)
        found.update((frame, Role("directory", x.name, level)) for level, frame in enumerate(x.directories))
        found.update((frame, Role("list page", x.name, place=number)) for number, frame in enumerate(x.lists))
        found.update((frame, Role("table", x.name, level, table.index))
                     for table in x.tables for level, frame in enumerate(table.frames))
    return found


def grid(frames: int, tree: list[Partition]) -> list[tuple[str, int]]:
    """What each frame is: a kind, and the partition that it belongs to."""
    kinds = [("none", 0)] * frames
    for x in tree:
        for row in x.rows:
            kinds[row.word // PAGE] = "user", x.name
    for frame, role in roles(tree).items():
        kind = ("table", "first", "second")[role.level] if role.kind == "table" else role.kind.split()[0]
        kinds[frame] = kind, role.partition
    return kinds


# The text of these words, as `core` writes it

def core_text(words: Words) -> str:
    lines = []
    for frame, told in sorted(words.items()):
        groups = sorted({index // 8 * 8 for index in told})
        lines += [f"frame {frame}"] * bool(groups)
        lines += [f"{first:04d}:" + "".join(f" {told.get(first + k, 0):08x}" for k in range(8)) for first in groups]
    return "".join(line + "\n" for line in lines + ["end 0"])


# The text that the command `tree` has for these partitions

def tree_lines(tree: list[Partition]) -> list[str]:
    lines = []
    for x in tree:
        lines.append(f"part {x.name} depth {x.depth} up {x.up} born 0x{x.born:08x} tables {len(x.tables)} "
                     f"rows {len(x.rows)}")
        lines += [row_line(row) for row in x.rows]
    return lines


def row_line(row: Row) -> str:
    view = "user" if row.word & 2 else "hidden"
    child = f" 0x{row.first - row.first % PAGE:08x}" if row.first else ""
    return f"row 0x{PAGE * row.vpage:08x} {row.word // PAGE} {rights(row.word)} {view} {USES[row.first % PAGE]}{child}"


def rights(leaf: int) -> str:
    return "".join(letter if leaf & bit else "-" for bit, letter in ((4, "r"), (8, "w"), (16, "x")))


def lines(pending: int) -> str:
    """The interrupt lines of a word."""
    return ", ".join(str(line) for line in range(16) if pending >> line & 1) or "none"
