"""The audit of a raw memory, in the words of docs/MODEL.md: its text is read, a tree is read off it and judged, and its
words are compared with the tree's layout."""

from __future__ import annotations

import re

from common.machine import layout, runs

from . import sound
from common.machine.model import PAGE, READ, ROOT, SLOTS, WORDS, Node, Pair, Row, Table, Tree, list_pages
from common.machine.script import BadLine, word_text

Memory = list[list[int]]         # the words of each frame
LEAST_FRAMES, MOST_FRAMES = 16, 4096
MOST_TABLES = 1024       # of a descriptor that can be read
MOST_END = 10000000      # in the last line of a text
LINE = re.compile(rb"(?P<kind>frame|end) (?P<number>0|[1-9][0-9]{0,9})"
                  rb"|(?P<group>[0-9]{4}):(?P<words>(?: [0-9a-f]{8}){8})")


class Unread(Exception):
    """The word at which reading a tree off stops, as the exception's arguments: its frame, and its index there."""


# The text


def read(frames: int, text: bytes) -> Memory:
    """The memory of a text: frames in order, each with its groups of eight words in order, and then the end."""
    memory = [[0] * WORDS for _ in range(frames)]
    frame, group, is_whole = -1, 0, False        # what was named last; below 0 is no group yet of a frame
    *lines, rest = text.split(b"\n")
    for number, line in enumerate(lines, 1):
        found = LINE.fullmatch(line)
        if is_whole or found is None:
            raise BadLine(number)
        if found["kind"] is None:
            last, group, words = group, int(found["group"]), [int(word, 16) for word in found["words"].split()]
            is_good = frame >= 0 and group % 8 == 0 and last < group < WORDS and any(words)
            if is_good:
                memory[frame][group:group + 8] = words
        elif found["kind"] == b"frame":
            last, frame = frame, int(found["number"])
            is_good, group = group >= 0 and last < frame < frames, -8
        else:
            is_good = is_whole = group >= 0 and int(found["number"]) <= MOST_END
        if not is_good:
            raise BadLine(number)
    if rest or not is_whole:
        raise BadLine(len(lines) + 1)
    return memory


# Reading a tree off


def tree_of(memory: Memory) -> Tree:
    """The tree that a memory's words tell."""
    nodes: dict[int, Node] = {}
    read_node(memory, ROOT, nodes)
    tree = Tree(len(memory), nodes, {})
    open_pages = {row.page for row in nodes[ROOT].rows.values() if not tree.is_hidden(row.page)}
    tree.words = {page: {i: word for i, word in enumerate(memory[page]) if word} for page in open_pages}
    return tree


def read_node(memory: Memory, name: int, nodes: dict[int, Node]) -> None:
    """Reads a node, and then all that are below it."""
    node = nodes[name] = node_of(memory, name)
    for vpage, row in sorted(node.rows.items()):
        table = node.table_at(PAGE * vpage)
        assert table is not None
        shadow = table.pairs[1].page
        if memory[shadow][vpage % WORDS] % PAGE == 1:
            need(row.page not in nodes, shadow, vpage % WORDS)
            read_node(memory, row.page, nodes)


def need(good: object, frame: int, index: int) -> None:
    """The reading stops there, if something isn't good."""
    if not good:
        raise Unread(frame, index)


def pair_at(memory: Memory, frame: int, index: int) -> Pair:
    """An address and a page that is one."""
    address, page = memory[frame][index:index + 2]
    need(page < len(memory), frame, index + 1)
    return Pair(address, page)


def node_of(memory: Memory, name: int) -> Node:
    words = memory[name]
    base = [pair_at(memory, name, 2 * k) for k in range(5)]
    need(words[12] <= MOST_TABLES, name, 12)
    more = further_pages(memory, base[4].page, list_pages(words[12]) - 1)
    pages = [pair.page for pair in [base[4]] + more]
    tables = [table_of(memory, base[1].page, pages[slot // SLOTS], 2 + 6 * (slot % SLOTS)) for slot in range(words[12])]
    lines = {line for line in range(16) if words[15] >> line & 1}
    return Node(name, words[11], words[0], base, tables, more, rows_of(memory, tables), bool(words[14] & 1), lines)


def further_pages(memory: Memory, page: int, count: int) -> list[Pair]:
    """The list pages after one."""
    more = []
    for _ in range(count):
        need(memory[page][0] < len(memory), page, 0)
        more.append(Pair(memory[page][1], memory[page][0]))
        page = more[-1].page
    return more


def table_of(memory: Memory, directory: int, page: int, start: int) -> Table:
    """The table that a slot notes: its index is where the directory has its MMU table first."""
    mmu = pair_at(memory, page, start)
    entry = PAGE * mmu.page + 1
    need(entry in memory[directory], page, start + 1)
    shadows = [pair_at(memory, page, start + k) for k in (2, 4)]
    return Table(memory[directory].index(entry), (mmu, *shadows))


def rows_of(memory: Memory, tables: list[Table]) -> dict[int, Row]:
    """The rows by vpage; of two tables with one index those of the first."""
    rows: dict[int, Row] = {}
    for table in tables:
        page = table.pairs[0].page
        for index, word in enumerate(memory[page]):
            if word:
                is_row = word % PAGE < 32 and word & 1 and word >> 2 & READ and word // PAGE < len(memory)
                need(is_row, page, index)
                rows.setdefault(WORDS * table.index + index, Row(word // PAGE, word >> 2 & 7))
    return rows


# The answer


def difference(memory: Memory, tree: Tree) -> tuple[int, int, int, int] | None:
    """The first word that isn't the layout's: its place, and both; None where there is none."""
    for frame, words in enumerate(memory):
        for index, (found, want) in enumerate(zip(words, layout.frame_words(tree, frame))):
            if found != want:
                return frame, index, found, want
    return None


def judged(memory: Memory) -> tuple[list[str], bool]:
    """The lines that are said of a memory, and whether it lays out a sound tree."""
    try:
        tree = tree_of(memory)
    except Unread as stop:
        return ["no unread {} {}".format(*stop.args)], False
    if part := sound.first_fault(tree):
        return [f"no unsound {part}"], False
    if other := difference(memory, tree):
        frame, index, found, want = other
        return [f"no differs {frame} {index} {word_text(found)} {word_text(want)}"], False
    return runs.tree_lines(tree) + ["yes"], True


def audit(frames: int, text: bytes) -> tuple[list[str], int]:
    """The lines that are written for a text, and the status."""
    told, is_layout = judged(read(frames, text))
    return told, 0 if is_layout else 9
