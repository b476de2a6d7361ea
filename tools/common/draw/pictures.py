"""Draws what the commands `tree` and `core` write, as SVG.

    pip tree STEPS SEED < IMAGE | tools/common/draw/draw.py tree > tree.svg
    pip core STEPS SEED < IMAGE | tools/common/draw/draw.py table 18 > table.svg
    pip core STEPS SEED < IMAGE | tools/common/draw/draw.py handler 1 65 > handler.svg
    pip core STEPS SEED < IMAGE | tools/common/draw/draw.py address 13 0xffc13008 > translation.svg"""

from __future__ import annotations

import itertools
import re
import sys

from common import calling
from step.walk import PAGE, USES
from . import frames, texts, translation
from .svg import INK, PALE, PAPER, Drawing

COLOURS = {"free": "#e3f1e1", "lent": "#c9dcf6", "desc": "#f0a59b", "conf": "#f8dfab"}
MEANINGS = (("free", "free for the partition"), ("lent", "lent to a child"), ("desc", "descriptor of a child"),
            ("conf", "other configuration of a child"))
ADDRESS = re.compile("0x[0-9a-f]{1,8}")


# The tree of partitions

CELL_WIDTH, CELL_HEIGHT, COLUMNS = 38, 40, 16
LABEL, INDENT, HEADER, GAP = 92, 34, 42, 18


def draw_tree(partitions: list[texts.Partition]) -> str:
    drawing = Drawing()
    drawing.text(16, 30, "The tree of partitions, and what each page is used for", size=16, bold=True)
    top, edges, places, heights = 48, [], {}, {}
    for partition in partitions:
        left = 16 + INDENT * partition.depth
        places[partition.name] = left, top
        if partition.depth:
            edges.append((partition.up, partition.name))
        heights[partition.name] = draw_partition(drawing, partition, left, top)
        top += heights[partition.name] + GAP
    for parent, child in edges:
        (x, y), (left, below) = places[parent], places[child]
        drawing.line([(x + 12, y + heights[parent]), (x + 12, below + 18), (left, below + 18)])
    draw_legend(drawing, top + 4)
    return drawing.written()


def draw_partition(drawing: Drawing, partition: texts.Partition, left: int, top: int) -> int:
    """A box with a cell for each page; its height is the answer."""
    by_line = itertools.groupby(partition.pages, lambda page: page.address // PAGE // COLUMNS * COLUMNS * PAGE)
    rows = [(address, list(pages)) for address, pages in by_line]      # each line begins at its address
    width, height = LABEL + COLUMNS * CELL_WIDTH + 12, HEADER + CELL_HEIGHT * max(len(rows), 1) + 8
    drawing.rectangle(left, top, width, height, "#fbfcfd", INK, corner=6, stroke_width=1.3)
    title = f"partition {partition.name}" if partition.depth else "root, partition 1"
    drawing.text(left + 12, top + 18, title, size=13, bold=True)
    drawing.text(left + 12, top + 34, facts(partition), size=10, colour=PALE)
    if not rows:
        drawing.text(left + 12, top + HEADER + 22, "no page is lent to it", size=11, colour=PALE)
    children = {page.address: page.frame for page in partition.pages if page.use == "desc"}
    for place, (address, pages) in enumerate(rows):
        y = top + HEADER + CELL_HEIGHT * place
        drawing.text(left + 12, y + 23, f"0x{address:08x}", size=11, mono=True)
        for page in pages:
            draw_page(drawing, page, children, left + LABEL + CELL_WIDTH * (page.address // PAGE % COLUMNS), y)
    return height


def facts(partition: texts.Partition) -> str:
    told = [f"child of {partition.up}, which has its descriptor at 0x{partition.born:08x}"] if partition.depth else []
    told += [f"{number} {what}{'' if number == 1 else 's'}"
             for number, what in ((partition.tables, "table"), (len(partition.pages), "page"))]
    return " \u00b7 ".join(told)


def draw_page(drawing: Drawing, page: texts.Page, children: dict[int, int], x: float, y: float) -> None:
    """A page: its frame, its rights, and the child that has it; hatched where it is hidden."""
    drawing.rectangle(x + 1, y + 1, CELL_WIDTH - 2, CELL_HEIGHT - 2, COLOURS[page.use], "#9aa5b1", corner=2)
    if page.hidden:
        drawing.rectangle(x + 1, y + 1, CELL_WIDTH - 2, CELL_HEIGHT - 2, "url(#hatch)", corner=2)
    middle = x + CELL_WIDTH / 2
    drawing.text(middle, y + 13, str(page.frame), size=11, anchor="middle", bold=True)
    drawing.text(middle, y + 24, page.rights, size=8, anchor="middle", mono=True)
    if page.child is not None:
        drawing.text(middle, y + 35, f"\u2192 {children.get(page.child, '?')}", size=9, anchor="middle")


def draw_legend(drawing: Drawing, top: int) -> None:
    x: float = 16
    for use, words in MEANINGS:
        drawing.rectangle(x, top, 18, 14, COLOURS[use], "#9aa5b1", corner=2)
        drawing.text(x + 24, top + 11, words, size=10)
        x += 24 + 5.9 * len(words) + 18
    drawing.rectangle(16, top + 22, 18, 14, PAPER, "#9aa5b1", corner=2)
    drawing.rectangle(16, top + 22, 18, 14, "url(#hatch)", corner=2)
    drawing.text(40, top + 33, "hidden from everybody: the page is configuration of some partition", size=10)
    drawing.text(16, top + 52, "In a cell: the frame, the partition's rights, and the child that has the page. "
                 "A line begins at its address; a page is 0x1000 further to the right.", size=10, colour=PALE)


# A page table

LINE = 22
BITS = ((16, "x", "#f8dfab"), (8, "w", "#f8dfab"), (4, "r", "#f8dfab"), (2, "u", "#c9dcf6"), (1, "p", "#e3f1e1"))


def heading(drawing: Drawing, title: str, words: str) -> None:
    drawing.text(16, 30, title, size=16, bold=True)
    drawing.text(16, 50, words, size=11, colour=PALE)


def draw_page_table(memory: texts.Memory, frame: int) -> str:
    """One line for each page of a page table, with its words in both shadows."""
    role, drawing = frames.roles(memory).get(frame), Drawing()
    if role is None or role.kind != "table" or role.level:
        raise calling.Failed(f"frame {frame} is no page table; class/step/step shows the words of every frame")
    index = role.place
    shadows = [frames.table(memory, role.partition, level, index) for level in (1, 2)]
    heading(drawing, f"Frame {frame}: a page table of partition {role.partition}",
            f"directory index {index}, for the addresses 0x{index << 22:08x} to 0x{(index << 22) + 0x3FFFFF:08x}; "
            f"its shadow tables are the frames {shadows[0]} and {shadows[1]}")
    columns = ((16, "address"), (112, "word"), (208, "as the MMU reads it"),
               (432, f"first shadow (frame {shadows[0]})"), (760, f"second shadow (frame {shadows[1]})"))
    for x, name in columns:
        drawing.text(x, 78, name, size=10, bold=True)
    drawing.line([(16, 85), (1080, 85)], INK, 1)
    y = 90
    for place, leaf in sorted(memory.get(frame, {}).items()):
        drawing.text(16, y + 15, f"0x{(index << 22) + (place << 12):08x}", mono=True)
        drawing.text(112, y + 15, f"0x{leaf:08x}", mono=True)
        draw_leaf(drawing, 208, y, leaf)
        first, second = (frames.word(memory, shadow, place) for shadow in shadows)
        drawing.rectangle(432, y + 3, 12, 14, COLOURS[USES[first % PAGE]], "#9aa5b1", corner=2)
        drawing.text(450, y + 15, f"0x{first:08x}", mono=True)
        drawing.text(536, y + 15, frames.given(first), size=10)
        drawing.text(760, y + 15, f"0x{second:08x}", mono=True)
        drawing.text(846, y + 15, frames.came(second), size=10)
        y += LINE
    drawing.text(16, y + 20, "x execute, w write, r read, u visible to users, p present. A bit that is 0 is pale; "
                 "without u the page is hidden: configuration of some partition.", size=10, colour=PALE)
    return drawing.written()


def draw_leaf(drawing: Drawing, x: float, y: float, leaf: int) -> None:
    """The frame of a page table's word, and its five low bits."""
    drawing.rectangle(x, y + 2, 100, LINE - 5, "#ffffff", "#9aa5b1")
    drawing.text(x + 50, y + 15, f"frame {leaf // PAGE}", anchor="middle")
    for place, (bit, letter, colour) in enumerate(BITS):
        left = x + 100 + 20 * place
        drawing.rectangle(left, y + 2, 20, LINE - 5, colour if leaf & bit else "#ffffff", "#9aa5b1")
        drawing.text(left + 10, y + 15, letter, anchor="middle", mono=True, colour=INK if leaf & bit else "#c5ccd3")


# A handler: the entry of a vector, and the block to which it points

TOLD = ("the vector", "what happened", "what happened", "child on the way; 0 for a line")


def draw_handler(memory: texts.Memory, partition: int, vector: int) -> str:
    """The entry of a vector in a partition's handler table, and the 17 words of the block."""
    drawing = Drawing()
    heading(drawing, f"The handler of partition {partition} for vector {vector}",
            "its handler table is the page at 0xfffff000: an entry for each vector, which is the address of a block")
    entry = frames.TABLE_OF_HANDLERS + 4 * vector
    address = frames.loaded(memory, partition, entry)
    draw_entries(drawing, memory, partition, vector)
    block = frames.block(memory, partition, address)
    if address is None or block is None:
        drawing.text(360, 147, "the entry is the address of no block: there is no handler")
    else:
        drawing.line([(282, 135), (330, 135), (330, 104), (352, 104)], INK)
        draw_block(drawing, address, block)
    return drawing.written()


def draw_entries(drawing: Drawing, memory: texts.Memory, partition: int, vector: int) -> None:
    """The entry of the vector, between those beside it."""
    drawing.text(16, 78, "handler table", size=10, bold=True)
    for line, beside in enumerate(range(vector - 2, vector + 3)):
        y = 88 + LINE * line
        if not 0 <= beside <= 255:
            continue
        address = frames.TABLE_OF_HANDLERS + 4 * beside
        value = frames.loaded(memory, partition, address)
        colour = INK if beside == vector else PALE
        draw_word(drawing, 16, y, address, value or 0, "#f8dfab" if beside == vector else PAPER, colour)
        drawing.text(204, y + 15, f"vector {beside}", size=10, colour=colour)


def draw_word(drawing: Drawing, x: float, y: float, address: int, value: int, fill: str, colour: str = INK) -> None:
    """A word in a box, after its address."""
    drawing.text(x, y + 15, f"0x{address:08x}", mono=True, colour=colour)
    drawing.rectangle(x + 88, y + 2, 92, LINE - 5, fill, "#9aa5b1")
    drawing.text(x + 134, y + 15, f"0x{value:08x}", anchor="middle", mono=True, colour=colour)


def draw_block(drawing: Drawing, address: int, block: list[int]) -> None:
    """The 17 words of a block, which stand in one page."""
    drawing.text(360, 78, "block: 17 words, in one page", size=10, bold=True)
    drawing.text(620, 78, "what is entered by a fault, a trap or a line has", size=10, bold=True)
    for place, value in enumerate(block):
        y = 88 + LINE * place
        draw_word(drawing, 360, y, address + 4 * place, value, "#f0a59b" if place == 0 else "#e3f1e1")
        drawing.text(550, y + 15, "pc" if place == 0 else f"r{place - 1}", mono=True)
        told = TOLD[place - 1] if 0 < place <= len(TOLD) else ""
        drawing.text(620, y + 15, f"{told}, in the place of this word" if told else "this word", size=10,
                     colour=INK if told else PALE)
    drawing.text(360, 88 + LINE * len(block) + 14, "What is entered by a yield has all 17 words as they are.", size=10,
                 colour=PALE)


def drawn(words: list[str]) -> str:
    """The picture for the words of the command line."""
    if words == ["tree"]:
        return draw_tree(texts.partitions(sys.stdin.read()))
    if len(words) == 2 and words[0] == "table" and words[1].isdecimal():
        return draw_page_table(texts.memory(sys.stdin.read()), int(words[1]))
    if len(words) == 3 and words[0] == "handler" and all(map(str.isdecimal, words[1:])) and int(words[2]) < 256:
        return draw_handler(texts.memory(sys.stdin.read()), int(words[1]), int(words[2]))
    if len(words) == 3 and words[0] == "address" and words[1].isdecimal() and ADDRESS.fullmatch(words[2]):
        return translation.draw_address(texts.memory(sys.stdin.read()), int(words[1]), int(words[2], 16))
    raise calling.Failed("usage: draw.py tree | table FRAME | handler PARTITION VECTOR | address PARTITION 0xADDRESS")


def main() -> None:
    calling.guarded("draw.py", lambda: print(drawn(sys.argv[1:]), end=""))
