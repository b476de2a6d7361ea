"""Draws the way from an address of a partition to its word: directory, page table, frame, and the two shadow words."""

from step import walk
from . import frames
from .svg import INK, PALE, PAPER, Drawing
from .texts import Memory

EDGE = "#9aa5b1"
DIRECTORY, TABLE, OFFSET, FIRST, SECOND = "#f8dfab", "#c9dcf6", "#e3f1e1", "#f3cdeb", "#ddd0f5"
PARTS = ((22, 10, "directory index", DIRECTORY), (12, 10, "table index", TABLE), (0, 12, "offset", OFFSET))
BIT = 18                 # the width of a bit of the address
BOX = 200


def draw_address(memory: Memory, partition: int, address: int) -> str:
    """The figure of one address. What isn't there is said."""
    drawing = Drawing()
    drawing.text(16, 30, f"How the address 0x{address:08x} of partition {partition} is translated", size=16, bold=True)
    draw_bits(drawing, address)
    index, place = address >> 22, address >> 12 & 1023
    tables = [frames.table(memory, partition, level, index) for level in range(3)]
    directory = frames.word(memory, partition, 3)
    leaf = frames.word(memory, tables[0], place) if tables[0] else 0
    draw_box(drawing, 16, f"MMU directory, frame {directory}", index, frames.word(memory, directory, index), DIRECTORY,
             f"a table in frame {tables[0]}" if tables[0] else "no table: unmapped")
    if tables[0]:
        draw_box(drawing, 276, f"page table, frame {tables[0]}", place, leaf, TABLE,
                 f"frame {leaf // walk.PAGE}, {walk.rights(leaf)}, {'visible' if leaf & 2 else 'hidden'}" if leaf
                 else "no page: unmapped")
    if leaf:
        draw_frame(drawing, memory, leaf, address)
        draw_shadows(drawing, memory, tables, place)
    return drawing.written()


def draw_bits(drawing: Drawing, address: int) -> None:
    """The 32 bits, in the three parts that the MMU takes."""
    x = 16
    for low, count, name, colour in PARTS:
        value = address >> low & (1 << count) - 1
        drawing.text(x, 62, f"{name}: bits {low + count - 1} to {low}", size=10, bold=True)
        for bit in reversed(range(count)):
            drawing.rectangle(x, 68, BIT, 22, colour, EDGE)
            drawing.text(x + BIT / 2, 84, str(value >> bit & 1), anchor="middle", mono=True)
            x += BIT
        drawing.text(x - BIT * count, 106, f"= {value}" + (f", so word {value // 4}" if low == 0 else ""), size=11)
        x += 22


def draw_box(drawing: Drawing, x: float, title: str, index: int, word: int, colour: str, meaning: str) -> None:
    """A frame, and the one of its words that the index chooses."""
    drawing.text(x, 146, title, size=11, bold=True)
    drawing.rectangle(x, 154, BOX, 92, PAPER, EDGE)
    drawing.rectangle(x, 184, BOX, 32, colour, EDGE)
    if index:
        drawing.text(x + 8, 172, f"word 0 .. {index - 1}", size=10, colour=PALE)
    drawing.text(x + 8, 204, f"word {index}", size=10)
    drawing.text(x + BOX - 8, 204, f"0x{word:08x}", anchor="end", mono=True)
    if index < 1023:
        drawing.text(x + 8, 236, f"word {index + 1} .. 1023", size=10, colour=PALE)
    drawing.text(x, 264, meaning, size=11)
    if word:
        drawing.line([(x + BOX, 200), (x + BOX + 52, 200)], INK)
        drawing.line([(x + BOX + 52, 200), (x + BOX + 44, 196), (x + BOX + 44, 204), (x + BOX + 52, 200)], INK)


def draw_frame(drawing: Drawing, memory: Memory, leaf: int, address: int) -> None:
    """The frame, and the word that the offset chooses."""
    frame, index = leaf // walk.PAGE, address % walk.PAGE // 4
    draw_box(drawing, 536, f"frame {frame}", index, 0, OFFSET,
             "the word that is accessed" if leaf & 2 else "hidden: every access faults")
    drawing.rectangle(536 + BOX - 90, 190, 84, 20, OFFSET)
    drawing.text(536 + BOX - 8, 204, f"0x{frames.word(memory, frame, index):08x}", anchor="end", mono=True)


def draw_shadows(drawing: Drawing, memory: Memory, tables: list[int], place: int) -> None:
    """The words of the two shadow tables, which have the table's shape and no part in the translation."""
    drawing.text(16, 306, "Beside the page table, at the same index, for the kernel alone:", size=11, colour=PALE)
    told = ((16, "first shadow", FIRST, frames.given), (406, "second shadow", SECOND, frames.came))
    for (x, name, colour, says), frame in zip(told, tables[1:]):
        word = frames.word(memory, frame, place)
        drawing.rectangle(x, 318, 370, 46, colour, EDGE, corner=3)
        drawing.text(x + 10, 337, f"{name}, frame {frame}, word {place}", size=11, bold=True)
        drawing.text(x + 360, 337, f"0x{word:08x}", anchor="end", mono=True)
        drawing.text(x + 10, 355, says(word), size=11)
