"""Where tools/every --any says that a monitor holds against every program, programs that are drawn show no other line.

The runs are the reference's, on the image with other words in the pages that are left out. A run ends where a program
leaves what the answer speaks of: it stores a value to an entry whose class isn't on the menu, or to another page.
"""

from __future__ import annotations

import os
import random
import tempfile

from authors import asmx, every_program as guests
from common.machine import image as images, runs
from common.machine.image import Image
from common.machine.instructions import Instruction, encode
from common.machine.model import HANDLERS, PAGE, SAVED, WORDS, World
from debugger import searching, sources
from .running import REPOSITORY, Differs, text_of

MONITORS = (os.path.join("examples", "every", "turns.asmx"), os.path.join("examples", "monitor.s"))
# A root that shows a word of its child: it doesn't look away, and a program that is drawn shows that
LOOKS = ("\nnext_turn:", "\nnext_turn:\n    la r9 FIRST+8*4096\n    ldw r9 r9 0x404\n    out r9\n")
PROGRAMS, STEPS = 50, 8000
LEAST = 2000             # exits of children, of all programs of a monitor
NUMBERS = (0, 1, 2, 3, 4, 5, 6, 7, 8, 8, 8, 9, 10, 11, 12, 99)        # of calls
PLACES = (0, 1, 62, 64, 70, 100, *range(256, 290), 500)               # of words, in its last page


def any_programs(program: str) -> None:
    """The monitor that looks at a word of a child is tried first."""
    with tempfile.NamedTemporaryFile("w", suffix=".asmx") as file:
        file.write(text_of(MONITORS[0]).replace(*LOOKS))
        file.flush()
        if not unnamed(program, file.name):
            raise Differs(f"{MONITORS[0]}: nothing shows that a root may look at a word of a child")
    for name in MONITORS:
        if wrong := unnamed(program, os.path.join(REPOSITORY, name)):
            raise Differs(f"{name}: a program shows a line that no search named: {wrong}")


def unnamed(program: str, path: str) -> str:
    """A line of a run that isn't named."""
    data, _ = asmx.image_of(program, path)
    found = guests.answer(program, searching.Asked(data, b"", guests.STATES), sources.Source())
    named = {f"{line.cpu} {line.text}" for line in found.search.lines}
    drawn, exits, image = random.Random(1), 0, images.read(data)
    for _ in range(PROGRAMS):
        wrong, count = shown(image, found.out, named, drawn)
        exits += count
        if wrong:
            return wrong
    if exits < LEAST:
        raise Differs(f"{path}: all programs together have {exits} exits")
    return ""


def shown(image: Image, out: guests.LeftOut, named: set[str], drawn: random.Random) -> tuple[str, int]:
    """The first line of a run with programs that are drawn which isn't named, if there is one; and the children's
    exits."""
    world, exits = images.world(image), 0
    for page in sorted(out.pages):
        put(world, page, out, drawn)
    for step in range(STEPS):
        for plan in image.plans:
            if drawn.random() < 0.02:
                world.raise_line(plan.line)
        before, told = world.processors[0], list[str]()
        runs.Turn(world, 0, step, told.append).take()
        after = world.processors[0]
        is_own = before is not None and before.name in out.own
        if is_own and not out.allows(world):
            break
        is_inside = is_own and before is not None and after is not None and before.name == after.name
        exits += is_own and not is_inside
        line = told[0].split(" ", 1)[1] if told else ""
        if line and line not in named and not is_inside:
            return f"step {step}: {line}", exits
    return "", exits


def put(world: World, page: int, out: guests.LeftOut, drawn: random.Random) -> None:
    """Draws the words of a page: instructions, and where the handler table is a context with the image's pc."""
    is_table = page in map(out.table, out.own)
    block = world.tree.word(page, SAVED) % PAGE // 4
    pc = world.tree.word(page, block)
    for index in range(WORDS):
        if (page, index) not in out.seen and out.owner(page, index) is None:
            word = drawn.choice((0, 1, 0xfffff400, drawn.getrandbits(32))) if is_table else encode(instruction(drawn))
            world.tree.set_word(page, index, word)
    if is_table:
        for index, word in enumerate((pc, *registers(drawn, pc))):
            world.tree.set_word(page, block + index, word)


def registers(drawn: random.Random, pc: int) -> list[int]:
    words = [drawn.choice((0, 1, 32, 63, 64, 256, drawn.getrandbits(32))) for _ in range(16)]
    words[1:4] = [drawn.choice((0, 0, 1)), drawn.choice((32, 63, 64)), drawn.choice((63, 256))]
    words[8:10] = [HANDLERS, pc]
    return words


def instruction(drawn: random.Random) -> Instruction:
    """One that does something as often as not."""
    a, b, c = (drawn.randrange(16) for _ in range(3))
    kind = drawn.random()
    if kind < 0.22:
        return Instruction("li", (a, drawn.choice((0, 1, 2, 3, 32, 63, 64, 256, drawn.randrange(65536)))))
    if kind < 0.36:
        return Instruction(drawn.choice(("add", "sub", "xor", "and", "or", "mul")), (a, b, c))
    if kind < 0.46:
        return Instruction("out", (a,))
    if kind < 0.55:
        return Instruction("int", (drawn.choice((64, 65, 66, 70, 200)),))
    if kind < 0.72:
        return Instruction("sys", (drawn.choice(NUMBERS),))
    if kind < 0.82:
        return Instruction("stw", (a, 8, 4 * drawn.choice(PLACES)))
    if kind < 0.9:
        return Instruction("ldw", (a, drawn.choice((8, 9)), 4 * drawn.randrange(300)))
    return Instruction(drawn.choice(("beq", "bne", "bltu")), (a, b, drawn.randrange(-6, 7)))
