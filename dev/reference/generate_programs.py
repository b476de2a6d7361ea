"""Assembly texts and images made from a seed, good ones and faulty ones.

Some are monitors, whose root makes children and takes faults and lines; the children compute, call, fault and trap, and
make children of their own. Others only compute, and show each result."""

import random

from common.machine import assembly, image

from . import phrases
from common.machine.instructions import FORMS, KINDS, SHIFTS
from common.machine.model import HANDLERS, PAGE, SAVED
from .phrases import LINES, spoilt_line

CODE = 0x10000000                                       # where a child has its code
LEAVES = ("jal", "jr", "sys", "int", "beq", "bne", "blt", "bltu", "out")
ACCESSES = ("ldw", "stw", "ldb", "stb")
VECTORS = (0, 6, 14, 17, 32, 33, 34, SAVED, 64, 65, 66)
CHILDREN = (0x401000, 0x421000)                         # where the root has the descriptors of its children


class Text(phrases.Text):
    """A text with instructions of any kind, and with handler tables."""

    def instruction(self, registers: int = 16) -> int:
        """An instruction on that many registers that goes on with the next one; its first register is the answer. An
        access, which mostly faults, is rare, and a calculator has none."""
        kinds = [kind for kind in KINDS.values() if kind.name not in LEAVES]
        kinds = [kind for kind in kinds if kind.name not in ACCESSES or registers == 16 and self.chance(0.1)]
        kind = self.random.choice(kinds)
        operands: list[str] = []
        for operand in FORMS[kind.form]:
            if operand in SHIFTS:
                operands.append(f"r{self.random.randrange(16 - registers and 1, registers)}")
            else:
                value = self.pick(kind.least, kind.most, 0, 1, 4, 31, self.random.randint(kind.least, kind.most))
                operands.append(str(min(max(value, kind.least), kind.most)))
        if kind.name in ("div", "rem") and not self.chance(0.05):
            self.say("ori", operands[2], operands[2], 1)
        self.say(kind.name, *operands)
        return int(operands[0][1:])

    def result(self) -> None:
        self.say("out", f"r{self.instruction(7)}")

    def begin(self, frames: int, cpus: int, plans: list[tuple[int, int, int]]) -> None:
        self.say(".frames", frames)
        self.say(".cpus", cpus)
        for plan in sorted(plans):
            self.say(".line", *plan)

    def page(self, address: int) -> None:
        self.say(f".page 0x{address:08x}")

    def table(self, entries: dict[int, str]) -> None:
        """A handler table, and after it a block for each vector that has a handler."""
        place = 0
        for number, vector in enumerate(sorted(entries)):
            if vector > place:
                self.say(".zero", vector - place)
            self.say(".word", f"0x{HANDLERS + 4 * (256 + 17 * number) + (0 if self.chance(0.98) else 2):08x}")
            place = vector + 1
        if entries and place < 256:
            self.say(".zero", 256 - place)
        for _, entry in sorted(entries.items()):
            self.say(".word", entry)
            self.say(".word", self.pick("0", "1", entry, "0xffffffff"))
            self.say(".zero 15")


def root(text: Text, children: list[int]) -> None:
    """The root makes its children, enters one, and computes; then its code for each vector, and the table of them."""
    text.page(0x400000)
    for d in text.random.sample(children, len(children)):
        text.tell("child", D=d)
    if children:
        text.tell("enters", D=text.random.choice(children))
    text.tell("rests of code")
    entries = {}
    for vector in VECTORS:
        if text.chance(0.9 if vector == SAVED else 0.8):
            entries[vector] = text.label()
            text.say(f"{entries[vector]}:")
            for register in text.random.sample(range(4), text.random.randrange(4)):
                text.say("out", f"r{register}")
            text.tell("handler", D=text.random.choice(children or CHILDREN))
    text.page(HANDLERS)
    text.table(entries)


def child(text: Text, d: int) -> None:
    text.page(d + 11 * PAGE)
    for name, share, most in (("makes its own", 0.7, 6), ("code", 1, 25)):
        for _ in range(text.random.randrange(most)):
            text.tell("code")
        if text.chance(share):
            text.tell(name)
    text.tell("rests of code")
    text.page(d + 12 * PAGE)
    handled = [vector for vector in VECTORS if vector == 64 or text.chance(0.8 if vector == SAVED else 0.3)]
    text.table({vector: f"0x{CODE + 4 * text.random.randrange(4):08x}" for vector in handled})


def good_text(seed: int) -> list[str]:
    """The lines of a text without a fault."""
    text = Text(seed)
    rng = text.random
    computes = text.chance(0.35)
    children = [] if computes else list(rng.choice(((), CHILDREN[:1], CHILDREN[1:], CHILDREN, CHILDREN)))
    plans = [(line, rng.randrange(150), text.pick(0, 1, 7, 20, 60)) for line in rng.sample(range(3), rng.randrange(4))]
    text.begin(text.pick(96, 100, 128, 256) if children else text.pick(16, 32, 64),
               1 if computes else text.pick(1, 1, 2, 3, 4), plans)
    if computes:
        text.tell("calculator")
    else:
        root(text, children)
    for d in children:
        child(text, d)
    if text.chance(0.2):
        text.lines.insert(rng.randrange(len(text.lines)), text.pick("", "# a remark", "#" * 120))
    return text.lines


def spoilt_text(rng: random.Random, lines: list[bytes]) -> list[bytes]:
    """A text with a line that is faulty, or nearly so."""
    place, way = rng.randrange(len(lines)), rng.randrange(10)
    if way == 0:
        return lines[rng.randrange(3):]
    if way < 3:
        return lines[:place] + lines[place + 1:]
    if way < 5:
        return [*lines[:place], spoilt_line(rng, lines[place]), *lines[place + 1:]]
    return [*lines[:place], rng.choice(lines if way == 5 else LINES["odd lines of a text"]), *lines[place:]]


def joined(rng: random.Random, lines: list[str]) -> bytes:
    return "\n".join(lines).encode() + (b"" if rng.random() < 0.1 else b"\n")


def assembly_text(seed: int) -> bytes:
    """A text, good or not."""
    rng = random.Random(seed)
    lines = short_text(rng) if rng.random() < 0.5 else [line.encode() for line in good_text(seed)]
    while len(lines) > 20 and rng.random() < 0.45:
        lines = spoilt_text(rng, lines)
    return b"\n".join(lines) + (b"" if rng.random() < 0.1 else b"\n")


def short_text(rng: random.Random) -> list[bytes]:
    """A few lines, among which is one that is odd, or two."""
    lines = [b".frames 32", b".cpus 1"]
    lines += [b".line %d 5 7" % line for line in sorted(rng.choices(range(16), k=rng.choice((0, 0, 1, 3))))]
    lines += [rng.choice((b".page 0x00400000", b".page 0x00400000", b".page 0xfffff000"))] * (rng.random() < 0.75)
    lines += rng.choices(LINES["good lines of a text"], k=rng.randrange(8))
    for _ in range(rng.choice((0, 1, 1, 1, 2))):
        lines.insert(rng.randrange(len(lines) + 1), rng.choice(LINES["odd lines of a text"]))
    return lines


def image_bytes(seed: int, spoilt: float) -> bytes:
    """An image; with the chance `spoilt` a faulty one."""
    rng = random.Random(seed)
    data = assembly.assemble(joined(rng, good_text(seed)))
    return data if rng.random() >= spoilt else spoilt_image(rng, data)


def spoilt_image(rng: random.Random, data: bytes) -> bytes:
    """An image with a fault, or nearly so."""
    first = 24 + 12 * int.from_bytes(data[16:20], "little")
    at = rng.choice((0, 8, 12, 16, 20, 24, 36, first, first + 4100, rng.randrange(len(data))))
    number = rng.choice((0, 1, 15, 16, 17, 4096, 4097, 0x400, 0x403, 0xFFFFF, 0x100000, 0xFFFFFFFF))
    changed = data[:at] + number.to_bytes(4, "little") + data[at + 4:]
    return rng.choice((
        image.OLD_MAGIC + data[8:], data[:rng.choice((at, at + 1, at + 3, rng.randrange(len(data))))],
        data + bytes(rng.randrange(1, 5000)), data[:first] + data[first:first + 4100] * 2 + data[first + 4100:],
        changed, changed, changed))
