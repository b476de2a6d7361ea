"""The assembler and the disassembler: a text of lines to an image and back."""

from __future__ import annotations

import re
from collections.abc import Callable, Iterator

from . import image, instructions
from .image import Image, Plan
from .instructions import FORMS, KINDS, OPCODES, SHIFTS, SIGNED, Instruction
from .model import PAGE, WORDS, Row, boot_tree
from .script import LONGEST, Bad, BadLine, lines, number, word_text

NAME = re.compile(rb"[A-Za-z_][A-Za-z0-9_]{0,31}")
REGISTER = re.compile(rb"r([0-9]|1[0-5])")
NEGATIVE = re.compile(rb"-[1-9][0-9]*")
HALVES = ("li", "lih", "ori")                           # an immediate may be a half of an address
DISTANCES = ("beq", "bne", "blt", "bltu", "jal")        # an immediate may be a name that is branched to


Act = Callable[[int, bytes, list[bytes]], None]         # by the line's number, its first word and the others


class Wrong(Exception):
    """A line has a fault of this kind."""


class Waits(Exception):
    """A word waits for the address of a name."""


def operand_number(text: bytes) -> int:
    try:
        return number(text)
    except Bad:
        raise Wrong("operand") from None


def numbers(operands: list[bytes], count: int) -> list[int]:
    need("operand", len(operands) == count)
    return [operand_number(operand) for operand in operands]


def need(kind: str, good: object) -> None:
    """A fault of this kind, if something isn't good."""
    if not good:
        raise Wrong(kind)


class Assembler:
    """The first pass: each line by itself and by the lines before it."""

    def __init__(self) -> None:
        self.frames: int | None = None
        self.cpus: int | None = None
        self.rows: dict[int, Row] = {}
        self.plans: list[Plan] = []
        self.pages: dict[int, list[int]] = {}           # the words of each page, by its vpage
        self.page: int | None = None
        self.words: list[int] = []                      # those of the last page
        self.names: dict[bytes, int] = {}
        self.are_known = False                          # the names: in the second pass
        self.waiting: list[tuple[int, list[int], int, Callable[[], int]]] = []

    def line(self, place: int, line: bytes) -> None:
        need("unknown", len(line) <= LONGEST)
        if not line or line.startswith(b"#"):
            return
        form, *operands = line.split(b" ")
        act = self.act(form)
        if act is None:
            raise Wrong("unknown")
        act(place, form, operands)

    def act(self, form: bytes) -> Act | None:
        """What a line does by its first word, or None where such a line doesn't stand here."""
        if self.frames is None:
            return self.take_frames if form == b".frames" else None
        if self.cpus is None:
            return self.take_cpus if form == b".cpus" else None
        if form == b".page":
            return self.begin_page
        if self.page is None:
            return self.take_plan if form == b".line" else None
        if form.endswith(b":") and NAME.fullmatch(form[:-1]):
            return self.label
        is_one = form.decode("latin1") in OPCODES
        return {b".word": self.word, b".zero": self.zeros}.get(form, self.instruction if is_one else None)

    def take_frames(self, place: int, form: bytes, operands: list[bytes]) -> None:
        self.frames, = numbers(operands, 1)
        need("range", 16 <= self.frames <= 4096)
        self.rows = boot_tree(self.frames).nodes[1].rows

    def take_cpus(self, place: int, form: bytes, operands: list[bytes]) -> None:
        self.cpus, = numbers(operands, 1)
        need("range", 1 <= self.cpus <= 4)

    def take_plan(self, place: int, form: bytes, operands: list[bytes]) -> None:
        plan = Plan(*numbers(operands, 3))
        need("range", plan.line < 16 and (not self.plans or plan.line > self.plans[-1].line))
        self.plans.append(plan)

    def begin_page(self, place: int, form: bytes, operands: list[bytes]) -> None:
        address, = numbers(operands, 1)
        need("range", address % PAGE == 0 and address // PAGE in self.rows)
        need("twice", address // PAGE not in self.pages)
        self.page = address // PAGE
        self.pages[self.page] = self.words = []

    def here(self) -> int:
        """The address of the page's next place, kept to 32 bits."""
        return (PAGE * (self.page or 0) + 4 * len(self.words)) % (1 << 32)

    def add(self, *words: int) -> None:
        need("size", len(self.words) + len(words) <= WORDS)
        self.words += words

    def put(self, place: int, made: Callable[[int], int]) -> None:
        """A word that is made of its address, in the second pass if it waits for a name."""
        at, words, index = self.here(), self.words, len(self.words)
        try:
            self.add(made(at))
        except Waits:
            self.add(0)
            self.waiting.append((place, words, index, lambda: made(at)))

    def address(self, name: bytes) -> int:
        if not self.are_known:
            raise Waits
        need("label", name in self.names)
        return self.names[name]

    def word(self, place: int, form: bytes, operands: list[bytes]) -> None:
        need("operand", len(operands) == 1)
        text, = operands
        self.put(place, lambda at: self.address(text) if NAME.fullmatch(text) else operand_number(text))

    def zeros(self, place: int, form: bytes, operands: list[bytes]) -> None:
        count, = numbers(operands, 1)
        need("size", count <= WORDS)
        self.add(*[0] * count)

    def label(self, place: int, form: bytes, operands: list[bytes]) -> None:
        need("operand", not operands)
        need("twice", form[:-1] not in self.names)
        self.names[form[:-1]] = self.here()

    def instruction(self, place: int, form: bytes, operands: list[bytes]) -> None:
        kind = KINDS[OPCODES[form.decode()]]
        wanted = FORMS[kind.form]
        need("operand", len(operands) == len(wanted))

        def made(at: int) -> int:
            values = [self.operand(kind, what, text, at) for what, text in zip(wanted, operands)]
            need("range", wanted[-1] in SHIFTS or kind.least <= values[-1] <= kind.most)
            return instructions.encode(Instruction(kind.name, tuple(values)))

        self.put(place, made)

    def operand(self, kind: instructions.Kind, what: str, text: bytes, at: int) -> int:
        """A register's number, or an immediate."""
        if what in SHIFTS:
            need("operand", REGISTER.fullmatch(text))
            return int(text[1:])
        if kind.name in HALVES and text[:1] in (b"<", b">"):
            need("operand", NAME.fullmatch(text[1:]))
            address = self.address(text[1:])
            return address >> 16 if text.startswith(b">") else address & 0xFFFF
        if kind.name in DISTANCES and NAME.fullmatch(text):
            return (self.address(text) - (at + 4) % (1 << 32)) // 4
        if what == SIGNED and NEGATIVE.fullmatch(text):
            return -operand_number(text[1:])
        return operand_number(text)

    # The second pass

    def filled(self) -> list[image.Page]:
        """All pages, with the names in them."""
        self.are_known = True
        for place, words, index, made in self.waiting:
            try:
                words[index] = made()
            except Wrong as wrong:
                raise BadLine(place, str(wrong)) from None
        return [(vpage, words + [0] * (WORDS - len(words))) for vpage, words in self.pages.items()]


def assemble(text: bytes) -> bytes:
    """The bytes of the image; BadLine where the text has a fault."""
    assembler = Assembler()
    place = 0
    for place, line in enumerate(lines(text), 1):
        try:
            assembler.line(place, line)
        except Wrong as wrong:
            raise BadLine(place, str(wrong)) from None
    if assembler.frames is None or assembler.cpus is None:
        raise BadLine(place + 1, "unknown")
    return image.written(Image(assembler.frames, assembler.cpus, assembler.plans, assembler.filled()))


def disassembled(data: bytes) -> Iterator[str]:
    """The lines of the accepted parts of an image, one by one; BadImage at its first fault."""
    reader = image.Reader(data)
    for part in image.parts(reader):
        if isinstance(part, image.Head):
            yield from (f".frames {part.frames}", f".cpus {part.cpus}")
        elif isinstance(part, Plan):
            yield str(part)
        else:
            vpage, words = part
            yield f".page {word_text(PAGE * vpage)}"
            used = max((index + 1 for index, word in enumerate(words) if word), default=0)
            for word in words[:used]:
                yield instructions.word_text(word)
    if reader.at < len(data):
        raise image.BadImage("long", reader.at)
