"""A preprocessor to the assembly: constants, addresses, handlers, pages that a child has elsewhere, files in files, and
menus.

    tools/asmx FILE > program.s
    tools/asmx FILE --image program.img
    tools/asmx FILE --against program.menu
    tools/asmx --check FILE

What it adds to the lines of docs/FORMATS.md is told in tools/README.md.
"""

from __future__ import annotations

import argparse
import contextlib
import functools
import os
import re
import sys
from collections.abc import Callable, Iterator
from dataclasses import dataclass, field
from typing import NamedTuple

from common import calling
from common.calling import Failed, ensure
from common.machine import against, assembly, instructions
from debugger.rules import Rule, rule_of
from . import why

NAME = re.compile(r"[A-Za-z_][A-Za-z0-9_]{0,31}")
REGISTER = re.compile(r"r([0-9]|1[0-5])")
NUMBER = re.compile(r"0x[0-9a-f]{1,8}|0|[1-9][0-9]{0,9}")
TERM = re.compile(r"0x[0-9a-f]{1,8}|[0-9]+|[A-Za-z_][A-Za-z0-9_]*")
SUMMAND = re.compile(r"([+-]|^)([^+-]*)")
REMARK = re.compile(r"(^|\s)#.*$")
WORD = re.compile(r"\S+")
BRANCHES = {"beq": 3, "bne": 3, "blt": 3, "bltu": 3, "jal": 2}     # operands, the last of which is branched to
# What is written by other instructions: its operands, and what it becomes
WRITTEN = {
    "la": ("rN X", ("li {0} <{1}", "lih {0} >{1}")), "j": ("NAME", ("beq r0 r0 {0}",)), "nop": ("", ("mov r0 r0",)),
    "call": ("rN NAME", ("jal {0} {1}",)), "ret": ("rN", ("jr {0}",)),
    "neg": ("rA rB", ("li {0} 0", "sub {0} {0} {1}")),
    "not": ("rA rB", ("li {0} 0", "sub {0} {0} {1}", "addi {0} {0} -1")),
}
OF_RULES = (".never", ".always")
ASKING = (".again", ".comes")
DIRECTIVES = [*(name.decode() for name in why.DIRECTIVES), *why.OF_ASMX[:why.OF_ASMX.index("la")]]
KNOWN = [*instructions.OPCODES, *WRITTEN]
LIKE = {**why.LIKE, "jmp": "jal or j"}
TABLE = 0xFFFFF000       # where a partition has its handler table
BLOCK, SAVED = 68, 63    # bytes of a block, and the vector by whose block a partition is saved
IMAGE = b"PIPIMG"
MOST_IMAGE = 1 << 25
PAGE, WORDS = 4096, 1024
MOST_PARTS = 32          # of a sum
DEEPEST = 16             # files in files
MOST_LINES = 1 << 20
MOST_FILES = 64          # that are included, each as often as it is
MOST_NUMBER = 1 << 32    # what a number, and each product on the way to it, is below
DEEDS = tuple(word.decode() for word in against.WORDS)


class Place(NamedTuple):
    file: str
    line: int


class Label(NamedTuple):
    address: int             # as its partition sees it
    page: Page


class Word(str):
    """A word of a line, and where it begins: its line, and its column, from 1 on."""

    place: Place
    column: int

    @classmethod
    def at(cls, place: Place, column: int, text: str) -> Word:
        word = cls(text)
        word.place, word.column = place, column
        return word

    def put(self, text: str, further: int = 0) -> Word:
        """What comes of it, or of a part of it that is further to the right."""
        return Word.at(self.place, self.column + further, text)

    def wrong(self, why: str) -> Wrong:
        return Wrong(self.place, why, self.column)

    def ensure(self, good: object, why: str) -> None:
        if not good:
            raise self.wrong(why)


class Line(str):
    """A line of the assembly text, and the columns from which its words come."""

    columns: tuple[int, ...] = ()

    @classmethod
    def of(cls, words: list[Word]) -> Line:
        line = cls(" ".join(words))
        line.columns = tuple(word.column for word in words)
        return line

    def column(self, at: int) -> int:
        """The column from which that of this line comes."""
        return self.columns[min(self.count(" ", 0, at - 1), len(self.columns) - 1)] if self.columns else 1


Lines = list[tuple[Place, Line]]


class Wrong(Failed):
    """A line is wrong: where, from which column on, and why."""

    def __init__(self, place: Place, why: str, column: int = 1) -> None:
        super().__init__(f"{place.file}:{place.line}:{column}: {why}")
        self.place, self.column, self.why = place, column, why


class AllWrong(Wrong):
    """All lines that are wrong, one below the other."""

    def __init__(self, wrongs: list[Wrong]) -> None:
        told = [str(wrong) for wrong in wrongs[:why.MOST_TOLD]]
        more = [f"and {len(wrongs) - len(told)} lines more"] if len(wrongs) > len(told) else []
        Failed.__init__(self, "\n".join(told + more))
        self.place, self.column, self.why, self.wrongs = wrongs[0].place, wrongs[0].column, wrongs[0].why, wrongs


@contextlib.contextmanager
def collecting(wrongs: list[Wrong]) -> Iterator[None]:
    """Notes what is wrong, and the work goes on after it."""
    try:
        yield
    except Wrong as wrong:
        wrongs.append(wrong)


# The lines of all files


class Files:
    """The files that a source is made of. Any file may be included."""

    def __init__(self, **held: bytes) -> None:
        self.count, self.held = 0, held          # `held` are texts that were read before

    def inner(self, path: Word) -> str:
        """The file that a line includes."""
        inner = os.path.join(os.path.dirname(path.place.file) if path.place.file != "-" else "", path)
        path.ensure(os.path.isfile(inner), f"there is no file {inner}")
        return inner

    def contents(self, path: str) -> bytes:
        self.count += 1
        ensure(self.count <= MOST_FILES, f"{path}: more than {MOST_FILES} files are included")
        return self.held[path] if path in self.held else calling.contents(path)


def lines_of(path: str, files: Files, above: tuple[str, ...] = ()) -> Iterator[tuple[Place, list[Word]]]:
    """The lines of a file and of those that it includes, without remarks: a place and its words each."""
    ensure(len(above) <= DEEPEST, f"{path}: files are included more than {DEEPEST} deep")
    data = files.contents(path)
    if data and (what := why.no_text(path, data)):
        raise Failed(what)
    text = data.decode("utf-8", "replace").removeprefix("\ufeff")
    for number, line in enumerate(text.split("\n"), 1):
        place = Place(path, number)
        words = [Word.at(place, found.start() + 1, found[0]) for found in WORD.finditer(REMARK.sub("", line))]
        if words[:1] != [".include"]:
            yield place, words
            continue
        words[0].ensure(len(words) == 2, ".include has one path, without spaces")
        inner = files.inner(words[1])
        if os.path.realpath(inner) in [os.path.realpath(file) for file in (*above, path)]:
            raise words[1].wrong(f"{inner} includes itself")
        yield from lines_of(inner, files, above + (path,))


# Pages


@dataclass
class Item:
    """What a line puts into a page: words from a place on. `write` gives the lines of the assembly text."""

    place: Place
    at: int
    size: int
    write: Callable[[], list[Line]]
    is_code: bool = False


@dataclass
class Page:
    """A page of the root, and the address at which its partition has it."""

    place: Place
    address: int
    seen: int
    items: list[Item] = field(default_factory=list)
    next: int = 0
    entries: dict[int, tuple[Word, str]] = field(default_factory=dict)       # words that may be entries of handlers

    def add(self, place: Place, size: int, write: Callable[[], list[Line]], at: int | None = None,
            is_code: bool = False) -> None:
        item = Item(place, self.next if at is None else at, size, write, is_code)
        if item.at + size > WORDS:
            raise Wrong(place, "the page has no room for this: it has 1024 words")
        self.items.append(item)
        if at is None:
            self.next += size

    @property
    def is_elsewhere(self) -> bool:
        """Whether a child has it at another address."""
        return self.seen != self.address

    def here(self) -> int:
        return (self.seen + 4 * self.next) % (1 << 32)


class Text:
    """A text on its way. The lines that it becomes are in `written`, with their places, and its menu is in `menu`."""

    def __init__(self) -> None:
        self.constants: dict[str, int] = {}
        self.labels: dict[str, Label] = {}
        self.pages: list[Page] = []
        self.head: Lines = []
        self.may: list[list[Word]] = []                     # lines .may, .again, .comes, .never and .always
        self.menu: Lines = []                               # what becomes of them
        self.rules: list[Rule] = []

    def take(self, words: list[Word]) -> None:
        """One line."""
        first = words[0]
        if first.startswith((";", "//")):
            raise first.wrong(f"{first!r} begins no line{why.hint(first)}")
        if first == ".equ":
            self.take_constant(words)
        elif first == ".page":
            self.take_page(words)
        elif first in (".frames", ".cpus", ".line"):
            self.head.append((first.place, Line.of([first, *(self.operand(word, False) for word in words[1:])])))
        elif first in (".may", *ASKING, *OF_RULES):
            self.may.append(words)
        elif not self.pages:
            self.pages.append(Page(first.place, 0, 0))      # lest all lines after it be told, too
            raise first.wrong(f"{first!r} stands before the first page")
        elif first == ".handler":
            self.take_handler(words)
        elif first == ".zero":
            self.take_zeros(words)
        elif first.endswith(":") and NAME.fullmatch(first[:-1]):
            self.take_label(words)
        else:
            page, at = self.pages[-1], self.pages[-1].here()
            size = len(WRITTEN[first][1]) if first in WRITTEN else 1
            if first == ".word":
                page.entries[page.next] = words[-1], words[-1]
            page.add(first.place, size, lambda: self.instruction(words, at, page.is_elsewhere),
                     is_code=first != ".word")

    def take_constant(self, words: list[Word]) -> None:
        second(words).ensure(len(words) == 3 and NAME.fullmatch(words[1]) and not REGISTER.fullmatch(words[1]),
                             ".equ has a name and a number, and no register is a name here")
        _, name, value = words
        self.new_name(name)
        self.constants[name] = 0                            # lest each line that uses it be told, too
        self.constants[name] = self.number(value)

    def new_name(self, name: Word) -> None:
        name.ensure(name not in self.constants and name not in self.labels, f"{name} has a meaning already")

    def take_page(self, words: list[Word]) -> None:
        second(words).ensure(len(words) in (2, 4) and words[2:3] in ([], ["at"]), ".page has an address, and after it "
                             "'at' and the address at which a child has the page")
        address, seen = (self.page_number(word) for word in (words[1], words[-1]))
        if any(page.address == address for page in self.pages):
            raise words[1].wrong(f"the page at 0x{address:08x} was defined before")
        self.pages.append(Page(words[0].place, address, seen))

    def page_number(self, word: Word) -> int:
        number = self.number(word)
        if number % PAGE or not 0 <= number < 1 << 32:
            raise word.wrong("a page begins at a multiple of 4096 below 2^32")
        return number

    def take_zeros(self, words: list[Word]) -> None:
        words[0].ensure(len(words) == 2, ".zero has one operand")
        size = self.number(words[1])
        if not 0 <= size <= WORDS:
            raise words[1].wrong(".zero has a number from 0 to 1024")
        self.pages[-1].add(words[0].place, size, lambda: [Line(f".zero {size}")])

    def take_label(self, words: list[Word]) -> None:
        name, page = words[0].put(words[0][:-1]), self.pages[-1]
        self.new_name(name)
        self.labels[name] = Label(page.here(), page)
        page.add(name.place, 0, lambda: [Line(f"# {name}:" if page.is_elsewhere else f"{name}:")])
        if words[1:]:
            if words[1].endswith(":"):
                raise words[1].wrong("a line has one name")
            self.take(words[1:])

    def take_handler(self, words: list[Word]) -> None:
        """`.handler K BLOCK [LABEL [rN=X ..]]`: the entry of vector K, and what stands in its block."""
        second(words).ensure(len(words) >= 3, ".handler has a vector, a block, and where it begins")
        page, vector, block, place = self.pages[-1], self.number(words[1]), words[2], words[0].place
        if not 0 <= vector < 256:
            raise words[1].wrong("a vector is below 256")
        if NAME.fullmatch(block) and block not in self.constants:
            if words[3:]:
                raise words[3].wrong("a block with a name is filled where the name stands")
            page.entries[vector] = words[1], block
            page.add(place, 1, functools.partial(self.address_word, block), vector)
            return
        offset = self.number(block)
        if offset % 4 or not 0 <= offset <= 4028:
            raise block.wrong("a block is a multiple of 4, at most 4028")
        page.entries[vector] = words[2], f"0x{page.seen + offset:08x}"
        page.add(place, 1, lambda: [Line(f".word 0x{page.seen + offset:08x}")], vector)
        for at, value in self.block(words[3:]):
            page.add(place, 1, functools.partial(self.address_word, value), offset // 4 + at)

    def address_word(self, word: Word) -> list[Line]:
        return [Line.of([Word.at(word.place, 1, ".word"), self.address_text(word, True)])]

    def block(self, words: list[Word]) -> list[tuple[int, Word]]:
        """The words of a block that aren't 0, by their places: the pc, and the registers that are named."""
        found = [(0, words[0])] if words else []
        for word in words[1:]:
            register, equals, value = word.partition("=")
            word.ensure(REGISTER.fullmatch(register) and equals and value, f"{word!r} isn't rN=X")
            found.append((1 + int(register[1:]), word.put(value, len(register) + 1)))
        return found

    # What becomes of words, once all names are known

    def instruction(self, words: list[Word], at: int, elsewhere: bool) -> list[Line]:
        name, *operands = words
        hinted = [word for word in operands if why.hint(word)]
        hints = "".join(dict.fromkeys(why.hint(word) for word in hinted))
        if name not in KNOWN and name != ".word":
            raise name.wrong(why.no_instruction(name, DIRECTIVES if name[0] == "." else KNOWN, LIKE) + hints)
        if hints:
            raise hinted[0].wrong(f"{' '.join(words)!r} isn't an instruction here{hints}")
        due, forms = WRITTEN.get(name, ("", ()))
        if forms and len(operands) != (count := len(due.split())):
            raise beyond(words, count).wrong(f"{name} has {count} operand{'' if count == 1 else 's'}: "
                                             f"{' '.join([name, *due.split()])}")
        if name in ("neg", "not") and operands[0] == operands[1]:
            raise operands[1].wrong(f"{name} has two different registers: it puts 0 into the first, since no register "
                                    "is always 0")
        return [self.plain(line, at, elsewhere) for line in [in_form(form, words) for form in forms] or [words]]

    def plain(self, words: list[Word], at: int, elsewhere: bool) -> Line:
        """A line with what names become in it."""
        name, *operands = words
        if name in BRANCHES:
            if len(operands) != BRANCHES[name]:
                raise beyond(words, BRANCHES[name]).wrong(f"{name} has {BRANCHES[name]} operands")
            return Line.of([*words[:-1], self.distance(words[-1], at, elsewhere)])
        return Line.of([name, *(self.operand(word, name == ".word") for word in operands)])

    def operand(self, word: Word, is_address: bool) -> Word:
        if word[:1] in ("<", ">"):
            if self.is_plain(word[1:]):
                return word
            number = self.number(word.put(word[1:], 1), True) % (1 << 32)
            return word.put(str(number % (1 << 16) if word[0] == "<" else number >> 16))
        if REGISTER.fullmatch(word) or NUMBER.fullmatch(word):
            return word
        if re.fullmatch(r"r[0-9]+", word) and word not in self.labels:
            raise word.wrong(f"there is no register {word}: they are r0 to r15")
        return self.address_text(word, is_address)

    def address_text(self, word: Word, is_address: bool) -> Word:
        """A name of the root's pages stays a name; all else becomes a number."""
        if is_address and self.is_plain(word):
            return word
        number = self.number(word, is_address)
        return word.put(f"0x{number % (1 << 32):08x}" if is_address else str(number))

    def is_plain(self, word: str) -> bool:
        return word in self.labels and not self.labels[word].page.is_elsewhere

    def distance(self, word: Word, at: int, elsewhere: bool) -> Word:
        """What is branched to: a name of the root's pages stays one, where the branch stands in such a page, too."""
        if re.fullmatch(r"-?[0-9]+|0x[0-9a-f]{1,8}", word):
            return word
        if word in self.constants:
            return word.put(str(self.constants[word]))
        to = self.labels.get(word)
        if to is None:
            raise word.wrong(f"no line defines the name {word}")
        number = (to.address - (at + 4) % (1 << 32)) // 4
        word.ensure(-32768 <= number <= 32767, f"{word} is {number} words away: a branch reaches from -32768 to 32767")
        return word.put(str(number)) if elsewhere or to.page.is_elsewhere else word

    def number(self, word: Word, with_labels: bool = False) -> int:
        """The value of a sum of products of numbers and names."""
        value, parts = 0, list(SUMMAND.finditer(word))
        word.ensure(len(parts) <= MOST_PARTS, f"{word!r} is no number")
        for part in parts:
            summand = self.product(word.put(part[2], part.start(2)), with_labels)
            value += -summand if part[1] == "-" else summand
        word.ensure(abs(value) < MOST_NUMBER, f"{word!r} has more than 32 bits")
        return value

    def product(self, text: Word, with_labels: bool) -> int:
        value, terms = 1, text.split("*")
        text.ensure(len(terms) <= 8, "a product has at most eight factors")
        for term in terms:
            text.ensure(TERM.fullmatch(term), f"{text!r} is no number and no name")
            if NUMBER.fullmatch(term):
                value *= int(term, 0)
            elif term in self.constants:
                value *= self.constants[term]
            elif with_labels and term in self.labels:
                value *= self.labels[term].address
            elif term in self.labels:
                raise text.wrong(f"{term} is an address, and here a number stands")
            else:
                raise text.wrong(f"no line defines the name {term}" if NAME.fullmatch(term)
                                 else f"{term!r} is no number")
            text.ensure(abs(value) < MOST_NUMBER, f"{text!r} has more than 32 bits")
        return value

    def of_menu(self, words: list[Word]) -> Line:
        """The line of a menu that `.may WHO WHAT`, `.again LABEL` or `.comes LABEL` is, with numbers in the place of
        names and sums."""
        if words[0] in ASKING:
            if len(words) < 2:
                raise words[0].wrong(f"{words[0]} has a line without its step, as 0 out 0x00000005")
            return Line.of([words[0].put(words[0][1:]), *words[1:]])
        words[0].ensure(len(words) >= 3, f".may has 'each' or a partition's name, and a deed: {', '.join(DEEDS)}")
        who, what, *numbers = words[1:]
        return Line.of([who if who == against.EACH.decode() else self.word_text(who), what,
                        *map(self.word_text, numbers)])

    def warnings(self) -> Iterator[Wrong]:
        """What is most likely wrong in handler tables, though it becomes an image."""
        for page in (page for page in self.pages if page.seen == TABLE):
            blocks = {vector: self.number(word.put(text), True) for vector, (word, text) in page.entries.items()
                      if vector < 256}
            for vector, address in blocks.items():
                if address and (warning := self.warning(vector, address, blocks)):
                    yield page.entries[vector][0].wrong(f"warning: the block of vector {vector} {warning}")

    def warning(self, vector: int, address: int, blocks: dict[int, int]) -> str:
        there = [item for page in self.pages for item in page.items
                 if item.at <= (address - page.seen) // 4 < item.at + item.size]
        if any(item.is_code for item in there):
            return "begins at an instruction: an entry is the address of a block, whose first word is the pc"
        for other, begins in blocks.items():
            if begins and 0 < address - begins < BLOCK:
                return f"and that of vector {other} overlap: a block has 17 words, 68 bytes"
            if SAVED in (vector, other) and vector < other and begins == address:
                return f"is that of vector {other}, too: where a partition is saved there, it is lost"
        if vector in (0, 6, 14, 17, *range(32, 48)) and not there:
            return f"has no pc: .handler {vector} BLOCK NAME gives one"
        return ""

    def word_text(self, word: Word) -> Word:
        """A number as a word, where it is one."""
        number = self.number(word, True)
        return word if NUMBER.fullmatch(word) or number < 0 else word.put(f"0x{number:08x}")

    def names_in(self, page: Page) -> list[tuple[int, str]]:
        """The names of a page, each with the index of its word there, in their order."""
        return sorted(((label.address - page.seen) % (1 << 32) // 4, name) for name, label in self.labels.items()
                      if label.page is page)

    def written(self, wrongs: list[Wrong]) -> Lines:
        """The lines of the assembly text, each with its place in the source."""
        for words in self.may:
            with collecting(wrongs):
                if words[0] in OF_RULES:
                    self.rules.append(rule_of(words, self))
                else:
                    self.menu.append((words[0].place, self.of_menu(words)))
        lines = list(self.head)
        for page in self.pages:
            lines.append((page.place, Line(f".page 0x{page.address:08x}")))
            with collecting(wrongs):
                lines += self.written_page(page, wrongs)
        return lines

    def written_page(self, page: Page, wrongs: list[Wrong]) -> Lines:
        lines: Lines = []
        end = 0
        for item in sorted(page.items, key=lambda item: item.at):
            if item.size and item.at < end:
                raise Wrong(item.place, f"word {item.at} of the page is filled already")
            if item.at > end:
                lines.append((item.place, Line(f".zero {item.at - end}")))
            # of a line that is wrong, so that what is after it stays in its place
            told = [Line(".word 0")] * item.size
            with collecting(wrongs):
                told = item.write()
            lines += [(item.place, line) for line in told]
            end = max(end, item.at + item.size)
        return lines


def processed(path: str, files: Files | None = None) -> tuple[Lines, Text]:
    """The lines of the assembly text of a file, each with its place in the source. `files` has what may be included."""
    text, wrongs = Text(), list[Wrong]()
    order: dict[Place, int] = {}
    with collecting(wrongs):
        for count, (place, words) in enumerate(lines_of(path, files or Files()), 1):
            order.setdefault(place, count)
            with collecting(wrongs):
                if words:
                    text.take(words)
            ensure(count <= MOST_LINES, f"{path} has more than {MOST_LINES} lines, with what it includes")
    lines = text.written(wrongs)
    wrongs += [Wrong(place, "the line has more than 120 bytes") for place, line in lines if len(line.encode()) > 120]
    told = {wrong.place for wrong in wrongs}
    further = [*refused(lines, why.by_reference(assembly.assemble)),
               *refused(text.menu, why.by_reference(against.menu_of), why.MENU)]
    wrongs += [wrong for wrong in further if wrong.place not in told]
    if wrongs:
        raise AllWrong(sorted(wrongs, key=lambda wrong: order.get(wrong.place, MOST_LINES + 1)))
    return lines, text


def second(words: list[Word]) -> Word:
    """The first operand, or the name where there is none."""
    return words[min(len(words) - 1, 1)]


def beyond(words: list[Word], count: int) -> Word:
    """The first operand that is too much, or the name of an instruction that lacks some."""
    return words[count + 1] if len(words) > count + 1 else words[0]


def in_form(form: str, words: list[Word]) -> list[Word]:
    """An instruction of those that others are written by, each word with the column of what it is made of."""
    found = []
    for word in form.split():
        of = re.search("{(.)}", word)
        source = words[int(of[1]) + 1] if of else words[0]
        found.append(source.put(word.format(*words[1:]), -of.start() if of else 0))
    return found


def refused(lines: Lines, judge: why.Judge, kind: why.Kind = why.ASSEMBLY) -> Iterator[Wrong]:
    """What an assembler refuses of the assembly text, or the reference of the menu, at its place in the source."""
    for number, fault, cause in why.bad_lines(kind, judge, [line.encode() for _, line in lines], why.MOST_TOLD + 1):
        place, line = lines[min(number, len(lines)) - 1] if lines else (Place("the text", 1), Line())
        yield Wrong(place, f"{fault}, in {line!r}: {cause.here}", line.column(cause.column))


def assembled(program: str, lines: Lines) -> bytes:
    """The image, by the program."""
    image, status = calling.output(program, ["asm"], text_of(lines))
    if status:
        raise Failed(f"asm ends with status {status}, and the reference refuses nothing: "
                     f"{image.decode('ascii', 'replace').strip()}")
    return image


def text_of(lines: Lines) -> bytes:
    """The text of an assembly or of a menu, as the program reads it."""
    return "".join(line + "\n" for _, line in lines).encode()


def image_of(program: str, path: str) -> tuple[bytes, str | None]:
    """The image of a file, and its path where it is a source."""
    data = calling.contents(path, MOST_IMAGE)
    ensure(data, f"{path} is empty")
    if data.startswith(IMAGE):
        return data, None
    ensure(path != "-", "a source is given by its name, since it may include others")
    lines, text = processed(path)
    warn(text)
    return assembled(program, lines), path


def warn(text: Text) -> None:
    """Says on standard error what is most likely wrong."""
    for warning in text.warnings():
        print(warning, file=sys.stderr)


def main() -> None:
    parser = argparse.ArgumentParser(description="A preprocessor to the assembly.",
                                     epilog="Without one of these options the assembly text goes to standard output.")
    parser.add_argument("file", metavar="FILE", help="the source; - is standard input")
    parser.add_argument("--image", metavar="OUT", help="assemble it, and write the image there")
    parser.add_argument("--against", metavar="OUT",
                        help="the same, and after the image its menu, the lines .may, .again and .comes, for against")
    parser.add_argument("--check", action="store_true",
                        help="only say what is wrong, also of a script or a menu, with the rule that applies")
    parser.add_argument("--as", dest="kind", choices=("script", "asm", "menu"),
                        help="of --check: what the file is; without it its name and its first line say so")
    calling.take_program(parser)
    calling.started(parser, work)


def checked(given: argparse.Namespace) -> int:
    """Says what is wrong: with a text for the program, or with a source."""
    path, data = given.file, calling.contents(given.file)
    kind = {"script": why.SCRIPT, "asm": why.ASSEMBLY, "menu": why.MENU}.get(
        given.kind or ("menu" if path.endswith(".may") else "asm" if path.endswith(".s") else ""))
    if (what := why.no_text(path, data)) and (data or kind is None):
        print(what)
        return 1
    if kind or why.kind_of(data) is why.SCRIPT:
        return why.checked(given.program, path, kind or why.SCRIPT, data)
    try:
        warnings = list(processed(path, Files(**{path: data}))[1].warnings())
    except Failed as failed:
        print(failed)
        return 1
    print("\n".join([*map(str, warnings), f"{path} is a good source"]))
    return 0


def work(given: argparse.Namespace) -> int:
    if given.check:
        return checked(given)
    lines, text = processed(given.file)
    warn(text)
    if given.image:
        calling.write(given.image, assembled(given.program, lines))
    elif given.against:
        calling.write(given.against, assembled(given.program, lines) + text_of(text.menu))
    else:
        sys.stdout.write(text_of(lines).decode())
    return 0
