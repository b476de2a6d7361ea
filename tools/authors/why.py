"""Why a script, an assembly text or a menu is refused: line, column, what is there, and the rule of docs/FORMATS.md."""

from __future__ import annotations

import difflib
import re
from collections.abc import Callable, Iterator
from typing import NamedTuple, NoReturn, Optional

from common import calling, meanings
from common.calling import Failed, ensure
from common.machine import against, assembly, instructions, script

NUMBER = re.compile(rb"0|[1-9][0-9]*|0x[0-9a-f]{1,8}")
LONGEST = 120
MOST_TOLD = 20           # bad lines of one text
# What tools/asmx adds
OF_ASMX = (".equ", ".handler", ".include", ".may", ".again", ".comes", ".never", ".always", "la", "j", "nop", "call",
           "ret", "neg", "not")
LIKE = {"ld": "ldw", "st": "stw", "load": "ldw", "store": "stw", "lw": "ldw", "sw": "stw", "lb": "ldb", "sb": "stb",
        "move": "mov", "jmp": "jal", "trap": "int", "ecall": "sys", "syscall": "sys",
        "subi": "addi with a negative number", "bgt": "blt", "bgtu": "bltu",
        "beqz": "beq with a register that holds 0", "bnez": "bne with a register that holds 0"}
# What other assemblers write, and this one doesn't: a sign in a word, and what to do
SIGNS = ((",", "operands are separated by spaces, not by commas"),
         ("(", "an address is a register and a number: ldw r1 r2 0, without brackets"),
         ("[", "an address is a register and a number: ldw r1 r2 0, without brackets"),
         (";", "a remark begins with #"), ("//", "a remark begins with #"))
DIRECTIVES = (b".frames", b".cpus", b".line", b".page", b".word", b".zero")

Form = tuple[Optional[int], ...]      # what each number of a line is below; None is the number of processors


class Cause(Exception):
    """What is wrong with a line: a row of the tables, the column (from 1 on), what stands there in words, and what to
    do, if that isn't what the row says."""

    def __init__(self, name: str, column: int, here: str, act: str = "") -> None:
        super().__init__(name)
        self.name, self.column, self.here, self.act = name, column, here, act


def in_upper_case(column: int, word: bytes) -> Cause:
    return Cause("case", column, f"{shown(word)} has a letter in upper case",
                 f"write it in lower case: `{word.lower().decode('utf-8', 'replace')}`")


# What is wrong with a line of either kind

def words_of(line: bytes) -> list[tuple[int, bytes]]:
    """The words of a line, each with its column."""
    return [(found.start() + 1, found[0]) for found in re.finditer(rb"(?:^|(?<= ))[^ ]*", line)]


def shown(word: bytes) -> str:
    return repr(word.decode("utf-8", "replace"))


def judge_bytes(line: bytes, place: int) -> None:
    """What is wrong with a line whatever its form is."""
    if len(line) > LONGEST:
        raise Cause("long", LONGEST + 1, f"the line has {len(line)} bytes")
    if place == 1 and line.startswith(b"\xef\xbb\xbf"):
        raise Cause("mark", 1, "the file begins with a byte order mark")
    if line.endswith(b"\r"):
        raise Cause("return", len(line), "the line ends with a carriage return")
    if (found := re.search(rb" #", line)) and not line.startswith(b"#"):
        raise Cause("remark", found.start() + 2, "a remark begins after the line's words")
    if found := re.search(rb"^ |  | $|[\t\v\f]", line):
        what = {b" ": "a space", b"  ": "two spaces"}.get(found.group(), "a tab")
        where = " at the beginning" if found.start() == 0 else " at the end" if found.end() == len(line) else ""
        raise Cause("spaces", found.start() + 1, what + where)


def judge_number(column: int, word: bytes) -> None:
    if not NUMBER.fullmatch(word):
        if re.search(rb"[A-Z]", word):
            raise in_upper_case(column, word)
        if re.fullmatch(rb"0x[0-9a-f]{9,}", word):
            raise Cause("large", column, f"{shown(word)} has more than eight digits")
        raise Cause("number", column, f"{shown(word)} is no number")
    if len(word) > 10 or int(word, 0) >= 1 << 32:
        raise Cause("large", column, f"{shown(word)} is above 4294967295")


# Scripts

def judge_script(lines: list[bytes], place: int, _fault: str = "") -> NoReturn:
    """Why line `place` of a script is bad."""
    line = lines[place - 1]
    judge_bytes(line, place)
    (_, name), *operands = words_of(line)
    booted = next((x for x in lines[:place - 1] if x and not x.startswith(b"#")), None)
    forms: dict[bytes, Form | None] = {**script.FORMS, b"boot": (script.WORD, script.WORD), b"call": None}
    if name not in forms:
        if re.search(rb"[A-Z]", name):
            raise in_upper_case(1, name)
        near = difflib.get_close_matches(name.decode("utf-8", "replace"), [form.decode() for form in forms], 2, 0.6)
        meant = f"; did you mean {' or '.join(near)}?" if near else ""
        raise Cause("form", 1, f"no line begins with {shown(name)}{meant}")
    for column, word in operands:
        judge_number(column, word)
    if (name == b"boot") == (booted is not None):
        raise Cause("second", 1, "the machine was begun before" if booted else "no machine was begun before")
    judge_count(name, operands, forms[name], len(line))
    judge_values(name, [(column, int(word, 0)) for column, word in operands], forms[name], booted)
    raise Failed(f"line {place} is bad, and this tool doesn't see why")


def and_here(due: str, what: str, count: int) -> str:
    """`2 numbers, and here is 1`."""
    told = {0: "is none", 1: "is 1"}.get(count, f"are {count}")
    return f"{due} {what}{'' if due == '1' else 's'}, and here {told}"


def judge_count(name: bytes, operands: list[tuple[int, bytes]], form: Form | None, end: int,
                of_call: tuple[int, int] = (2, 7), remark: str = "") -> None:
    least, most = of_call if form is None else (len(form), len(form))
    if not least <= len(operands) <= most:
        due = f"{least}" if least == most else f"{least} to {most}"
        column, remark = (operands[most][0], remark) if len(operands) > most else (end + 1, "")
        raise Cause("count", column, f"{name.decode()} has {and_here(due, 'number', len(operands))}{remark}")


def judge_values(name: bytes, values: list[tuple[int, int]], form: Form | None, booted: bytes | None) -> None:
    if name == b"boot":
        for (column, value), (least, most) in zip(values, ((16, 4096), (1, 4))):
            if not least <= value <= most:
                raise Cause("boot", column, f"{value} isn't from {least} to {most}")
        return
    assert booted is not None
    cpus = int(booted.split(b" ")[2], 0)
    for (column, value), limit in zip(values, form or (script.CPU,)):
        if limit is None and value >= cpus:
            raise Cause("processor", column, f"there is no processor {value}: the machine has {cpus}")
        if limit is not None and value >= limit:
            raise Cause("range", column, f"{value} is above {limit - 1}")


# Menus

def judge_menu(lines: list[bytes], place: int, kind: str) -> NoReturn:
    """Why line `place` of a menu is refused with this kind."""
    line = lines[place - 1]
    judge_bytes(line, place)
    (_, who), *words = words_of(line)
    if kind == "who":
        raise Cause("menu who", 1, f"{shown(who)} is neither 'each', 'again', 'comes' nor a number")
    if kind == "many":
        most = (against.MOST_LINES, "lines") if place > against.MOST_LINES else \
            (against.MOST_LABELS, "labels") if who in against.ASKS else (against.MOST_DEEDS, "deeds")
        raise Cause("menu many", 1, f"there are {most[0]} {most[1]} before")
    if who in against.ASKS:
        raise Cause("menu what", len(line) + 1, f"no label comes after '{who.decode()}'")
    (column, name), *operands = words or [(len(line) + 1, b"")]
    if name not in against.WORDS:
        raise Cause("menu what", column, f"{shown(name)} is none of ld, lb, st, sb, trap and call")
    for column, word in operands:
        judge_number(column, word)
    form = script.FORMS[name][1:] if name in script.FORMS else None
    judge_count(name, operands, form, len(line), (1, 6), ": no processor is named here")
    for (column, word), limit in zip(operands, form or ()):
        if limit is not None and int(word, 0) >= limit:
            raise Cause("range", column, f"{shown(word)} is above {limit - 1}")
    raise Failed(f"line {place} is bad, and this tool doesn't see why")


# Assembly texts

def judge_assembly(lines: list[bytes], place: int, kind: str) -> NoReturn:
    """Why line `place` of an assembly text is refused with this kind."""
    if place > len(lines):
        raise Cause("asm head", 1, "the text ends before its two header lines, .frames and .cpus")
    line = lines[place - 1]
    if kind in ("unknown", "operand"):
        judge_bytes(line, place)
    words = words_of(line)
    if kind == "unknown":
        raise unknown(words[0][1])
    judge = {"operand": wrong_operand, "range": wrong_range, "label": wrong_name}.get(kind)
    column, here = judge(words, line) if judge else (words[-1][0] if kind == "twice" else 1, {
        "twice": f"{shown(words[-1][1].rstrip(b':'))} was defined before", "size": "the page has 1024 words"}[kind])
    is_far = kind == "range" and words[0][1].decode() in assembly.DISTANCES and not is_number(words[-1][1])
    raise Cause("asm distance" if is_far else "asm " + kind, column, here)


def unknown(word: bytes) -> Cause:
    """Why no line begins with this word there."""
    name = word.decode("utf-8", "replace")
    if name.lower() in instructions.OPCODES and name not in instructions.OPCODES:
        return in_upper_case(1, word)
    is_label = word.endswith(b":") and assembly.NAME.fullmatch(word[:-1])
    if name in instructions.OPCODES or word in (b".word", b".zero") or is_label:
        return Cause("asm place", 1, f"{shown(word)} stands in a page, and no .page is above it")
    if word in DIRECTIVES:
        return Cause("asm place", 1, f"{shown(word)} doesn't stand here")
    if word.endswith(b":"):
        return Cause("asm unknown", 1, f"{shown(word[:-1])} is no good name",
                     "a name has 1 to 32 letters, digits or `_`, no digit first")
    if name in OF_ASMX:
        return Cause("asm unknown", 1, f"no line of an assembly text begins with {shown(word)}",
                     f"`{name}` is of a source of `tools/asmx`, which writes an assembly text")
    names = [known.decode() for known in DIRECTIVES] if word.startswith(b".") else list(instructions.OPCODES)
    return Cause("asm unknown", 1, no_instruction(name, names, LIKE))


def no_instruction(word: str, names: list[str], like: dict[str, str]) -> str:
    """A sentence about a word that begins no line, with what may be meant by it."""
    names = names if word.startswith(".") else [*names, *like]
    near = [word] if word in like else difflib.get_close_matches(word, names, 2, 0.6)
    meant = " or ".join(dict.fromkeys(like.get(name, name) for name in near))
    what = "no line begins with " + repr(word) if word.startswith(".") else f"{word!r} is no instruction"
    return what + (f"; did you mean {meant}?" if meant else hint(word))


def hint(word: str) -> str:
    """What to do about a sign that other assemblers have."""
    return next((f": {told}" for sign, told in SIGNS if sign in word), "")


def is_number(word: bytes) -> bool:
    return re.fullmatch(rb"-?(0x[0-9a-f]+|[0-9]+)", word) is not None


def operands_of(name: bytes) -> list[str]:
    """How the operands of a line are judged: a test for each, and what it is called."""
    tests = {b".frames": ["number"], b".cpus": ["number"], b".line": ["number"] * 3, b".page": ["number"],
             b".word": ["word"], b".zero": ["number"]}
    if name in tests:
        return tests[name]
    if name.endswith(b":"):
        return []
    kind = instructions.KINDS[instructions.OPCODES[name.decode()]]
    what = {instructions.UNSIGNED: "half" if kind.name in assembly.HALVES else "number",
            instructions.SIGNED: "distance" if kind.name in assembly.DISTANCES else "signed"}
    return [what.get(operand, "register") for operand in instructions.FORMS[kind.form]]


IS: dict[str, Callable[[bytes], object]] = {
    "register": lambda word: assembly.REGISTER.fullmatch(word), "number": lambda word: good_number(word),
    "signed": lambda word: good_number(word) or assembly.NEGATIVE.fullmatch(word),
    "word": lambda word: good_number(word) or assembly.NAME.fullmatch(word),
    "half": lambda word: good_number(word) or word[:1] in (b"<", b">") and assembly.NAME.fullmatch(word[1:]),
    "distance": lambda word: good_number(word) or assembly.NEGATIVE.fullmatch(word) or assembly.NAME.fullmatch(word),
}
CALLED = {"register": "a register, r0 to r15", "number": "a number", "signed": "a number with or without -",
          "word": "a number or a name", "half": "a number, or < or > and a name",
          "distance": "a number with or without -, or a name"}


def good_number(word: bytes) -> bool:
    return NUMBER.fullmatch(word) is not None and len(word) <= 10 and int(word, 0) < 1 << 32


def wrong_operand(words: list[tuple[int, bytes]], line: bytes) -> tuple[int, str]:
    (_, name), *operands = words
    due = operands_of(name)
    for (column, word), what in zip(operands, due):
        if not IS[what](word) and IS[what](word.lower()):
            raise in_upper_case(column, word)
        if not IS[what](word):
            return column, f"{shown(word)} isn't {CALLED[what]}{hint(word.decode('utf-8', 'replace'))}"
    column = operands[len(due)][0] if len(operands) > len(due) else len(line) + 1
    return column, f"{name.decode()} has {and_here(str(len(due)), 'operand', len(operands))}"


LIMITS = {b".frames": "16 to 4096", b".cpus": "1 to 4", b".line": "0 to 15, and above that of the plan before",
          b".page": "multiples of 4096 at which the root has a page"}


def wrong_range(words: list[tuple[int, bytes]], line: bytes) -> tuple[int, str]:
    column, word = words[-1]
    if words[0][1] in DIRECTIVES:
        column, word = words[1]
    if not is_number(word):
        return column, f"{shown(word)} is too far away"
    kind = instructions.KINDS.get(instructions.OPCODES.get(words[0][1].decode("latin1"), 0))
    limits = f"{kind.least} to {kind.most}" if kind else LIMITS.get(words[0][1], "those of the table")
    return column, f"{shown(word)} is outside the limits, which are {limits}"


def wrong_name(words: list[tuple[int, bytes]], line: bytes) -> tuple[int, str]:
    column, word = words[-1]
    return column, f"no line defines {shown(word.lstrip(b'<>'))}"


# All bad lines of a text

Judge = Callable[[bytes], Optional[tuple[int, str]]]     # the first bad line, and how it is bad, where that has a name


class Kind(NamedTuple):
    """A kind of text: its name, what says why a line is bad, and a line that is always good."""

    name: str
    explain: Callable[[list[bytes], int, str], NoReturn]
    good: bytes = b"#"


SCRIPT, ASSEMBLY = Kind("script", judge_script), Kind("assembly text", judge_assembly, b".word 0")
MENU = Kind("menu", judge_menu)


def by_reference(accept: Callable[[bytes], object]) -> Judge:
    def judge(text: bytes) -> tuple[int, str] | None:
        try:
            accept(text)
        except script.BadLine as bad:
            return bad.line, bad.kind
        return None
    return judge


def by_program(program: str, kind: Kind) -> Judge:
    def judge(text: bytes) -> tuple[int, str] | None:
        output, status = calling.output(program, ["asm" if kind is ASSEMBLY else "script"], text)
        found = re.search(rb"bad line (\d+)(?: (\w+))?\n$", output)
        ensure(not status or found is not None, "the program refuses the text, and names no line")
        return (int(found[1]), (found[2] or b"").decode()) if status and found else None
    return judge


def bad_lines(kind: Kind, judge: Judge, lines: list[bytes], most: int = MOST_TOLD) -> Iterator[tuple[int, str, Cause]]:
    """Each bad line, how it is bad, and why: after one the text is judged again with a good line in its place."""
    lines = list(lines)
    while most and (found := judge(b"".join(line + b"\n" for line in lines))):
        place, fault = found
        cause = cause_of(kind, lines, place, fault)
        yield place, fault, cause
        line = b"".join(lines[place - 1:place])
        is_head = line.startswith((b"boot", b".")) and not line.startswith(b".word")      # all after it would be wrong
        if place > len(lines) or is_head or cause.name in ("second", "menu many", "asm place"):
            return
        lines[place - 1] = kind.good
        most -= 1


def cause_of(kind: Kind, lines: list[bytes], place: int, fault: str) -> Cause:
    try:
        kind.explain(lines, place, fault)
    except Cause as cause:
        return cause


# The tool

def no_text(name: str, data: bytes) -> str:
    """What a file is that is no text; nothing where it is one."""
    if not data:
        return f"{name} is empty"
    if data.startswith(b"PIPIMG"):
        return f"{name} is an image, and no text: ./pip dis < {name} writes its text"
    found = re.search(rb"[\x00-\x08\x0e-\x1f\x7f]", data)
    return f"{name} is no text: it has the byte 0x{data[found.start()]:02x} at offset {found.start()}" if found else ""


def why(program: str, name: str, text: bytes, as_assembly: bool | None = None) -> tuple[list[str], bool]:
    """The sentences about the first bad line of a text, and whether it is good."""
    if (what := no_text(name, text)) and (text or as_assembly is None):
        return [what], False
    kind = kind_of(text, as_assembly)
    wrong = next(sentences(kind, by_program(program, kind), name, text), None)
    return wrong or [f"{name} is a good {kind.name}"], wrong is None


def kind_of(text: bytes, as_assembly: bool | None = None) -> Kind:
    first = next((line for line in script.lines(text) if line and not line.startswith(b"#")), b"")
    begins_assembly = first.lstrip(b" \t\xef\xbb\xbf").lower().startswith(b".")
    return ASSEMBLY if (begins_assembly if as_assembly is None else as_assembly) else SCRIPT


def sentences(kind: Kind, judge: Judge, name: str, text: bytes) -> Iterator[list[str]]:
    """The sentences about each bad line."""
    lines = script.lines(text)
    return (told(name, place, lines, cause) for place, _, cause in bad_lines(kind, judge, lines))


def told(name: str, place: int, lines: list[bytes], cause: Cause) -> list[str]:
    row = meanings.CAUSES[cause.name]
    line = lines[place - 1].decode("utf-8", "replace") if place <= len(lines) else ""
    sentences = [f"{name}:{place}:{cause.column}: {cause.here}"]
    if line.isprintable() and line and cause.column <= 121:
        sentences += ["    " + line[:120], "    " + " " * (cause.column - 1) + "^"]
    sentences.append(f"rule: {row[1]}")
    act = cause.act or "".join(row[2:])
    return sentences + [f"what to do: {act}"] * bool(act)


def checked(program: str, name: str, kind: Kind, text: bytes) -> int:
    """Says what is wrong with each bad line of a text; the status is 1 where one is."""
    judge = by_reference(against.menu_of) if kind is MENU else by_program(program, kind)
    wrong = ["\n".join(lines) for lines in sentences(kind, judge, name, text)]
    print("\n\n".join(wrong) or f"{name} is a good {kind.name}")
    return 1 if wrong else 0
