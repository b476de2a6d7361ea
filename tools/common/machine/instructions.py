"""Instructions: their words, their texts and their effects."""

from __future__ import annotations

from collections.abc import Callable
from typing import Any, NamedTuple

NEXT = 4                 # bytes from an instruction to the next
HIGH = 1 << 31
WORD = 1 << 32

# What the operands of a form are, and which of the 32 bits are theirs
REGISTER_A, REGISTER_B, REGISTER_C, UNSIGNED, SIGNED = "a", "b", "c", "unsigned", "signed"
FORMS = {
    "R1": (REGISTER_A,),
    "R2": (REGISTER_A, REGISTER_B),
    "R3": (REGISTER_A, REGISTER_B, REGISTER_C),
    "RI": (REGISTER_A, REGISTER_B, UNSIGNED),
    "RS": (REGISTER_A, REGISTER_B, SIGNED),
    "LI": (REGISTER_A, UNSIGNED),
    "JS": (REGISTER_A, SIGNED),
    "N": (UNSIGNED,),
}
SHIFTS = {REGISTER_A: 20, REGISTER_B: 16, REGISTER_C: 12}


class Kind(NamedTuple):
    name: str
    form: str
    least: int           # the bounds of an immediate
    most: int


class Instruction(NamedTuple):
    name: str
    operands: tuple[int, ...]


def _kinds() -> dict[int, Kind]:
    table = """mov R2, li LI, lih LI, add R3, sub R3, mul R3, div R3, rem R3, and R3, or R3, xor R3, shl R3, shr R3,
        sar R3, slt R3, sltu R3, addi RS, andi RI, ori RI, shli RI, shri RI, ldw RS, stw RS, ldb RS, stb RS, beq RS,
        bne RS, blt RS, bltu RS, jal JS, jr R1, sys N, int N, out R1"""
    kinds = {}
    for opcode, entry in enumerate(table.split(","), 1):
        name, form = entry.split()
        bounds = (-32768, 32767) if SIGNED in FORMS[form] else (0, 65535)
        bounds = {"shli": (0, 31), "shri": (0, 31), "int": (64, 255)}.get(name, bounds)
        kinds[opcode] = Kind(name, form, *bounds)
    return kinds


KINDS = _kinds()                                       # by opcode
OPCODES = {kind.name: opcode for opcode, kind in KINDS.items()}


def encode(instruction: Instruction) -> int:
    """The word of an instruction whose operands are in their bounds."""
    opcode = OPCODES[instruction.name]
    word = opcode << 24
    for operand, value in zip(FORMS[KINDS[opcode].form], instruction.operands):
        word |= value << SHIFTS[operand] if operand in SHIFTS else value & 0xFFFF
    return word


def decode(word: int) -> Instruction | None:
    """The instruction of a word, or None. A field that the form doesn't use is zero."""
    kind = KINDS.get(word >> 24)
    if kind is None:
        return None
    operands = []
    for operand in FORMS[kind.form]:
        if operand in SHIFTS:
            operands.append(word >> SHIFTS[operand] & 15)
        else:
            immediate = word & 0xFFFF
            if operand == SIGNED and immediate >= 0x8000:
                immediate -= 0x10000
            if not kind.least <= immediate <= kind.most:
                return None
            operands.append(immediate)
    instruction = Instruction(kind.name, tuple(operands))
    return instruction if encode(instruction) == word else None


def text(instruction: Instruction) -> str:
    """The assembly text: registers, and immediates in decimal."""
    form = FORMS[KINDS[OPCODES[instruction.name]].form]
    operands = [f"r{x}" if operand in SHIFTS else str(x) for operand, x in zip(form, instruction.operands)]
    return " ".join([instruction.name] + operands)


def word_text(word: int) -> str:
    """The instruction of a word, or the word where it is none."""
    found = decode(word)
    return text(found) if found else f".word 0x{word:08x}"


def signed(word: int) -> int:
    return word - WORD if word >= HIGH else word


# The value that register a gets, of the instructions that do nothing else: by the values of a, b and c or the immediate
VALUES: dict[str, Callable[..., Any]] = {
    "mov": lambda a, b: b,
    "li": lambda a, i: i,
    "lih": lambda a, i: i << 16 | a & 0xFFFF,
    "add": lambda a, b, c: b + c,
    "sub": lambda a, b, c: b - c,
    "mul": lambda a, b, c: b * c,
    "div": lambda a, b, c: b // c,
    "rem": lambda a, b, c: b % c,
    "and": lambda a, b, c: b & c,
    "or": lambda a, b, c: b | c,
    "xor": lambda a, b, c: b ^ c,
    "shl": lambda a, b, c: b << c % 32,
    "shr": lambda a, b, c: b >> c % 32,
    "sar": lambda a, b, c: signed(b) >> c % 32,
    "slt": lambda a, b, c: int(signed(b) < signed(c)),
    "sltu": lambda a, b, c: int(b < c),
    "addi": lambda a, b, i: b + i,
    "andi": lambda a, b, i: b & i,
    "ori": lambda a, b, i: b | i,
    "shli": lambda a, b, i: b << i,
    "shri": lambda a, b, i: b >> i,
}

# Whether a branch is taken, by the values of a and b
BRANCHES: dict[str, Callable[[int, int], bool]] = {
    "beq": lambda a, b: a == b,
    "bne": lambda a, b: a != b,
    "blt": lambda a, b: signed(a) < signed(b),
    "bltu": lambda a, b: a < b,
}
