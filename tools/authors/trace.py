"""Runs and ways step by step, by dev/reference, of which nothing is proved: who ran, where, which instruction, and the
program's line; at the end all registers."""

from __future__ import annotations

from collections.abc import Sequence

from common.machine import instructions, runs
from common.machine.model import FETCH, Fault, World
from debugger.sources import Source


class Watched(runs.Turn):
    """A turn that notes who made which instruction, and where."""

    did: str | None = None
    where: tuple[int, int] | None = None         # partition and pc

    def instruction(self, instruction: instructions.Instruction) -> None:
        self.note(instructions.text(instruction))
        super().instruction(instruction)

    def trap(self, vector: int, a: int, b: int) -> None:
        if self.did is None:
            self.note(f"0x{b:08x}, which is no instruction")
        super().trap(vector, a, b)

    def note(self, text: str) -> None:
        at = self.world.running_on(self.cpu)
        self.did, self.where = text, (at.name, at.context.pc)


def name_at(source: Source, world: World, part: int, pc: int) -> str:
    """The nearest name at or before a pc of a partition, and how many instructions after it."""
    place = world.tree.reach(world.tree.nodes[part], pc, FETCH, True)
    return "" if isinstance(place, Fault) else source.nearest((place.page, place.index))


def line_of(turn: Watched, lines: list[str], source: Source) -> str:
    """A step in one line."""
    shown = lines[0].split(" ", 2)[2] if lines else ""
    if turn.did and turn.where:
        name, pc = turn.where
        what = f"{name:>4} 0x{pc:08x} {name_at(source, turn.world, name, pc):24} {turn.did:24}"
    else:
        what = f"{'':4} {'':10} {'':24} {without_instruction([shown] if shown else []):24}"
    return f"{turn.step:>6} {turn.cpu} {what} {shown}".rstrip()


def without_instruction(lines: list[str]) -> str:
    """What a turn did that made no instruction, by its lines without step and processor."""
    if not lines:
        return "idle"
    return "a line is taken" if int(lines[0].split()[-1]) in range(32, 48) else "the fetch faults"


def registers_of(world: World) -> list[str]:
    """All registers at the end."""
    return [line for cpu, at in enumerate(world.processors)
            for line in told_registers(cpu, (at.name, at.context.pc, at.context.registers) if at else None)]


def told_registers(cpu: int, at: tuple[int, int, Sequence[int]] | None) -> list[str]:
    """What runs on a processor, a partition with its pc and its registers."""
    if at is None:
        return [f"processor {cpu} runs nothing"]
    part, pc, registers = at
    return [f"processor {cpu} runs partition {part}, pc 0x{pc:08x}",
            *("  " + "  ".join(f"r{r:<2} 0x{registers[r]:08x}" for r in range(first, first + 4))
              for first in range(0, 16, 4))]
