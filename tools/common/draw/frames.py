"""What each frame of a memory is: the descriptors, directories, tables and list pages, found from the root on.

The words are those of docs/FORMATS.md."""

from __future__ import annotations

from step import walk
from step.walk import PAGE, Role
from .texts import Memory

TABLE_OF_HANDLERS = 0xFFFFF000
LAST_BLOCK = 4028           # where a block may begin in its page at most


def word(memory: Memory, frame: int, index: int) -> int:
    return memory.get(frame, {}).get(index, 0)


def roles(memory: Memory) -> dict[int, Role]:
    """The role of each frame that is configuration of a partition."""
    return walk.roles(walk.partitions(walk.of_memory(memory)))


def table(memory: Memory, name: int, level: int, index: int) -> int:
    """The frame of a table of a partition, or 0."""
    return word(memory, word(memory, name, 3 + 2 * level), index) // PAGE


def loaded(memory: Memory, name: int, address: int) -> int | None:
    """The word that a partition loads at an address, or None where it can't."""
    leaf = word(memory, table(memory, name, 0, address >> 22), address >> 12 & 1023)
    return word(memory, leaf // PAGE, address % PAGE // 4) if leaf & 7 == 7 else None


def block(memory: Memory, name: int, address: int | None) -> list[int] | None:
    """The 17 words of the block at an address, or None where none can be there."""
    if address is None or address % 4 or address % PAGE > LAST_BLOCK or loaded(memory, name, address) is None:
        return None
    return [loaded(memory, name, address + 4 * place) or 0 for place in range(17)]


def given(shadow: int) -> str:
    """What a word of a first shadow table says."""
    kind = {1: "descriptor of", 2: "configuration of", 3: "lent to"}.get(shadow % PAGE)
    return f"{kind} the child at 0x{shadow - shadow % PAGE:08x}" if kind else "free"


def came(shadow: int) -> str:
    """What a word of a second shadow table says."""
    return f"the parent has it at 0x{shadow - 1:08x}" if shadow else "the root's own"
