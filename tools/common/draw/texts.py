"""Reads what the commands `tree` and `core` write."""

from __future__ import annotations

from typing import NamedTuple

from common.calling import Failed
from step.walk import USES

Memory = dict[int, dict[int, int]]      # the words of each frame, by index


class Page(NamedTuple):
    address: int
    frame: int
    rights: str
    hidden: bool
    use: str
    child: int | None        # the descriptor's address

    @property
    def view(self) -> str:
        return "hidden" if self.hidden else "user"

    @property
    def told_use(self) -> str:
        return self.use if self.child is None else f"{self.use} 0x{self.child:08x}"


class Partition(NamedTuple):
    name: int
    depth: int
    up: int
    born: int
    tables: int
    pages: list[Page]

    def line(self, cpus: list[int]) -> str:
        """What there is to say of it, with the processors on which it runs, further in than its parent."""
        free = sum(row.use == "free" and not row.hidden for row in self.pages)
        where = f"at 0x{self.born:08x} of {self.up}" if self.depth else "the root"
        runs = f", runs on processor {' and '.join(map(str, cpus))}" if cpus else ""
        return (f"{'  ' * self.depth}partition {self.name}, {where}: {len(self.pages)} pages, {free} of them free"
                + runs)


class Misread(Failed):
    """A line is none of the command's."""


def partitions(text: str) -> list[Partition]:
    """The partitions of the text of `tree`, in its order: each before its children."""
    found = []
    for line in text.splitlines():
        words = line.split(" ")
        try:
            if words[0] == "part":
                _, name, _, depth, _, up, _, born, _, tables, _, _ = words
                found.append(Partition(int(name), int(depth), int(up), int(born, 16), int(tables), []))
            elif words[0] == "row":
                found[-1].pages.append(page(*words[1:]))
            elif words[0] != "end":
                raise ValueError
        except (ValueError, IndexError, TypeError):
            raise Misread(f"no line of a tree: {line!r}") from None
    if not found:
        raise Misread("the text has no partition")
    return found


def page(address: str, frame: str, rights: str, view: str, use: str, child: str | None = None) -> Page:
    if view not in ("user", "hidden") or use not in USES:
        raise ValueError
    return Page(int(address, 16), int(frame), rights, view == "hidden", use, int(child, 16) if child else None)


def memory(text: str) -> Memory:
    """The words that aren't 0 of each frame, by index, of the text of `core`."""
    frames: Memory = {}
    frame: dict[int, int] | None = None
    for line in text.splitlines():
        words = line.split(" ")
        try:
            if words[0] == "frame":
                frame = frames.setdefault(int(words[1]), {})
            elif words[0].endswith(":") and len(words) == 9 and frame is not None:
                first = int(words[0][:-1])
                frame.update({first + k: int(word, 16) for k, word in enumerate(words[1:]) if int(word, 16)})
            elif words[0] != "end":
                raise ValueError
        except (ValueError, IndexError, AttributeError):
            raise Misread(f"no line of a core: {line!r}") from None
    return frames
