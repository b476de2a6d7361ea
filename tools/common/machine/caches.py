"""The translation caches of the processors, in the words of docs/MODEL.md. No answer of an event depends on them."""

from __future__ import annotations

from typing import TYPE_CHECKING, NamedTuple

if TYPE_CHECKING:
    from .model import Row

PLACES = 64
MOST = (1 << 64) - 1     # a count stands still here


class Entry(NamedTuple):
    """What a place remembers: the row of a partition at a vpage."""

    part: int
    vpage: int
    page: int
    rights: int


class Cache:
    """The cache of one processor: the entries by their places, and how many accesses hit and missed."""

    def __init__(self) -> None:
        self.entries: dict[int, Entry] = {}
        self.hits = 0
        self.misses = 0

    def access(self, part: int, vpage: int, row: Row | None) -> None:
        """An aligned access of a partition. `row` is the row by which it reached a word, or None where it faulted."""
        entry = self.entries.get(vpage % PLACES)
        if entry is not None and (entry.part, entry.vpage) == (part, vpage):
            self.hits = min(self.hits + 1, MOST)
            return
        self.misses = min(self.misses + 1, MOST)
        if row is not None:
            self.entries[vpage % PLACES] = Entry(part, vpage, row.page, row.rights)

    def __str__(self) -> str:
        return f"hits {self.hits} misses {self.misses}"


def takes_pages(number: int, value: int) -> bool:
    """Whether an accepted call takes pages from a partition, so that the caches are emptied.

    It is createPartition, deletePartition, collect or removeVAddr, or prepare where it takes a page."""
    return number in (0, 1, 4, 6) or number == 3 and value > 0
