"""Images of a machine: its number of frames and processors, plans of interrupt lines, and pages of the root."""

from __future__ import annotations

import struct
from collections.abc import Iterator, Sequence
from dataclasses import dataclass
from typing import NamedTuple

from .model import PAGE, WORDS, World, boot_tree

MAGIC, OLD_MAGIC = b"PIPIMG2\n", b"PIPIMG1\n"
MOST_PLANS, MOST_PAGES = 16, 4096


class Plan(NamedTuple):
    line: int
    first: int
    period: int

    def __str__(self) -> str:
        return f".line {self.line} {self.first} {self.period}"


Page = tuple[int, Sequence[int]]     # a vpage and 1024 words


class Image(NamedTuple):
    frames: int
    cpus: int
    plans: list[Plan]
    pages: list[Page]


class Head(NamedTuple):
    """The header: how many plans and pages come after it, too."""

    frames: int
    cpus: int
    plans: int
    pages: int


@dataclass(eq=False)
class BadImage(Exception):
    """The first fault of an image, with its offset."""

    kind: str
    at: int


@dataclass(eq=False)
class TooFew(Exception):
    """The header and the plans are good, and the header has too few frames for what is asked."""

    frames: int
    least: int


class Reader:
    """The fields of an image one after another."""

    def __init__(self, data: bytes) -> None:
        self.data = data
        self.at = 0

    def take(self, count: int) -> tuple[bytes, int]:
        """So many bytes, and their offset."""
        if self.at + count > len(self.data):
            raise BadImage("short", len(self.data))
        at, self.at = self.at, self.at + count
        return self.data[at:self.at], at

    def number(self, kind: str, least: int, most: int) -> int:
        """A field that is judged by its bounds."""
        field, at = self.take(4)
        value = int.from_bytes(field, "little")
        if not least <= value <= most:
            raise BadImage(kind, at)
        return value


def parts(reader: Reader, least: int = 0) -> Iterator[Head | Plan | Page]:
    """The header, the plans and the pages, one by one. With fewer frames than `least` it is TooFew, whatever is after
    the plans."""
    magic, at = reader.take(8)
    if magic != MAGIC:
        raise BadImage("oldversion" if magic == OLD_MAGIC else "magic", at)
    head = Head(reader.number("frames", 16, 4096), reader.number("cpus", 1, 4),
                reader.number("plan", 0, MOST_PLANS), reader.number("page", 0, MOST_PAGES))
    yield head
    line = -1
    for _ in range(head.plans):
        field, at = reader.take(12)
        plan = Plan(*struct.unpack("<3I", field))
        if plan.line >= 16 or plan.line <= line:
            raise BadImage("plan", at)
        line = plan.line
        yield plan
    if head.frames < least:
        raise TooFew(head.frames, least)
    rows, seen = boot_tree(head.frames).nodes[1].rows, set[int]()
    for _ in range(head.pages):
        field, at = reader.take(4)
        vpage = int.from_bytes(field, "little")
        if vpage not in rows or vpage in seen:
            raise BadImage("twice" if vpage in seen else "page", at)
        seen.add(vpage)
        yield vpage, struct.unpack("<1024I", reader.take(PAGE)[0])


def parted(data: bytes, least: int = 0) -> tuple[Image, bytes]:
    """The image with which the bytes begin, and what is after it; BadImage where they don't begin with one."""
    reader = Reader(data)
    head, *rest = parts(reader, least)
    assert isinstance(head, Head)
    plans = [part for part in rest if isinstance(part, Plan)]
    pages = [part for part in rest if not isinstance(part, (Head, Plan))]
    return Image(head.frames, head.cpus, plans, pages), data[reader.at:]


def read(data: bytes, least: int = 0) -> Image:
    """The image that the bytes are."""
    image, after = parted(data, least)
    if after:
        raise BadImage("long", len(data) - len(after))
    return image


def written(image: Image) -> bytes:
    """The bytes of an image."""
    head = MAGIC + struct.pack("<4I", image.frames, image.cpus, len(image.plans), len(image.pages))
    plans = b"".join(struct.pack("<3I", *plan) for plan in image.plans)
    return head + plans + b"".join(struct.pack("<1025I", vpage, *words) for vpage, words in image.pages)


def world(image: Image) -> World:
    """The world that an image begins with."""
    world = World.boot(image.frames, image.cpus)
    rows = world.tree.nodes[1].rows
    for vpage, words in image.pages:
        for index in range(WORDS):
            world.tree.set_word(rows[vpage].page, index, words[index])
    return world


def is_due(plan: Plan, t: int) -> bool:
    return t == plan.first or t > plan.first and plan.period != 0 and (t - plan.first) % plan.period == 0
