"""What a source says of an image: names, and the line of each word of the root's pages."""

from __future__ import annotations

from bisect import bisect_right
from collections.abc import Sequence
from dataclasses import dataclass, field
from typing import NamedTuple

from authors import asmx
from authors.asmx import Place
from common.calling import Failed, ensure
from common.machine import assembly, image as images, script
from common.machine.model import PAGE

Word = tuple[int, int]              # a frame and an index in it


class Named(NamedTuple):
    """A name of the source: the address as its partition sees it, and the word of the frame."""

    address: int
    word: Word


@dataclass
class Source:
    """The names and lines of a source. An image without one has none."""

    path: str | None = None
    names: dict[str, Named] = field(default_factory=dict)
    constants: dict[str, int] = field(default_factory=dict)
    line_of: dict[Word, Place] = field(default_factory=dict)
    starts_of: dict[Place, list[Word]] = field(default_factory=dict)     # of a line its first word, in each page
    by_frame: dict[int, list[tuple[int, str]]] = field(default_factory=dict)
    words: dict[int, Sequence[int]] = field(default_factory=dict)            # of each frame, as the image has them
    warning: str = ""                                                        # where the image isn't that of the source

    def nearest(self, word: Word | None) -> str:
        """The last name at or before a word of its frame, and how many words after it."""
        return "" if word is None else nearest(self.by_frame.get(word[0], []), word[1])

    def named(self, name: str) -> Named:
        ensure(name in self.names, f"no line of the source defines the name {name}")
        return self.names[name]

    def place(self, word: Word | None, holds: int | None) -> Place | None:
        """The line that a word is from, as long as it holds what the image has there."""
        if word is None or word not in self.line_of or self.words[word[0]][word[1]] != holds:
            return None
        return self.line_of[word]

    def starts_at(self, file: str, line: int) -> tuple[int, list[Word]]:
        """The first line from this one on that has words, and the first word of it; several, where pages include one
        file."""
        lines = sorted(place.line for place in self.starts_of if place.file == file and place.line >= line)
        return (lines[0], self.starts_of[Place(file, lines[0])]) if lines else (line, [])


def read(image: bytes, path: str | None) -> Source:
    """What a source says of an image."""
    if path is None:
        return Source()
    lines, text = asmx.processed(path)
    try:
        read_image = images.read(image)
    except images.BadImage as bad:
        raise Failed(str(bad)) from None
    found, words = Source(path, constants=dict(text.constants)), dict(read_image.pages)
    if not is_made_of(read_image, lines):
        found.warning = f"{path} isn't the source of this image, or was changed since: the names may be wrong"
    for frame, page in pages_of(read_image, text).items():
        found.words[frame] = words.get(page.address // PAGE, [0] * asmx.WORDS)
        add_page(found, text, page, frame)
    return found


def add_page(found: Source, text: asmx.Text, page: asmx.Page, frame: int) -> None:
    for item in page.items:
        if item.size:
            found.starts_of.setdefault(item.place, []).append((frame, item.at))
        for index in range(item.at, item.at + item.size):
            found.line_of[frame, index] = item.place
    found.by_frame[frame] = text.names_in(page)
    found.names.update((name, Named(text.labels[name].address, (frame, index)))
                       for index, name in found.by_frame[frame])


def pages_of(image: images.Image, text: asmx.Text) -> dict[int, asmx.Page]:
    """The pages of a source, by the frames that the root has there."""
    rows = images.world(image._replace(pages=[])).tree.nodes[1].rows
    return {rows[page.address // PAGE].page: page for page in text.pages if page.address // PAGE in rows}


def nearest(names: list[tuple[int, str]], index: int) -> str:
    """The last name at or before a word of its frame, and how many words after it; nothing where there is none."""
    at = bisect_right(names, (index, "\U0010ffff")) - 1
    if at < 0:
        return ""
    start, name = names[at]
    return name + (f"+{index - start}" if index > start else "")


def is_made_of(image: images.Image, lines: asmx.Lines) -> bool:
    """Whether these lines of assembly become this image."""
    try:
        return images.read(assembly.assemble(asmx.text_of(lines))) == image
    except (script.BadLine, images.BadImage):
        return False
