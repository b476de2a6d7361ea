"""Certificates of the examples that close, by the commands `part` and `merge`, and by tools/certify: they say what the
search says; and those that have something wrong say nothing.
"""

from __future__ import annotations

import os
import random
import subprocess
import tempfile
from collections.abc import Iterator, Sequence
from pathlib import Path

from certifier.certify import CHECK_PARTS
from common import calling
from debugger.building import SEARCHES
from reference import generate_parts, parts, plain
from common.machine import image as images
from . import examples
from .running import contents, ensure, expect, needed, run, same, says

PLANTED = 1000                   # certificates with something wrong, at least
MOST_CHECKED = 60                # parts with a wrong mark, a wrong way or a wrong text that are checked of an example


def certificates(program: str) -> None:
    """Each NAME.every that closes, part by part; the lines of each part of a small one are the plain program's."""
    tried, chance = 0, random.Random(1)
    for name, image, first, told, texts in cut(program):
        states = int(told[-1].split()[1])
        lines = [checked(program, name, first, image + text) for text in texts]
        merged = together(lines)
        about = lines[0][-1].decode()[len("part "):-len(" 00000000" * 5) - 1]
        expect(f"{name}: the merge", run([calling.lab(program), "merge"], b"".join(merged)), (said(about, told), 0))
        for tried, (what, wrong) in enumerate(wrong_certificates(program, name, first, image, texts, lines), tried + 1):
            answer, status = run([calling.lab(program), "merge"], b"".join(wrong))
            ensure(status in (2, 9), f"{name}: a wrong certificate ({what}) ends with status {status}: "
                   f"{answer.decode()}")
        for text in texts:
            has_one_text(chance, program, name, first, image, text)
        if states < 200:
            for text, own in zip(texts, lines):
                same(f"{name}: the text of a part", parts.written(parts.part_of(text)), text)
                expect(f"{name}: the lines of a part", plain.told(["part", str(first)], image + text),
                       (b"".join(own), 0))
    goes_on(program, image)
    ensure(tried >= PLANTED, f"{tried} wrong certificates were tried, which are less than {PLANTED}")


def goes_on(program: str, image: bytes) -> None:
    """tools/certify goes on where it was ended, and not with parts of other numbers; a task checks its share."""
    with tempfile.TemporaryDirectory() as place:
        path, folder = Path(place, "x.img"), Path(place, "parts")
        path.write_bytes(image)
        words = ("certify", str(path), "--to", str(folder), "--size")
        says(program, (*words, "50", "--cut"))
        for task in "01":
            shared = {**os.environ, "LAB": calling.lab(program), "OMPI_COMM_WORLD_RANK": task,
                      "OMPI_COMM_WORLD_SIZE": "2"}
            subprocess.run([CHECK_PARTS, folder], env=shared, check=True)
        next(folder.glob("*.lines")).unlink()
        says(program, (*words, "50"), 0, " parts were checked before", " closed\n")
        says(program, (*words, "60"), 2, "parts of another image")


def cut(program: str, most: int = 1000000) -> Iterator[tuple[str, bytes, int, list[str], list[bytes]]]:
    """Each example of at most so many states whose search closes from the first moment on: the name, the image, FROM,
    the text, and some five parts."""
    needed("cargo")
    engine = SEARCHES.path()
    for path, name, image, _ in examples.searched(program, "every"):
        words, *told = contents(path).decode().splitlines()
        states = int(told[-1].split()[1])
        if told[-1].endswith(" closed") and " after " not in words and states <= most:
            first = int((words.split()[2:] or ["0"])[0])
            with tempfile.TemporaryDirectory() as folder:
                size = str(max(states // 5, 2))
                same(f"{name}: the end of the cut",
                     run([engine, "cut", str(first), size, "1000000", "3", folder], image)[1], 0)
                yield name, image, first, told, [path.read_bytes() for path in sorted(Path(folder).iterdir())]


def said(about: str, told: Sequence[str]) -> bytes:
    """What a merge says of this image, FROM and words to compare with, where a search says this."""
    labels = sorted(line.split(": ")[0].split(" ", 1)[1] for line in told[1:-1])
    text = [f"image {about}", *(f"line {label}" for label in labels), told[-1]]
    same("the line of the image", " ".join(text[0].split()[:5]), told[0])
    return "".join(f"{line}\n" for line in text).encode()


def checked(program: str, name: str, first: int, data: bytes) -> list[bytes]:
    """The lines of a part."""
    text, status = run([calling.lab(program), "part", str(first)], data)
    same(f"{name}: the end of a part", status, 0)
    return text.splitlines(keepends=True)


def together(lines: Sequence[list[bytes]]) -> list[bytes]:
    return sorted(line for each in lines for line in each)


def has_one_text(chance: random.Random, program: str, name: str, first: int, image: bytes, text: bytes) -> None:
    """A part with a mark too many or too few, or with a word of the base that is the booted one, is refused."""
    machine = images.read(image)
    part = parts.part_of(text)
    places = {place[:2] for place in part.base}
    frame, index = chance.choice([(frame, index) for frame in range(machine.frames) for index in range(1024)
                                  if (frame, index) not in places])
    booted = frame, index, parts.booted_word(machine, frame, index)
    base = sorted([*part.base, booted])
    at = 4 + 12 * base.index(booted)
    for wrong, fault in ((part._replace(marks=[*part.marks, 0]), f"marks {len(image) + parts.marks_at(part)}"),
                         (part._replace(marks=part.marks[:-1]), f"marks {len(image) + parts.marks_at(part)}"),
                         (part._replace(base=base), f"base {len(image) + at}")):
        expect(f"{name}: a part of another text", run([calling.lab(program), "part", str(first)],
               image + parts.written(wrong)), (f"bad part {fault}\n".encode(), 2))


def wrong_certificates(program: str, name: str, first: int, image: bytes, texts: Sequence[bytes],
                       lines: Sequence[list[bytes]]) -> Iterator[tuple[str, list[bytes]]]:
    """The lines of certificates with one thing wrong, and what that is."""
    chance = random.Random(name)
    bare = [line.rstrip(b"\n") for line in together(lines)]
    for what, wrong in generate_parts.wrong_lines(chance, bare, 100):
        yield what, [line + b"\n" for line in wrong]
    for place in range(len(lines)):
        yield "a part is missing", together([*lines[:place], *lines[place + 1:]])
    for what, place, text in wrong_parts(chance, image, texts):
        own, status = run([calling.lab(program), "part", str(first)], image + text)
        yield what, together([*lines[:place], own.splitlines(keepends=True) if status == 0 else [], *lines[place + 1:]])


def wrong_parts(chance: random.Random, image: bytes, texts: Sequence[bytes]) -> Iterator[tuple[str, int, bytes]]:
    """Parts in whose place a certificate has a wrong one, and what is wrong."""
    machine = images.read(image)
    for _ in range(MOST_CHECKED):
        place, other = chance.randrange(len(texts)), chance.randrange(len(texts))
        part = parts.part_of(texts[place])
        j = chance.randrange(len(part.marks))
        what, text = chance.choice([
            ("mark", parts.written(part._replace(marks=[mark ^ (k == j) for k, mark in enumerate(part.marks)]))),
            ("way", parts.written(part._replace(way=[*part.way, chance.randrange(2)]))),
            ("base", parts.written(part._replace(base=[*part.base, (machine.frames - 1, 1023, 7)]))),
            ("cut", texts[place][:chance.randrange(len(texts[place]))]), ("another", texts[other])])
        if text != texts[place]:
            yield what, place, text
