"""The text of a part of a certificate, and the sum of a label."""

from __future__ import annotations

import struct
from typing import NamedTuple

from common.machine import image, layout

LABEL_SUM, LABEL_PRIME = 0x811c9dc5, 0x01000193


class Part(NamedTuple):
    """Words that frames are compared with, the way to the first key, and a mark for each choice."""

    base: list[tuple[int, int, int]]
    way: list[int]
    marks: list[int]


def written(part: Part) -> bytes:
    """The text of a part."""
    runs: list[list[int]] = []
    for choice in part.way:
        if runs and runs[-1][0] == choice:
            runs[-1][1] += 1
        else:
            runs.append([choice, 1])
    marks = bytearray((len(part.marks) + 7) // 8)
    for i, mark in enumerate(part.marks):
        marks[i // 8] |= mark << i % 8
    numbers = [len(part.base), *(x for place in part.base for x in place), len(runs), *(x for run in runs for x in run),
               len(part.marks)]
    return struct.pack(f"<{len(numbers)}I", *numbers) + bytes(marks)


def part_of(text: bytes) -> Part:
    """The part that has this text."""
    count, = struct.unpack_from("<I", text)
    at = 4 + 12 * count
    runs, = struct.unpack_from("<I", text, at)
    begin = at + 4 + 8 * runs                    # of the marks
    marks, = struct.unpack_from("<I", text, begin)
    return Part([(frame, index, word) for frame, index, word in struct.iter_unpack("<3I", text[4:at])],
                [choice for choice, count in struct.iter_unpack("<2I", text[at + 4:begin]) for _ in range(count)],
                [text[begin + 4 + i // 8] >> i % 8 & 1 for i in range(marks)])


def marks_at(part: Part) -> int:
    """Where in the text of a part the number of its marks is."""
    return len(written(part._replace(marks=[]))) - 4


def booted_word(machine: image.Image, frame: int, index: int) -> int:
    """A word of an image's frames before its first turn."""
    return layout.frame_words(image.world(machine).tree, frame)[index]


def fitted(choices: int, part: Part) -> Part:
    """A part with as many marks as its keys have choices, 0 for each that is missing: a mark of 1 is one key more."""
    marks: list[int] = []
    keys = 1
    while len(marks) < keys * choices:
        marks += part.marks[len(marks):len(marks) + 1] or [0]
        keys += marks[-1]
    return part._replace(marks=marks)


def label_sum(label: bytes) -> int:
    """The number of a label in a sum of labels; the space before it counts."""
    summed = LABEL_SUM
    for byte in label:
        summed = (summed ^ byte) * LABEL_PRIME % 2 ** 32
    return summed
