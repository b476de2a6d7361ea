"""Both programs whole, searches and certificates apart, which the plain program answers: what they write for the words
of their command line and their input, and their status.

Statuses that come from outside (3, 4, 5 and 10) aren't here: reading, writing and memory never fail.

    dev/reference/program.py [--counts] WORD ..      as pip
    dev/reference/lab.py WORD ..                     as the lab

With --counts a line for each processor comes after the output, where the command leaves a machine: what its translation
cache counted.
"""

from __future__ import annotations

import os
import sys
from collections.abc import Callable, Iterable, Sequence
from typing import Any, Optional

from common.calling import LAB, Failed
from common.machine import assembly, image, runs, script

from . import audit, native, plain
from common.machine.model import World

USAGE = b"usage: pip script | run STEPS SEED | asm | dis | tree STEPS SEED | core STEPS SEED | soak COUNT SEED" \
    b" | native N STEPS | audit FRAMES\n"
LAB_USAGE = b"usage: pip-lab slots N TURNS ROUNDS | slots N ROUNDS K:TURNS .." \
    b" | every STATES [FROM [DEPTH]] [after STEPS SEED] | against STATES [FROM [DEPTH]] [after STEPS SEED]" \
    b" | apart STATES STEPS SEED | part [FROM] | merge\n"
Ended = tuple[bytes, int, Optional[World]]       # output and status, and the world that the command leaves
OnImage = Callable[..., tuple[Iterable[str], Optional[World]]]
MOST_STEPS, MOST_COUNT = 10000000, 1000000
STEPS, SEED = (0, MOST_STEPS), (1, script.WORD - 1)        # the limits of these words
LACKS_A_TOOL = 11        # the status of ./lab where a tool is missing
SEARCHES = tuple(command for command in LAB if command != "slots")
ON_IMAGES: dict[str, OnImage] = {"run": runs.run, "tree": runs.tree, "core": runs.core}


def numbers_of(words: Sequence[str], *limits: tuple[int, int]) -> tuple[int, ...] | None:
    """The numbers of words, one for each pair of a least and a most; None where one is none, or beyond its limits."""
    try:
        given = tuple(script.number(word.encode()) for word in words)
    except (ValueError, script.Bad):
        return None
    inside = all(least <= number <= most for number, (least, most) in zip(given, limits))
    return given if inside and len(given) == len(limits) else None


def slots_of(words: Sequence[str]) -> tuple[int, native.Round, int] | None:
    """How many children, the slots of a round, and the rounds, or None where the words don't say it."""
    try:
        if len(words) == 3 and ":" not in words[2]:
            n, turns, rounds = map(script.number, map(str.encode, words))
            round = [(child, turns) for child in range(min(n, native.MOST_CHILDREN + 1))]
        else:
            n, rounds = map(script.number, map(str.encode, words[:2]))
            slots = (word.encode().split(b":") for word in words[2:])
            round = [(script.number(child), script.number(turns)) for child, turns in slots]
    except (ValueError, script.Bad):
        return None
    if not 1 <= n <= native.MOST_CHILDREN or not 1 <= len(round) <= native.MOST_SLOTS:
        return None
    if any(child >= n or turns > MOST_STEPS for child, turns in round):
        return None
    steps = rounds * sum(turns + 2 for _, turns in round)
    return (n, round, rounds) if max(rounds, steps) <= MOST_STEPS else None


def pip(words: Sequence[str], text: bytes) -> tuple[bytes, int]:
    """Output and status of pip."""
    return ended(of_pip, USAGE, words, text)[:2]


def lab(words: Sequence[str], text: bytes) -> tuple[bytes, int]:
    """Output and status of the lab: of `slots`, and by the plain program of right words of what searches."""
    return plain.told(words, text) if words and words[0] in SEARCHES else ended(of_lab, LAB_USAGE, words, text)[:2]


def told(words: Sequence[str], text: bytes) -> tuple[bytes, int]:
    """Output and status of the program whose command it is."""
    return (lab if words and words[0] in LAB else pip)(words, text)


def ended(answered: Callable[[Sequence[str], bytes], Ended | None], usage: bytes, words: Sequence[str],
          text: bytes) -> Ended:
    """Output and status, and the world that the command leaves; None where it leaves none, or the status isn't 0."""
    try:
        return answered(words, text) or (usage, 1, None)
    except image.BadImage as bad:
        return in_lines([f"bad image {bad.kind} {bad.at}"]), 2, None
    except script.BadLine as bad:
        return in_lines([f"bad line {bad.line} {bad.kind}".rstrip()]), 2, None
    except image.TooFew as few:
        return in_lines([f"short {few.frames - 13} {few.least - 13}"]), 8, None


def of_pip(words: Sequence[str], text: bytes) -> Ended | None:
    """What pip answers, or None where the words are no form of it."""
    command, *rest = words or [""]
    if command in ON_TEXTS and not rest:
        return ON_TEXTS[command](text)
    if command in ON_IMAGES and (given := numbers_of(rest, STEPS, SEED)):
        return on_image(ON_IMAGES[command], text, *given)
    if command == "soak" and (given := numbers_of(rest, (0, MOST_COUNT), SEED)):
        told, world = runs.soak(*given)
        return in_lines(told), 0, world
    if command == "native" and (given := numbers_of(rest, (1, native.MOST_CHILDREN), STEPS)):
        return on_image(native.native, text, *given, children=given[0])
    if command == "audit" and (given := numbers_of(rest, (audit.LEAST_FRAMES, audit.MOST_FRAMES))):
        told, status = audit.audit(given[0], text)
        return in_lines(told), status, None
    return None


def of_lab(words: Sequence[str], text: bytes) -> Ended | None:
    """What the lab answers, or None where the words are no form of it."""
    command, *rest = words or [""]
    if command == "slots" and (slots := slots_of(rest)):
        return on_image(native.slots, text, *slots, children=slots[0])
    return None


def with_counts(words: Sequence[str], text: bytes) -> tuple[bytes, int]:
    """Output with the counts of the caches after it, and status."""
    output, status, world = ended(of_pip, USAGE, words, text)
    return output + in_lines(str(cache) for cache in (world.caches if world else ())), status


def in_lines(told: Iterable[str]) -> bytes:
    return "".join(line + "\n" for line in told).encode("utf-8", "surrogateescape")


def dis(data: bytes) -> Ended:
    told = []
    try:
        for line in assembly.disassembled(data):
            told.append(line)
    except image.BadImage as bad:
        return in_lines(told + [f"bad image {bad.kind} {bad.at}"]), 2, None
    return in_lines(told), 0, None


ON_TEXTS: dict[str, Callable[[bytes], Ended]] = {
    "script": script.ended, "dis": dis,
    "asm": lambda text: (b"", 6, None) if len(text) > script.MOST else (assembly.assemble(text), 0, None)}


def on_image(command: OnImage, data: bytes, *words: Any, children: int = 0) -> Ended:
    """What a command says of an image, which has room for that many children, by these words."""
    told, world = command(image.read(data, native.frames_needed(children) if children else 0), *words)
    return in_lines(told), 0, world


def shown(text: bytes) -> None:
    sys.stdout.buffer.write(text)
    sys.stdout.buffer.flush()


def main() -> None:
    if os.path.basename(sys.argv[0]) == "lab.py":
        try:
            output, status = lab(sys.argv[1:], sys.stdin.buffer.read())
        except Failed as failed:
            print(f"lab: {failed}", file=sys.stderr)
            sys.exit(LACKS_A_TOOL)
        shown(output)
        sys.exit(status)
    if sys.argv[1:] == ["script"]:
        sys.exit(script.answered(sys.stdin.buffer.readline, shown)[0])
    told_of, given = (with_counts, sys.argv[2:]) if sys.argv[1:2] == ["--counts"] else (pip, sys.argv[1:])
    output, status = told_of(given, sys.stdin.buffer.read())
    shown(output)
    sys.exit(status)
