"""Whatever the first guest of examples/two_guests.s does has no effect on the second."""

from __future__ import annotations

import os
import random
import re

from .running import Differs, ensure, run, text_of

MONITOR = os.path.join("examples", "two_guests.s")
SEEDS, PROGRAMS = range(1, 9), 60        # of the schedule, and hostile first guests with each
STEPS = "8000"
LEAST = 40                               # lines of the second guest, where it runs beside an honest one
BEGINS = re.compile(r"\d+ ([01]) call 8 switch 1 76 63")
HONEST = ["li r9 0", "lih r9 0x1000", "bne r1 r9 honest"]        # the second guest doesn't begin with this number
ROOM = 150                               # words of a hostile program

# A monitor that leaves the line its handler, and with it the root to the guests.
CARELESS = ("stw r10 r6 128\n", "")

PLACES = [*(0xffc00000 + 4096 * page for page in range(10)), 0xfffff000, 0xffffe000, 0, 0x410000, 0x440000, 0x470000, 1]
WORDS = (0, 0xfffff400, 0xffc00000, 0xffffe000)
CALLS = (0, 1, 2, 3, 4, 5, 6, 7, 8, 8, 8, 8, 10, 11, 12)
VECTORS = (63, 64, 65, 65, 32, 33, 14, 0)
TRAPS = (64, 65, 70, 200)


def hostile_guests(program: str) -> None:
    """First guests that do anything at random. A monitor that keeps its handler of the line is tried first."""
    text = text_of(MONITOR)
    careless = text.replace(*CARELESS)
    ensure(careless != text and any(troubles(program, careless, seed) for seed in SEEDS), f"{MONITOR}: nothing shows "
           "that a guest can use a handler of the line")
    found = [trouble for seed in SEEDS for trouble in troubles(program, text, seed)]
    if found:
        raise Differs(f"{len(found)} first guests have an effect on the second: {found[0]}")


def troubles(program: str, text: str, seed: int) -> list[str]:
    """What goes wrong beside the hostile guests of one seed."""
    alone = second(trace(program, text, [], seed)) or []
    ensure(len(alone) >= LEAST, f"{MONITOR}, seed {seed}: the second guest has {len(alone)} lines beside an honest one")
    drawn, found = random.Random(seed), list[str]()
    for number in range(PROGRAMS):
        lines = [line for _ in range(drawn.randint(3, 10)) for line in attempt(drawn)]
        beside = second(trace(program, text, lines, seed))
        if beside is None:
            found.append(f"seed {seed}, guest {number}: the second never begins")
        elif any(one != other for one, other in zip(alone, beside)) or len(beside) < LEAST // 2:
            found.append(f"seed {seed}, guest {number}: the second has other lines")
    return found


def second(lines: list[str]) -> list[str] | None:
    """The lines of the second guest, without step and processor; None where it never begins."""
    for place, line in enumerate(lines):
        begins = BEGINS.fullmatch(line)
        if begins is not None:
            words = [line.split(" ", 2) for line in lines[place + 1:-1]]
            return [rest for _, processor, rest in words if processor == begins[1]]
    return None


def trace(program: str, text: str, hostile: list[str], seed: int) -> list[str]:
    """The lines of a run whose first guest begins with a hostile program, or with its own where that is none."""
    padded = hostile + ["addi r15 r15 0"] * (ROOM - len(hostile))
    planted = text.replace("\ntop:\n", "\n".join(["", "top:", *HONEST, *padded, "honest:", ""]), 1)
    image, status = run([program, "asm"], planted.encode())
    ensure(not status and planted != text, f"{MONITOR} with a hostile guest is no image: {image[:80]!r}")
    return run([program, "run", STEPS, str(seed)], image)[0].decode().splitlines()


def attempt(drawn: random.Random) -> list[str]:
    """A few instructions, as a call, a load, a store or a trap."""
    kind = drawn.random()
    if kind < .45:
        return call(drawn)
    if kind < .6:
        return [*put(3, drawn.choice(PLACES) + 4 * drawn.randint(0, 300)), "ldw r4 r3 0", "out r4"]
    if kind < .8:
        return [*put(3, drawn.choice(PLACES) + 4 * drawn.randint(0, 300)),
                *put(4, drawn.choice([*WORDS, drawn.getrandbits(32)])),
                "stw r4 r3 0"]
    return [drawn.choice([f"int {drawn.choice(TRAPS)}", f".word {drawn.getrandbits(32) | 1}", "out r1"])]


def call(drawn: random.Random) -> list[str]:
    """A call, and its status shown."""
    number = drawn.choice(CALLS)
    words = [drawn.choice(PLACES) for _ in range(5)]
    if number == 8:
        words = [drawn.choice([0, drawn.choice(PLACES)]), drawn.choice(VECTORS), drawn.choice((63, 64, 256))]
    elif number == 5:
        words[3] = drawn.choice((1, 3, 7))
    return [*(line for place, word in enumerate(words) for line in put(place + 1, word)), f"sys {number}", "out r0"]


def put(register: int, word: int) -> list[str]:
    """A word put into a register."""
    low, high = word & 0xffff, word >> 16 & 0xffff
    return [f"li r{register} {low}"] + ([f"lih r{register} {high}"] if high else [])
