"""Images made from a seed for the command apart, and the words of the command: two to four guests, most of which run on
processors of their own.

The root makes the guests and enters one after the other, each on the processor that takes a line next. Guests loop over
few states, fault, trap, ask the root, or count without bound; a top may have a worker below it, whose faults and traps
it takes, and may be entered once more on another processor. The root may keep a processor, a handler of a line, or lend
its handler table."""

from __future__ import annotations

import random

from common.machine import assembly, image
from .generate_programs import Text, joined, spoilt_image
from common.machine.image import Image
from common.machine.model import HANDLERS, NOWHERE, PAGE, ROOT, SAVED
from common.machine.runs import Turn, drawn

SPACE = 22 * PAGE                        # the root's pages of one guest, in bytes
PROGRAM, WORDS = HANDLERS - PAGE, HANDLERS - 2 * PAGE    # where a guest has its program and a page of its own
GIVEN = 0xFFC00000                       # where it has further pages, of which a worker is made
BEGIN, AGAIN, SERVED = 64, 66, (0, 6, 14, 17, 70)        # vectors by which a top begins, once more, and serves a worker
LONGEST = 6000                           # steps in which all guests begin, if they do
STATES = (1, 40, 400, 400, 400, 1000, 100000)


def block(number: int) -> int:
    return HANDLERS + 4 * (256 + 17 * number)


class Company(Text):
    """The text of an image of some guests."""

    def __init__(self, seed: int) -> None:
        super().__init__(seed)
        self.guests = self.pick(2, 2, 2, 3, 3, 4)
        self.line = self.random.randrange(16)
        self.entry = HANDLERS + 4 * (32 + self.line)
        self.with_worker = {k for k in range(self.guests) if self.chance(0.3)} if self.chance(0.7) else set[int]()
        if len(self.with_worker) > 2:
            self.with_worker = {self.guests - 1}
        self.troubled = {k for k in range(self.guests) if self.chance(0.3)}
        self.begun = [(k, BEGIN) for k in sorted(range(self.guests), key=lambda k: k in self.troubled)]
        if self.with_worker and self.chance(0.8):
            self.begun.append((max(self.with_worker), AGAIN))

    def image(self) -> list[str]:
        lines = {self.line, *self.random.sample(range(16), self.pick(0, 0, 1, 2))}
        self.begin(128, min(max(len(self.begun) + self.pick(-1, 0, 0, 0, 1), 2), 4), [
            (line, self.random.randrange(300), self.pick(17, 40, 90) if line == self.line else 0) for line in lines])
        self.page(0x400000)
        self.boots()
        for k in range(self.guests):
            self.guest(k)
        return self.lines

    def place(self, k: int, page: int = 0) -> int:
        """Where the root has a page of a guest."""
        return 0x401000 + k * SPACE + page * PAGE

    # The root

    def boots(self) -> None:
        self.say("sys 10")
        for k in range(self.guests):
            d, given = self.place(k), 10 if k in self.with_worker else self.pick(0, 0, 5)
            self.tell("guest child", D=d)
            for page, address, rights in [(10, WORDS, 3)] + [(11 + k, GIVEN + k * PAGE, 7) for k in range(given)]:
                self.call(5, d + page * PAGE, d, address, rights)
        if self.chance(0.05):
            self.call(5, HANDLERS, self.place(self.random.randrange(self.guests)), WORDS - PAGE, 1)
        stages = [self.stage(k) for k in range(len(self.begun))]
        kept = [self.random.randrange(16)] if self.chance(0.05) else []
        self.page(HANDLERS)
        entries = {32 + self.line: block(1), **{vector: block(0) for vector in (14, 64, 65) if self.chance(0.3)}}
        self.words({**entries, **{32 + line: block(0) for line in kept}}, [stages[0], *stages])

    def stage(self, k: int) -> str:
        """The next guest begins, on the processor on which none is let go on; the first at once. A top that is to begin
        once more is asked again as long as it runs elsewhere."""
        at, asked, (guest, vector), is_last = self.label(), self.label(), self.begun[k], k + 1 == len(self.begun)
        if k:
            self.say(f"{at}:")
        for before in range(k):
            if self.begun[before][0] not in self.with_worker | self.troubled or self.chance(0.2):
                self.call(8, self.place(self.begun[before][0]), SAVED, NOWHERE)
        if not is_last or self.chance(0.93):
            self.store(self.entry, 0 if is_last else block(k + 2))
        self.say(f"{asked}:")
        self.call(8, self.place(guest), vector, NOWHERE)
        if not k:
            self.say(f"{at}:")
        if vector == BEGIN or self.chance(0.1):
            self.say("out r0")
            self.say(self.pick("int 64", "beq r0 r0 -1"))
        self.say("beq r0 r0", asked)
        return at

    def words(self, entries: dict[int, int], blocks: list[str]) -> None:
        """A handler table with these words, and the blocks after it."""
        for vector in range(256):
            self.say(".word", entries.get(vector, 0))
        for pc in blocks:
            self.lines += [f".word {pc}", ".zero 16"]

    # Guests

    def guest(self, k: int) -> None:
        """The pages of a guest that have words, and those of its worker."""
        has_worker = k in self.with_worker
        serves, again = self.program(self.place(k, 9), has_worker, k in self.troubled)
        self.page(self.place(k, 8))
        vectors = dict.fromkeys((BEGIN, SAVED), block(0))
        if has_worker:
            vectors.update(dict.fromkeys((vector for vector in SERVED if self.chance(0.9)), block(1)))
        self.words({**vectors, AGAIN: block(2)}, [f"0x{pc:08x}" for pc in (PROGRAM, serves, again)])
        if has_worker:
            self.program(self.place(k, 20), False, k in self.troubled)
            self.page(self.place(k, 19))
            self.words({SAVED: block(0)}, [f"0x{PROGRAM:08x}"])

    def program(self, place: int, has_worker: bool, is_troubled: bool) -> tuple[int, int]:
        """A program, and where it serves and where it begins once more."""
        self.page(place)
        first, serves, again = len(self.lines), 0, 0
        if has_worker:
            self.tell("guest child", D="PAGES")
            self.tell("worker runs")
            serves = self.words_since(first)
            self.say("out r0")
            self.tell("worker goes on")
            self.tell("worker runs")
            again = self.words_since(first)
        self.tell("guest", TROUBLE=90 if is_troubled else 0)
        return PROGRAM + 4 * serves, PROGRAM + 4 * again

    def words_since(self, first: int) -> int:
        return sum(not line.endswith(":") for line in self.lines[first:])


def step_of_company(machine: Image, seed: int, entry: int) -> int | None:
    """The step from which on the root runs nowhere and has no handler at an entry, by the schedule of a seed."""
    world = image.world(machine)
    for step, cpu, _ in drawn(machine, world, LONGEST, seed):
        Turn(world, cpu, step, lambda line: None).take()
        if ROOT not in world.running() and not world.tree.loaded(world.tree.nodes[ROOT], entry):
            return step + 1
    return None


def case(seed: int) -> tuple[list[str], bytes]:
    """The words after the command, and an image; now and then a faulty one."""
    rng, company = random.Random(seed), Company(seed)
    data = assembly.assemble(joined(rng, company.image()))
    start = rng.choice((1, 4294967295, rng.randrange(1, 1 << 32)))
    steps = step_of_company(image.read(data), start, company.entry) or rng.randrange(LONGEST)
    steps += rng.choice((0, 0, 1, 5, 40, 200))
    if rng.random() < 0.06:
        steps = rng.randrange(steps + 1)
    words = [str(rng.choice(STATES)), str(steps), str(start)]
    return words, data if rng.random() >= 0.03 else spoilt_image(rng, data)
