"""Images made from a seed for native runs: programs of children, and words where a child will have its handlers.

The children loop, fault, trap, divide by zero, yield to the root and to themselves, ask for what they may not, and
break their own handler tables, so that the monitor drops them. Some come without a program."""

import random

from common.machine import assembly, script

from . import phrases
from .generate_programs import Text, joined, spoilt_image
from common.machine.model import HANDLERS, PAGE, SAVED
from .native import PROGRAM, frames_needed, fresh

ENTRIES = (0, 6, 14, 32, 33, SAVED, 64, 65, 66, 255)
SPARE = 4096                                 # at most so many frames
WAYS = [name for name in phrases.PHRASES if name.startswith("native ") and name not in (
    "native program", "native calls", "native asks little")] + ["noise"]


class Program(Text):
    """The text of an image for n children."""

    def __init__(self, seed: int, n: int) -> None:
        super().__init__(seed)
        self.n = n
        self.ways = "|".join(self.random.sample(WAYS, self.random.choice((1, 3, 6, len(WAYS)))))
        self.doomed = 97 if self.chance(0.25) else 5

    def image(self, frames: int) -> list[str]:
        self.begin(frames, self.pick(1, 1, 2, 3, 4), [
            (line, self.random.randrange(150), self.pick(0, 1, 7, 20, 60))
            for line in self.random.sample(range(16), self.pick(0, 0, 1, 2, 3, 16))])
        children = range(self.n)
        pages = [(PROGRAM + PAGE * i, self.program) for i in children if self.chance(0.95)]
        pages += [(fresh(self.n, i, 11), self.entries) for i in children if self.chance(0.3)]
        pages += [(fresh(self.n, i, self.random.randrange(11)), self.words) for i in children if self.chance(0.1)]
        pages += [(HANDLERS, self.words)] if self.chance(0.2) else []
        for address, fill in self.random.sample(pages, len(pages)) if self.chance(0.3) else pages:
            self.page(address)
            fill()
        return self.lines

    def program(self) -> None:
        self.tell("native program", WAYS=self.ways, DOOMED=self.doomed)

    def entries(self) -> None:
        """A page that becomes a child's handler table, with entries beside the one that the command writes."""
        handled = [vector for vector in ENTRIES if self.chance(0.4)]
        self.table({vector: f"0x{PROGRAM + 4 * self.random.randrange(12):08x}" for vector in handled})

    def words(self) -> None:
        for _ in range(self.pick(1, 40, 300)):
            self.tell("noise")


def frames(rng: random.Random, n: int) -> int:
    """Mostly enough, often only just, and now and then too few."""
    enough = frames_needed(n)
    return rng.choice((enough, enough, enough, enough, enough + 1, min(2 * enough, SPARE), rng.randrange(enough, 300),
                       enough - 1, rng.randrange(16, enough)))


def case(seed: int) -> tuple[int, bytes]:
    """The number of children, and an image; one in six is faulty, or has too few frames, or both."""
    rng = random.Random(seed)
    n = rng.randrange(1, 9)
    lines = Program(seed, n).image(frames(rng, 8 if rng.random() < 0.1 else n))
    try:
        data = assembly.assemble(joined(rng, lines))
    except script.BadLine:
        # Too few frames for the pages that have words: an image that names pages is made with enough, and then shrunk.
        few, lines[0] = int(lines[0].split()[1]), f".frames {frames_needed(n)}"
        data = assembly.assemble(joined(rng, lines))
        data = data[:8] + few.to_bytes(4, "little") + data[12:]
    return n, spoilt_image(rng, data) if rng.random() < 0.1 else data
