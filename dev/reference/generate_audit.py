"""Texts of raw memories made from a seed: what `core` writes of trees that scripts and images lead to, as it is, with
words changed, or with a line that is broken."""

import random
from collections.abc import Collection

from common.machine import image, runs, script
from .generate_programs import image_bytes
from common.machine.model import PAGE, WORDS, boot_tree, Tree
from .phrases import spoilt_line

STEPS = 400              # of the run of an image


class Dump:
    """The text of a tree's frames, in lines."""

    def __init__(self, rng: random.Random, tree: Tree) -> None:
        self.rng, self.tree = rng, tree
        self.lines = [line.encode() for line in runs.core_lines(tree)] + [b"end %d" % rng.choice((0, 7, 10000000))]
        self.own = sorted({page for x in tree.nodes.values() for page in x.configuration()})
        self.nodes = list(tree.nodes.values())

    def groups(self, frames: Collection[int]) -> list[int]:
        """The places of the group lines of these frames."""
        found, frame = [], None
        for place, line in enumerate(self.lines):
            if line.startswith(b"frame "):
                frame = int(line[6:])
            elif b":" in line and frame in frames:
                found.append(place)
        return found

    def change(self) -> None:
        """Changes a word, mostly one of configuration, and mostly by little."""
        node = self.rng.choice(self.nodes)
        places = self.groups(node.configuration() if self.rng.random() < 0.9 else range(self.tree.frames))
        place = self.rng.choice(places)
        index, *words = self.lines[place].split(b" ")
        at = self.rng.randrange(8)
        words[at] = b"%08x" % self.other(int(words[at], 16))
        if any(word.strip(b"0") for word in words):
            self.lines[place] = b" ".join([index] + words)

    def other(self, word: int) -> int:
        rng = self.rng
        page = rng.choice(self.own) if rng.random() < 0.7 else rng.randrange(self.tree.frames + 2)
        return rng.choice((word ^ 1 << rng.randrange(32), word ^ 1 << rng.randrange(5), 0, word ^ PAGE, page,
                           word % PAGE + PAGE * page, word // PAGE * PAGE + rng.randrange(32),
                           word + 1 & 0xFFFFFFFF, rng.getrandbits(32), 1 + PAGE * page))

    def copy(self) -> None:
        """Gives a group the words of another."""
        places = self.groups(self.own)
        source, target = self.rng.choice(places), self.rng.choice(places)
        self.lines[target] = self.lines[target][:5] + self.lines[source][5:]

    def grow(self) -> None:
        """Gives a frame one group more, or the first, after all that are named."""
        last = [line for line in self.lines if line.startswith(b"frame ")][-1:]
        frame = int(last[0][6:]) + 1 if last else 0
        if frame < self.tree.frames:
            self.lines[-1:-1] = [b"frame %d" % frame, b"%04d:" % (8 * self.rng.randrange(WORDS // 8)) + b" 00000000" * 7
                                 + b" %08x" % self.rng.randrange(1, 1 << 32)]

    def spoil(self) -> None:
        """Breaks a line, or nearly."""
        place, rng = self.rng.randrange(len(self.lines)), self.rng
        line = self.lines[place]
        odd = (b"", b"0004:" + line[5:], b"1024:" + line[5:], line[:5] + b" 00000000" * 8, line[:-1],
               line.replace(b" ", b" 0", 1), b"frame 4294967296", b"end 10000001", b"end 0", rng.randbytes(9),
               b"0" * rng.choice((76, 77, 78, 120, 121, 5000)), *4 * (spoilt_line(rng, line),))
        self.lines[place:place + 1] = rng.choice((*([told] for told in odd), [], [line, line], [
            line, rng.choice((b"", b"end 0", b"frame 1"))]))


def tree_of(rng: random.Random, seed: int, told: bytes) -> Tree:
    """The tree that a script or an image leads to; the root's where it has none."""
    if rng.random() < 0.75:
        world = script.ended(told)[2]
    else:
        try:
            machine = image.read(image_bytes(seed, 0))
            world = runs.steps(machine, rng.randrange(STEPS), seed % 1000 + 1, lambda line: None)
        except image.BadImage:
            world = None
    return world.tree if world else boot_tree(16)


def case(seed: int, told: bytes) -> tuple[list[str], bytes]:
    """A number of frames and a text, by a seed and a script."""
    rng = random.Random(seed)
    tree = tree_of(rng, seed, told)
    dump, kind = Dump(rng, tree), rng.random()
    frames = tree.frames
    if 0.15 <= kind < 0.8:
        for _ in range(rng.choice((1, 1, 1, 2, 3))):
            rng.choice((dump.change,) * 8 + (dump.copy, dump.grow))()
    if kind >= 0.78:
        dump.spoil()
    if rng.random() < 0.05:
        frames = rng.choice((16, frames + 1, max(16, frames - 1), 4096 if frames < 64 else frames))
    end = b"" if rng.random() < 0.03 else b"\n"
    return [str(frames)], b"\n".join(dump.lines) + end
