"""Scripts made from a seed: nested partitions, interrupts, faults, hostile children, several processors, bad lines.

A story keeps the world of the lines it has told so far, so most of its calls have a chance to be accepted, and each
condition of each call has a chance to be met."""

from __future__ import annotations

import random
from collections.abc import Callable

from . import generate_apart, generate_audit, generate_every, generate_native, generate_parts, generate_programs
from common.machine.model import (HANDLERS, LAST_BLOCK, LINES, NOWHERE, PAGE, READ, ROOT, SAVED, SLOTS, WORDS, WRITE,
                                  Node, Tree, World, pages_needed)
from .phrases import LINES as SPOILT, Drawing, spoilt_line
from common.machine.script import LONGEST, Script

ODD_ADDRESSES = (0, 1, 4, 0x00400001, 0x00401800, 0x00800000, 0x7FFFF000, 0xFFFFFFFF, 0xFFFFF004)
CHILD_PLACES = (0x10000000, 0x10001000, 0x10002000, 0x103FF000, 0xFFC0A000, 0xFFC0B000, 0x00400000, 0x00401000)
VECTORS = (0, 6, 14, 17, 32, 33, 34, 47, SAVED, 64, 65, 255)
BLOCKS = 1024            # where in a handler table's page, after its entries, blocks begin
BLOCK = 68               # bytes of a block
FRAMES = (16, 18, 24, 32, 32, 40, 48, 64, 64, 64, 96, 96, 128, 128, 200)
MANY_FRAMES = (1037, 1038, 2065, 4096)


class Story(Drawing):
    """A script in the making."""

    def __init__(self, seed: int) -> None:
        super().__init__(seed)
        self.script = Script()
        self.lines: list[bytes] = []
        # Each story has its own taste: some of its acts come often, some never.
        self.acts = [(act, weight * self.pick(0, 1, 1, 1, 2, 4)) for act, weight in ACTS]
        if not any(weight for _, weight in self.acts):
            self.acts = ACTS
        self.oddness = self.pick(0.0, 0.02, 0.05, 0.15, 0.4)

    # Lines

    @property
    def world(self) -> World:
        assert self.script.world is not None
        return self.script.world

    @property
    def tree(self) -> Tree:
        return self.world.tree

    def say(self, *words: object) -> None:
        """Tells a line. After one that switches there often comes a look at the registers."""
        line = " ".join(self.spelled(word) if isinstance(word, int) else str(word) for word in words)
        self.lines.append(line.encode())
        answer = self.script.line(self.lines[-1])
        if answer and answer.startswith("switch") and self.chance(0.5):
            self.say("reg", words[1], self.pick(0, 1, 2, 2, 3, 3, 15, 16))

    def spelled(self, x: int) -> str:
        way = self.random.random()
        return f"0x{x:08x}" if way < 0.03 else str(x) if 0.06 < way < 0.1 or way > 0.1 and x < 1024 else f"0x{x:x}"

    def boot(self, frames: int | None = None) -> None:
        few = self.random.random() < 0.98
        self.say("boot", frames or self.random.choice(FRAMES if few else MANY_FRAMES), self.pick(1, 1, 2, 2, 3, 4))

    def tell(self, length: int) -> None:
        """Acts until there are so many lines, or for a while longer where nothing runs and no line can be taken."""
        acts, weights = zip(*self.acts)
        while len(self.lines) < length:
            if not self.world.running() and not self.chance(0.2):
                if not self.wake():
                    length = min(length, len(self.lines) + 4)
            self.random.choices(acts, weights)[0](self)

    def wake(self) -> bool:
        """The root takes a line on some processor, where it has a handler for one."""
        lines = self.handled_lines()
        if lines:
            self.say("raise", self.random.choice(lines))
            self.say("poll", self.any_cpu())
        return bool(lines)

    def handled_lines(self) -> list[int]:
        return [line for line in range(LINES) if self.tree.handler(self.tree.nodes[ROOT], 32 + line)]

    # Choices

    def cpu(self) -> int:
        """A processor, with luck one that runs something."""
        busy = [cpu for cpu, at in enumerate(self.world.processors) if at]
        return self.random.choice(busy) if busy and not self.chance(0.05) else self.any_cpu()

    def any_cpu(self) -> int:
        return self.random.randrange(len(self.world.processors))

    def caller(self) -> tuple[int, Node]:
        """A processor and the node that runs on it; where it is idle the root's, to have something to choose."""
        cpu = self.cpu()
        return cpu, self.world.node_on(cpu) if self.world.processors[cpu] else self.tree.nodes[ROOT]

    def spared(self, cpu: int) -> bool:
        """Whether a fault on the processor is better left out: it would only park the root."""
        at = self.world.processors[cpu]
        return at is not None and at.name == ROOT and not self.chance(0.1)

    def parent(self) -> tuple[int, Node]:
        """As `caller`, but it mostly has a child, which is made where there is room for one."""
        cpu, node = self.caller()
        if not self.tree.children(node) and self.chance(0.8):
            self.raise_child_of(cpu, node)
            return self.caller()
        return cpu, node

    def odd(self, address: int) -> int:
        """The address, or now and then one that is odd in some way."""
        if not self.chance(self.oddness):
            return address
        near = (address + 1, address ^ 0x800, address ^ 0x40000000, address + PAGE)
        return self.random.choice(ODD_ADDRESSES + near) % (1 << 32)

    def any_page(self, node: Node) -> int:
        return PAGE * self.random.choice(list(node.rows) or [1])

    def free_pages(self, node: Node, rights: int = READ) -> list[int]:
        """Addresses of pages that are free for the node, in rising order, without its handler table."""
        given = {page for child in self.tree.children(node) for page in child.held()}
        return [PAGE * v for v, row in sorted(node.rows.items())
                if row.page not in given and row.rights & rights == rights and PAGE * v != HANDLERS]

    def pages_to_give(self, node: Node, count: int) -> list[int]:
        """That many pages that can become configuration, or any where there are too few."""
        pages = self.free_pages(node, READ | WRITE)
        return self.random.sample(pages, count) if len(pages) >= count else [self.any_page(node) for _ in range(count)]

    def free_page(self, node: Node) -> int:
        pages = self.free_pages(node)
        return self.odd(self.random.choice(pages)) if pages and not self.chance(0.1) else self.odd(self.any_page(node))

    def child(self, node: Node) -> int:
        """The address of a child, or of some page where there is none."""
        children = self.tree.children(node)
        found = children and not self.chance(0.05)
        return self.odd(self.random.choice(children).born if found else self.any_page(node))

    def child_place(self, node: Node, d: int, mapped: bool = False) -> int:
        """An address in the child at d: with a row or without."""
        child = self.tree.child_at(node, d)
        if child and child.rows and (mapped and self.chance(0.8) or self.chance(0.2)):
            given = [PAGE * v for v, row in child.rows.items() if self.tree.holder(child, row.page)]
            return self.odd(self.random.choice(given) if given and self.chance(0.5) else self.any_page(child))
        if child and child.tables and self.chance(0.7):
            index = self.random.choice(child.tables).index
            return self.odd((index * 1024 + self.pick(0, 1, 2, 3, 10, 1023)) * PAGE % (1 << 32))
        return self.odd(self.random.choice(CHILD_PLACES + (HANDLERS,)))

    def vector(self, node: Node, target: int) -> int:
        """A vector, with luck one for which the partition aimed at has a handler."""
        aimed = {0: self.tree.nodes[node.up], 1: node}.get(target) or self.tree.child_at(node, target)
        if aimed and self.chance(0.8):
            handled = [vector for vector in VECTORS if self.tree.handler(aimed, vector)]
            if handled:
                return self.random.choice(handled)
        return self.random.choice(VECTORS) if self.chance(0.7) else self.pick(256, 257, 1 << 31)

    def save(self, node: Node) -> int:
        """Where the partition is saved as it yields: with luck nowhere, or in a block that it can store to."""
        if self.chance(0.4):
            return NOWHERE
        places = [vector for vector in VECTORS if self.tree.save_place(node, vector)]
        if places and self.chance(0.85):
            return SAVED if SAVED in places and self.chance(0.6) else self.random.choice(places)
        return self.random.choice(VECTORS) if self.chance(0.8) else self.pick(NOWHERE + 1, 1 << 31)

    def word(self) -> int:
        return self.pick(0, 1, 7, 0x55, 0x11223344, 0x89ABCDEF, 0xFFFFFFFF, self.random.getrandbits(32))

    # Acts: accesses

    def access(self) -> None:
        cpu, node = self.caller()
        offset = 4 * self.pick(0, 0, 1, 2, 1023)
        if self.spared(cpu):
            open_pages = [PAGE * v for v, row in node.rows.items() if not self.tree.is_hidden(row.page)]
            address = self.random.choice(open_pages or [self.any_page(node)]) + offset
        else:
            address = self.odd(self.any_page(node) + offset)
        byte = address + self.random.randrange(4) if address % 4 == 0 else address
        if self.chance(0.1):
            self.say("pc", cpu, self.any_page(node))
        self.say(*self.random.choices(
            (("ld", cpu, address), ("lb", cpu, byte), ("st", cpu, address, self.word()),
             ("sb", cpu, byte, self.random.randrange(256)), ("fetch", cpu)), (3, 1, 2, 1, 1))[0])

    def hidden_access(self) -> None:
        """An access to a page that the partition gave away."""
        cpu, node = self.caller()
        if self.spared(cpu):
            return
        given = [PAGE * v for v, row in node.rows.items() if self.tree.is_hidden(row.page)]
        address = self.random.choice(given) if given else self.any_page(node)
        self.reach(cpu, address, address + 3)

    def reach(self, cpu: int, address: int, byte: int) -> None:
        """An access of any kind, or a fetch from there."""
        if self.chance(0.3):
            self.say("pc", cpu, address)
            self.say("fetch", cpu)
        else:
            self.say(*self.pick(("ld", cpu, address), ("st", cpu, address, self.word()), ("lb", cpu, byte)))

    def fault(self) -> None:
        cpu = self.cpu()
        if self.spared(cpu):
            return
        if self.chance(0.25):
            self.say("trap", cpu, self.random.choice(VECTORS), self.word(), self.word())
        else:
            self.reach(cpu, self.pick(0, 0x20000000, 0x00400002, 0x00400003, 0x10000000), 0x20000001)

    def own_handler(self) -> None:
        """Entries in the handler table of what runs."""
        cpu, node = self.caller()
        if not self.tree.is_free(node, HANDLERS) and self.spared(cpu):
            return
        self.give_blocks(cpu, HANDLERS, self.random.sample(VECTORS, self.random.randrange(1, 4)),
                         (0x10000000, 0xFFC0A000))
        if self.chance(0.3):
            block = self.any_page(node) + self.pick(0, 1024, LAST_BLOCK, LAST_BLOCK + 4)
            self.say("st", cpu, HANDLERS + 4 * self.random.choice(VECTORS), self.pick(self.odd(block), block, 2, 0))

    def give_blocks(self, cpu: int, page: int, vectors: list[int], pcs: tuple[int, ...] = (0x00400100,)) -> None:
        """Entries and blocks in a page that is, or is to be, a handler table, by stores at `page`."""
        for vector in vectors:
            offset = BLOCKS + BLOCK * self.random.randrange((LAST_BLOCK - BLOCKS) // BLOCK + 1)
            if self.chance(0.1):
                offset = self.pick(LAST_BLOCK, LAST_BLOCK, LAST_BLOCK + 4)
            self.say("st", cpu, page + 4 * vector, self.odd(HANDLERS + offset))
            self.say("st", cpu, page + offset, self.random.choice(pcs))
            if self.chance(0.3):
                self.say("st", cpu, (page + offset + 4 * self.random.randrange(1, 17)) % (1 << 32), self.word())

    # Acts: calls

    def create(self) -> None:
        cpu, node = self.caller()
        chosen = self.pages_to_give(node, 5)
        if self.chance(0.15):
            chosen[self.random.randrange(5)] = self.pick(chosen[0], self.any_page(node), HANDLERS, 0x00800000)
        self.say("call", cpu, 0, *(self.odd(address) for address in chosen))

    def delete(self) -> None:
        cpu, node = self.parent()
        self.say("call", cpu, 1, self.child(node))

    def of_place(self, number: int, mapped: bool = False) -> None:
        """A call on an address in a child."""
        cpu, node = self.parent()
        d = self.child(node)
        self.say("call", cpu, number, d, self.child_place(node, d, mapped))

    def link(self, cpu: int, node: Node, chain: list[int]) -> None:
        """Stores a chain of pages: each names the next."""
        for address, following in zip(chain, chain[1:]):
            self.say("st", cpu, address, self.odd(following))

    def prepare(self) -> None:
        cpu, node = self.parent()
        d = self.child(node)
        chain = self.pages_to_give(node, 3)
        if self.chance(0.25):
            broken = self.pick(chain[0], chain[1], self.any_page(node), self.any_page(node), HANDLERS, 0)
            chain[self.random.randrange(3)] = broken
        self.link(cpu, node, chain)
        self.say("call", cpu, 3, d, self.child_place(node, d), self.odd(chain[0]))

    def add(self) -> None:
        cpu, node = self.parent()
        d = self.child(node)
        rights = self.pick(1, 3, 3, 3, 7, 5, 0, 2, 8, 15)
        self.say("call", cpu, 5, self.free_page(node), d, self.child_place(node, d), rights)

    def mapped(self) -> None:
        cpu, node = self.caller()
        self.say("call", cpu, 7, self.odd(self.any_page(node)))

    def yield_to(self) -> None:
        cpu, node = self.parent()
        target = self.pick(0, 0, 1) if self.chance(0.4) else self.child(node)
        self.say("call", cpu, 8, target, self.vector(node, target), self.save(node))

    def go_on(self) -> None:
        """What was interrupted goes on, the caller itself or a child, with the context that was saved."""
        cpu, node = self.parent()
        saved = [child.born for child in self.tree.children(node) if self.tree.handler(child, SAVED)]
        target = self.random.choice(saved) if saved and self.chance(0.7) else self.pick(1, self.child(node))
        self.say("call", cpu, 8, target, SAVED, self.save(node))

    def mask(self) -> None:
        self.say("call", self.cpu(), self.pick(10, 11))

    def other_call(self) -> None:
        """A call with few arguments, or one that no call has the number of."""
        numbers = [self.pick(0, 1, 0x401000, 0x10000000) for _ in range(self.random.randrange(6))]
        self.say("call", self.cpu(), self.pick(12, 13, 255, 0xFFFFFFFF, self.random.randrange(12)), *numbers)

    # Acts: interrupts, and looks from outside

    def interrupt(self) -> None:
        if self.chance(0.6):
            self.say("raise", self.pick(0, 1, 2, 15, self.random.randrange(LINES)))
        if self.chance(0.8):
            self.say("poll", self.any_cpu())

    def look(self) -> None:
        if self.chance(0.3):
            self.say("reg", self.any_cpu(), self.pick(0, 1, 2, 3, 15, 16, self.random.randrange(17)))
        elif self.chance(0.07):
            self.say("pc", self.any_cpu(), self.pick(0x00400000, 0x10000000, self.word()))
        else:
            self.peek()

    def peek(self) -> None:
        """A word, mostly one of configuration or of a block in which something is saved."""
        if self.chance(0.04):
            self.say("peek", self.pick(0, self.tree.frames - 1, self.tree.frames, 1 << 20), self.pick(0, 1023, 1024))
            return
        node = self.random.choice(list(self.tree.nodes.values()))
        any_index, tables = self.random.randrange(WORDS), node.tables
        directory = self.random.choice(tables).index if tables and self.chance(0.8) else any_index
        self.say("peek", *self.pick(
            (ROOT, self.pick(14, 14, 15, 16)),
            (node.name, self.pick(0, 1, 11, 12, 14, 15, 16, 17, 32, any_index % 34)),
            (self.random.choice(node.base[1:4]).page, directory),
            (self.random.choice([node.base[4], *node.more]).page, self.pick(0, 1, 2, 3, 5, 7, 8, 9, 13, 14, any_index)),
            self.place_of_row(node, any_index), self.place_of_words(node)))

    def place_of_row(self, node: Node, index: int) -> tuple[int, int]:
        """Where a table has a row, half of the time one of a page that is hidden."""
        if not node.tables:
            return self.place_of_words(node)
        table = self.random.choice(node.tables)
        rows = [v for v in node.rows if v // 1024 == table.index]
        telling = [v for v in rows if self.tree.is_hidden(node.rows[v].page)] if self.chance(0.5) else rows
        at = self.random.choice(telling) % 1024 if telling and self.chance(0.9) else index
        return self.random.choice(table.pairs).page, at

    def place_of_words(self, node: Node) -> tuple[int, int]:
        """Where a partition may have saved something, or a word of a page that it has."""
        place = self.tree.save_place(node, SAVED)
        if place and self.chance(0.5):
            return place.page, place.index + self.pick(0, 1, 2, 16, self.random.randrange(17))
        return self.random.choice([row.page for row in node.rows.values()] or [0]), self.pick(0, 1, 1023)

    # Acts: whole plots

    def raise_child_of(self, cpu: int, node: Node, for_depth: bool = False) -> None:
        """A child with tables, a handler table and some pages; perhaps it is yielded to. Where the plot goes deeper,
        it gets enough to raise one of its own, and is."""
        pages = self.free_pages(node, READ | WRITE)
        if len(pages) < 10:
            return
        pages = pages if self.chance(0.5) else self.random.sample(pages, len(pages))
        base, pages = pages[:5], pages[5:]
        self.say("call", cpu, 0, *base)
        place = self.random.choice(CHILD_PLACES)
        places = {HANDLERS // PAGE // 1024: HANDLERS}
        if len(pages) > 7 and self.chance(0.7):
            places[place // PAGE // 1024] = place
        for cv in places.values():
            chain, pages = pages[:3], pages[3:]
            self.link(cpu, node, chain)
            self.say("call", cpu, 3, base[0], cv, chain[0])
        self.lend_handlers(cpu, base[0], pages[0], place)
        where = self.random.choice(list(places.values())) & ~0xFFFFF
        lent = self.random.randrange(12, 40) if for_depth else self.pick(0, 2, 5, 10, 20, 30)
        for k, page in enumerate(pages[1:1 + lent]):
            self.say("call", cpu, 5, page, base[0], where + k * PAGE, self.pick(3, 3, 3, 3, 3, 3, 7, 7, 1, 5))
        if self.chance(0.75) or for_depth:
            self.say("call", cpu, 8, base[0], 64 if for_depth else self.vector(node, base[0]), self.save(node))

    def descend(self) -> None:
        """A child of the root that runs, and mostly a grandchild that runs; the root has some handlers."""
        if not self.spared(0):
            return
        self.give_blocks(0, HANDLERS, self.random.sample((14, 17, 32, 33, SAVED, 64, 65), self.random.randrange(1, 5)))
        for _ in range(self.pick(1, 2, 2, 2, 3)):
            if self.world.processors[0]:
                self.raise_child_of(0, self.world.node_on(0), for_depth=True)

    def lend_handlers(self, cpu: int, d: int, page: int, place: int) -> None:
        vectors = self.random.sample(VECTORS, self.random.randrange(1, 4))
        if self.chance(0.9):
            vectors[0] = 64
        if self.chance(0.5):
            vectors.append(SAVED)
        self.give_blocks(cpu, page, vectors, (0x10000000, 0xFFC0A000, place, place + 4))
        self.say("call", cpu, 5, page, d, HANDLERS, self.pick(3, 3, 3, 1, 7))

    def forge(self) -> None:
        """A child that makes up an interrupt, or gives its handler table away."""
        cpu, node = self.caller()
        pages = self.free_pages(node, READ | WRITE)
        if self.chance(0.33):
            self.say("call", cpu, 8, 0, self.pick(32, 33, 47), self.save(node))
        elif self.chance(0.5) and not self.spared(cpu):
            self.say("trap", cpu, self.pick(32, 33, 47), 0, 0)
        elif len(pages) >= 4:
            self.say("call", cpu, 0, *self.random.sample(pages, 4), HANDLERS)

    def beside(self) -> None:
        """The root takes a line on a processor beside a child that runs; before that it gets its handlers."""
        root = self.tree.nodes[ROOT]
        at = [cpu for cpu, running in enumerate(self.world.processors) if running and running.name == ROOT]
        if at and self.tree.is_free(root, HANDLERS):
            self.give_blocks(at[0], HANDLERS, self.random.sample((14, 17, 32, 33, 47, SAVED), 3))
        elif not at:
            idle = [cpu for cpu, running in enumerate(self.world.processors) if not running]
            self.say("raise", self.random.choice(self.handled_lines() or range(LINES)))
            self.say("poll", self.random.choice(idle or range(len(self.world.processors))))

    def remark(self) -> None:
        self.lines.append(self.pick(b"", b"#", b"# a remark", b"#" * LONGEST, "# \u00fc".encode()))


ACTS: list[tuple[Callable[[Story], None], int]] = [
    (Story.access, 10), (Story.hidden_access, 2), (Story.fault, 3), (Story.own_handler, 3), (Story.create, 3),
    (Story.delete, 2), (lambda story: story.of_place(2), 2), (Story.prepare, 4), (lambda story: story.of_place(4), 3),
    (Story.add, 6), (lambda story: story.of_place(6, True), 4), (Story.mapped, 2), (Story.yield_to, 6),
    (Story.go_on, 3), (Story.mask, 2), (Story.other_call, 1), (Story.interrupt, 5), (Story.look, 8),
    (lambda story: story.raise_child_of(*story.caller()), 4), (Story.forge, 2), (Story.beside, 4), (Story.remark, 1),
]


def spoilt(rng: random.Random, line: bytes) -> bytes:
    """A line that is bad, or nearly so, made of a good one."""
    return spoilt_line(rng, line) if rng.random() < 0.6 else rng.choice(SPOILT["bad lines of a script"])


def lists_story(story: Story) -> None:
    """A child with so many tables that its list pages grow and shrink."""
    story.oddness = 0
    story.boot(story.random.choice((600, 700, 1200)))
    story.say("call", 0, 0, *(0x401000 + PAGE * k for k in range(5)))
    root, d = story.tree.nodes[ROOT], 0x401000
    goal = SLOTS + story.random.randrange(4)
    indexes = story.random.sample(range(1024), goal + 8)
    for _ in range(2 * goal):
        child = story.tree.child_at(root, d)
        assert child is not None
        if len(child.tables) < goal:
            cv = indexes.pop() * 1024 * PAGE + PAGE
            chain = story.free_pages(root)[:pages_needed(child, cv)]
            story.link(0, root, chain)
            if not chain or len(chain) < 3 or not indexes:
                break
            story.say("call", 0, 3, d, cv, chain[0])
        if len(child.tables) >= SLOTS - 1 and story.chance(0.6):
            table = story.random.choice(child.tables)
            indexes.insert(0, table.index)
            story.say("call", 0, 4, d, table.index * 1024 * PAGE + PAGE)
            story.peek()
            if len(child.tables) < SLOTS - 4:
                break
    for _ in range(20):
        story.peek()


def script(seed: int) -> bytes:
    """The script of a seed, as bytes."""
    story = Story(seed)
    rng = story.random
    kind = rng.random()
    if kind < 0.004:
        lists_story(story)
        return b"\n".join(story.lines) + b"\n"
    for _ in range(rng.choice((0, 0, 0, 1, 3))):
        story.remark()
    if kind < 0.02:
        return b"\n".join(story.lines + [spoilt(rng, b"boot 32 1") for _ in range(rng.randrange(3))])
    is_deep = rng.random() < 0.4
    story.boot(rng.choice((64, 80, 96, 128)) if is_deep else None)
    if is_deep:
        story.descend()
    story.tell(len(story.lines) + rng.choice((10, 30, 40, 50, 60, 70, 90, 150)))
    for _ in range(rng.randrange(16)):
        story.peek()
    if kind < 0.14:
        story.lines.insert(rng.randrange(1, len(story.lines)), spoilt(rng, rng.choice(story.lines)))
    return b"\n".join(story.lines) + (b"" if rng.random() < 0.1 else b"\n")


Case = tuple[list[str], bytes]          # the words of a command, and its input


def of_run(rng: random.Random, seed: int) -> Case:
    return [str(counted(rng)), str(started(rng))], generate_programs.image_bytes(seed, 0.08)


def of_children(rng: random.Random, seed: int, is_slots: bool) -> Case:
    """Native runs, or slots of the children in turn, or those of a round that is given."""
    n, data = generate_native.case(seed)
    turns, count = (0, 1, 2, 5, 11, 30, 100), counted(rng)
    if not is_slots:
        return [str(n), str(count)], data
    if rng.random() < 0.5:
        each = rng.choice(turns)
        return [str(n), str(each), str(count // (n * (each + 2)))], data
    round = [(rng.randrange(n), rng.choice(turns)) for _ in range(rng.randrange(1, 8))]
    rounds = count // sum(each + 2 for _, each in round)
    return [str(n), str(rounds), *(f"{child}:{each}" for child, each in round)], data


def counted(rng: random.Random) -> int:
    return rng.choice((0, 1, 30, 200, 500, 1000, 1500))


def started(rng: random.Random) -> int:
    return rng.choice((1, 4294967295, rng.randrange(1, 1 << 32)))


CASES: dict[str, Callable[[random.Random, int], Case]] = {
    "script": lambda rng, seed: ([], script(seed)),
    "asm": lambda rng, seed: ([], generate_programs.assembly_text(seed)),
    "dis": lambda rng, seed: ([], generate_programs.image_bytes(seed, 0.4)),
    "run": of_run, "tree": of_run, "core": of_run,
    "soak": lambda rng, seed: ([str(counted(rng)), str(started(rng))], b""),
    "native": lambda rng, seed: of_children(rng, seed, False),
    "slots": lambda rng, seed: of_children(rng, seed, True),
    "audit": lambda rng, seed: generate_audit.case(seed, script(seed)),
    "every": lambda rng, seed: generate_every.case(seed),
    "against": lambda rng, seed: generate_every.menu_case(seed),
    "apart": lambda rng, seed: generate_apart.case(seed),
    "part": lambda rng, seed: generate_parts.part_case(seed),
    "merge": lambda rng, seed: generate_parts.merge_case(seed)}
COMMANDS = tuple(CASES)


def case(command: str, seed: int) -> Case:
    """The words and the input of a seed's case of a command."""
    words, data = CASES[command](random.Random(seed), seed)
    return [command, *words], data
