"""Runs of an image: turns of processors, and the texts of the commands run, tree, core and soak."""

from collections.abc import Callable, Iterator, Sequence
from typing import NamedTuple

from . import layout
from .image import Image, is_due, world as image_world
from .instructions import (BRANCHES, FORMS, KINDS, NEXT, OPCODES, SHIFTS, VALUES, Instruction, WORD as ALL,
                           decode)
from .model import (EXECUTE, HANDLERS, PAGE, ROOT, WORDS, WRITE, Context, Done, Idle, Node, Outcome, Parked, Reply, Row,
                    Switched, Tree, Word, World)
from .script import call, outcome_text, word_text


class Generator:
    """Numbers in an order that looks drawn."""

    def __init__(self, state: int) -> None:
        self.state = state

    def draw(self, n: int) -> int:
        s = self.state
        s ^= s << 13 & 0xFFFFFFFF
        s ^= s >> 17
        s ^= s << 5 & 0xFFFFFFFF
        self.state = s
        return s % n


# Turns


class Turn:
    """One turn of a processor at a step. Its lines are handed to `told`."""

    def __init__(self, world: World, cpu: int, step: int, told: Callable[[str], object]) -> None:
        self.world, self.cpu, self.step, self.told = world, cpu, step, told

    def tell(self, text: str) -> None:
        self.told(f"{self.step} {self.cpu} {text}")

    def tell_switch(self, outcome: Outcome) -> Outcome:
        """The line of a switch or a park; other outcomes have none."""
        if isinstance(outcome, (Switched, Parked)):
            self.tell(outcome_text(outcome))
        return outcome

    @property
    def context(self) -> Context:
        return self.world.running_on(self.cpu).context

    def set(self, pc: int, changes: Sequence[tuple[int, int]] = ()) -> None:
        registers = list(self.context.registers)
        for register, value in changes:
            registers[register] = value % ALL
        self.world.set_context(self.cpu, Context(pc % ALL, tuple(registers)))

    def take(self) -> None:
        polled = self.tell_switch(self.world.poll(self.cpu))
        if not isinstance(polled, Done):
            return
        fetched = self.tell_switch(self.world.fetch(self.cpu))
        if not isinstance(fetched, Word):
            return
        instruction = decode(fetched.word)
        if instruction is None:
            self.trap(6, self.context.pc, fetched.word)
        else:
            self.instruction(instruction)

    def trap(self, vector: int, a: int, b: int) -> None:
        self.tell_switch(self.world.trap(self.cpu, vector, a, b))

    def instruction(self, instruction: Instruction) -> None:
        name, x = instruction
        pc, r = self.context
        after = (pc + NEXT) % ALL
        if name in ("div", "rem") and r[x[2]] == 0:
            self.trap(0, pc, 0)
        elif name in VALUES:
            self.set(after, [(x[0], VALUES[name](r[x[0]], *self.values(instruction)))])
        elif name in ("ldw", "ldb"):
            outcome = self.tell_switch(self.world.load(self.cpu, (r[x[1]] + x[2]) % ALL, name == "ldw"))
            if isinstance(outcome, Word):
                self.set(after, [(x[0], outcome.word)])
        elif name in ("stw", "stb"):
            value = r[x[0]] if name == "stw" else r[x[0]] % 256
            outcome = self.tell_switch(self.world.store(self.cpu, (r[x[1]] + x[2]) % ALL, name == "stw", value))
            if isinstance(outcome, Done):
                self.set(after)
        elif name in BRANCHES:
            self.set(after + 4 * x[2] if BRANCHES[name](r[x[0]], r[x[1]]) else after)
        elif name == "jal":
            self.set(after + 4 * x[1], [(x[0], after)])
        elif name == "jr":
            self.set(r[x[0]])
        elif name == "sys":
            self.set(after)
            outcome = self.world.call(self.cpu, x[0], list(r[1:6]))
            self.tell(f"call {x[0]} {outcome_text(outcome)}")
        elif name == "int":
            self.set(after)
            self.trap(x[0], 0, 0)
        else:
            assert name == "out"
            self.tell(f"out {word_text(r[x[0]])}")
            self.set(after)

    def values(self, instruction: Instruction) -> list[int]:
        """The values of b and c, or of b and the immediate, or of the immediate."""
        name, (_, *operands) = instruction
        registers, (_, *form) = self.context.registers, FORMS[KINDS[OPCODES[name]].form]
        return [registers[operand] if what in SHIFTS else operand for what, operand in zip(form, operands)]


def raise_lines(image: Image, world: World, step: int) -> list[int]:
    """Raises what an image's plans raise before a step."""
    raised = [plan.line for plan in image.plans if is_due(plan, step)]
    for line in raised:
        world.raise_line(line)
    return raised


def drawn(image: Image, world: World, count: int, seed: int) -> Iterator[tuple[int, int, list[int]]]:
    """The steps of a run of a world: each with the processor whose turn it is, and the lines that were raised."""
    generator = Generator(seed)
    for step in range(count):
        raised = raise_lines(image, world, step)
        yield step, generator.draw(image.cpus), raised


def first_line(image: Image) -> str:
    return f"image {image.frames} {image.cpus} {len(image.plans)} {len(image.pages)}"


class After(NamedTuple):
    """Where a search begins: after so many steps of a run by the schedule of a seed."""

    steps: int
    seed: int


AT_FIRST = After(0, 1)


def steps(image: Image, count: int, seed: int, told: Callable[[str], object] = lambda line: None) -> World:
    """The world after that many steps of an image."""
    world = image_world(image)
    for step, cpu, _ in drawn(image, world, count, seed):
        Turn(world, cpu, step, told).take()
    return world


# The texts of the commands, line by line, each with the world that its command leaves


def run(image: Image, count: int, seed: int) -> tuple[list[str], World]:
    told = [first_line(image)]
    world = steps(image, count, seed, told.append)
    return told + [f"end {count}"], world


def tree(image: Image, count: int, seed: int) -> tuple[list[str], World]:
    world = steps(image, count, seed)
    return tree_lines(world.tree) + [f"end {count}"], world


def core(image: Image, count: int, seed: int) -> tuple[list[str], World]:
    world = steps(image, count, seed)
    return core_lines(world.tree) + [f"end {count}"], world


def tree_lines(tree: Tree) -> list[str]:
    return node_lines(tree, tree.nodes[ROOT], 0)


def node_lines(tree: Tree, node: Node, depth: int) -> list[str]:
    told = [f"part {node.name} depth {depth} up {node.up} born {word_text(node.born)} tables {len(node.tables)} "
            f"rows {len(node.rows)}"]
    for vpage, row in sorted(node.rows.items()):
        rights = "r" + ("w" if row.rights & WRITE else "-") + ("x" if row.rights & EXECUTE else "-")
        view = "hidden" if tree.is_hidden(row.page) else "user"
        told.append(f"row {word_text(PAGE * vpage)} {row.page} {rights} {view} {use(tree, node, row)}")
    for child in sorted(tree.children(node), key=lambda child: child.born):
        told += node_lines(tree, child, depth + 1)
    return told


def use(tree: Tree, node: Node, row: Row) -> str:
    child = tree.holder(node, row.page)
    if child is None:
        return "free"
    if row.page == child.name:
        return f"desc {word_text(child.born)}"
    return f"{'conf' if row.page in child.configuration() else 'lent'} {word_text(child.born)}"


def core_lines(tree: Tree) -> list[str]:
    told = []
    for frame in range(tree.frames):
        words = layout.frame_words(tree, frame)
        if any(words):
            told.append(f"frame {frame}")
            for first in range(0, WORDS, 8):
                group = words[first:first + 8]
                if any(group):
                    told.append(f"{first:04d}:" + "".join(f" {word:08x}" for word in group))
    return told


# The generated load


class Soak:
    """Events made from a number, and what they are answered."""

    def __init__(self, seed: int) -> None:
        self.world = World.boot(64, 2)
        for word, addresses in ((0xFFFFF400, (0xFFFFF038, 0xFFFFF080, 0xFFFFF084, 0xFFFFF100, 0x410100)),
                                (0xFFFFF444, (0xFFFFF0FC, 0x4100FC))):
            for address in addresses:
                self.world.store(0, address, True, word)
        self.draw = Generator(seed).draw
        self.events = 0
        self.outcomes = {kind: 0 for kind in (Word, Done, Switched, Parked, Idle)}
        self.replies = [0] * 19

    def count(self, outcome: Outcome) -> None:
        self.events += 1
        if isinstance(outcome, Reply):
            self.replies[outcome.status] += 1
        else:
            self.outcomes[type(outcome)] += 1

    def page(self) -> int:
        return 0x400000 + PAGE * self.draw(16)

    def place(self) -> int:
        address = 0x10000000 + PAGE * self.draw(4)
        return address if self.draw(2) == 0 else HANDLERS

    def goal(self) -> int:
        return 0 if self.draw(4) == 0 else self.page()

    def step(self) -> None:
        cpu, kind = self.draw(2), self.draw(16)
        world, page, place = self.world, self.page, self.place
        if kind <= 2:
            self.count(world.load(cpu, page() if kind <= 1 else place(), True))
        elif kind == 3:
            self.count(world.store(cpu, page(), True, page()))
        elif kind == 4:
            first = 0x401000 + PAGE * self.draw(11)
            self.call(cpu, 0, *(first + PAGE * k for k in range(5)))
        elif kind == 5:
            x = 0x400000 + PAGE * self.draw(13)
            self.count(world.store(cpu, x, True, x + PAGE))
            self.count(world.store(cpu, x + PAGE, True, x + 2 * PAGE))
            self.call(cpu, 3, page(), place(), x)
        elif kind == 6:
            self.call(cpu, 5, 0x400000 + PAGE * self.draw(17), page(), place(), 1 + self.draw(7))
        elif kind == 7:
            self.call(cpu, 6, page(), place())
        elif kind in (8, 11):
            self.call(cpu, 7 if kind == 8 else 1, page())
        elif kind in (9, 10):
            self.call(cpu, 2 if kind == 9 else 4, page(), place())
        elif kind in (12, 13):
            self.call(cpu, 8, self.goal(), *((64, 63) if kind == 12 else (63, 256)))
        elif kind == 14:
            self.count(world.raise_line(self.draw(2)))
        else:
            self.count(world.poll(cpu))

    def call(self, cpu: int, number: int, *arguments: int) -> None:
        self.count(call(self.world, cpu, number, *arguments))


def soak(count: int, seed: int) -> tuple[list[str], World]:
    load = Soak(seed)
    for _ in range(count):
        load.step()
    nodes = load.world.tree.nodes.values()
    names = {Word: "word", Done: "done", Switched: "switch", Parked: "park", Idle: "idle"}
    told = [f"events {load.events}"] + [f"{name} {load.outcomes[kind]}" for kind, name in names.items()]
    told += [f"reply {status} {number}" for status, number in enumerate(load.replies)]
    rows, hidden = sum(len(x.rows) for x in nodes), sum(len(x.configuration()) for x in nodes)
    return told + [f"parts {len(nodes)}", f"rows {rows}", f"hidden {hidden}", f"end {count}"], load.world
