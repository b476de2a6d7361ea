"""The tree of partitions, and every call and event on it, in the words of docs/MODEL.md.

Everything is searched for in the tree: there are no tables, no shadows and no user bits. How a tree stands in frames
is in layout.py."""

from __future__ import annotations

from collections.abc import Callable
from dataclasses import dataclass, field
from enum import IntEnum
from typing import NamedTuple, Union

from .caches import Cache, takes_pages

PAGE = 4096              # bytes of a page
WORDS = 1024             # words of a page
SLOTS = 170              # tables that one list page notes
HANDLERS = 0xFFFFF000    # address of a partition's handler table
READ, WRITE, EXECUTE = 1, 2, 4
LINES = 16               # interrupt lines
ROOT = 1                 # the root's name


Status = IntEnum("Status", "OK UNKNOWN_CALL NOT_ALIGNED NULL_PAGE REPEATED NOT_CHILD NOT_MAPPED NOT_FREE NO_RIGHT "
                           "NO_TABLE TAKEN ABSENT LENT_ON NOT_EMPTY RUNNING BAD_VECTOR NO_HANDLER NO_CONTEXT BAD_SAVE",
                 start=0)


@dataclass(eq=False)
class Refused(Exception):
    """A call is refused with a status; nothing has changed."""

    status: Status


# The answers of events

Word = NamedTuple("Word", [("word", int)])
Done = NamedTuple("Done", [])
Idle = NamedTuple("Idle", [])
Reply = NamedTuple("Reply", [("status", Status), ("value", int)])
Switched = NamedTuple("Switched", [("source", int), ("target", int), ("vector", int)])
Parked = NamedTuple("Parked", [("source", int), ("vector", int)])
Outcome = Union[Word, Done, Reply, Switched, Parked, Idle]

# Accesses, and the faults of what they reach: each by the number that a handler is told
LOAD, STORE, FETCH = 0, 1, 2
ALIGNMENT, UNMAPPED, HIDDEN, RIGHT = 0, 1, 2, 3

NOWHERE = 256            # given to a yield in the place of a vector: nothing is saved
SAVED = 63               # the vector in whose block a fault, a trap and an interrupt save what ran
LAST_BLOCK = 4028        # where in a page a block begins at most: it is a pc and 16 registers


class Fault(NamedTuple):
    kind: int


@dataclass(frozen=True)
class Place:
    page: int
    index: int


class Pair(NamedTuple):
    """A page given as configuration, and where the parent has it."""

    address: int
    page: int


@dataclass(frozen=True)
class Table:
    """A directory index; MMU table, first shadow table, second shadow table."""

    index: int
    pairs: tuple[Pair, ...]


class Row(NamedTuple):
    page: int
    rights: int


class Context(NamedTuple):
    pc: int
    registers: tuple[int, ...]


class Running(NamedTuple):
    name: int
    context: Context


@dataclass
class Node:
    """One partition."""

    name: int
    up: int
    born: int
    base: list[Pair]                                       # five
    tables: list[Table] = field(default_factory=list)
    more: list[Pair] = field(default_factory=list)         # the further list pages
    rows: dict[int, Row] = field(default_factory=dict)     # by vpage
    masked: bool = False
    pending: set[int] = field(default_factory=set)

    def configuration(self) -> list[int]:
        """The pages that the kernel keeps its knowledge of this partition in."""
        pages = [pair.page for pair in self.base]
        for table in self.tables:
            pages += [pair.page for pair in table.pairs]
        return pages + [pair.page for pair in self.more]

    def row_at(self, address: int) -> Row | None:
        return self.rows.get(address // PAGE)

    def row(self, address: int) -> Row:
        """The row for an address that has one."""
        return self.rows[address // PAGE]

    def table_at(self, address: int) -> Table | None:
        """The table for an address, or None."""
        index = directory_index(address // PAGE)
        return next((table for table in self.tables if table.index == index), None)

    def held(self) -> list[int]:
        """All its pages: the configuration, and those of its rows."""
        return self.configuration() + [row.page for row in self.rows.values()]


@dataclass
class Tree:
    """All partitions, and the words of all pages that aren't configuration.

    A word that isn't named in `words` is 0."""

    frames: int
    # by name, in the order in which they were made, so a parent is never after its child
    nodes: dict[int, Node]
    words: dict[int, dict[int, int]]    # by page: words that aren't 0, by index

    def children(self, node: Node) -> list[Node]:
        return [x for x in self.nodes.values() if x.name != ROOT and x.up == node.name]

    def child_at(self, node: Node, address: int) -> Node | None:
        return next((c for c in self.children(node) if c.born == address), None)

    def holder(self, node: Node, page: int) -> Node | None:
        """The child that holds the page, or None."""
        return next((c for c in self.children(node) if page in c.held()), None)

    def is_hidden(self, page: int) -> bool:
        return any(page in x.configuration() for x in self.nodes.values())

    def proper_ancestors(self, node: Node) -> list[Node]:
        """The parent, the parent's parent and so on up to the root."""
        ancestors = []
        while node.name != ROOT:
            node = self.nodes[node.up]
            ancestors.append(node)
        return ancestors

    def below(self, top: Node) -> list[Node]:
        """A partition, and those below it."""
        return [x for x in self.nodes.values() if x is top or top in self.proper_ancestors(x)]

    def is_free(self, node: Node, address: int) -> bool:
        row = node.row_at(address)
        return row is not None and self.holder(node, row.page) is None

    def child_towards(self, top: Node, node: Node) -> Node:
        """The child of `top` that is `node` or one of its ancestors."""
        return next(x for x in [node] + self.proper_ancestors(node) if x.up == top.name and x.name != ROOT)

    def word(self, page: int, index: int) -> int:
        return self.words[page].get(index, 0)

    def set_word(self, page: int, index: int, word: int) -> None:
        if word:
            self.words[page][index] = word
        else:
            self.words[page].pop(index, None)

    def clear(self, page: int) -> None:
        """The page can be accessed, and is zero."""
        self.words[page] = {}

    def reach(self, node: Node, address: int, access: int, is_word: bool) -> Place | Fault:
        """The place that an access reaches, or the first fault that applies."""
        if is_word and address % 4 != 0:
            return Fault(ALIGNMENT)
        row = node.row_at(address)
        if row is None:
            return Fault(UNMAPPED)
        if self.is_hidden(row.page):
            return Fault(HIDDEN)
        if not row.rights & (READ, WRITE, EXECUTE)[access]:
            return Fault(RIGHT)
        return Place(row.page, address % PAGE // 4)

    def loaded(self, node: Node, address: int) -> int | None:
        """The word that a partition loads, or None where that faults."""
        place = self.reach(node, address, LOAD, True)
        return None if isinstance(place, Fault) else self.word(place.page, place.index)

    def block(self, node: Node, vector: int) -> int | None:
        """The address of a partition's block for a vector, or None."""
        address = self.loaded(node, HANDLERS + 4 * vector)
        if address is None or address % 4 or address % PAGE > LAST_BLOCK or self.loaded(node, address) is None:
            return None
        return address

    def handler(self, node: Node, vector: int) -> Context | None:
        """The context in a partition's block for a vector, or None."""
        address = self.block(node, vector)
        if address is None:
            return None
        row = node.row(address)
        words = [self.word(row.page, address % PAGE // 4 + i) for i in range(17)]
        return Context(words[0], tuple(words[1:]))

    def save_place(self, node: Node, vector: int) -> Place | None:
        """The place of a partition's block for a vector that it can store to, or None."""
        address = self.block(node, vector)
        if address is None:
            return None
        place = self.reach(node, address, STORE, True)
        return None if isinstance(place, Fault) else place

    def save(self, node: Node, vector: int, context: Context) -> None:
        """The context replaces the words of the block; nothing changes where it can't be saved to."""
        place = self.save_place(node, vector)
        if place is not None:
            for i, word in enumerate((context.pc,) + context.registers):
                self.set_word(place.page, place.index + i, word)


def directory_index(vpage: int) -> int:
    return vpage // 1024


def list_pages(tables: int) -> int:
    """How many list pages so many tables need."""
    return max(1, (tables + SLOTS - 1) // SLOTS)


def pages_needed(node: Node, address: int) -> int:
    """How many pages a partition needs before a page can be lent to it at the address."""
    if node.table_at(address) is not None:
        return 0
    tables = len(node.tables)
    return 3 + list_pages(tables + 1) - list_pages(tables)


# The boot


def root_tables(frames: int) -> int:
    """How many tables the root needs beside that of its handler page."""
    t = 1
    while frames - 6 - 3 * (t + 1) - 1 > 1024 * t:
        t += 1
    return t


def boot_tree(frames: int) -> Tree:
    """The root alone, with all memory that isn't its configuration."""
    t = root_tables(frames)
    tables = []
    for place, index in enumerate([*range(1, t + 1), 1023]):
        tables.append(Table(index, tuple(Pair(0, 6 + 3 * place + k) for k in range(3))))
    rights = READ + WRITE + EXECUTE
    users = range(3 * t + 9, frames - 1)
    rows = {0x400 + k: Row(page, rights) for k, page in enumerate(users)}
    rows[0xFFFFF] = Row(frames - 1, rights)
    root = Node(ROOT, ROOT, 0, [Pair(0, page) for page in range(1, 6)], tables, [], rows)
    return Tree(frames, {ROOT: root}, {row.page: {} for row in rows.values()})


# The tests of calls. Each refuses with its status


def need(good: object, status: Status) -> None:
    if not good:
        raise Refused(status)


def check_places(*addresses: int) -> None:
    need(all(address % PAGE == 0 for address in addresses), Status.NOT_ALIGNED)
    need(0 not in addresses, Status.NULL_PAGE)


def check_child(tree: Tree, caller: Node, address: int) -> Node:
    child = tree.child_at(caller, address)
    if child is None:
        raise Refused(Status.NOT_CHILD)
    return child


def check_child_place(tree: Tree, caller: Node, d: int, cv: int) -> Node:
    """The tests that the calls on a child's address have in common; the child is the answer."""
    check_places(d, cv)
    return check_child(tree, caller, d)


def check_mapped(caller: Node, *addresses: int) -> None:
    need(all(caller.row_at(address) for address in addresses), Status.NOT_MAPPED)


def check_free(tree: Tree, caller: Node, *addresses: int) -> None:
    need(all(tree.is_free(caller, address) for address in addresses), Status.NOT_FREE)


def check_given(tree: Tree, caller: Node, *addresses: int) -> None:
    """These pages can become configuration."""
    check_mapped(caller, *addresses)
    check_free(tree, caller, *addresses)
    both = READ | WRITE
    need(all(caller.row(address).rights & both == both for address in addresses), Status.NO_RIGHT)


# The calls on memory. Each gives its value, or refuses before it has changed anything


def create_partition(tree: Tree, caller: Node, arguments: list[int]) -> int:
    check_places(*arguments)
    need(len(set(arguments)) == len(arguments), Status.REPEATED)
    check_given(tree, caller, *arguments)
    base = [pair_at(caller, address) for address in arguments]
    tree.nodes[base[0].page] = Node(base[0].page, caller.name, base[0].address, base)
    hide(tree, base)
    return 0


def delete_partition(tree: Tree, caller: Node, d: int, running: set[int]) -> int:
    check_places(d)
    ended = tree.below(check_child(tree, caller, d))
    need(not any(x.name in running for x in ended), Status.RUNNING)
    for x in ended:
        del tree.nodes[x.name]
    for x in ended:
        for page in x.configuration():
            tree.clear(page)
    return 0


def prepare(tree: Tree, caller: Node, d: int, cv: int, first: int) -> int:
    child = check_child_place(tree, caller, d, cv)
    count = pages_needed(child, cv)
    chain = check_chain(tree, caller, first, count)
    if count:
        pairs = [pair_at(caller, address) for address in chain]
        child.tables.append(Table(directory_index(cv // PAGE), tuple(pairs[:3])))
        child.more += pairs[3:]
        hide(tree, pairs)
    return count


def check_chain(tree: Tree, caller: Node, first: int, count: int) -> list[int]:
    """The addresses of so many pages, each named by the first word of the one before."""
    chain: list[int] = []
    address = first
    for _ in range(count):
        if chain:
            address = tree.word(caller.row(chain[-1]).page, 0)
        check_places(address)
        need(address not in chain, Status.REPEATED)
        check_given(tree, caller, address)
        chain.append(address)
    return chain


def collect(tree: Tree, caller: Node, d: int, cv: int) -> int:
    child = check_child_place(tree, caller, d, cv)
    table = child.table_at(cv)
    if table is None:
        raise Refused(Status.NO_TABLE)
    need(not any(directory_index(vpage) == table.index for vpage in child.rows), Status.NOT_EMPTY)
    back = list(table.pairs)
    place = child.tables.index(table)
    last = child.tables.pop()
    if last is not table:
        child.tables[place] = last
    if list_pages(len(child.tables)) < list_pages(len(child.tables) + 1):
        back.append(child.more.pop())
    for pair, following in zip(back, back[1:] + [None]):
        tree.clear(pair.page)
        tree.set_word(pair.page, 0, following.address if following else 0)
    return back[0].address


def add_vaddr(tree: Tree, caller: Node, v: int, d: int, cv: int, rights: int) -> int:
    check_places(v, d, cv)
    child = check_child(tree, caller, d)
    check_mapped(caller, v)
    check_free(tree, caller, v)
    row = caller.row(v)
    need(rights & READ and not rights & ~row.rights, Status.NO_RIGHT)
    need(child.table_at(cv), Status.NO_TABLE)
    need(child.row_at(cv) is None, Status.TAKEN)
    child.rows[cv // PAGE] = Row(row.page, rights)
    return 0


def remove_vaddr(tree: Tree, caller: Node, d: int, cv: int) -> int:
    child = check_child_place(tree, caller, d, cv)
    need(child.row_at(cv), Status.ABSENT)
    need(tree.is_free(child, cv), Status.LENT_ON)
    del child.rows[cv // PAGE]
    return 0


def mapped_in_child(tree: Tree, caller: Node, v: int) -> int:
    check_places(v)
    check_mapped(caller, v)
    child = tree.holder(caller, caller.row(v).page)
    return child.born if child else 0


def pair_at(caller: Node, address: int) -> Pair:
    return Pair(address, caller.row(address).page)


def hide(tree: Tree, pairs: list[Pair]) -> None:
    """These pages are configuration from now on, so nothing can be read in them."""
    for pair in pairs:
        del tree.words[pair.page]


# Worlds


class World:
    """A tree and the processors, each idle or running a partition, with a translation cache for each.

    An event gives its answer and changes the world."""

    def __init__(self, tree: Tree, processors: list[Running | None]) -> None:
        self.tree = tree
        self.processors = processors
        self.caches = [Cache() for _ in processors]

    @staticmethod
    def boot(frames: int, processors: int) -> World:
        start = Running(ROOT, Context(0x00400000, (0,) * 16))
        return World(boot_tree(frames), [start] + [None] * (processors - 1))

    def running(self) -> set[int]:
        """The names of the partitions that run."""
        return {at.name for at in self.processors if at}

    def running_on(self, cpu: int) -> Running:
        """What runs on a processor that isn't idle."""
        at = self.processors[cpu]
        assert at is not None
        return at

    def node_on(self, cpu: int) -> Node:
        return self.tree.nodes[self.running_on(cpu).name]

    # Accesses

    def load(self, cpu: int, address: int, is_word: bool) -> Outcome:
        return self.read(cpu, address, is_word, LOAD)

    def fetch(self, cpu: int) -> Outcome:
        if self.processors[cpu] is None:
            return Idle()
        return self.read(cpu, self.running_on(cpu).context.pc, True, FETCH)

    def read(self, cpu: int, address: int, is_word: bool, access: int) -> Outcome:
        if self.processors[cpu] is None:
            return Idle()
        place = self.reached(cpu, address, access, is_word)
        if isinstance(place, Fault):
            return self.fault(cpu, address, access, place)
        word = self.tree.word(place.page, place.index)
        return Word(word if is_word else word >> 8 * (address % 4) & 0xFF)

    def store(self, cpu: int, address: int, is_word: bool, value: int) -> Outcome:
        if self.processors[cpu] is None:
            return Idle()
        place = self.reached(cpu, address, STORE, is_word)
        if isinstance(place, Fault):
            return self.fault(cpu, address, STORE, place)
        if not is_word:
            shift = 8 * (address % 4)
            value = self.tree.word(place.page, place.index) & ~(0xFF << shift) | value << shift
        self.tree.set_word(place.page, place.index, value)
        return Done()

    def reached(self, cpu: int, address: int, access: int, is_word: bool) -> Place | Fault:
        """What an access by what runs there reaches. The processor's cache learns of one that is aligned."""
        node = self.node_on(cpu)
        place = self.tree.reach(node, address, access, is_word)
        if place != Fault(ALIGNMENT):
            row = None if isinstance(place, Fault) else node.row_at(address)
            self.caches[cpu].access(node.name, address // PAGE, row)
        return place

    def fault(self, cpu: int, address: int, access: int, fault: Fault) -> Outcome:
        vector = 17 if fault.kind == ALIGNMENT else 14
        return self.deliver(cpu, vector, address, 16 * access + fault.kind)

    def trap(self, cpu: int, vector: int, a: int, b: int) -> Outcome:
        if self.processors[cpu] is None:
            return Idle()
        return self.deliver(cpu, vector, a, b)

    # Control

    def save(self, cpu: int) -> None:
        """The partition that runs there is saved."""
        self.tree.save(self.node_on(cpu), SAVED, self.running_on(cpu).context)

    def enter(self, cpu: int, node: Node, handler: Context, *told: int) -> None:
        """The partition runs there as its handler says, but for the words that it is told in the first registers."""
        self.processors[cpu] = Running(node.name, Context(handler.pc, told + handler.registers[len(told):]))

    def deliver(self, cpu: int, vector: int, a: int, b: int) -> Outcome:
        """A fault or trap goes to the nearest ancestor that can take it. Its handler is looked for before the save."""
        node = self.node_on(cpu)
        for taker in self.tree.proper_ancestors(node):
            handler = self.tree.handler(taker, vector)
            if taker.name not in self.running() and handler is not None:
                self.save(cpu)
                self.enter(cpu, taker, handler, vector, a, b, self.tree.child_towards(taker, node).born)
                return Switched(node.name, taker.name, vector)
        self.save(cpu)
        self.processors[cpu] = None
        return Parked(node.name, vector)

    def raise_line(self, line: int) -> Outcome:
        self.tree.nodes[ROOT].pending.add(line)
        return Done()

    def poll(self, cpu: int) -> Outcome:
        root = self.tree.nodes[ROOT]
        at = self.processors[cpu]
        runs_here = at is not None and at.name == ROOT
        takes = runs_here and not root.masked or ROOT not in self.running()
        for line in sorted(root.pending) if takes else []:
            handler = self.tree.handler(root, 32 + line)
            if handler is not None:
                root.pending.remove(line)
                if at is not None:
                    self.save(cpu)
                root.masked = True
                self.enter(cpu, root, handler, 32 + line, 0, 0, 0)
                return Switched(at.name if at else 0, ROOT, 32 + line)
        return Done() if at else Idle()

    def set_context(self, cpu: int, context: Context) -> Outcome:
        """Only the processor's context changes, and nothing where it is idle."""
        at = self.processors[cpu]
        if at is None:
            return Idle()
        self.processors[cpu] = Running(at.name, context)
        return Done()

    def set_pc(self, cpu: int, pc: int) -> Outcome:
        return self.set_context(cpu, self.running_on(cpu).context._replace(pc=pc)) if self.processors[cpu] else Idle()

    # Calls

    def call(self, cpu: int, number: int, arguments: list[int]) -> Outcome:
        if self.processors[cpu] is None:
            return Idle()
        try:
            if number == 8:
                return self.yield_to(cpu, *arguments[:3])
            answer = Reply(Status.OK, self.reply(self.node_on(cpu), number, arguments))
            if takes_pages(number, answer.value):
                for cache in self.caches:
                    cache.entries.clear()           # what was counted isn't forgotten
        except Refused as refusal:
            answer = Reply(refusal.status, 0)
        at = self.running_on(cpu)
        registers = (int(answer.status), answer.value) + at.context.registers[2:]
        self.processors[cpu] = Running(at.name, Context(at.context.pc, registers))
        return answer

    def reply(self, caller: Node, number: int, x: list[int]) -> int:
        """The value of a call that doesn't switch."""
        tree = self.tree
        if number in (10, 11):
            caller.masked = number == 10
            return 0
        calls: dict[int, Callable[[], int]] = {
            0: lambda: create_partition(tree, caller, x),
            1: lambda: delete_partition(tree, caller, x[0], self.running()),
            2: lambda: pages_needed(check_child_place(tree, caller, *x[:2]), x[1]),
            3: lambda: prepare(tree, caller, *x[:3]),
            4: lambda: collect(tree, caller, *x[:2]), 5: lambda: add_vaddr(tree, caller, *x[:4]),
            6: lambda: remove_vaddr(tree, caller, *x[:2]), 7: lambda: mapped_in_child(tree, caller, x[0])}
        if number in calls:
            return calls[number]()
        raise Refused(Status.UNKNOWN_CALL)

    def yield_to(self, cpu: int, target: int, vector: int, save: int) -> Outcome:
        caller = self.node_on(cpu)
        need(target == 1 or target % PAGE == 0, Status.NOT_ALIGNED)
        need(target or caller.name != ROOT, Status.NOT_CHILD)
        aimed = {0: self.tree.nodes[caller.up], 1: caller}.get(target) or check_child(self.tree, caller, target)
        need(vector < 256 and save <= NOWHERE, Status.BAD_VECTOR)
        need(aimed is caller or aimed.name not in self.running(), Status.RUNNING)
        handler = self.tree.handler(aimed, vector)
        if handler is None:
            raise Refused(Status.NO_HANDLER)
        need(save == NOWHERE or self.tree.save_place(caller, save), Status.BAD_SAVE)
        if save < NOWHERE:
            context = self.running_on(cpu).context
            self.tree.save(caller, save, Context(context.pc, (0, 0) + context.registers[2:]))
        if caller.name == ROOT:
            caller.masked = False
        self.enter(cpu, aimed, handler)
        return Switched(caller.name, aimed.name, vector)
