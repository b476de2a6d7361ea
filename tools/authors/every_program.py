"""Whether a monitor holds against every program of its children, and a report on it.

The menu has every exit of a child that is confined, but for createPartition: traps, faults, yields, and stores to the
entries of its handler table that others depend on, one of each class. Which entries these are is learned from the
program's own answers: where it says `away no`, the way is made again by the reference, and the class of an entry that
is read there counts as seen from then on; where the rows of its partition change, the entry itself. What is said at the
end is the program's, from one search with the menu that came out of this.
"""

from __future__ import annotations

import copy
import itertools
import re
from collections.abc import Iterable, Iterator
from typing import NamedTuple

from common import calling, meanings
from common.calling import Failed
from common.machine import against, image as images, runs
from common.machine.model import (HANDLERS, LAST_BLOCK, LOAD, NOWHERE, PAGE, ROOT, SAVED, WRITE, Context, Fault, Node,
                                  Row, Tree, World)
from common.machine.script import BadLine
from debugger import searching, sources
from debugger.searching import AWAY, END, Asked, Search
from . import ways

STATES = 1_000_000               # room where none is given
FAULTS = (0, 6, 14, 17)          # the vectors of faults, whose two words can be any
TRAPS = range(64, 256)           # those of `int`
WORDS_OF_FAULTS = {0: "the pc of a division by zero", 6: "a pc and a word that is no instruction",
                   14: "an address that isn't there", 17: "an address that isn't aligned"}
MOST_ROUNDS = 64
SWITCH = re.compile(r"(?:call 8 )?switch (\d+) (\d+) (\d+)")
CALL = re.compile(r"call (\d+)")


class LeftOut:
    """The partitions whose programs may be any, their pages, and the entries of their handler tables that others depend
    on: by partition and vector those whose class is seen, and by page and word those of which all is, with the values
    that they had."""

    def __init__(self) -> None:
        self.own: set[int] = set()
        self.pages: set[int] = set()
        self.rows: dict[int, dict[int, Row]] = {}
        self.entries: dict[tuple[int, int], set[int]] = {}
        self.seen: dict[tuple[int, int], set[int]] = {}
        self.changed: set[int] = set()           # whose rows weren't those of the first state
        self.depth = 1                           # of partitions one in another, up to the root

    def __deepcopy__(self, memo: object) -> LeftOut:
        return self

    def owner(self, page: int, index: int) -> int | None:
        """The partition of which a word is an entry whose class is seen."""
        return next((name for name, vector in self.entries if vector == index and self.table(name) == page), None)

    def table(self, name: int) -> int:
        row = self.rows.get(name, {}).get(HANDLERS // PAGE)
        return row.page if row else 0

    def has(self, page: int, index: int) -> bool:
        return page in self.pages and (page, index) not in self.seen and self.owner(page, index) is None

    def add(self, world: World, node: Node) -> None:
        """A partition with all its pages. Where it is saved is read by whoever interrupts it."""
        self.own.add(node.name)
        self.keep(node)
        self.depth = max(self.depth, 1 + len(world.tree.proper_ancestors(node)))
        self.see(world, node, SAVED)

    def keep(self, node: Node) -> None:
        self.pages |= {row.page for row in node.rows.values()}
        self.rows[node.name] = dict(node.rows)

    def see(self, world: World, node: Node, vector: int) -> None:
        page = node.row(HANDLERS).page
        self.entries.setdefault((node.name, vector), set()).add(world.tree.word(page, vector))

    def see_words(self, world: World, node: Node) -> None:
        """Of all its entries the words are seen."""
        for (name, vector), values in list(self.entries.items()):
            if name == node.name:
                del self.entries[name, vector]
                page = node.row(HANDLERS).page
                self.seen.setdefault((page, vector), {0}).update(values, {world.tree.word(page, vector)})

    def class_of(self, name: int, word: int) -> int:
        """That of a word in an entry: it names no block; one that can't be saved; one that is saved to words that are
        left out; or it is alone."""
        row = self.rows[name].get(word // PAGE)
        if word % 4 or word % PAGE > LAST_BLOCK or row is None:
            return 0
        if not row.rights & WRITE:
            return 1
        first = word % PAGE // 4
        return 2 if all(self.has(row.page, index) for index in range(first, first + 17)) else 3 + word

    def classes(self, name: int, values: set[int]) -> dict[int, int]:
        """A word of each class that the menu has for an entry: one that it had, so that few states come of it."""
        rows = self.rows[name].items()
        unsaved = [vpage * PAGE for vpage, row in rows if not row.rights & WRITE]
        saved = (word for vpage, row in rows if row.rights & WRITE
                 for word in range(vpage * PAGE, vpage * PAGE + LAST_BLOCK + 1, 4) if self.class_of(name, word) == 2)
        found: dict[int, int] = {}
        for word in [0, *sorted(values), *unsaved[:1], *itertools.islice(saved, 1)]:
            if (kind := self.class_of(name, word)) < 3:
                found.setdefault(kind, word)
        return {**found, **{self.class_of(name, word): word for word in values if self.class_of(name, word) > 2}}

    def allows(self, world: World) -> bool:
        """Whether each entry has a value of a class that is on the menu, and each word that is seen one of its own."""
        word = world.tree.word
        return all(self.class_of(name, word(self.table(name), vector)) in self.classes(name, values)
                   for (name, vector), values in self.entries.items()) \
            and all(word(*place) in values for place, values in self.seen.items())

    def exits(self, who: object, yields: Iterable[int] = range(NOWHERE)) -> list[str]:
        """The deeds that are every exit of these partitions; yields to other vectors are refused."""
        stores = {(index, value) for (_, index), values in self.seen.items() for value in values}
        stores |= {(vector, word) for (name, vector), values in self.entries.items()
                   for word in self.classes(name, values).values()}
        return [*(f"{who} trap {vector} 0 0" for vector in (*FAULTS, *TRAPS)),
                *(f"{who} call 8 0 {vector} {NOWHERE}" for vector in yields),
                *(f"{who} st {HANDLERS + 4 * index:#010x} {value:#010x}" for index, value in sorted(stores))]

    def menu(self) -> list[str]:
        kept = {name for name, _ in self.entries}
        return [*self.exits("each"), *(f"any {name}" for name in sorted(self.own)),
                *(f"free {page}" for page in sorted(self.pages)),
                *(f"seen {page} {index}" for page, index in sorted(self.seen)),
                *(f"entry {name} {vector}" for name, vector in sorted(self.entries)),
                *(f"row {name} {vpage:#x} {row.page} {row.rights}" for name, rows in sorted(self.rows.items())
                  if name in kept for vpage, row in sorted(rows.items()))]


class Watched(Tree):
    """A tree that notes which words are read that are left out, and which entries by others than their partition."""

    def watch(self, out: LeftOut) -> None:
        self.out, self.read, self.is_blank = out, set[tuple[int, int]](), False
        self.table_of: Node | None = None

    def word(self, page: int, index: int) -> int:
        owner = self.out.owner(page, index)
        is_missed = self.out.has(page, index) if owner is None else not self.is_entry(owner)
        if not self.is_blank and is_missed:
            self.read.add((page, index))
        return super().word(page, index)

    def is_entry(self, owner: int) -> bool:
        """By its class it is read where its partition has the rows that are named of it."""
        node = self.table_of
        return node is not None and node.name in self.out.own and self.out.rows[owner] == node.rows

    def block(self, node: Node, vector: int) -> int | None:
        """Only the entry is read here."""
        self.table_of = node
        address = self.loaded(node, HANDLERS + 4 * vector)
        self.table_of = None
        is_there = address is not None and address % 4 == 0 and address % PAGE <= LAST_BLOCK \
            and not isinstance(self.reach(node, address, LOAD, True), Fault)
        return address if is_there else None

    def handler(self, node: Node, vector: int) -> Context | None:
        """With which context a partition goes on whose program may be any, nobody else sees."""
        if self.block(node, vector) is None:
            return None
        self.is_blank = node.name in self.out.own
        try:
            return super().handler(node, vector)
        finally:
            self.is_blank = False


class Seen(NamedTuple):
    """A word that is left out and read, in whose turn, and by which event."""

    page: int
    word: int
    name: int
    by: str


def events(world: World, cpu: int, deeds: list[against.Deed]) -> Iterator[tuple[str, World]]:
    """What can happen there next, each in a world of its own."""
    at = world.processors[cpu]
    if not against.is_hostile(at, deeds):
        after = copy.deepcopy(world)
        turn = ways.turn_of(after, ways.Choice(cpu), (), 0, lambda line: None)
        turn.take()
        yield turn.did or "its turn", after
        return
    for deed in [None, *(deed for deed in deeds if at and deed.is_of(at.name))]:
        after = copy.deepcopy(world)
        against.Hostile(after, cpu, 0, lambda line: None, deed).take()
        yield deed.line if deed else "a poll", after


def seen_at(world: World, cpu: int, out: LeftOut, deeds: list[against.Deed]) -> list[Seen]:
    """The words that are left out and read by what can happen there next."""
    world.tree.__class__ = Watched
    tree = world.tree
    assert isinstance(tree, Watched)
    tree.watch(out)
    at = world.processors[cpu]
    found: dict[tuple[int, int], Seen] = {}
    for by, after in events(world, cpu, deeds):
        assert isinstance(after.tree, Watched)
        for page, index in sorted(after.tree.read):
            found.setdefault((page, index), Seen(page, index, at.name if at else 0, by))
    return list(found.values())


class Answer(NamedTuple):
    """What came out: the menu, the search, and why it isn't of every program, if it isn't."""

    out: LeftOut
    search: Search
    why: str


def text_of(lines: list[str]) -> bytes:
    return "".join(f"{line}\n" for line in lines).encode()


def searched(program: str, asked: Asked, lines: list[str]) -> Search:
    """The program's own search with these lines as menu."""
    asked = asked._replace(menu=text_of(lines))
    return searching.read(calling.text_of(program, asked.words(), asked.data + asked.menu))


def answer(program: str, asked: Asked, names: sources.Source) -> Answer:
    """Searches until the answer stands."""
    image, out = images.read(asked.data), LeftOut()
    begun = runs.steps(image, *asked.after, lambda line: None)
    for node in begun.tree.nodes.values():
        if node.name != ROOT and HANDLERS // PAGE in node.rows:
            out.add(begun, node)
    out.own.add(ROOT + 1)                        # no partition has this name: so it is asked from the first round on
    for _ in range(MOST_ROUNDS):
        lines = out.menu()
        try:
            menu = against.menu_of(text_of(lines)).deeds
        except BadLine:
            raise Failed("these partitions have more exits, pages or rows than a menu may have") from None
        search = searched(program, asked, lines)
        said = next(filter(None, map(AWAY.fullmatch, search.again)))
        if said[1] == "unknown":
            return Answer(out, search, "the search didn't close: give more STATES")
        if said[1] == "yes":
            return Answer(out, search, taken(search, out))
        way = said[2].strip()
        world = copy.deepcopy(list(ways.made(image, ways.read(image, way, menu), menu, asked.after))[-1].world
                              if way else begun)
        cpu = int(said[3])
        why = learned(world, cpu, out, menu, names)
        if why:
            return Answer(out, search, f"{why}, in the {f'state after {way}' if way else 'first state'}")
    raise Failed(f"after {MOST_ROUNDS} rounds words are still read that are left out")


def learned(world: World, cpu: int, out: LeftOut, deeds: list[against.Deed], names: sources.Source) -> str:
    """What is learned where something doesn't look away; or why it never will."""
    at = world.processors[cpu]
    if at and against.is_hostile(at, deeds):
        node = world.node_on(cpu)
        if node.name not in out.own:
            out.add(world, node)
            return ""
        if world.tree.children(node):
            return f"partition {node.name} has children"
    seen = seen_at(world, cpu, out, deeds)
    entries = [(node, word.word) for word in seen for node in world.tree.nodes.values()
               if node.name in out.own and HANDLERS // PAGE in node.rows and node.row(HANDLERS).page == word.page
               and word.word < NOWHERE]
    if any([learned_entry(world, node, vector, out) for node, vector in entries]):
        return ""
    if not seen:
        return "a word that is left out is read, and the reference doesn't find which"
    word = seen[0]
    who = "the root" if word.name == ROOT else f"partition {word.name}"
    name = names.nearest((word.page, word.word))
    return f"{who} reads word {word.word} of page {word.page}{name and f' ({name})'}: {word.by}"


def learned_entry(world: World, node: Node, vector: int, out: LeftOut) -> bool:
    """Whether something is learned of an entry that is read: its class is seen; by other rows, where they changed once;
    or all of it, where they change again."""
    if (node.name, vector) not in out.entries:
        if (node.row(HANDLERS).page, vector) in out.seen:
            return False
        out.see(world, node, vector)
    elif out.rows[node.name] == node.rows:
        return False
    elif node.name in out.changed:
        out.see_words(world, node)
    else:
        out.keep(node)
        out.changed.add(node.name)
    return True


def taken(search: Search, out: LeftOut) -> str:
    """A fault that a partition takes gets words that can be any, and the menu has zeros. Without children there is
    nothing to say."""
    if not out.pages:
        return "no partition runs but the root"
    for line in search.lines:
        found = SWITCH.fullmatch(line.text)
        if found and int(found[1]) in out.own and int(found[3]) in FAULTS:
            return f"partition {found[2]} takes vector {found[3]}, and may look at {WORDS_OF_FAULTS[int(found[3])]}"
    return ""


# What is told


def programs_of(out: LeftOut) -> str:
    """Of which programs it is said."""
    own = sorted(out.own - {ROOT + 1})
    seen = dict.fromkeys((index, frozenset(values)) for (_, index), values in sorted(out.seen.items()))
    blocks = sorted({word for (name, _), values in out.entries.items() for word in values
                     if out.class_of(name, word) > 2})
    parents = [name for name in own if sum(row.rights & 3 == 3 for row in out.rows.get(name, {}).values()) > 4]
    kept = [f"entry {index} of a handler table is {' or '.join(map('{:#010x}'.format, sorted(values)))}"
            for index, values in seen]
    if out.entries:
        kept.append("no block of theirs lies over an entry of a handler table"
                    + (f", but at {' and '.join(map('{:#010x}'.format, blocks))}" if blocks else ""))
    if parents:
        kept.append(f"{listed(parents)} create{'s' * (len(parents) == 1)} no partition")
    return f"whatever the programs of {listed(own)} are, as long as " + "; ".join(
        [f"they write to pages {listed(sorted(out.pages))} alone", *kept])


def listed(numbers: list[int]) -> str:
    return " and ".join(filter(None, (", ".join(map(str, numbers[:-1])), *map(str, numbers[-1:]))))


def told(found: Answer) -> list[str]:
    end = END.fullmatch(found.search.last)
    assert end
    if found.why:
        return [f"no: {found.why}"]
    return [f"yes: {programs_of(found.out)}: no line comes but {len(found.search.lines)}, in {end[1]} states"]


class Finding(NamedTuple):
    """A line of a report: what is asked, what is answered, and by which contract, or why nothing is."""

    what: str
    answer: str
    by: str


def report(program: str, asked: Asked, found: Answer) -> list[str]:
    """Ten lines on one monitor."""
    proved = "unproved" if program == calling.UNPROVED else "proved"
    is_closed = found.search.last.endswith("closed")
    of_menu = "" if is_closed else "the search didn't close"
    rows = [Finding("closed", f"{'yes' if is_closed else 'no'}, {found.search.last}", f"{proved}, ClosedNamesMenus"),
            Finding("every program", told(found)[0],
                "nothing is proved of every program" if found.why else f"{proved}, AwayTextsNamePrograms"),
            *lines_of(found.search, proved, of_menu), *turns_of(program, asked, found, proved, of_menu),
            longest(asked, found, proved)]
    return [f"{row.what:<16}{row.answer}    # {row.by}" for row in rows]


def lines_of(search: Search, proved: str, of_menu: str) -> Iterator[Finding]:
    parks = [line for line in search.lines if line.text.startswith(f"park {ROOT} ")]
    yield Finding("root parks", f"yes: {parks[0].way}" if parks else "never", of_menu or f"{proved}, ClosedNamesMenus")
    refused = {line.text for line in search.lines
               if meanings.outcome_of(line.text)[1][0] == "reply" and line.is_trouble}
    yield Finding("refused calls", ", ".join(sorted(refused)) or "none", of_menu or f"{proved}, ClosedNamesMenus")


def turns_of(program: str, asked: Asked, found: Answer, proved: str, of_menu: str) -> Iterator[Finding]:
    """Whether the turn of each partition comes, which waits in its own turns, whatever the programs of the others."""
    switches = [(line, int(at[1]), int(at[2]), int(at[3])) for line in found.search.lines
                if (at := SWITCH.fullmatch(line.text))]
    yields = sorted({vector for line, _, target, vector in switches if target == ROOT and line.text.startswith("call")})
    own = sorted(found.out.own - {ROOT + 1})
    for name in own:
        label = next((f"{line.cpu} {line.text}" for line, source, target, _ in switches
                      if target == name != source), "")
        if not label:
            yield Finding(f"turn of {name}", "it has none", of_menu or f"{proved}, ClosedNamesMenus")
            continue
        others = [line for other in own if other != name for line in found.out.exits(other, yields)]
        lines = [*others, f"{name} ld {HANDLERS:#010x}", f"comes {label}"]
        if len(lines) > against.MOST_DEEDS:
            yield Finding(f"turn of {name}", "unknown", f"a menu has {against.MOST_DEEDS} deeds at most")
            continue
        said = searched(program, asked, lines).again[-1].removeprefix(f"comes {label}: ")
        law = "YesComes" if said.startswith("within") else "NoIsAvoided"
        yield Finding(f"turn of {name}", said, f"{proved}, {law}" if said != "unknown" else "the search didn't close")


def longest(asked: Asked, found: Answer, proved: str) -> Finding:
    """The bound of the longest turn: a poll, a fetch, and one event more (docs/GUARANTEES.md)."""
    depth, frames = found.out.depth, images.read(asked.data).frames
    calls = {int(call[1]) for call in (CALL.match(line.text) for line in found.search.lines) if call}
    bounds = {0: 35 * depth + 55, 1: 7 * frames * frames, 3: 28 * depth + 74, 4: 28 * depth + 106 + frames, 8: 88}
    most = max([8 * depth + 80, *(bounds.get(call, 34) for call in calls)])
    return Finding("longest turn", f"{190 + 8 * depth + 80 + most} reads of frames at most", f"{proved}, law_work")
