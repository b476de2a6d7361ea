"""The states that a page steps through: of a script by looking between its lines, of an image by tree and core."""

from __future__ import annotations

import os
import sys
from collections.abc import Callable, Iterable, Iterator, Sequence
from concurrent.futures import ThreadPoolExecutor
from typing import NamedTuple, Optional

from authors import trace
from common.calling import Failed, ensure, text_of
from common.meanings import outcome_of
from common.draw import texts
from common.machine import image as images, runs, script
from common.machine.model import HANDLERS, NOWHERE, SAVED, World
from debugger import sources
from . import walk
from .asking import Asked, BadLine

Registers = Optional[Sequence[int]]      # r0 to r15 and the pc, or None where nothing runs
Cpus = list[tuple[int, Registers]]       # what runs on each processor, a partition's name or 0, and its registers


class State(NamedTuple):
    place: int                           # a line's number, or a step
    told: str                            # the line, or the step
    remarks: list[str]
    answer: str
    frames: int
    cpus: Cpus
    tree: list[walk.Partition]
    words: walk.Words                    # of each frame those that aren't 0; a frame without any isn't there
    did: str = ""                        # of a step, who made which instruction where


MOST_STATES = 3000
MOST_WATCHED = 200_000           # steps of a run that the reference makes, too
MANY = f"a page has at most {MOST_STATES} states"


# A script

MOST_WORDS = 8_000_000
CHANGING = (0, 1, 3, 4, 5, 6)    # the calls that change more of a tree than a mask


def of_script(program: str, text: bytes, last: int | None = None) -> list[State]:
    """A state after each line that has an answer, up to the line `last`."""
    asked = Asked(program)
    try:
        return script_states(asked, text, last)
    finally:
        asked.end()


def script_states(asked: Asked, text: bytes, last: int | None) -> list[State]:
    states: list[State] = []
    remarks: list[str] = []
    cpus: list[int] = []
    frames, looked = 0, 0
    for place, line in enumerate(script.lines(text), 1):
        told = line.decode("utf-8", "replace")
        if last is not None and place > last:
            break
        if len(line) <= 120 and (not line or line.startswith(b"#")):
            remarks += [told.lstrip("# ")] if line else []
            asked.lines.append(line)
            continue
        if len(states) == MOST_STATES or looked > MOST_WORDS:
            why = "the tables are too large for a page" if looked > MOST_WORDS else MANY
            raise Failed(f"line {place}: {why}: say --to {place - 1}")
        try:
            answer = asked.line(line)
        except BadLine:
            states.append(last_state(states, place, told, remarks, f"bad line {place}"))
            return states
        if not frames:
            frames, cpus = int(answer.split()[1]), [1] + [0] * (int(answer.split()[2]) - 1)
        ran = ran_on(cpus, line.split(b" "))
        runs_after(cpus, line.split(b" ")[1], answer.split())
        last_one = states[-1] if states else None
        before = None if may_change(line, answer) else last_one
        state = script_state(asked, State(place, told, remarks, answer, frames, [], [], {}), cpus, before)
        words, again = words_after(asked, line, answer, ran, last_one, state.tree, state.words)
        states.append(state._replace(words=words))
        if not before:
            check_audit(asked.program, states[-1])
        looked += again * walk.WORDS + (0 if before else sum(3 + len(x.tables) for x in states[-1].tree) * walk.WORDS)
        remarks = []
    ensure(states, "the script has no line with an answer")
    return states


def may_change(line: bytes, answer: str) -> bool:
    """Whether a line can have changed a page table: no access and no refused call ever does, nor a yield."""
    words = line.split(b" ")
    is_call = words[0] == b"call" and int(words[2], 0) in CHANGING
    return words[0] == b"boot" or is_call and answer.startswith("reply 0")


def last_state(states: list[State], place: int, told: str, remarks: list[str], answer: str) -> State:
    """The state of the line before, with a bad line."""
    ensure(states, answer)
    return states[-1]._replace(place=place, told=told, remarks=remarks, answer=answer)


def ran_on(cpus: list[int], words: list[bytes]) -> int:
    """What runs on the processor of a line: a partition's name, or 0."""
    return cpus[int(words[1], 0)] if words[0] not in (b"boot", b"raise", b"peek") else 0


def runs_after(cpus: list[int], cpu: bytes | str, answer: list[str]) -> None:
    """What runs on each processor after a line of one of them, by its answer."""
    if answer[0] in ("switch", "park"):
        cpus[int(cpu, 0)] = int(answer[2]) if answer[0] == "switch" else 0


def script_state(asked: Asked, state: State, names: list[int], before: State | None) -> State:
    """What the frames say after a line. The tables are those of the state before, where it is given."""
    looker = walk.Looker(asked.words)
    tree, words = walk.again(looker, before.tree, before.words) if before else (walk.partitions(looker), looker.seen)
    cpus: Cpus = [(name, asked.registers(cpu)) for cpu, name in enumerate(names)]
    for cpu, (name, registers) in enumerate(cpus):
        ensure((registers is None) == (name == 0), f"line {state.place}: 'reg' and the switches differ on what "
               f"processor {cpu} does")
    return state._replace(cpus=cpus, tree=tree, words=words)


def check_audit(program: str, state: State) -> None:
    """The tree read off the words that were seen has to be the one that `audit` finds in them."""
    told = text_of(program, ["audit", str(state.frames)], walk.core_text(state.words).encode())
    ensure(told == walk.tree_lines(state.tree) + ["yes"], f"line {state.place}: the tree read off the frames isn't the "
           "one that 'audit' finds")


# An image

def of_image(program: str, image: bytes, first: int, steps: int, seed: int, jobs: int | None = None,
             source: str | None = None) -> list[State]:
    """A state at step `first`, and after each step from then on. `steps` is the last one."""
    ensure(steps - first + 1 <= MOST_STATES, f"{MANY}: begin later, with --from {steps - MOST_STATES + 1}")
    lines = text_of(program, ["run", str(steps), str(seed)], image)
    frames, cpus = (int(word) for word in lines[0].split()[1:3])
    told = dict(line.split(" ", 1) for line in lines[1:-1])
    seen = watched(image, first, steps, seed, source, lines[1:-1]) if steps <= MOST_WATCHED else None
    running = [1] + [0] * (cpus - 1)
    for step in range(first):
        runs_after_step(running, told.get(str(step)))
    states: list[State] = []
    tree: list[walk.Partition] = []
    words: walk.Words = {}
    last_core = None
    with ThreadPoolExecutor(jobs or os.cpu_count()) as pool:
        shown = range(first, steps + 1)
        for step, (told_tree, core) in zip(shown, pool.map(lambda k: both(program, image, k, seed), shown)):
            line = told.get(str(step - 1)) if step > first else None
            runs_after_step(running, line)
            if core != last_core:
                tree, words = read_off(frames, step, told_tree, core)
                last_core = core
            what = f"step {step - 1}" if step > first else "the beginning" if step == 0 else f"after step {step - 1}"
            did, registers = seen[step - first] if seen else ("", (None,) * cpus)
            states.append(State(step, what, [], line or "", frames, list(zip(running, registers)), tree, words, did))
    return states


def both(program: str, image: bytes, step: int, seed: int) -> tuple[str, str]:
    """The texts of `tree` and `core` after that many steps."""
    tree, core = (text_of(program, [command, str(step), str(seed)], image) for command in ("tree", "core"))
    return "\n".join(tree[:-1]), "\n".join(core[:-1])


def runs_after_step(running: list[int], line: str | None) -> None:
    """What runs on each processor after a step with this line: `P switch F T V`, `P park F V` or a call."""
    if line:
        cpu, what = line.split(" ", 1)
        runs_after(running, cpu, outcome_of(what)[1])


def read_off(frames: int, step: int, tree: str, core: str) -> tuple[list[walk.Partition], walk.Words]:
    """The words of `core`, and the tree read off them, which has to be that of the command `tree`."""
    words: walk.Words = {**{frame: {} for frame in range(frames)}, **texts.memory(core)}
    found = walk.partitions(walk.of_memory(words))
    ensure("\n".join(walk.tree_lines(found)) == tree, f"step {step}: what 'tree' and 'core' say of the partitions "
           "differs")
    return found, words


# Who made which instruction where, and all registers, by the reference, of which nothing is proved; its lines have to
# be those of the program

Seen = tuple[str, tuple[Registers, ...]]         # what a step did, and the registers after it of each processor


def registers_of(world: World) -> tuple[Registers, ...]:
    return tuple((*at.context.registers, at.context.pc) if at else None for at in world.processors)


def did(turn: trace.Watched, names: sources.Source, lines: list[str]) -> str:
    """A turn in words."""
    if turn.did is None or turn.where is None:
        return f"processor {turn.cpu}: {trace.without_instruction(lines)}"
    name, pc = turn.where
    label = trace.name_at(names, turn.world, name, pc)
    return f"processor {turn.cpu}, partition {name}, 0x{pc:08x}{label and f' {label}'}: {turn.did}"


def taken(image: images.Image, world: World, count: int, seed: int) -> Iterator[tuple[trace.Watched, list[str]]]:
    """The steps of a run of the image's world: the turn, and its lines."""
    for step, cpu, _ in runs.drawn(image, world, count, seed):
        lines: list[str] = []
        turn = trace.Watched(world, cpu, step, lines.append)
        turn.take()
        yield turn, lines


def watched(data: bytes, first: int, count: int, seed: int, source: str | None, due: list[str]) -> list[Seen]:
    """What is seen at step `first`, and after each step from then on. `due` are the program's lines."""
    image = images.read(data)
    names = sources.read(data, source)
    lines: list[str] = []
    if names.warning:
        print(f"step: {names.warning}", file=sys.stderr)
    world = images.world(image)
    found = [("", registers_of(world))] if first == 0 else []
    for turn, shown in taken(image, world, count, seed):
        lines += shown
        if turn.step + 1 >= first:
            found.append((did(turn, names, [line.split(" ", 2)[2] for line in shown]), registers_of(world)))
    ensure(lines == due, "the reference, which the registers come from, has other lines than the program")
    return found


# What changed between two states

MOST_TOLD = 16


def changes(before: State, after: State) -> list[str]:
    """What changed, in short sentences."""
    told = partition_changes(before.tree, after.tree) + processor_changes(before.cpus, after.cpus)
    words = word_changes(before, after)
    more = [f"and {len(words) - MOST_TOLD} words more"] if len(words) > MOST_TOLD else []
    return told + words[:MOST_TOLD] + more


def partition_changes(before: list[walk.Partition], after: list[walk.Partition]) -> list[str]:
    old, new = ({x.name: x for x in tree} for tree in (before, after))
    told = [f"partition {name} is no more" for name in old if name not in new]
    told += [f"partition {name} is new, a child of {x.up}" for name, x in new.items() if name not in old]
    for name, x in new.items():
        if name in old and x != old[name]:
            told += node_changes(name, old[name], x)
    return told


def node_changes(name: int, old: walk.Partition, new: walk.Partition) -> list[str]:
    told = []
    if old.masked != new.masked:
        told.append(f"partition {name} is {'masked' if new.masked else 'unmasked'}")
    if old.pending != new.pending:
        told.append(f"lines that wait: {walk.lines(new.pending)}")
    if len(old.tables) != len(new.tables):
        told.append(f"partition {name} has {len(new.tables)} tables, and had {len(old.tables)}")
    rows = {row.vpage: row for row in old.rows}
    views: dict[int, list[int]] = {0: [], 2: []}
    for row in new.rows:
        was = rows.pop(row.vpage, None)
        if was is None:
            told.append(f"partition {name} has frame {row.word // walk.PAGE} at 0x{row.vpage * walk.PAGE:08x}")
        elif was.word & 2 != row.word & 2:
            views[row.word & 2].append(row.word // walk.PAGE)
    told += [f"partition {name} has no page any more at 0x{vpage * walk.PAGE:08x}" for vpage in rows]
    told += [f"{view} for partition {name}: frame{'s' if len(views[bit]) > 1 else ''} {', '.join(map(str, views[bit]))}"
             for bit, view in ((0, "hidden"), (2, "visible again")) if views[bit]]
    return told


def processor_changes(before: Cpus, after: Cpus) -> list[str]:
    told = []
    for cpu, ((was, old), (now, new)) in enumerate(zip(before, after)):
        if was != now:
            told.append(f"processor {cpu} runs {f'partition {now}' if now else 'nothing'}")
        changed = [f"{'pc' if r == 16 else f'r{r}'} = 0x{x:08x}" for r, (x, y) in enumerate(zip(new or [], old or []))
                   if x != y]
        if changed:
            told.append(f"processor {cpu}: {', '.join(changed[:6])}{' ..' if len(changed) > 6 else ''}")
    return told


# The words of frames that are no configuration: which a line of a script can have changed, and what changed

Words = dict[int, int]           # of a frame, those that aren't 0, by index


def configuration(tree: Iterable[walk.Partition]) -> set[int]:
    """The frames in which the kernel keeps its partitions."""
    return set(walk.roles(tree))


def frame_at(tree: Iterable[walk.Partition], name: int, address: int) -> set[int]:
    """The frame that a partition has at an address, or none."""
    return {row.word // walk.PAGE for x in tree if x.name == name
            for row in x.rows if row.vpage == address // walk.PAGE}


def touched(line: bytes, answer: str, ran: int, tree: Sequence[walk.Partition], words: dict[int, Words]) -> set[int]:
    """The frames to which a line can have written without a call: by a store, and by saving what ran."""
    name, *rest = line.decode().split(" ")
    numbers = [int(word, 0) for word in rest]
    if name in ("st", "sb") and answer == "done":
        return frame_at(tree, ran, numbers[1])
    vector = (numbers[4] if len(numbers) > 4 else 0) if name == "call" else SAVED
    if not ran or not answer.startswith(("switch", "park")) or vector >= NOWHERE:
        return set()
    block = sum(words.get(frame, {}).get(vector, 0) for frame in frame_at(tree, ran, HANDLERS))
    return frame_at(tree, ran, block)


def words_after(asked: Asked, line: bytes, answer: str, ran: int, before: State | None, tree: list[walk.Partition],
                words: dict[int, Words]) -> tuple[dict[int, Words], int]:
    """The words after a line: those of the configuration as they were seen, all others as they were before but where a
    line can have changed them; and how many frames were looked at for that."""
    hidden = configuration(tree)
    if before is None:
        return words, 0
    again = touched(line, answer, ran, before.tree, before.words)
    if tree is not before.tree:
        again |= configuration(before.tree)
    kept = {frame: told for frame, told in before.words.items() if frame not in hidden}
    for frame in again - hidden:
        kept[frame] = {index: word for index, word in enumerate(asked.words(frame, range(walk.WORDS))) if word}
    return {**{frame: told for frame, told in words.items() if frame in hidden},
            **{frame: told for frame, told in kept.items() if told}}, len(again)


def word_changes(before: State, now: State) -> list[str]:
    """The words that differ, but for frames that became configuration or are none any more."""
    old_hidden, hidden = configuration(before.tree), configuration(now.tree)
    told = []
    for frame in sorted(set(before.words) | set(now.words)):
        old, new = before.words.get(frame, {}), now.words.get(frame, {})
        if old is not new and old != new and (frame in old_hidden) == (frame in hidden):
            where = None if frame in hidden else owner(now.tree, frame)
            told += [f"frame {frame}, word {index}{f' ({where(index)})' if where else ''}: 0x{old.get(index, 0):08x} "
                     f"\u2192 0x{new.get(index, 0):08x}"
                     for index in sorted(set(old) | set(new)) if old.get(index, 0) != new.get(index, 0)]
    return told


def owner(tree: Iterable[walk.Partition], frame: int) -> Callable[[int], str] | None:
    """The address of a word of a frame, as the first partition has it that has the frame; None where none has it."""
    for x in tree:
        for row in x.rows:
            if row.word // walk.PAGE == frame:
                name, address = x.name, row.vpage * walk.PAGE
                return lambda index: f"0x{address + 4 * index:08x} of partition {name}"
    return None
