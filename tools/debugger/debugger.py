"""A debugger of runs, without a face: stops, steps forward and back, and what is told of a state."""

from __future__ import annotations

import os
import re
from collections.abc import Callable
from dataclasses import dataclass
from typing import NamedTuple

from authors import asmx, ways, why
from common import calling
from common.calling import Failed, ensure, there
from common.draw import texts
from common.draw.texts import Partition
from common.machine import image as images, instructions, script
from common.machine.runs import AT_FIRST, After
from . import searching, sources
from .client import EVERY, At, Coming, Refused, States, Stopped, Turn
from .sources import Named, Word

CHUNK = 1_000_000                # steps of a run between two looks at whether it shall pause
MOST_STEPS = 10_000_000
TEMPORARY = 0                    # the number of a stop that isn't the user's
PATTERNS = {
    "fault": ("^ switch * * 0|6|14|17", "^ park * 0|6|14|17"),
    "park": ("park",),
    "refused": ("reply " + "|".join(map(str, range(1, 19))), "drop"),
    "interrupt": ("^ switch * * " + "|".join(map(str, range(32, 48))),),
}
CONDITION = re.compile(r"(\S+)\s*(==|!=|<=|>=|<|>)\s*(\S+)")
REGISTER = re.compile(r"r([0-9]|1[0-5])|pc")
OF_PARTITION = re.compile(rf"(?:(\d+):)?({REGISTER.pattern})")      # a register, of a partition or of what runs


@dataclass
class Stop:
    """Something at which a run stops: its number, its text, and what the process is told, without the number."""

    number: int
    text: str
    kind: str                                    # break, line or watch
    parts: list[str]
    condition: str | None = None
    after: int = 1                               # a run stops when it holds for this time since the run began
    hits: int = 0                                # how often it stopped a run

    def told(self) -> str:
        when = f" if {self.condition}" if self.condition else ""
        return f"{self.text}{when}{f' after {self.after}' if self.after > 1 else ''}"


class Target(NamedTuple):
    """What an expression names: an address of a partition, a word of a frame, or both."""

    part: int | None
    address: int | None
    word: Word | None


class Event(NamedTuple):
    """A line of a script."""

    line: int
    text: str


class Debugger:
    """One image with its source, and a run of it: by `seed SEED`, `native CHILDREN` or `slots CHILDREN TURNS`. Or a
    script, whose lines are the steps."""

    def __init__(self, program: str, process: States, path: str, schedule: str = "seed 1",
                 every_step: int = EVERY) -> None:
        self.program, self.states, self.path = program, process, path
        self.events: list[Event] = []                    # of a script, after its first line
        data = b"" if path == "-" else calling.contents(path, asmx.MOST_IMAGE)
        self.is_script = re.match(rb"(#[^\n]*\n|\n)*boot ", data) is not None       # its first line that isn't blank
        if self.is_script:
            self.data, self.source, schedule = calling.contents(path), sources.Source(path), "script"
            self.events = events_of(program, path, self.data)
        else:
            self.data, origin = asmx.image_of(program, path)
            self.source = sources.read(self.data, origin)
        self.stops: dict[int, Stop] = {}
        self.last_number = 0
        self.shall_pause: Callable[[], bool] = lambda: False
        self.on_way = False
        self.checks = program != calling.UNPROVED        # whether the program is asked at each stop
        self.cpu: int | None = None                      # the processor that is looked at, where one was chosen
        self.every_step = every_step
        self.load(schedule)

    def load(self, schedule: str) -> None:
        """Begins, and forgets all changes by hand."""
        self.states.load(self.data, schedule, self.every_step)
        self.schedule, self.on_way = schedule, False

    # Where it is

    @property
    def step(self) -> int:
        return self.states.now.step

    def processor(self) -> int:
        """The processor that is looked at: the chosen one, else the one whose turn is next."""
        if self.cpu is not None:
            return self.cpu
        return self.states.next().cpu or 0

    def here(self) -> At | None:
        return self.states.registers()[self.processor()]

    def partition(self) -> int:
        at = self.here()
        return at.part if at else 1

    def word_at(self, part: int, address: int) -> Word | None:
        """The word of a frame at an address of a partition, if it has a page there."""
        try:
            place = self.states.translate(part, address)["place"]
        except Refused:                          # there is no such partition now
            return None
        return (place[0], place[1]) if place else None

    def instruction(self, word: int | None) -> str:
        return "no page to fetch from" if word is None else instructions.word_text(word)

    def name_at(self, part: int, address: int) -> str:
        return self.source.nearest(self.word_at(part, address))

    def next_place(self) -> asmx.Place | None:
        """The line of the source whose instruction is next, or of the script."""
        if self.is_script:
            return asmx.Place(self.path, self.events[self.step].line) if self.step < len(self.events) else None
        coming = self.states.next()
        if coming.part is None or coming.pc is None:
            return None
        return self.source.place(self.word_at(coming.part, coming.pc), coming.word)

    # Expressions

    def number(self, text: str) -> int:
        """A number, a name or a constant of the source, or a sum of them."""
        total = 0
        for sign, term in re.findall(r"([+-]?)([^+-]+)", text):
            total += -self.term(term) if sign == "-" else self.term(term)
        return total % (1 << 32)

    def term(self, text: str) -> int:
        if re.fullmatch(r"0x[0-9a-fA-F]+|[0-9]+", text):
            return int(text, 0)
        if text in self.source.constants:
            return self.source.constants[text]
        if text in self.source.names:
            return self.source.names[text].address
        raise Failed(f"{text!r} is no number and no name of the source")

    def target(self, text: str) -> Target:
        """`NAME`, `NAME+4`, an address of what runs, `P:ADDRESS` of a partition, `fF:I` of a frame, or a register's
        address."""
        found = re.fullmatch(r"f(\d+):(\d+)", text)
        if found:
            return Target(None, None, (int(found[1]), int(found[2])))
        first, colon, rest = text.partition(":")
        if colon:
            part, address = self.number(first), self.number(rest)
            return Target(part, address, self.word_at(part, address))
        named = self.source.names.get(re.split(r"[+-]", text)[0])
        if named:
            return of_name(named, self.number(text))
        part, address = self.partition(), self.value(text)
        return Target(part, address, self.word_at(part, address))

    def value(self, text: str) -> int:
        """A register of the processor that is looked at, the word at `[PLACE]`, or a number."""
        if REGISTER.fullmatch(text):
            at = self.here()
            if at is None:
                raise Failed(f"processor {self.processor()} runs nothing")
            return at.pc if text == "pc" else at.registers[int(text[1:])]
        if text.startswith("[") and text.endswith("]"):
            return self.words(text[1:-1], 1)[0][1]
        return self.number(text)

    def words(self, text: str, count: int) -> list[tuple[Word, int]]:
        """Words from a place on, to the end of its frame."""
        frame, index = there(self.target(text).word, f"{text}: the partition has no page there")
        found = self.states.words(frame, index, min(count, 1024 - index))
        return [((frame, index + k), word) for k, word in enumerate(found)]

    # Stops

    def add(self, text: str, kind: str, parts: list[str], condition: str | None = None, after: int = 1) -> Stop:
        ensure(after >= 1, "a count of times is at least 1")
        self.last_number += 1
        stop = Stop(self.last_number, text, kind, parts, condition, after)
        self.stops[stop.number] = stop
        return stop

    def add_break(self, text: str, part: int | None = None, condition: str | None = None, after: int = 1) -> Stop:
        """A break at a name, a line of the source, or an address."""
        limits = ("" if part is None else f" part {part}") + (f" if {self.condition(condition)}" if condition else "")
        line = re.fullmatch(r"(?:(.+):)?(\d+)", text)
        if line and self.source.path and (line[1] is None or os.path.exists(line[1])):
            file = line[1] or self.source.path
            number, parts = self.starts_at(file, int(line[2]))
            if not parts:
                raise Failed(f"no line from {line[2]} on has words")
            return self.add(f"{file}:{number}", "break", [part + limits for part in parts], condition, after)
        target = self.target(text)
        if target.word is not None and target.part is None:
            return self.add(text, "break", [f"place {target.word[0]}:{target.word[1]}{limits}"], condition, after)
        if ":" in text and part is None:
            limits = f" part {target.part}" + limits
        return self.add(text, "break", [f"pc {target.address}{limits}"], condition, after)

    def starts_at(self, file: str, line: int) -> tuple[int, list[str]]:
        """The first line from this one on at which a run can stop, and where that is, for the process."""
        if self.is_script:
            found = [at for at, event in enumerate(self.events)
                     if event.line >= line and os.path.samefile(file, self.path)][:1]
            return (self.events[found[0]].line if found else line), [f"step {at}" for at in found]
        number, words = self.source.starts_at(file, line)
        return number, [f"place {frame}:{index}" for frame, index in words]

    def condition(self, text: str) -> str:
        """A == B, with a register, [PLACE] or a number on each side, as the process takes it."""
        found = there(CONDITION.fullmatch(text), f"{text!r} isn't A == B, with a register, [PLACE] or a number on each "
                      "side")
        return f"{self.operand(found[1])} {found[2]} {self.operand(found[3])}"

    def operand(self, text: str) -> str:
        if REGISTER.fullmatch(text):
            return "r16" if text == "pc" else text
        if text.startswith("[") and text.endswith("]"):
            frame, index = self.words(text[1:-1], 1)[0][0]
            return f"{frame}:{index}"
        return str(self.number(text))

    def add_line(self, text: str, after: int = 1) -> Stop:
        """A stop after a turn with such a line."""
        return self.add(text, "line", list(PATTERNS.get(text, (text,))), None, after)

    def add_watch(self, text: str, count: int = 1, after: int = 1) -> Stop:
        """A stop after a turn that changed a word: of a frame, at an address of a partition, whichever page is there,
        or a register of a partition that ran before and after it."""
        if register := OF_PARTITION.fullmatch(text):
            part, number = register[1] or self.partition(), self.operand(register[2])[1:]
            return self.add(f"{part}:{register[2]}", "watch", [f"register {part} {number} 1"], None, after)
        target = self.target(text)
        if target.part is not None:
            part = f"address {target.part} {target.address} {count}"
        else:
            assert target.word
            frame, index = target.word
            part = f"word {frame}:{index} {min(count, 1024 - index)}"
        return self.add(text, "watch", [part], None, after)

    def told_stops(self) -> list[str]:
        return ["idle", *(f"{stop.kind} {stop.number} {part}" for stop in self.stops.values() for part in stop.parts)]

    # Moves

    def run(self, stops: list[str], to: int | None = None) -> Stopped:
        """On to what stops it, and at most to a step."""
        end = self.states.now.end if to is None else min(to, self.states.now.end)
        return self.moved(lambda: self.states.run(min(self.step + CHUNK, end), stops) if self.step < end else None)

    def back(self, stops: list[str], to: int = 0) -> Stopped:
        return self.moved(lambda: self.states.back(max(self.step - CHUNK, to), stops) if self.step > to else None)

    def moved(self, move: Callable[[], Stopped | None]) -> Stopped:
        """Moves until a stop holds often enough, or there is nothing left to do."""
        times = {number: 0 for number in self.stops}
        while not self.shall_pause():
            now = move()
            if now is None:
                break
            if now.stops and self.is_due(now, times):
                return now
        return Stopped(self.step, [], self.states.now.end, self.states.now.edited)

    def is_due(self, now: Stopped, times: dict[int, int]) -> bool:
        """Counts the stops that hold; whether one of them, or one that isn't the user's, stops the run."""
        due = any(number not in self.stops for _, number in now.stops)
        for _, number in now.stops:
            if number in self.stops:
                times[number] += 1
                if times[number] >= self.stops[number].after:
                    self.stops[number].hits += 1
                    due = True
        return due

    def forward(self, count: int) -> Stopped:
        """That many turns, of whichever processors."""
        return self.states.go(min(self.step + count, self.states.now.end))

    def turn_of(self, cpu: int) -> Stopped:
        """To the end of the next turn of a processor; of a script to the next line."""
        if self.is_script:
            return self.forward(1)
        return self.run([*self.told_stops(), f"turn_of {cpu}"])

    def backward(self, count: int) -> Stopped:
        return self.states.go(max(self.step - count, 0))

    def back_turn_of(self, cpu: int) -> Stopped:
        """To before the last turn of a processor; of a script to the line before."""
        turn = self.states.turn()
        if turn is None:
            return self.states.now
        if turn.cpu != cpu and not self.is_script:
            self.back([f"turn_of {cpu}"])
        return self.backward(1)

    def over(self, cpu: int | None = None) -> Stopped:
        """To where the same partition has its next turn: after `jal` at the next instruction, after a yield where it is
        entered."""
        at = self.states.registers()[self.processor() if cpu is None else cpu]
        if at is None or self.is_script:
            return self.forward(1)
        place = self.word_at(at.part, at.pc)
        word = self.states.words(place[0], place[1], 1)[0] if place else None
        returns = f" pc {(at.pc + 4) % (1 << 32)}" if self.instruction(word).split()[0] == "jal" else ""
        return self.run([*self.told_stops(), f"break {TEMPORARY} part {at.part}{returns}"])

    def until(self, text: str) -> Stopped:
        """To a step, or a line of a script, where it is a number alone, else to a name or an address."""
        if re.fullmatch(r"\d+", text):
            step = sum(event.line < int(text) for event in self.events) if self.is_script else int(text)
            return self.run(self.told_stops(), step) if step > self.step else self.states.go(step)
        target = self.target(text)
        is_frame = target.word and target.part is None
        place = f"place {target.word[0]}:{target.word[1]}" if target.word and is_frame else f"pc {target.address}"
        return self.run([*self.told_stops(), f"break {TEMPORARY} {place}"])

    # Changes by hand, and ways

    def set_seed(self, seed: int) -> Stopped:
        """Another schedule: at step 0 from the beginning, else from here on."""
        self.need_image()
        if self.step == 0:
            self.load(f"seed {seed}")
            return self.states.now
        return self.states.edit("seed", seed)

    def need_image(self) -> None:
        ensure(not self.is_script, "the lines of a script come in their order alone")

    def search(self, words: list[str]) -> tuple[searching.Search, str]:
        """What the program's `every` finds for this image, and the way to where it begins."""
        self.need_image()
        at = words.index("after") if "after" in words else len(words)
        numbers = [int(word, 0) for word in words[:at]]
        after = After(*(int(word, 0) for word in words[at + 1:])) if words[at:] else AT_FIRST
        ensure(1 <= len(numbers) <= 3, "every has STATES, and where wanted FROM and DEPTH")
        states, first, depth = (*numbers, None, None)[:3]
        found = searching.searched(self.program, searching.Asked(self.data, b"", states or 0, first, depth, after))
        return found, ways.text_of(ways.before(images.read(self.data), after)) if after.steps else ""

    def take_way(self, text: str) -> Stopped:
        """The choices of a way in the place of the schedule, from the beginning."""
        self.need_image()
        found = ways.choices_of(text)
        self.on_way = True
        return self.states.way(found)

    # What is told

    def partitions(self) -> list[Partition]:
        return texts.partitions("\n".join(self.states.tree()[0]))

    def check(self) -> str:
        """Whether the program has the same state after as many steps."""
        if self.on_way or self.states.now.edited:
            return "no command of the program has this state: it came by a way, or by a change"
        what = {"seed": "tree and core", "script": "answers"}.get(self.schedule.split()[0], "trace")
        return self.differing() or f"the program has the same {what} after step {self.step}, by {self.schedule}"

    def differing(self) -> str:
        """What the program has otherwise, if anything: tree or core of a run, the trace of a monitor outside the
        machine, or the answers of a script."""
        if self.is_script:
            return self.differing_answers()
        kind, *numbers = self.schedule.split()
        told, last = [("tree", self.states.tree()[0]), ("core", self.states.core())], self.step
        words = [str(last), *numbers]
        if kind != "seed":
            words, last = words_of(kind, numbers, last)
            told = [(kind, self.states.trace(0, self.step))]
        for command, found in told:
            due = calling.text_of(self.program, [command, *words], self.data)[:-1]
            if kind != "seed":
                due, found = before(due, last), before(found, last)
            if due != found:
                return f"{command} {' '.join(words)} of the program differs from what is shown here"
        return ""

    def differing_answers(self) -> str:
        last = self.events[self.step - 1].line if self.step else 0
        text = b"".join(line + b"\n" for line in script.lines(self.data)[:last])
        due = calling.text_of(self.program, ["script"], text)[1:]
        found = [line.split(" ", 2)[2] for line in self.states.trace(0, self.step)]
        return "" if due == found else f"the program answers the first {last} lines otherwise"

    def warning(self) -> str:
        """Where each stop is checked, and a command has this state: what differs."""
        return self.differing() if self.checks and not self.on_way and not self.states.now.edited else ""

    def told_turn(self, turn: Turn | None, with_name: bool = False) -> str:
        """A step in a line: who ran where, the instruction, and its line."""
        if turn is None:
            return "the beginning"
        if self.is_script:
            return self.told_event(turn.step, turn.line)
        raised = "".join(f" [line {line} raised]" for line in turn.raised)
        if turn.cpu is None:
            return f"{turn.step}{raised}"
        did = self.instruction(turn.word) if turn.did == "ran" else turn.did
        name = self.source.nearest((turn.place[0], turn.place[1])) if turn.place else ""
        where = f"{turn.part:>4} 0x{turn.pc:08x}" if turn.part is not None and turn.pc is not None else "   -"
        if with_name:
            where = f"{where:15} {name:24}"
        shown = turn.line.split(" ", 2)[2] if turn.line else ""
        return f"{turn.step:>6} {turn.cpu} {where} {did:24} {shown}{raised}".rstrip()

    def told_event(self, step: int, line: str = "") -> str:
        """A line of the script, and its answer as a line of a trace has it."""
        number, text = self.events[step]
        return f"{number:>6} {text}" + (f" -> {line.split(' ', 2)[2]}" if line else "")

    def told_lines(self, first: int, to: int) -> list[str]:
        """The trace of some steps; of a script its lines with their answers."""
        lines = self.states.trace(first, to)
        return [self.told_event(int(line.split(" ")[0]), line) for line in lines] if self.is_script else lines

    def told_coming(self, coming: Coming) -> str:
        """Whose turn comes, and where."""
        if self.is_script:
            return self.told_event(self.step) if self.step < len(self.events) else "the script ends here"
        raised = "".join(f" [line {line} is raised before]" for line in coming.raised)
        if coming.cpu is None:
            return f"{self.step}{raised or ' the way ends here'}"
        if coming.part is None or coming.pc is None:
            return f"{self.step:>6} {coming.cpu}    - runs nothing{raised}"
        name = self.name_at(coming.part, coming.pc)
        place = f"{self.step:>6} {coming.cpu} {coming.part:>4} 0x{coming.pc:08x} {name:24}"
        return f"{place} {self.instruction(coming.word)}{raised}"

    def reasons(self, now: Stopped) -> list[str]:
        """Why a run stopped, in sentences."""
        told = []
        for kind, number in now.stops:
            if kind == "idle":
                told.append("no processor runs anything any more")
            elif number in self.stops:
                told.append(f"{kind} {number}: {self.stops[number].text}")
        return told


def events_of(program: str, path: str, data: bytes) -> list[Event]:
    """The lines of a good script that aren't blank, after the first one."""
    sentences, good = why.why(program, path, data, False)
    ensure(good, "\n".join(sentences))
    lines = enumerate(script.lines(data), 1)
    return [Event(number, line.decode()) for number, line in lines if line and not line.startswith(b"#")][1:]


def words_of(kind: str, numbers: list[str], step: int) -> tuple[list[str], int]:
    """By which numbers the program goes to a step, and where that ends: `slots` makes whole rounds, and no more than it
    can."""
    if kind == "seed":
        return [str(step), *numbers], step
    if kind == "native":
        return [*numbers, str(step)], step
    length = int(numbers[0]) * (int(numbers[1]) + 2)
    rounds = min(-(-step // length), MOST_STEPS // length)
    return [*numbers, str(rounds)], min(step, rounds * length)


def before(lines: list[str], step: int) -> list[str]:
    """The lines of the steps before one."""
    numbered = [(line.split(" ")[0], line) for line in lines]
    return [line for number, line in numbered if number.isdecimal() and int(number) < step]


def of_name(named: Named, address: int) -> Target:
    index = named.word[1] + (address - named.address) // 4
    ensure(0 <= index < 1024, "that is outside of the name's page")
    return Target(None, address, (named.word[0], index))


def ancestors(parts: list[Partition], name: int) -> list[Partition]:
    """A partition and its ancestors, up to the root."""
    by_name = {part.name: part for part in parts}
    found = [by_name[name]] if name in by_name else []
    while found and found[-1].depth:
        found.append(by_name[found[-1].up])
    return found
