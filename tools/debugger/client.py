"""The process that keeps states, as Python asks it: a line of words each, and a line of JSON for an answer."""

from __future__ import annotations

import json
import subprocess
import tempfile
from collections.abc import Iterator, Sequence
from dataclasses import dataclass
from typing import Any, NamedTuple

from common.calling import Failed, ensure, running

EVERY = 10_000                   # steps between two states that are kept
LISTED = 10_000                  # steps that are listed at once


class Refused(Failed):
    """What was asked can't be done."""


class At(NamedTuple):
    """What runs on a processor."""

    part: int
    pc: int
    registers: list[int]


class Change(NamedTuple):
    """A word that changed."""

    frame: int
    place: int                   # its index in the frame
    before: int
    after: int


@dataclass(frozen=True)
class Turn:
    """A step that was made: where it began, how it ended, its trace line, and all words that it changed."""

    step: int
    cpu: int | None
    part: int | None
    pc: int | None
    word: int | None
    place: list[int] | None          # where the word is: a frame and an index
    raised: list[int]
    did: str
    line: str
    changed: list[Change]


@dataclass(frozen=True)
class Coming:
    """The turn that comes."""

    cpu: int | None
    raised: list[int]
    part: int | None
    pc: int | None
    word: int | None


@dataclass(frozen=True)
class Stopped:
    """Where a run is, and what stopped it: kinds and numbers of stops."""

    step: int
    stops: list[tuple[str, int]]
    end: int
    edited: bool


class States:
    """A run that goes forward and back."""

    def __init__(self, process: str) -> None:
        with running(process):
            self.process = subprocess.Popen([process], stdin=subprocess.PIPE, stdout=subprocess.PIPE, text=True,
                                            start_new_session=True)     # Ctrl-C is for the debugger alone
        self.frames = self.cpus = 0
        self.plans: list[list[int]] = []
        self.stops: list[str] = []
        self.now = Stopped(0, [], 0, False)

    def end(self) -> None:
        self.process.kill()
        self.process.communicate()

    def ask(self, *words: object) -> Any:
        given, told = self.process.stdin, self.process.stdout
        assert given and told
        try:
            given.write(" ".join(map(str, words)) + "\n")
            given.flush()
            line = told.readline()
        except OSError:
            line = ""
        ensure(line, "the process that keeps states has ended")
        answer = json.loads(line)
        if isinstance(answer, dict) and "error" in answer:
            raise Refused(answer["error"])
        return answer

    def moved(self, answer: Any) -> Stopped:
        self.plans = answer["plans"]
        self.now = Stopped(answer["step"], [(kind, number) for kind, number in answer["stops"]], answer["end"],
                           answer["edited"])
        return self.now

    def set_stops(self, stops: list[str]) -> None:
        """Those that hold from now on; the process keeps them."""
        if stops != self.stops:
            self.ask("clear")
            self.stops = []
            for one in stops:
                self.ask(one)
            self.stops = list(stops)

    # What is asked

    def load(self, data: bytes, schedule: str = "seed 1", every: int = EVERY) -> None:
        """Begins with an image or a script, by a schedule: `seed SEED`, `native CHILDREN` or `slots CHILDREN TURNS`."""
        with tempfile.NamedTemporaryFile(suffix=".img") as file:
            file.write(data)
            file.flush()
            told = self.ask("load", schedule, every, file.name)
        self.frames, self.cpus, self.plans = told["frames"], told["cpus"], told["plans"]
        self.now = Stopped(0, [], told["end"], False)

    def go(self, step: int) -> Stopped:
        return self.moved(self.ask("go", step))

    def run(self, to: int, stops: list[str]) -> Stopped:
        self.set_stops(stops)
        return self.moved(self.ask("run", to))

    def back(self, to: int, stops: list[str]) -> Stopped:
        self.set_stops(stops)
        return self.moved(self.ask("back", to))

    def edit(self, *words: object) -> Stopped:
        return self.moved(self.ask("edit", *words))

    def way(self, choices: Sequence[str]) -> Stopped:
        return self.moved(self.ask("way", *choices))

    def turn(self) -> Turn | None:
        told = self.ask("turn")
        return None if told is None else turn_of(told)

    def listed(self, first: int, to: int) -> Iterator[Turn]:
        """The steps from one on and before another, without the words that they change."""
        for begin in range(first, to, LISTED):
            yield from map(turn_of, self.ask("list", begin, min(begin + LISTED, to)))

    def next(self) -> Coming:
        return Coming(**self.ask("next"))

    def registers(self) -> list[At | None]:
        return [At(**one) if one else None for one in self.ask("registers")]

    def words(self, frame: int, first: int = 0, count: int = 1024) -> list[int]:
        found: list[int] = self.ask("words", frame, first, count)
        return found

    def tree(self) -> tuple[list[str], list[int], list[int]]:
        """The lines of `tree`, the partitions that are masked, the lines that are pending."""
        told = self.ask("tree")
        return told["tree"].splitlines(), told["masked"], told["pending"]

    def core(self) -> list[str]:
        text: str = self.ask("core")
        return text.splitlines()

    def trace(self, first: int, to: int) -> list[str]:
        """The trace lines of the steps from one on and before another, at which the run is then."""
        lines: list[str] = self.ask("trace", first, to)
        return lines

    def translate(self, part: int, address: int) -> Any:
        return self.ask("translate", part, address)

    def changed(self, since: int) -> list[Change]:
        return [Change(*change) for change in self.ask("changed", since)]


def turn_of(told: dict[str, Any]) -> Turn:
    told["changed"] = [Change(*change) for change in told["changed"]]
    return Turn(**told)


def first_turn_at(process: str, image: bytes, word: tuple[int, int], seed: int) -> int:
    """How many steps of a run come before the first turn at a word of a frame."""
    states = States(process)
    try:
        states.load(image, f"seed {seed}")
        now = states.run(states.now.end, [f"break 1 place {word[0]}:{word[1]}"])
        ensure(now.stops, f"it doesn't run in {now.step} steps by the seed {seed}")
        return now.step
    finally:
        states.end()
