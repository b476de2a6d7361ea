"""A search of what can happen: the program's, whose text is the answer, and beside it that of a process over the
export, which says how far it is, ends at what is looked for, asks rules, and is compared with the program at the end.

Only here a tool calls the program's `every` and `against`.
"""

from __future__ import annotations

import contextlib
import hashlib
import json
import os
import re
import signal
import subprocess
import sys
import tempfile
import threading
from collections.abc import Callable, Iterator
from pathlib import Path
from typing import IO, NamedTuple

from common import calling, meanings
from common.calling import Failed, ensure
from common.machine import image as images, runs
from common.machine.runs import AT_FIRST, After
from .building import SEARCHES
from .progress import Progress
from .rules import Rule

LINE = re.compile(r"(\d+) (\d+|-) ([^:]+): ?(.*)")
END = re.compile(r"states (\d+) (?:depth (\d+) (closed|stopped|found|ended)|(within) (\d+))")
AGAIN = re.compile(r"(again|comes) (.+): (yes|within|no|unknown)((?: [^ ]+)*)")
AWAY = re.compile(r"away (yes|no|unknown)((?: [^ ]+)*?)(?: : (\d))?")
REASONS = {3: "its input can't be read", 4: "its output can't be written", 5: "no memory was found: give fewer STATES"}
NO_MEMORY = 5
MOST_KEPT = 64           # searches whose ways are kept


class Line(NamedTuple):
    """A line that can come: step and processor, what it says, and its shortest way. Or a rule that is broken."""

    step: int
    cpu: str
    text: str
    way: str

    @property
    def is_trouble(self) -> bool:
        """A call is refused, something faults or parks, or a rule is broken."""
        call, (kind, *numbers) = meanings.outcome_of(self.text)
        if kind == "switch":
            return call is None and int(numbers[2]) < 32
        return kind in ("park", "rule") or kind == "reply" and numbers[0] != "0"


class Search(NamedTuple):
    """What was found: the line of the image, the lines that can come, the last one, those on labels, and what the
    process says beside. `status` is 1 where it found something else than the program."""

    head: str
    lines: list[Line]
    last: str
    again: list[str]
    beside: list[str] = []
    status: int = 0


class Asked(NamedTuple):
    """What is searched: an image, the text of a menu, and the numbers; what ends the search, and rules."""

    data: bytes
    menu: bytes
    states: int
    first: int | None = None
    depth: int | None = None
    after: After = AT_FIRST
    until: str | None = None
    rules: tuple[Rule, ...] = ()

    def words(self) -> list[str]:
        """The words of the program's command."""
        numbers = [str(number) for number in (self.states, self.first, self.depth) if number is not None]
        return ["against" if self.menu else "every", *numbers,
                *(["after", *map(str, self.after)] if self.after.steps else [])]

    def asked(self) -> list[str]:
        """The words of the process."""
        numbers = (len(self.data), len(self.menu), self.first or 0, self.states, self.depth or 0, *self.after)
        return ["search", *map(str, numbers), *([f"until {self.until}"] if self.until else []),
                *(f"{rule.kind} {' '.join(rule.tokens)}" for rule in self.rules)]


def read(lines: list[str]) -> Search:
    """The text of a search."""
    end = next((at for at, line in enumerate(lines) if END.fullmatch(line)), 0)
    found = [LINE.fullmatch(line) for line in lines[1:end]]
    again = lines[end + 1:]
    ensure(end and None not in found and all(AGAIN.fullmatch(line) or AWAY.fullmatch(line) for line in again),
           "what the program wrote is no text of 'every'")
    return Search(lines[0], [Line(int(x[1]), x[2], x[3], x[4]) for x in found if x], lines[end], again)


# The process that speaks


class Speaking:
    """The process, and what it has said: its lines, how far it is, and how it ended, if it came to that."""

    def __init__(self, engine: str, asked: Asked) -> None:
        self.process = subprocess.Popen([engine, *asked.asked()], stdin=subprocess.PIPE, stdout=subprocess.PIPE,
                                        start_new_session=True)      # Ctrl-C is for this tool
        self.lines: list[str] = []
        self.values: list[str] = []              # how many of which word or register
        self.broken: list[str] = []              # by which words and registers a rule is broken
        self.at = [0, 0, 0, 0]                   # states, depth, open states, states a second
        self.end: list[str] = []
        self.given = asked.data + asked.menu

    def said(self) -> Iterator[None]:
        """Reads what it says until it ends, and yields where it says how far it is."""
        assert self.process.stdin and self.process.stdout
        with contextlib.suppress(OSError):
            self.process.stdin.write(self.given)
            self.process.stdin.flush()
        for line in self.process.stdout:
            kind, _, told = line.decode("ascii", "replace").rstrip("\n").partition(" ")
            if kind == "at":
                self.at = list(map(int, told.split()))
                yield
            elif kind == "end":
                self.end = told.split()
                self.at = [*map(int, self.end[1:4]), 0]
            elif kind == "broken":
                self.broken = [f"broken {told}"]
            else:
                (self.lines if kind == "line" else self.values).append(told)

    def stop(self) -> None:
        """Has it say what it covers, and end."""
        with contextlib.suppress(OSError):
            assert self.process.stdin
            self.process.stdin.close()

    def search(self, image: bytes) -> Search:
        """What it has found by itself."""
        states, depth, _, _ = self.at
        how = self.end[0] if self.end else "ended"
        last = f"states {states} within {depth}" if how == "within" else \
            f"states {states} depth {depth} {how}"
        return read([runs.first_line(images.read(image)), *self.lines, last])


@contextlib.contextmanager
def at_interrupt(work: Callable[[], object]) -> Iterator[None]:
    """Does this at the first Ctrl-C; the second one ends all."""
    def first(number: int, frame: object) -> None:
        signal.signal(signal.SIGINT, signal.default_int_handler)
        work()

    before = signal.getsignal(signal.SIGINT)
    if before == signal.SIG_IGN or threading.current_thread() is not threading.main_thread():
        yield
        return
    signal.signal(signal.SIGINT, first)
    try:
        yield
    finally:
        signal.signal(signal.SIGINT, before)


# Both

class Running:
    """The program and the process on their way."""

    def __init__(self, program: str, asked: Asked, given: IO[bytes], told: IO[bytes]) -> None:
        self.asked, self.told, self.progress, self.is_stopped = asked, told, Progress(), False
        direct = calling.lab(program)
        given.write(asked.data + asked.menu)
        given.seek(0)
        try:
            self.speaking: Speaking | None = Speaking(SEARCHES.path(), asked)
        except Failed as failed:
            if asked.until or asked.rules:
                raise
            print(f"no progress is shown: {failed}", file=sys.stderr)
            self.speaking = None
        with calling.running(program):
            self.program = subprocess.Popen([direct, *asked.words()], stdin=given, stdout=told)

    def stop(self) -> None:
        self.is_stopped = True
        if self.speaking:
            self.speaking.stop()

    def run(self) -> Search:
        """Goes on until both have ended, one has found what is looked for, or Ctrl-C stops them."""
        with at_interrupt(self.stop):
            for _ in self.speaking.said() if self.speaking else ():
                states, depth, more, rate = self.speaking.at if self.speaking else (0, 0, 0, 0)
                self.progress.tell(f"{states} states, depth {depth}, {more} open, {rate} a second, "
                                   f"{self.progress.seconds():.0f} s")
                if self.program.poll():
                    self.stop()
            while not self.is_found() and not self.is_stopped and self.program.poll() is None:
                self.progress.tell(f"the program searches, {self.progress.seconds():.0f} s")
                with contextlib.suppress(subprocess.TimeoutExpired):
                    self.program.wait(0.1)
        self.progress.end()
        return self.found()

    def end(self) -> None:
        for process in (self.program, self.speaking and self.speaking.process):
            if process:
                process.kill()
                process.wait()

    def is_found(self) -> bool:
        return bool(self.speaking and self.speaking.end[:1] == ["found"])

    def found(self) -> Search:
        status, speaking = self.program.poll(), self.speaking
        status = None if status is not None and status < 0 else status           # a signal ended it
        self.told.seek(0)
        lines = self.told.read().decode("ascii", "replace").splitlines()
        if speaking and (self.is_found() or status is None or status == NO_MEMORY) and any(speaking.at):
            if not self.is_found():
                what = "the program has no memory" if status else "it was stopped"
                print(f"every: {what}; this is what a process over the export has found by then", file=sys.stderr)
            return speaking.search(self.asked.data)._replace(beside=beside(speaking), status=0 if self.is_found() else
                                                             2 if status else 130)
        if status is None:
            raise KeyboardInterrupt
        if status:
            raise Failed(f"{' '.join(self.asked.words())} ends with status {status}: "
                         f"{REASONS.get(status) or (lines[-1] if lines else 'nothing written')}")
        search = read(lines)
        if not speaking:
            return search
        return search._replace(beside=beside(speaking), status=self.compared(speaking, search))

    def compared(self, speaking: Speaking, search: Search) -> int:
        """Whether both have found the same; it is said where they haven't."""
        if speaking.end[:1] in ([], ["ended"]):
            print("every: the process over the export was ended, so nothing is compared", file=sys.stderr)
            return 0
        own = speaking.search(self.asked.data)
        is_all = own.last.endswith("closed")
        if own.last == search.last and [x for x in own.lines if is_all or x.step < speaking.at[1]] == search.lines:
            return 0
        print("every: the process over the export differs from the program, whose text this is", file=sys.stderr)
        return 1


def is_found(search: Search) -> bool:
    return search.last.endswith("found")


def beside(speaking: Speaking) -> list[str]:
    """Where a search didn't close: how many states are open, and the numbers of values of words and registers; or what
    breaks a rule."""
    if not speaking.end or speaking.end[0] in ("closed", "found"):
        return speaking.broken
    depth, more, most, at = map(int, speaking.end[2:])
    falls = more < 0.9 * most and depth > at
    trend = f"falls since depth {at}, where it was {most}" if falls else "doesn't fall"
    return [f"{more} states are open, and their number {trend}", *speaking.values]


def searched(program: str, asked: Asked) -> Search:
    """What can happen. How far it is is told on standard error, and the ways are kept."""
    with tempfile.TemporaryFile() as given, tempfile.TemporaryFile() as told:
        running = Running(program, asked, given, told)
        try:
            search = running.run()
        finally:
            running.end()
    keep(kept_at(program, asked), search)
    return search


# Ways that are kept

def kept_at(program: str, asked: Asked) -> Path:
    """The file of this search of this image by this program."""
    path = calling.lab(program)
    there = os.stat(path) if os.path.exists(path) else None
    whose = repr((path, there and (there.st_mtime_ns, there.st_size), asked))
    folder = Path(os.environ.get("XDG_CACHE_HOME") or "~/.cache").expanduser() / "pip"
    return folder / (hashlib.sha256(whose.encode()).hexdigest() + ".ways")


def keep(path: Path, search: Search) -> None:
    """Keeps what was found, where a file can be written, in the place of what was found longest ago."""
    with contextlib.suppress(OSError):
        path.parent.mkdir(parents=True, exist_ok=True)
        path.write_text(json.dumps(search), encoding="utf-8")
        for old in sorted(path.parent.glob("*.ways"), key=os.path.getmtime)[:-MOST_KEPT]:
            old.unlink()


def kept(path: Path) -> Search | None:
    """What was found before, if that is there."""
    try:
        head, lines, *more = json.loads(path.read_text(encoding="utf-8"))
        return Search(head, [Line(*line) for line in lines], *more)
    except (OSError, ValueError, TypeError):
        return None
