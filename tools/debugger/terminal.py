"""A debugger in a terminal, for an image, for a source that is assembled for it, or for a script.

    tools/debug FILE [SEED] [--native N | --slots N TURNS]
    tools/debug FILE [SEED] --list STEPS [--from STEP] [--partition P]

The states are those of a process over the exported library, of the same text as the program and not of the same proof;
where the program is proved, each stop compares the state with the program's own."""

from __future__ import annotations

import argparse
import cmd
import os
import signal
import sys
from collections.abc import Callable
from types import FrameType
from typing import Any

from authors import trace
from common import calling, meanings
from common.calling import Failed, ensure, there
from common.machine.model import PAGE
from . import building, sources
from .client import EVERY, States, Stopped
from .debugger import MOST_STEPS, Debugger, ancestors, before, words_of

AROUND = 5                       # lines of a source before and after the one that is looked at
MOST_TOLD = 32
SHORT = {"b": "break", "c": "continue", "n": "next", "s": "step", "p": "print", "l": "list", "q": "quit",
         "rc": "reverse", "bt": "ancestors", "w": "watch", "x": "words"}
HISTORY = os.path.expanduser("~/.pip_debug_history")


class Terminal(cmd.Cmd):
    """The words of the debugger. An empty line does what the last one did."""

    prompt = "(pip) "

    def __init__(self, debugger: Debugger) -> None:
        super().__init__()
        self.debugger = debugger
        self.way_texts: list[str] = []
        self.interrupted = False
        debugger.shall_pause = lambda: self.interrupted

    # Words and what surrounds them

    def onecmd(self, line: str) -> bool:
        self.interrupted = False
        try:
            return bool(super().onecmd(line))
        except (Failed, ValueError) as failed:
            print(failed)
            return False

    def default(self, line: str) -> None:
        if line == "EOF":
            raise EOFError
        first = line.split()[0]
        short = [SHORT[first]] if first in SHORT else [name for name in self.words() if name.startswith(first)]
        if len(short) == 1:
            self.onecmd(" ".join([short[0], *line.split()[1:]]))
        else:
            print(f"{first!r} is {'one of ' + ', '.join(short) if short else 'no word of the debugger'}: help says all")

    def words(self) -> list[str]:
        return [name[3:] for name in self.get_names() if name.startswith("do_") and name != "do_EOF"]

    def completedefault(self, *typed: Any) -> list[str]:
        text, source = str(typed[0]), self.debugger.source
        return sorted(name for name in [*source.names, *source.constants] if name.startswith(text))

    def completenames(self, text: str, *ignored: object) -> list[str]:
        return [name for name in self.words() if name.startswith(text)]

    def stopped(self, now: Stopped) -> None:
        """Where a run stopped, why, by which turn, and what comes."""
        for reason in self.debugger.reasons(now):
            print(reason)
        if now.step == now.end:
            what = "way" if self.debugger.on_way else "script" if self.debugger.is_script else ""
            print(f"this is the end of the {what}" if what else f"this is step {now.end}, the last one")
        self.debugger.cpu = None
        self.where()
        warning = self.debugger.warning()
        if warning:
            print(f"BEWARE: {warning}")

    def where(self) -> None:
        debugger = self.debugger
        turn = debugger.states.turn()
        print(f"  made {debugger.told_turn(turn)}")
        asked = debugger.events[turn.step].text if turn and debugger.is_script else ""
        meaning = meanings.of_answer(turn.line.split(" ", 2)[2], asked) if turn and turn.line else ""
        if meaning:
            print(f"       {meaning}")
        print(f"  next {debugger.told_coming(debugger.states.next())}")
        if place := debugger.next_place():
            print(f"       {place.file}:{place.line}: {lines_of(place.file)[place.line - 1].strip()}")

    # Moves

    def do_step(self, text: str) -> None:
        """step [N]: makes N turns, of whichever processors; without N one."""
        self.stopped(self.debugger.forward(int(text or "1", 0)))

    def do_next(self, text: str) -> None:
        """next: on to the next turn of the same partition, over all others; of a jal, to the instruction after it."""
        self.stopped(self.debugger.over())

    def do_turn(self, text: str) -> None:
        """turn CPU: to the end of the next turn of a processor."""
        self.stopped(self.debugger.turn_of(int(text or "0")))

    def do_continue(self, text: str) -> None:
        """continue: on to what stops the run."""
        self.stopped(self.debugger.run(self.debugger.told_stops()))

    def do_until(self, text: str) -> None:
        """until STEP|NAME|ADDRESS: to a step, or a line of a script, also back; or on to a place."""
        self.stopped(self.debugger.until(text))

    def do_back(self, text: str) -> None:
        """back [N]: takes N turns back; without N one."""
        self.stopped(self.debugger.backward(int(text or "1", 0)))

    def do_reverse(self, text: str) -> None:
        """reverse: back to the last state at which continue would have stopped."""
        self.stopped(self.debugger.back(self.debugger.told_stops()))

    def do_where(self, text: str) -> None:
        """where: the last turn, the next one, and the source's line."""
        self.where()

    # Stops

    def do_break(self, text: str) -> None:
        """break NAME|LINE|FILE:LINE|ADDRESS|P:ADDRESS [partition P] [after N] [if A == B]: stops before a turn there,
        the Nth time."""
        text, _, condition = text.partition(" if ")
        words, after = counted(text.split())
        part = None
        if "partition" in words:
            at = words.index("partition")
            part, words = int(words[at + 1], 0), words[:at]
        ensure(len(words) == 1, "break has a name, a line of the source or an address")
        stop = self.debugger.add_break(words[0], part, condition.strip() or None, after)
        print(f"{stop.number}: break at {stop.told()}")

    def do_catch(self, text: str) -> None:
        """catch fault|park|refused|interrupt [after N], or words of a trace line, as reply 8, out, switch * 28: stops
        after such a turn."""
        words, after = counted(text.split())
        ensure(words, "catch has words of a line")
        stop = self.debugger.add_line(" ".join(words), after)
        print(f"{stop.number}: a turn whose line has {stop.told()}")

    def do_watch(self, text: str) -> None:
        """watch NAME|P:ADDRESS|fF:I [COUNT] | rN|pc|P:rN [after N]: stops after a turn that changed a word, at an
        address also by another page; or a register of a partition, the one that runs or P, that runs before and after
        it."""
        words, after = counted(text.split())
        ensure(words, "watch has a name, an address of a partition, a word of a frame, or a register")
        stop = self.debugger.add_watch(words[0], int(words[1], 0) if words[1:] else 1, after)
        kind, *where, count = stop.parts[0].split()
        told = f", address 0x{int(where[1]):08x} of partition {where[0]}" if kind == "address" else \
            f", word {where[0]}" * (kind == "word")
        print(f"{stop.number}: watch {stop.told()}{told}" + f", {count} words" * (count != "1"))

    def do_delete(self, text: str) -> None:
        """delete [N]: takes a stop away, or all."""
        if text:
            ensure(self.debugger.stops.pop(int(text), None) is not None, f"there is no stop {text}")
        else:
            self.debugger.stops.clear()

    def do_stops(self, text: str) -> None:
        """stops: all breaks, lines and watches, and how often each stopped a run."""
        for stop in self.debugger.stops.values():
            print(f"{stop.number}: {stop.kind} {stop.told()}, {stop.hits} times")

    # What there is

    def do_registers(self, text: str) -> None:
        """registers [CPU]: the registers of one processor or of all."""
        for cpu, at in enumerate(self.debugger.states.registers()):
            if text in ("", str(cpu)):
                print("\n".join(trace.told_registers(cpu, at)))

    def do_processors(self, text: str) -> None:
        """processors: what runs on each."""
        for cpu, at in enumerate(self.debugger.states.registers()):
            name = self.debugger.name_at(at.part, at.pc) if at else ""
            print(f"{cpu} runs " + (f"partition {at.part}, pc 0x{at.pc:08x} {name}" if at else "nothing"))

    def do_processor(self, text: str) -> None:
        """processor CPU: addresses without a partition, and registers in conditions, are those of this one."""
        ensure(text.isdecimal() and int(text) < self.debugger.states.cpus, "processors are 0 to "
               f"{self.debugger.states.cpus - 1}")
        self.debugger.cpu = int(text)

    def do_words(self, text: str) -> None:
        """words NAME|ADDRESS|P:ADDRESS|fF:I [COUNT]: words from there on, with names and as instructions."""
        words = text.split()
        for (frame, index), word in self.debugger.words(words[0], int(words[1], 0) if words[1:] else 8):
            name = self.debugger.source.nearest((frame, index))
            print(f"f{frame}:{index:<5} 0x{word:08x}  {name:24} {self.debugger.instruction(word)}".rstrip())

    def do_print(self, text: str) -> None:
        """print rN|pc|NUMBER|NAME|[PLACE]: a number, in both forms; NAME is the address, [NAME] the word there."""
        value = self.debugger.value(text)
        print(f"0x{value:08x} {value}")

    def do_translate(self, text: str) -> None:
        """translate ADDRESS|P:ADDRESS: the way from an address of a partition to its frame."""
        target = self.debugger.target(text)
        part = self.debugger.partition() if target.part is None else target.part
        address = there(target.address, "a word of a frame has no address")
        print("\n".join(translation(self.debugger, part, address)))

    def do_tree(self, text: str) -> None:
        """tree [P]: the partitions; of one, its pages."""
        _, masked, pending = self.debugger.states.tree()
        parts = self.debugger.partitions()
        for part in parts:
            if text in ("", str(part.name)):
                print(part.line(self.running(part.name)) + ", masked" * (part.name in masked))
        if text:
            for row in next((part.pages for part in parts if str(part.name) == text), []):
                print(f"    0x{row.address:08x} frame {row.frame:<4} {row.rights} {row.view:6} {row.told_use}")
        elif pending:
            print(f"lines that are pending: {', '.join(map(str, pending))}")

    def running(self, name: int) -> list[int]:
        return [cpu for cpu, at in enumerate(self.debugger.states.registers()) if at and at.part == name]

    def do_ancestors(self, text: str) -> None:
        """ancestors: the partition that runs, and those above it."""
        for part in ancestors(self.debugger.partitions(), self.debugger.partition()):
            print(f"partition {part.name}"
                  + (f", which {part.up} has at 0x{part.born:08x}" if part.depth else ", the root"))

    def do_list(self, text: str) -> None:
        """list [NAME|LINE]: lines of the source around the next turn, or around a name or a line."""
        source = self.debugger.source
        file = there(source.path, "there is no source: words ADDRESS shows instructions")
        if text.isdecimal():
            at = int(text)
        else:
            named = text and self.debugger.target(text).word
            file, at = there(source.line_of.get(named or (0, 0)) if text else self.debugger.next_place(),
                             "no line of the source is there")
        for number, line in list(enumerate(lines_of(file), 1))[max(0, at - 1 - AROUND):at + AROUND]:
            print(f"{'>' if number == at else ' '}{number:>5}  {line}")

    def do_changed(self, text: str) -> None:
        """changed [STEP]: all words that the last turn changed, or all since a step."""
        turn = self.debugger.states.turn()
        found = self.debugger.states.changed(int(text)) if text else turn.changed if turn else []
        for one in found[:MOST_TOLD]:
            name = self.debugger.source.nearest((one.frame, one.place))
            print(f"f{one.frame}:{one.place:<5} 0x{one.before:08x} -> 0x{one.after:08x} {name}".rstrip())
        print(f"{len(found)} words")

    def do_trace(self, text: str) -> None:
        """trace [FROM]: the trace lines up to here, from a step on; without it from 200 steps before."""
        here = self.debugger.step
        for line in self.debugger.told_lines(int(text) if text else max(0, here - 200), here):
            print(line)

    def do_check(self, text: str) -> None:
        """check: whether the proved program has the same tree and words after as many steps."""
        print(self.debugger.check())

    # Changes, and other ways

    def do_seed(self, text: str) -> None:
        """seed N: another schedule; at step 0 from the beginning, else from here on."""
        self.stopped(self.debugger.set_seed(calling.number(text, 1, 0xFFFFFFFF, "the seed")))

    def do_plan(self, text: str) -> None:
        """plan [L FIRST PERIOD | L off]: shows the plans, or changes that of a line from here on."""
        words = text.split()
        if words[1:] == ["off"]:
            self.debugger.states.edit("no_plan", int(words[0]))
        elif words:
            line, first, period = (calling.number(word, 0, 0xFFFFFFFF, "a number of a plan") for word in words)
            self.debugger.states.edit("plan", line, first, period)
        for line, first, period in self.debugger.states.plans:
            print(f".line {line} {first} {period}")

    def do_raise(self, text: str) -> None:
        """raise L: an interrupt line becomes pending here."""
        self.debugger.states.edit("raise", int(text))

    def do_set(self, text: str) -> None:
        """set rN|pc X: changes a register of the processor that is looked at."""
        name, value = text.split()
        register = 16 if name == "pc" else int(name[1:])
        self.debugger.states.edit("register", self.debugger.processor(), register, self.debugger.value(value))

    def do_store(self, text: str) -> None:
        """store ADDRESS X: what runs on the processor that is looked at stores a word, with all that follows."""
        address, value = text.split()
        self.debugger.states.edit("store", self.debugger.processor(), self.debugger.value(address),
                                  self.debugger.value(value))
        self.where()

    def do_every(self, text: str) -> None:
        """every STATES [FROM [DEPTH]] [after STEPS SEED]: the lines that can come over all interleavings; way N goes to
        one. ! is a refused call, fault or park."""
        search, before = self.debugger.search(text.split())
        self.way_texts = [f"{before} {line.way}".lstrip() for line in search.lines]
        many = len(search.lines) > MOST_TOLD
        for number, line in enumerate(search.lines, 1):
            if line.is_trouble or not many:
                print(f"{number:>4}{'!' if line.is_trouble else ' '} {line.step} {line.cpu} {line.text}: {line.way}")
        print(search.last)

    def do_way(self, text: str) -> None:
        """way N, or the choices of a way: its choices are the schedule, from the beginning. seed N ends it."""
        if text.isdecimal() and self.way_texts:
            ensure(1 <= int(text) <= len(self.way_texts), "no such line was found: every STATES searches")
            text = self.way_texts[int(text) - 1]
        self.stopped(self.debugger.take_way(text))

    def do_kept(self, text: str) -> None:
        """kept: how many states are kept for the way back, and how many frames they have together."""
        states, frames = self.debugger.states.ask("kept")
        print(f"{states} states of {frames} different frames, {frames * 4} kB")

    def do_quit(self, text: str) -> bool:
        """quit: ends, as Ctrl-D does."""
        return True


def counted(words: list[str]) -> tuple[list[str], int]:
    """Words without a last `after N`, and N."""
    if words[-2:-1] == ["after"]:
        return words[:-2], int(words[-1], 0)
    return words, 1


def translation(debugger: Debugger, part: int, address: int) -> list[str]:
    told = debugger.states.translate(part, address)
    index = address % PAGE // 4
    lines = [f"partition {part}, address 0x{address:08x}: vpage 0x{address // PAGE:x}, word {index} of the page"]
    for name, level in zip(("page table", "first shadow", "second shadow"), told["levels"]):
        entry = f"directory {level['directory']} word {level['index']} is 0x{level['entry']:08x}"
        row = ": no table"
        if level["word"] is not None:
            row = f", table {level['table']} word {level['at']} is 0x{level['word']:08x}"
        lines.append(f"  {name:13} {entry}{row}")
    for access, answer in zip(("load", "store", "fetch"), told["answers"]):
        lines.append(f"  {access:13} {answer if isinstance(answer, str) else f'word {answer[1]} of frame {answer[0]}'}")
    return lines


def lines_of(path: str) -> list[str]:
    return calling.contents(path).decode("utf-8", "replace").split("\n")


# On a terminal

def with_history(work: Callable[[], None]) -> None:
    """Keeps what was typed from session to session."""
    import readline
    readline.set_completer_delims(" \t\n[")
    try:
        readline.read_history_file(HISTORY)
    except OSError:
        pass
    try:
        work()
    finally:
        readline.set_history_length(1000)
        try:
            readline.write_history_file(HISTORY)
        except OSError:
            pass


def loop(terminal: Terminal) -> None:
    """Reads words until the end. Ctrl-C pauses a run."""
    def pause(number: int, frame: FrameType | None) -> None:
        terminal.interrupted = True

    signal.signal(signal.SIGINT, pause)
    try:
        terminal.cmdloop()
    except EOFError:
        print()


def main() -> None:
    parser = argparse.ArgumentParser(
        description="A debugger of runs, in a terminal. The states are of the same text as the program, not of the "
                    "same proof; where the program is proved, each stop compares them.")
    parser.add_argument("file", metavar="FILE", help="an image, an assembly text or source of tools/asmx, or a script")
    parser.add_argument("seed", metavar="SEED", nargs="?", default="1")
    monitor = parser.add_mutually_exclusive_group()
    monitor.add_argument("--native", metavar="N", help="as by `native`: a monitor outside the machine runs N children")
    monitor.add_argument("--slots", nargs=2, metavar=("N", "TURNS"), help="as by `slots`")
    calling.take_source(parser)
    parser.add_argument("--list", type=calling.within(0, MOST_STEPS, "STEPS"), metavar="STEPS",
                        help="print that many steps, and all registers after them, and end")
    parser.add_argument("--from", type=calling.within(0, MOST_STEPS, "--from"), default=0, dest="first", metavar="STEP",
                        help="of --list: the steps from this one on")
    parser.add_argument("--partition", type=int, metavar="P", help="of --list: the steps of this partition alone")
    parser.add_argument("--every", type=calling.within(1, 10_000_000, "--every"), default=EVERY, metavar="K",
                        help="keep a state each K steps, for the way back")
    parser.add_argument("--check", action=argparse.BooleanOptionalAction,
                        help="compare each stop with the program; without it where it is proved")
    calling.take_program(parser)
    calling.started(parser, work)


def schedule_of(seed: str, native: str | None, slots: list[str] | None) -> str:
    """As the debugger takes it."""
    if native is not None:
        return f"native {calling.number(native, 1, 8, 'N')}"
    if slots is not None:
        return f"slots {calling.number(slots[0], 1, 8, 'N')} {calling.number(slots[1], 0, 10_000_000, 'TURNS')}"
    return f"seed {calling.number(seed, 1, 0xFFFFFFFF, 'SEED')}"


def work(given: argparse.Namespace) -> int:
    schedule = schedule_of(given.seed, given.native, given.slots)
    calling.direct(given.program)
    process = States(building.STATES.path())
    try:
        debugger = Debugger(given.program, process, given.file, schedule, given.every)
        if given.source:
            debugger.source = sources.read(debugger.data, given.source)
            if debugger.source.warning:
                print(f"debug: {debugger.source.warning}", file=sys.stderr)
        debugger.checks = debugger.checks if given.check is None else given.check
        terminal = Terminal(debugger)
        if given.list is not None:
            return listed(debugger, given.list, given.first, given.partition)
        if sys.stdin.isatty():
            print("The same text as the program, not the same proof. help says all words.")
            terminal.where()
            with_history(lambda: loop(terminal))
        else:
            terminal.where()
            for line in sys.stdin:                               # each is shown before its answer
                print(f"(pip) {line.rstrip()}")
                if line.strip() and terminal.onecmd(line.strip()):
                    break
    finally:
        process.end()
    return 0


def listed(debugger: Debugger, steps: int, first: int, part: int | None) -> int:
    """Prints steps, and all registers at the end. The status is 1 where the program has other lines."""
    steps = min(steps, debugger.states.now.end)
    ensure(not debugger.is_script, "a script is its own list: its lines are the steps")
    print("# of the same text as the program, not of the same proof; the lines at the right are compared with its own")
    for turn in debugger.states.listed(min(first, steps), steps):
        if part in (None, turn.part):
            print(debugger.told_turn(turn, True))
    debugger.states.go(steps)
    for cpu, at in enumerate(debugger.states.registers()):
        print("\n".join(trace.told_registers(cpu, at)))
    kind, *numbers = debugger.schedule.split()
    words, last = words_of(kind, numbers, steps)
    due = before(calling.text_of(debugger.program, [kind if kind != "seed" else "run", *words], debugger.data), last)
    if due != before(debugger.states.trace(0, steps), last):
        print("debug: the program has other lines", file=sys.stderr)
        return 1
    print(f"# the program has the same {len(due)} lines")
    return 0
