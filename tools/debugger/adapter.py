"""The Debug Adapter Protocol over standard streams: processors are threads, a partition and those above it a stack.

    tools/debug_adapter

Arguments of `launch`: `program`, an image, a source or a script; `source`, that of an image; `seed`, or `native`, a
number of children, or `slots`, that and the turns of a slot, or `way`, choices of `every`; `stopOnEntry`; `check`,
whether each stop is compared with the program, as is done without it where the program is proved."""

from __future__ import annotations

import argparse
import base64
import contextlib
import functools
import io
import os
import queue
import re
import sys
import threading
from collections.abc import Callable
from typing import IO, Any

from authors import asmx
from common import calling
from common.calling import Failed, ensure, there
from common.machine.model import PAGE
from . import building, sources, wire
from .client import At, States, Stopped
from .debugger import OF_PARTITION, Debugger, ancestors
from .terminal import Terminal, schedule_of
from .wire import Message

CAPABILITIES = {name: True for name in (
    "supportsConfigurationDoneRequest", "supportsStepBack", "supportsDataBreakpoints", "supportsInstructionBreakpoints",
    "supportsFunctionBreakpoints", "supportsConditionalBreakpoints", "supportsHitConditionalBreakpoints",
    "supportsReadMemoryRequest", "supportsDisassembleRequest", "supportsEvaluateForHovers", "supportsSetVariable",
    "supportsLogPoints", "supportsRestartRequest", "supportsTerminateRequest", "supportsCompletionsRequest",
)}
FILTERS = [("fault", "a fault"), ("park", "a processor is parked"), ("refused", "a call is refused"),
           ("interrupt", "a line is taken")]
PAUSING = ("pause", "disconnect", "terminate")
SHOWING = ("registers", "processors", "words", "print", "translate", "tree", "ancestors", "list", "changed", "trace",
           "check", "stops", "every", "kept", "where", "help")
CHANGING = ("seed", "plan", "raise", "set", "store")
DESCRIPTOR = ("descriptor", "MMU directory", "first shadow directory", "second shadow directory", "first list page")
EXPRESSION = re.compile(r"\{([^{}]*)\}")                  # in a message, to be replaced by its value
MOST_LINES = 50                  # trace lines that are told after a run
MOST_LOOKED = 20_000             # steps before the end of a run of which they are told

# How the processor of a thread moves, and what a client is told where nothing else stopped it
MOVES: dict[str, tuple[Callable[[Debugger, int], Stopped], str]] = {
    "continue": (lambda on, cpu: on.run(on.told_stops()), "pause"),
    "reverseContinue": (lambda on, cpu: on.back(on.told_stops()), "entry"),
    "next": (Debugger.over, "step"), "stepIn": (Debugger.turn_of, "step"), "stepBack": (Debugger.back_turn_of, "step")}

Variable = dict[str, Any]
Arguments = dict[str, Any]


class Logging(Debugger):
    """A debugger some of whose stops write a message and stop nothing."""

    logs: dict[int, str] = {}                            # by their numbers
    say: Callable[[str], None] = print

    def is_due(self, now: Stopped, times: dict[int, int]) -> bool:
        """Writes what is to be written; whether another stop holds."""
        for _, number in now.stops:
            if number in self.logs and number in self.stops:
                self.say(EXPRESSION.sub(self.told_value, self.logs[number]) + "\n")
        others = [(kind, number) for kind, number in now.stops if number not in self.logs or number not in self.stops]
        return super().is_due(Stopped(now.step, others, now.end, now.edited), times)

    def told_value(self, found: re.Match[str]) -> str:
        try:
            return f"0x{self.value(found[1].strip()):08x}"
        except (Failed, ValueError, LookupError) as failed:
            return f"{{{found[1]}: {failed}}}"


class Adapter:
    """One session."""

    def __init__(self, source: IO[bytes], sink: IO[bytes], program: str) -> None:
        self.source, self.sink, self.program = source, sink, program
        self.sent = 0
        self.debugger: Logging | None = None
        self.launched: Arguments = {}
        self.messages: queue.Queue[Message | None] = queue.Queue()
        self.reasons: dict[int, str] = {}                    # of each stop, what a client calls it
        self.of_group: dict[str, list[int]] = {}             # the stops of each request that sets some
        self.frames: list[tuple[int, int, bool]] = []        # processor, partition, and whether it runs
        self.handles: list[Callable[[], list[Variable]]] = []
        self.pausing = 0                                     # messages that pause a run and weren't taken yet
        self.done = False

    # Messages

    def send(self, kind: str, **words: Any) -> None:
        self.sent += 1
        wire.write(self.sink, {"seq": self.sent, "type": kind, **words})

    def event(self, name: str, **body: Any) -> None:
        self.send("event", event=name, body=body)

    def serve(self) -> None:
        threading.Thread(target=self.listen, daemon=True).start()
        while not self.done:
            message = self.messages.get()
            if message is None:
                break
            self.take(message)
        if self.debugger:
            self.debugger.states.end()

    def listen(self) -> None:
        """Reads on while a run goes on, so that it can be paused."""
        while True:
            try:
                message = wire.read(self.source)
            except wire.Malformed as malformed:
                message = {"command": "", "seq": 0, "arguments": {"said": str(malformed)}}
            if message and message.get("command") in PAUSING:
                self.pausing += 1
            self.messages.put(message)
            if message is None or message.get("command") == "disconnect":
                return

    def take(self, message: Message) -> None:
        command = str(message.get("command", ""))
        self.pausing -= command in PAUSING
        told = {"request_seq": message.get("seq", 0), "command": command}
        work = getattr(self, "on_" + re.sub("(?=[A-Z])", "_", command).lower(), None)
        if command in MOVES:
            move, reason = MOVES[command]
            work = lambda given: self.moving(lambda: move(self.on, given.get("threadId", 1) - 1), reason)
        try:
            if work is None:
                raise Failed((message.get("arguments") or {}).get("said", f"{command} isn't known here"))
            body = work(message.get("arguments") or {})
        except (Failed, ValueError, LookupError, TypeError, AttributeError) as failed:
            self.send("response", success=False, message=str(failed), **told)
            return
        self.send("response", success=True, **told,
                  **({"body": body} if body is not None and not callable(body) else {}))
        if callable(body):
            self.afterwards(body)

    def afterwards(self, work: Callable[[], None]) -> None:
        """What is done once the answer was sent."""
        try:
            work()
        except Failed as failed:
            self.event("output", category="stderr", output=f"{failed}\n")
            self.event("terminated")

    @property
    def on(self) -> Logging:
        return there(self.debugger, "nothing is launched")

    # Begin and end

    def on_initialize(self, given: Arguments) -> Any:
        filters = [{"filter": name, "label": label} for name, label in FILTERS]
        return {**CAPABILITIES, "exceptionBreakpointFilters": filters}

    def on_launch(self, given: Arguments) -> Any:
        self.launched = given
        ensure(given.get("program"), "launch has a program: an image, a source or a script")
        calling.direct(self.program)
        native, slots = given.get("native"), given.get("slots")
        schedule = schedule_of(str(given.get("seed", 1)), None if native is None else str(native),
                               None if slots is None else [*map(str, slots)])
        path = os.path.abspath(given["program"])
        if not building.STATES.is_new() and not path.endswith(".pip"):
            asmx.image_of(self.program, path)                # what is wrong with it is said before cargo builds
        self.debugger = Logging(self.program, States(building.STATES.path()), path, schedule)
        self.debugger.logs = {}
        self.debugger.say = lambda text: self.event("output", category="console", output=text)
        self.debugger.checks = bool(given.get("check", self.debugger.checks))
        self.debugger.shall_pause = lambda: self.pausing > 0
        if given.get("source"):
            self.on.source = sources.read(self.on.data, os.path.abspath(given["source"]))
        if given.get("way"):
            self.on.take_way(given["way"])
        return lambda: self.event("initialized")

    def on_configuration_done(self, given: Arguments) -> Any:
        if self.launched.get("stopOnEntry", True):
            return lambda: self.stopped(self.on.states.now, "entry")
        return self.moving(lambda: self.on.run(self.on.told_stops()))

    def on_restart(self, given: Arguments) -> Any:
        self.on.load(self.on.schedule)
        if self.launched.get("way"):
            self.on.take_way(self.launched["way"])
        return lambda: self.stopped(self.on.states.now, "entry")

    def on_pause(self, given: Arguments) -> None:
        """What goes on has seen it already."""

    def on_disconnect(self, given: Arguments) -> None:
        self.done = True

    def on_terminate(self, given: Arguments) -> Any:
        return lambda: self.event("terminated")

    # Stops

    def replaced(self, group: str, reason: str, wanted: list[Arguments], make: Callable[[Arguments], Any]) -> Any:
        """The stops of one request take the place of those that the same one set before."""
        for number in self.of_group.pop(group, []):
            self.on.stops.pop(number, None)
        told, numbers = [], []
        for one in wanted:
            try:
                stop, line = make(one)
                numbers.append(stop.number)
                if one.get("logMessage"):
                    self.on.logs[stop.number] = one["logMessage"]
                self.reasons[stop.number] = reason
                told.append({"verified": True, "id": stop.number, "message": stop.text,
                             **({"line": line} if line else {})})
            except Failed as failed:
                told.append({"verified": False, "message": str(failed)})
        self.of_group[group] = numbers
        return {"breakpoints": told}

    def on_set_breakpoints(self, given: Arguments) -> Any:
        path = self.file_of(given["source"].get("path", ""))

        def make(one: Arguments) -> Any:
            stop = self.on.add_break(f"{path}:{one['line']}", None, *limits(one))
            return stop, int(stop.text.rpartition(":")[2])

        return self.replaced("lines of " + path, "breakpoint", given.get("breakpoints", []), make)

    def file_of(self, path: str) -> str:
        """The path by which the source's lines have a file."""
        files = {os.path.realpath(place.file): place.file for place in self.on.source.starts_of}
        return files.get(os.path.realpath(path), path)

    def on_set_function_breakpoints(self, given: Arguments) -> Any:
        return self.replaced("names", "function breakpoint", given["breakpoints"],
                             lambda one: (self.on.add_break(one["name"], None, *limits(one)), None))

    def on_set_instruction_breakpoints(self, given: Arguments) -> Any:
        def make(one: Arguments) -> Any:
            part, address = self.reference(one["instructionReference"], one.get("offset", 0))
            text = f"{part}:0x{address:x}"
            return self.on.add_break(text, part, *limits(one)), None

        return self.replaced("instructions", "instruction breakpoint", given["breakpoints"], make)

    def on_set_exception_breakpoints(self, given: Arguments) -> Any:
        return self.replaced("exceptions", "exception", [{"name": name} for name in given["filters"]],
                             lambda one: (self.on.add_line(one["name"]), None))

    def on_data_breakpoint_info(self, given: Arguments) -> Any:
        name = given["name"]
        if given.get("variablesReference"):
            known = {one["name"]: one.get("watched") for one in self.variables(given["variablesReference"])}
            name = known.get(name)
        if not name:
            return {"dataId": None, "description": "no word of a frame holds it"}
        if OF_PARTITION.fullmatch(name):
            return {"dataId": name, "description": f"register {name}", "accessTypes": ["write"]}
        place = self.on.target(name).word
        if place is None:
            return {"dataId": None, "description": f"{name}: there is no page now"}
        text = f"f{place[0]}:{place[1]}"
        return {"dataId": text, "description": f"{name}, word {place[1]} of frame {place[0]}", "accessTypes": ["write"]}

    def on_set_data_breakpoints(self, given: Arguments) -> Any:
        return self.replaced("words", "data breakpoint", given["breakpoints"],
                             lambda one: (self.on.add_watch(one["dataId"], 1, limits(one)[1]), None))

    # Moves

    def moving(self, move: Callable[[], Stopped], reason: str = "step") -> Callable[[], None]:
        """Moves after the answer was sent, and tells where that led."""
        before = self.on.step

        def work() -> None:
            now = move()
            self.tell_lines(before, now.step)
            self.stopped(now, "pause" if self.pausing else reason)
        return work

    def tell_lines(self, before: int, after: int) -> None:
        if after > before:
            lines = self.on.told_lines(max(before, after - MOST_LOOKED), after)
            more = len(lines) - MOST_LINES
            text = f".. {more} lines before\n" if more > 0 else ""
            if lines:
                self.event("output", category="stdout",
                           output=text + "".join(line + "\n" for line in lines[-MOST_LINES:]))

    def stopped(self, now: Stopped, reason: str) -> None:
        self.frames.clear()
        self.handles.clear()
        numbers = [number for _, number in now.stops if number in self.on.stops]
        if numbers:
            reason = self.reasons.get(numbers[0], "breakpoint")
        elif ("idle", 0) in now.stops:
            reason = "exception"
        told = self.on.reasons(now) + [warning for warning in [self.on.warning()] if warning]
        if now.step == now.end:
            told.append("the script ends here" if self.on.is_script else f"step {now.end} is the last one")
        text = {"text": "; ".join(told), "description": f"step {now.step}: {told[0]}" if told else f"step {now.step}"}
        self.event("stopped", reason=reason, threadId=self.thread_of(now), allThreadsStopped=True,
                   hitBreakpointIds=numbers, **text)

    def thread_of(self, now: Stopped) -> int:
        """The processor whose turn comes at a break, else the one whose turn was."""
        coming, turn = self.on.states.next(), self.on.states.turn()
        is_break = not now.stops or any(kind == "break" for kind, _ in now.stops)
        cpu = coming.cpu if is_break or turn is None or turn.cpu is None else turn.cpu
        return (cpu or 0) + 1

    def on_step_out(self, given: Arguments) -> Any:
        """On to where the parent of what runs has a turn."""
        at = self.on.states.registers()[given["threadId"] - 1]
        chain = ancestors(self.on.partitions(), at.part if at else 1)
        stops = self.on.told_stops()
        if len(chain) > 1:
            stops.append(f"break 0 part {chain[1].name}")
        return self.moving(lambda: self.on.run(stops))

    # What there is

    def on_threads(self, given: Arguments) -> Any:
        told = []
        for cpu, at in enumerate(self.on.states.registers()):
            what = f"partition {at.part}" if at else "nothing"
            told.append({"id": cpu + 1, "name": f"processor {cpu}: {what}"})
        return {"threads": told}

    def on_stack_trace(self, given: Arguments) -> Any:
        cpu = given["threadId"] - 1
        at = self.on.states.registers()[cpu]
        if at is None:
            return {"stackFrames": [], "totalFrames": 0}
        chain = ancestors(self.on.partitions(), at.part)
        found = [self.frame(cpu, part.name, at if part.name == at.part else None) for part in chain]
        return {"stackFrames": found, "totalFrames": len(found)}

    def frame(self, cpu: int, part: int, at: At | None) -> Variable:
        """A partition as a frame of a stack. One that doesn't run has no place: it is entered by its handlers."""
        self.frames.append((cpu, part, at is not None))
        who = "partition 1, the root" if part == 1 else f"partition {part}"
        told: Variable = {"id": len(self.frames), "name": who, "line": 0, "column": 0}
        if at is None:
            return {**told, "presentationHint": "label"}
        name = self.on.name_at(at.part, at.pc)
        told["name"] = f"{name or f'0x{at.pc:08x}'}, {who}"
        told["instructionPointerReference"] = f"{at.part}:0x{at.pc:08x}"
        return {**told, **self.location(at.part, at.pc)}

    def location(self, part: int, address: int) -> Variable:
        """The line of a word at an address; of a script the one that comes."""
        word = self.on.word_at(part, address)
        place = self.on.next_place() if self.on.is_script else \
            self.on.source.place(word, self.on.states.words(*word, 1)[0]) if word else None
        if place is None:
            return {}
        path = os.path.abspath(place.file)
        return {"source": {"name": os.path.basename(path), "path": path}, "line": place.line, "column": 1}

    def handle(self, make: Callable[[], list[Variable]]) -> int:
        self.handles.append(make)
        return len(self.handles)

    def on_scopes(self, given: Arguments) -> Any:
        cpu, part, runs = self.frame_of(given)
        scopes: list[tuple[str, Callable[[], list[Variable]]]] = [
            (f"Pages of partition {part}", lambda: self.pages(part)),
            ("Descriptor", lambda: self.descriptor(part)), ("Tree", self.tree)]
        if runs:
            scopes = [("Registers", lambda: self.registers(cpu)), ("Names", self.names), *scopes,
                      ("Last turn", self.turn)]
        return {"scopes": [{"name": name, "variablesReference": self.handle(make), "expensive": name == "Tree"}
                           for name, make in scopes]}

    def variables(self, reference: int) -> list[Variable]:
        ensure(1 <= reference <= len(self.handles), "these variables are of an earlier state")
        return self.handles[reference - 1]()

    def on_variables(self, given: Arguments) -> Any:
        found = self.variables(given["variablesReference"])
        first = given.get("start", 0)
        found = found[first:first + given["count"]] if given.get("count") else found[first:]
        return {"variables": [{name: value for name, value in one.items() if name != "watched"} for one in found]}

    def registers(self, cpu: int) -> list[Variable]:
        at = self.on.states.registers()[cpu]
        if at is None:
            return []
        words = [("pc", at.pc)] + [(f"r{number}", word) for number, word in enumerate(at.registers)]
        return [variable(name, f"0x{word:08x}", evaluateName=name, watched=f"{at.part}:{name}",
                         **self.memory(at.part, word)) for name, word in words]

    def memory(self, part: int, address: int) -> Variable:
        return {"memoryReference": f"{part}:0x{address:08x}"} if self.on.word_at(part, address) else {}

    def names(self) -> list[Variable]:
        """Each name of the source with its word."""
        found = []
        for name, named in self.on.source.names.items():
            frame, index = named.word
            if index < 1024:
                word = self.on.states.words(frame, index, 1)[0]
                found.append(variable(name, f"0x{word:08x}", type=self.on.instruction(word), evaluateName=f"[{name}]",
                                      memoryReference=f"f{frame}:{index}", watched=name))
        return found

    def pages(self, part: int) -> list[Variable]:
        rows = [row for one in self.on.partitions() if one.name == part for row in one.pages]
        return [variable(f"0x{row.address:08x}", f"frame {row.frame} {row.rights} {row.view} {row.told_use}",
                         reference=self.handle(functools.partial(self.frame_words, row.frame)),
                         memoryReference=f"f{row.frame}:0") for row in rows]

    def frame_words(self, frame: int) -> list[Variable]:
        """The words of a frame that aren't 0."""
        return [variable(f"[{index}] {self.on.source.nearest((frame, index))}".rstrip(), f"0x{word:08x}",
                         type=self.on.instruction(word), memoryReference=f"f{frame}:{index}",
                         watched=f"f{frame}:{index}")
                for index, word in enumerate(self.on.states.words(frame)) if word]

    def descriptor(self, part: int) -> list[Variable]:
        words = self.on.states.words(part, 0, 16)
        names = [name + where for name in DESCRIPTOR for where in (" in the parent", "")]
        names += ["", "parent", "tables", "", "masked", "pending lines"]
        return [variable(name, f"0x{word:08x}", memoryReference=f"f{part}:{index}", watched=f"f{part}:{index}")
                for index, (name, word) in enumerate(zip(names, words)) if name]

    def tree(self) -> list[Variable]:
        return [variable(f"partition {part.name}",
                         f"depth {part.depth}, child of {part.up} at 0x{part.born:08x}, {len(part.pages)} pages",
                         reference=self.handle(functools.partial(self.pages, part.name)))
                for part in self.on.partitions()]

    def turn(self) -> list[Variable]:
        turn = self.on.states.turn()
        if turn is None:
            return [variable("made", "nothing yet")]
        told = [variable("made", self.on.told_turn(turn)), variable("line", turn.line)]
        return told + [variable(f"f{one.frame}:{one.place} {self.on.source.nearest((one.frame, one.place))}".rstrip(),
                                f"0x{one.before:08x} -> 0x{one.after:08x}", watched=f"f{one.frame}:{one.place}")
                       for one in turn.changed]

    def on_set_variable(self, given: Arguments) -> Any:
        """A register gets another word."""
        name = given["name"]
        ensure(re.fullmatch(r"pc|r\d+", name), "registers alone can be set; store does it for words of a partition")
        register = 16 if name == "pc" else int(name[1:])
        value = self.on.value(given["value"])
        cpu = next((cpu for cpu, _, runs in self.frames if runs), 0)
        self.on.states.edit("register", cpu, register, value)
        return {"value": f"0x{value:08x}"}

    # Expressions, memory, instructions

    def on_evaluate(self, given: Arguments) -> Any:
        chosen, self.on.cpu = self.on.cpu, self.frame_of(given)[0] if given.get("frameId") else None
        try:
            word = given["expression"].split()[0] if given["expression"].split() else ""
            if given.get("context") == "repl" and word in (*SHOWING, *CHANGING):
                return {"result": self.said(given["expression"]), "variablesReference": 0}
            value = self.on.value(given["expression"].strip())
            return {"result": f"0x{value:08x}", "variablesReference": 0}
        finally:
            self.on.cpu = chosen

    def frame_of(self, given: Arguments) -> tuple[int, int, bool]:
        number = int(given["frameId"])
        ensure(1 <= number <= len(self.frames), "this frame is of an earlier state")
        return self.frames[number - 1]

    def said(self, text: str) -> str:
        """What the terminal's words say, in the console."""
        told = io.StringIO()
        with contextlib.redirect_stdout(told):
            Terminal(self.on).onecmd(text)
        if text.split()[0] in CHANGING:
            self.event("invalidated", areas=["all"])
        return told.getvalue().rstrip()

    def on_completions(self, given: Arguments) -> Any:
        last = re.split(r"[\s\[]", given["text"][:given["column"] - 1])[-1]
        names = [*SHOWING, *CHANGING, *self.on.source.names, *self.on.source.constants]
        return {"targets": [{"label": name, "length": len(last), "start": given["column"] - 1 - len(last)}
                            for name in names if name.startswith(last)]}

    def reference(self, text: str, offset: int = 0) -> tuple[int, int]:
        """A partition and an address; without a partition it is the one that was looked at last."""
        first, colon, rest = text.partition(":")
        part = int(first) if colon else self.frames[0][1] if self.frames else 1
        return part, (int(rest if colon else first, 0) + offset) % (1 << 32)

    def on_read_memory(self, given: Arguments) -> Any:
        """Words as bytes, up to the first page that isn't there."""
        text, offset, count = given["memoryReference"], given.get("offset", 0), given["count"]
        found = re.fullmatch(r"f(\d+):(\d+)", text)
        begin = 4 * int(found[2]) + offset if found else self.reference(text, offset)[1]
        data = b""
        while len(data) < count:
            address = begin + len(data)
            frame = self.frame_at(text, address)
            if found:
                frame = int(found[1]) if 0 <= address < PAGE else None
            if frame is None:
                break
            page = b"".join(word.to_bytes(4, "little") for word in self.on.states.words(frame))
            data += page[address % PAGE:]
        data = data[:count]
        return {"address": hex(begin), "data": base64.b64encode(data).decode(), "unreadableBytes": count - len(data)}

    def frame_at(self, text: str, address: int) -> int | None:
        if text.startswith("f") or not 0 <= address < 1 << 32:
            return None
        word = self.on.word_at(self.reference(text)[0], address)
        return word[0] if word else None

    def on_disassemble(self, given: Arguments) -> Any:
        part, address = self.reference(given["memoryReference"], given.get("offset", 0))
        first = address + 4 * given.get("instructionOffset", 0)
        return {"instructions": [self.disassembled(part, (first + 4 * k) % (1 << 32))
                                 for k in range(given["instructionCount"])]}

    def disassembled(self, part: int, address: int) -> Variable:
        place = self.on.word_at(part, address)
        if place is None:
            return {"address": f"0x{address:08x}", "instruction": "no page", "presentationHint": "invalid"}
        word = self.on.states.words(place[0], place[1], 1)[0]
        told = {"address": f"0x{address:08x}", "instruction": self.on.instruction(word),
                "instructionBytes": f"{word:08x}", "symbol": self.on.source.nearest(place)}
        where = self.location(part, address)
        return {**told, **({"location": where["source"], "line": where["line"]} if where else {})}


def limits(given: Arguments) -> tuple[str | None, int]:
    """Of a stop its condition, and the time at which it stops a run."""
    times = given.get("hitCondition") or "1"
    ensure(times.strip().isdecimal(), f"a hit count is a number, the time at which it stops a run, and not {times!r}")
    return given.get("condition") or None, int(times)


def variable(name: str, value: str, reference: int = 0, **more: Any) -> Variable:
    return {"name": name, "value": value, "variablesReference": reference, **more}


def main() -> None:
    parser = argparse.ArgumentParser(description="The Debug Adapter Protocol over standard streams, for editors.")
    calling.take_program(parser)
    given = parser.parse_args()
    sink = wire.own_output()
    calling.guarded("debug_adapter", lambda: Adapter(sys.stdin.buffer, sink, given.program).serve())
