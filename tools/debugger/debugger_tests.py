"""The process and the debugger beside the program and the reference; back as forward; changes, ways, and a session of
the terminal."""

from __future__ import annotations

import os
import random
import subprocess
import sys
import tempfile
import unittest
from collections.abc import Callable

from common import calling
from common.blocks import blocks, listed
from common.calling import Failed
from common.machine import image as images, script
from common.machine.model import World
from step import states as pages
from . import building
from .client import States
from .debugger import Debugger

PROGRAM = os.environ.get("PIP") or calling.PROVED
EXAMPLES = os.path.join(calling.REPOSITORY, "examples")
MONITOR, RETRY, GUESTS = (os.path.join(EXAMPLES, name) for name in ("monitor.s", "retry.s", "two_guests.s"))
RACE = os.path.join(calling.REPOSITORY, "tools", "authors", "race.asmx")
FIRST = os.path.join(EXAMPLES, "first.pip")
SCRIPTS = ("first.pip", "rights.pip", "lines_and_siblings.pip", os.path.join("tutorial", "07_grandchild.pip"))
LONGEST = 2000                   # steps of a comparison
Edit = tuple[object, ...]
TEXTS = blocks("debugger.txt", __file__)


def script_world(text: bytes, last: int) -> World:
    """The reference's world after the first lines of a script."""
    told = script.Script()
    for number, line in enumerate(script.lines(text), 1):
        if number <= max(last, 1) or told.world is None:
            told.line(line)
    assert told.world
    return told.world


class WithStates(unittest.TestCase):
    def setUp(self) -> None:
        self.states = States(building.STATES.path())
        self.addCleanup(self.states.end)

    def has_registers_of(self, world: World, *told: object) -> None:
        due = [(at.name, at.context.pc, list(at.context.registers)) if at else None for at in world.processors]
        self.assertEqual([(at.part, at.pc, list(at.registers)) if at else None for at in self.states.registers()], due,
                         told)


class Compared(WithStates):
    """States in random order: tree, core and lines are the program's, registers the reference's."""

    def test_runs(self) -> None:
        drawn = random.Random(1)
        for path in (MONITOR, RETRY, GUESTS, RACE):
            seed = drawn.randrange(1, 1 << 32)
            debugger = Debugger(PROGRAM, self.states, path, f"seed {seed}", drawn.choice([1, 7, 100, 10_000]))
            for _ in range(8):
                step = drawn.randrange(drawn.choice([50, LONGEST]))
                self.states.go(step)
                self.assertEqual(debugger.differing(), "")
                due = calling.text_of(PROGRAM, ["run", str(step), str(seed)], debugger.data)[1:-1]
                self.assertEqual(self.states.trace(0, step), due)
                self.of_reference(debugger, seed, step)

    def of_reference(self, debugger: Debugger, seed: int, step: int) -> None:
        image = images.read(debugger.data)
        world = images.world(image)
        made = [turn for turn, _ in pages.taken(image, world, step, seed)]
        self.has_registers_of(world)
        turn = self.states.turn()
        if turn and made[-1].did:
            self.assertEqual((turn.part, turn.pc), made[-1].where)

    def test_scripts(self) -> None:
        """Lines as steps: the answers are the program's, registers and trees the reference's, in any order."""
        drawn = random.Random(3)
        for name in SCRIPTS:
            path, every_step = os.path.join(EXAMPLES, name), drawn.choice([1, 3, 10_000])
            debugger = Debugger(PROGRAM, self.states, path, every_step=every_step)
            end = len(debugger.events)
            for step in [end, 0, *(drawn.randrange(end + 1) for _ in range(6))]:
                self.states.go(step)
                self.assertEqual(debugger.differing(), "", (name, step))
                world = script_world(debugger.data, debugger.events[step - 1].line if step else 0)
                self.has_registers_of(world, name, step)
                self.assertEqual(sorted(part.name for part in debugger.partitions()), sorted(world.tree.nodes))

    def test_monitors_outside_the_machine(self) -> None:
        """The lines of `native` and `slots`, forward and back."""
        for schedule in ("native 1", "native 2", "native 8", "slots 2 5", "slots 3 0", "slots 8 40"):
            debugger = Debugger(PROGRAM, self.states, GUESTS, schedule, 100)
            for step in (1500, 3, 0, 777, 776, 1):
                self.states.go(step)
                self.assertEqual(debugger.differing(), "", (schedule, step))
        self.assertRaises(Failed, Debugger, PROGRAM, self.states, RETRY.replace("retry.s", "tutorial/11_sum.s"),
                          "native 8")


class BackAsForward(WithStates):
    """Where a run goes back to is the last state at which it was stopped on its way forward."""

    def test_all_stops(self) -> None:
        drawn, states = random.Random(1), self.states
        for path in (MONITOR, RETRY, RACE):
            debugger = Debugger(PROGRAM, states, path, f"seed {drawn.randrange(1, 1000)}", drawn.choice([3, 50, 400]))
            for stops in self.some_stops(debugger, drawn):
                self.compare(states, stops, drawn)

    def some_stops(self, debugger: Debugger, drawn: random.Random) -> list[list[str]]:
        names = [one for one in debugger.source.names.values() if one.word[1] < 1024]
        found = [["line 1 call"], ["idle"], [f"turn_of {debugger.states.cpus - 1}"]]
        for _ in range(6):
            name, other = drawn.choice(names), drawn.choice(names)
            at = f"break 1 place {name.word[0]}:{name.word[1]}"
            watched = f"watch 2 word {other.word[0]}:{other.word[1]} 1"
            found += [[at], [watched], [f"watch 4 address 1 {other.address} 2"], [at, watched, "line 3 out"],
                      [f"watch 5 register {drawn.choice([1, 28])} {drawn.randrange(17)} 1"]]
        return found

    def compare(self, states: States, stops: list[str], drawn: random.Random) -> None:
        end = 1500
        states.go(0)
        found = []
        while states.now.step < end:
            now = states.run(end, stops)
            if now.stops:
                found.append((now.step, now.stops))
        for _ in range(10):
            here = drawn.randrange(1, end + 1)
            states.go(here)
            now = states.back(1, stops)
            before = [one for one in found if one[0] < here]
            self.assertEqual((now.step, now.stops), before[-1] if before else (1, []), (here, stops))


class Walks(unittest.TestCase):
    """However a state was reached, it is the one that a new process reaches straight on, with the same changes by
    hand."""

    def test_random_walks(self) -> None:
        drawn = random.Random(7)
        walker, straight = States(building.STATES.path()), States(building.STATES.path())
        self.addCleanup(walker.end)
        self.addCleanup(straight.end)
        for path in (MONITOR, RETRY, RACE):
            seed = drawn.randrange(1, 1 << 32)
            Debugger(PROGRAM, walker, path, f"seed {seed}", drawn.choice([1, 13, 200]))
            edits: list[tuple[int, Edit]] = []
            for _ in range(60):
                self.move(walker, edits, drawn)
                if drawn.randrange(4) == 0:
                    self.compare(walker, straight, path, seed, edits)

    def move(self, walker: States, edits: list[tuple[int, Edit]], drawn: random.Random) -> None:
        here, step = walker.now.step, drawn.randrange(0, 2000)
        stops = [f"line 1 {drawn.choice(['call', 'out', 'switch', 'reply'])}", *["idle"] * drawn.randrange(2)]
        before = min(step, here)
        moves: list[Callable[[], object]] = [
            lambda: walker.go(step), lambda: walker.go(step), lambda: walker.run(max(step, here), stops),
            lambda: walker.back(before, stops), walker.turn, lambda: walker.changed(before),
            lambda: walker.trace(before, here), lambda: here and self.edit(walker, edits, drawn)]
        drawn.choice(moves)()

    def edit(self, walker: States, edits: list[tuple[int, Edit]], drawn: random.Random) -> object:
        cpu, word, here = drawn.randrange(walker.cpus), drawn.choice([0, 1, 0x400000, 0xFFFFFFFF]), walker.now.step
        some: list[Edit] = [("seed", drawn.randrange(1, 1000)), ("plan", 0, drawn.randrange(2000), 50),
                            ("no_plan", 0), ("raise", drawn.randrange(16)),
                            ("register", cpu, drawn.randrange(17), word),
                            ("store", cpu, drawn.choice([0, 0x400002, 0x403000, 0xFFFFF000]), word)]
        edits[:] = [one for one in edits if one[0] <= here] + [(here, drawn.choice(some))]
        return walker.edit(*edits[-1][1])

    def compare(self, walker: States, straight: States, path: str, seed: int, edits: list[tuple[int, Edit]]) -> None:
        here = walker.now.step
        Debugger(PROGRAM, straight, path, f"seed {seed}")
        for step, edit in edits:
            if step <= here:
                straight.go(step)
                straight.edit(*edit)
        straight.go(here)
        for ask in ("registers", "core", "tree", "next", "turn"):
            self.assertEqual(walker.ask(ask), straight.ask(ask), (path, here, ask, edits))


class Requests(WithStates):
    """What makes no sense is refused, and the process stays."""

    def test_refusals(self) -> None:
        self.assertRaises(Failed, self.states.ask, "go", 1)
        Debugger(PROGRAM, self.states, RACE)
        for words in listed(TEXTS["refused"].replace("RACE", RACE)):
            with self.subTest(words=words):
                self.assertRaises(Failed, self.states.ask, words.decode())
        self.assertEqual(self.states.go(100).step, 100)
        odd = ["watch 1 word 5000:0 3", "watch 2 address 999 0 3", "watch 4 word 0:4294967295 2",
               "watch 5 register 999 0 1", "watch 6 register 1 99 3", "line 3 ^ " + "* " * 40]
        self.assertEqual(self.states.run(110, odd).step, 110)


class Changes(WithStates):
    def test_plans_go_back(self) -> None:
        """And so does whether something was changed by hand."""
        Debugger(PROGRAM, self.states, MONITOR)
        self.states.go(300)
        self.states.edit("plan", 3, 400, 50)
        self.assertEqual((self.states.plans, self.states.now.edited), ([[0, 500, 40], [3, 400, 50]], True))
        self.states.go(299)
        self.assertEqual((self.states.plans, self.states.now.edited), ([[0, 500, 40]], False))
        self.assertTrue(self.states.go(401).edited)
        turn = self.states.turn()
        assert turn
        self.assertEqual((turn.step, turn.raised), (400, [3]))

    def test_check_sees_a_difference(self) -> None:
        """A program whose words are others is told apart."""
        with tempfile.TemporaryDirectory() as folder:
            other = os.path.join(folder, "other")
            with open(other, "w", encoding="utf-8") as file:
                program = calling.direct(PROGRAM)
                file.write(f'#!/bin/sh\nif [ "$1" = core ]; then "{program}" "$@" | sed "s/^0000: 0/0000: 1/"; else '
                           f'exec "{program}" "$@"; fi\n')
            os.chmod(other, 0o755)
            for program, due in ((PROGRAM, ""), (other, "core 100 1 of the program differs from what is shown here")):
                debugger = Debugger(program, self.states, MONITOR)
                debugger.checks = True
                debugger.states.go(100)
                self.assertEqual(debugger.warning(), due)

    def test_a_stop_the_nth_time(self) -> None:
        debugger = Debugger(PROGRAM, self.states, MONITOR)
        found = []
        debugger.add_break("next_turn")
        for _ in range(5):
            found.append(debugger.run(debugger.told_stops()).step)
        debugger.stops.clear()
        debugger.add_break("next_turn", after=5)
        self.states.go(0)
        self.assertEqual(debugger.run(debugger.told_stops()).step, found[4])
        self.states.go(found[4] + 1)
        self.assertEqual(debugger.back(debugger.told_stops()).step, found[0])

    def test_a_watch_follows_a_mapping(self) -> None:
        """A page that is taken away and given again at an address changes what is there; the word of the frame
        stays."""
        with tempfile.NamedTemporaryFile("w", suffix=".asmx") as file:
            file.write(TEXTS["remapped"])
            file.flush()
            debugger = Debugger(PROGRAM, self.states, file.name)
            debugger.run(debugger.told_stops(), 200)
            child = debugger.partitions()[1].name
            self.states.go(0)
            debugger.add_watch(f"{child}:0x10000000")
            steps = []
            while debugger.run(debugger.told_stops(), 200).stops:
                turn = self.states.turn()
                assert turn
                steps.append(turn.line.split(" ", 2)[2])
        self.assertEqual(steps, ["call 5 reply 0 0x00000000", "call 6 reply 0 0x00000000", "call 5 reply 0 0x00000000"])

    def test_a_watch_on_a_register(self) -> None:
        """It stops after each turn that changed the register of the partition, which ran before and after it."""
        debugger = Debugger(PROGRAM, self.states, MONITOR)
        found: dict[tuple[int, int], list[int]] = {(part, register): [] for part in (1, 28) for register in (1, 8, 16)}
        before: dict[int, list[int]] = {}
        for step in range(400):
            self.states.go(step)
            now = {at.part: [*at.registers, at.pc] for at in self.states.registers() if at}
            for part, register in found:
                if part in before and part in now and before[part][register] != now[part][register]:
                    found[part, register].append(step)
            before = now
        for (part, register), due in found.items():
            self.states.go(0)
            debugger.stops.clear()
            stop = debugger.add_watch(f"{part}:{'pc' if register == 16 else f'r{register}'}")
            steps = []
            while (told := debugger.run(debugger.told_stops(), 399)).stops:
                steps.append(told.step)
            self.assertEqual(steps, due, stop.text)
        self.states.go(200)
        self.assertEqual(debugger.add_watch("r3").text, f"{debugger.partition()}:r3")

    def test_stops_of_a_script(self) -> None:
        debugger = Debugger(PROGRAM, self.states, FIRST)
        debugger.add_break("5")
        debugger.add_line("reply")
        debugger.add_watch("0x400000")
        lines = []
        while (told := debugger.run(debugger.told_stops())).stops:
            lines.append(debugger.events[told.step - 1].line)
        self.assertEqual(lines, [3, 4, 6])
        debugger.stops.clear()
        for text, line in (("8", 8), ("5", 6), ("99", None), ("1", 3)):
            place = debugger.until(text) and debugger.next_place()
            self.assertEqual(place and place.line, line, text)
        for act in (lambda: debugger.set_seed(3), lambda: debugger.search(["10"]), lambda: debugger.take_way("0x3"),
                    lambda: debugger.add_break("99")):
            self.assertRaises(Failed, act)
        self.states.go(2)
        self.states.edit("store", 0, 0x400000, 9)
        debugger.until("9")
        self.assertEqual(self.states.words(12, 0, 1), [9])
        self.assertIn("by a change", debugger.check())
        with tempfile.NamedTemporaryFile("w", suffix=".pip") as file:
            file.write("# here\nboot 32 1\nld 0 00\n")
            file.flush()
            self.assertRaisesRegex(Failed, ":3:6: '00' is no number", Debugger, PROGRAM, self.states, file.name)

    def test_ways(self) -> None:
        """The line that `every` has for a way is shown by the last step of that way."""
        for name in ("race.asmx", "asked_again.asmx", "turns.asmx"):
            debugger = Debugger(PROGRAM, self.states, os.path.join(calling.REPOSITORY, "examples", "every", name))
            for words in (["100000"], ["100000", "after", "60", "3"]):
                search, before = debugger.search(words)
                first = debugger.take_way(before).end if before else 0
                for line in search.lines:
                    end = debugger.take_way(f"{before} {line.way}".lstrip()).end
                    self.states.go(end)
                    turn = self.states.turn()
                    assert turn
                    self.assertEqual(turn.line, f"{first + line.step} {line.cpu} {line.text}")
                self.assertTrue(search.lines)


class Typed(unittest.TestCase):
    def test_session(self) -> None:
        words = [sys.executable, "-B", os.path.join(calling.REPOSITORY, "tools", "debug"), RACE, "3", "--program",
                 calling.direct(PROGRAM)]
        done = subprocess.run(words, input=TEXTS["typed"], stdout=subprocess.PIPE, stderr=subprocess.STDOUT, text=True,
                              timeout=60)
        self.assertEqual(done.returncode, 0, done.stdout)
        for text in listed(TEXTS["said"]):
            self.assertIn(text.decode(), done.stdout)
