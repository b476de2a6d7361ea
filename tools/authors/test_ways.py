"""Tests of ways and of what tools/every says, without the program. The check `unit-tests` runs them."""

from __future__ import annotations

import os
import random
import unittest

from common import calling
from common.calling import Failed
from common.machine import against, assembly, image as images, runs, script
from reference import generate_every
from common.machine.image import Image
from debugger import searching, sources
from . import asmx, every, ways

# The root parks masked, with a number in r1; it has a block for 63, in which it is saved.
MASKED = b".frames 16\n.cpus 2\n.line 0 0 0\n.page 0x400000\nsys 10\nli r1 7\nint 64\n" \
    b".page 0xfffff000\n.zero 63\n.word 0xfffff400\n"


def source(name: str) -> Image:
    lines, _ = asmx.processed(os.path.join(calling.REPOSITORY, "examples", name))
    return images.read(assembly.assemble(asmx.text_of(lines)))


class Ways(unittest.TestCase):
    def test_choices_and_their_counts(self) -> None:
        race = source("every/race.asmx")
        turn, line = ways.Choice(1), ways.Choice(0, True)
        self.assertEqual(ways.read(race, "1x2 raise0 1"), [turn, turn, line, turn])
        for text in ("2", "x2", "0 x1", "raise", "0  1", "1x", "0x1000001", ""):
            self.assertRaises(Failed, ways.read, race, text)

    def test_generated_ways_are_made_again_and_are_scripts(self) -> None:
        for seed in (2, 4, 5, 13, 14, 21, 32):
            _, data = generate_every.case(seed)
            image, rng = images.read(data), random.Random(seed)
            moments = against.Moments(image, 0, runs.steps(image, *runs.AT_FIRST))
            choices = [rng.choice(moments.choices) for _ in range(rng.randrange(1, 60))]
            at, label = moments.start, None
            for choice in choices:
                at, label = moments.after(at, choice)
            way = ways.read(image, " ".join(map(moments.choice_text, choices)))
            self.assertEqual(ways.read(image, ways.text_of(way)), way)
            due = [f"{len(way) - 1} {label[0]} {label[1]}"] if label else []
            self.assertEqual(list(ways.made(image, way))[-1].lines, due)
            self.is_script(image, way)

    def is_script(self, image: Image, way: ways.Way, after: runs.After = runs.AT_FIRST) -> None:
        text, answers = ways.script(image, way, (), after)
        told, status = script.run(text.encode())
        self.assertEqual((told.decode().splitlines(), status), (answers, 0))

    def test_ways_with_deeds(self) -> None:
        image, menu = source("every/served.asmx"), against.menu_of(b"each trap 63 0 0\n28 st 0xfffff0fc 0\n").deeds
        for text, line, did in (("0x43 0:d1 0", "44 0 park 1 14", "each trap 63 0 0"),
                                ("0x43 0x2 raise0 0", "46 0 switch 28 1 32", "it waits"),
                                ("0x43 0:d2 0:d1", "44 0 switch 28 1 63", "28 st 0xfffff0fc 0")):
            way = ways.read(image, text, menu)
            made = list(ways.made(image, way, menu))
            self.assertEqual(made[-1].lines, [line])
            self.assertEqual(made[43].turn and made[43].turn.did, did)
            told, answers = ways.script(image, way, menu)
            self.assertEqual(script.run(told.encode()), ("".join(answer + "\n" for answer in answers).encode(), 0))
        self.assertRaises(Failed, ways.read, image, "0:d3", menu)
        self.assertRaises(Failed, ways.read, image, "0:d1")

    def test_a_root_that_parks_while_it_is_masked(self) -> None:
        image = images.read(assembly.assemble(MASKED))
        self.is_script(image, ways.read(image, "0x3"))
        self.assertIn("# no line can say this here: the root is masked", ways.script(image, ways.read(image, "0x3"))[0])


class Told(unittest.TestCase):
    LINES = ["image 16 1 0 1", "2 0 out 0x00000007: 0x3", "3 0 call 12 reply 1 0x00000000: 0x4", "4 0 park 1 64: 0x5"]

    def test_what_a_search_says(self) -> None:
        search = searching.read([*self.LINES, "states 5 depth 3 stopped", "again 0 out 0x00000005: yes",
                                 "again 1 x: no", "again 1 y: no 0x3 1:d2"])
        asked = searching.Asked(b"", b"", 5)
        told = every.told_of(search, False, every.Given(asked, (), sources.Source()))
        self.assertEqual(told[1:], [
            "   1  2 0 out 0x00000007: 0x3",
            "   2  3 0 call 12 reply 1 0x00000000: 0x4    # call 12: UnknownCall: no call has this number",
            "   3  4 0 park 1 64: 0x5    # vector 64; nobody takes it, and nothing runs there any more",
            "states 5 depth 3 stopped    # there are more than 5 states; nothing else can come by 3 choices or fewer",
            "again 0 out 0x00000005: yes    # it can come again, whatever was done",
            "again 1 x: no    # it never comes", "again 1 y: no 0x3 1:d2    # it never comes after this way"])

    def test_a_text_of_another_command(self) -> None:
        first, *rest = self.LINES
        end = "states 5 within 4"
        for lines in ([], [end], [first, "end 0"], [first, *rest], [first, "2 0 out 0x00000007", end],
                      [first, end, "again 1 x"]):
            self.assertRaises(Failed, searching.read, lines)
