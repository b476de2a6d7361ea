"""What the comparison with the program, the examples and the checks don't show of the reference. The check `unit-tests`
runs these tests."""

import copy
import unittest

from common import forms
from common.machine import caches, script
from . import commands, generate, sound
from common.machine.model import World, boot_tree, list_pages


def of_script(text: bytes) -> World:
    world = script.ended(text)[2]
    assert world is not None
    return world


class Worlds(unittest.TestCase):
    def test_every_world_of_generated_scripts_is_sound_and_refusals_change_nothing(self) -> None:
        for seed in range(15):
            story = script.Script()
            for line in script.lines(generate.script(seed)):
                before = copy.deepcopy(story.world.tree) if line.startswith(b"call") and story.world else None
                try:
                    answer = story.line(line)
                except script.Bad:
                    break
                if answer and answer.startswith("reply") and not answer.startswith("reply 0"):
                    self.assertEqual(story.world and story.world.tree, before)
                if story.world:
                    self.assertTrue(sound.is_sound_world(story.world), (seed, line))

    def test_boot_trees_at_the_bounds_of_tables_and_list_pages(self) -> None:
        for frames in [*range(16, 80), 1037, 1038, 2064, 2065, 4096]:
            self.assertIsNone(sound.first_fault(boot_tree(frames)), frames)
        self.assertEqual([list_pages(m) for m in (0, 1, 170, 171, 340, 341)], [1, 1, 1, 2, 2, 3])

    def test_a_cache_is_used_and_a_call_that_takes_pages_empties_it(self) -> None:
        world = of_script(b"boot 128 2\ncall 0 0 0x401000 0x402000 0x403000 0x404000 0x405000\n" + b"".join(
            b"ld 0 0x%x\n" % address for address in (0x410000, 0x410000, 0x411000, 0x450000, 0x411000, 0x401000)))
        self.assertEqual([str(cache) for cache in world.caches], ["hits 2 misses 4", "hits 0 misses 0"])
        world = of_script(b"boot 64 2\nld 0 0x410000\ncall 0 0 0x401000 0x402000 0x403000 0x404000 0x405000\n")
        self.assertEqual(world.caches[0].entries, {})
        self.assertEqual([number for number in range(13) if caches.takes_pages(number, 0)], [0, 1, 4, 6])
        self.assertTrue(caches.takes_pages(3, 1))


class Texts(unittest.TestCase):
    def test_the_limit_of_bytes(self) -> None:
        rest = b"\n" * ((script.MOST - 9) % 121 - 2) + b"#\n" + (b"#" * 120 + b"\n") * ((script.MOST - 9) // 121)
        self.assertEqual(len(rest), script.MOST - 9)
        for text, due in ((rest + b"boot 32 1", (b"boot 32 1\n", 0)), (rest + b"boot 32 1\n", (b"", 6)),
                          (b"x\n" + rest + b"boot 32 1\n", (b"bad line 1\n", 2)), (rest[1:] + b"x" * 11, (b"", 6))):
            self.assertEqual(script.run(text), due)

    def test_words_that_are_no_form_and_words_that_are_one(self) -> None:
        for line in ("--help", *forms.WRONG):
            self.assertEqual(commands.pip(forms.words(line), b""), (commands.USAGE, 1), line)
        for line in forms.RIGHT:
            if not line.startswith("soak"):
                self.assertNotEqual(commands.pip(forms.words(line), b"PIPIMG1\n")[1], 1, line)
