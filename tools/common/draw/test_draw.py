"""What the check `pictures` doesn't show of the drawings: other texts, other frames, and what isn't there. The check
`unit-tests` runs these tests."""

import unittest
import xml.dom.minidom

from common import calling
from common.machine import runs, script
from . import frames, pictures, texts, translation

# The root of 32 frames with a child in frame 13, whose page table in frame 18 has the root's page 21 at 0x10000000.
WORLD = script.ended(b"boot 32 1\ncall 0 0 0x401000 0x402000 0x403000 0x404000 0x405000\nst 0 0x406000 0x407000\n"
                     b"st 0 0x407000 0x408000\ncall 0 3 0x401000 0x10000000 0x406000\n"
                     b"call 0 5 0x409000 0x401000 0x10000000 3\n")[2]
assert WORLD is not None
TREE, CORE = ("\n".join([*lines(WORLD.tree), "end 0"]) for lines in (runs.tree_lines, runs.core_lines))


def words(drawing: str) -> list[str]:
    document = xml.dom.minidom.parseString(drawing)
    return [node.firstChild.data for node in document.getElementsByTagName("text")]


class Draw(unittest.TestCase):
    def test_other_texts_are_refused(self) -> None:
        root, child = texts.partitions(TREE)
        self.assertEqual((root.pages[1].use, child.pages[0].frame), ("desc", 21))
        for text in ("", "bad line 1", "row 0 1 rwx user free", TREE.replace("user free", "shown free"),
                     TREE.replace(" rows ", " ")):
            self.assertRaises(texts.Misread, texts.partitions, text)
        for text in ("part 1", "0000: 1 2", CORE.replace("frame 1\n", "", 1)):
            self.assertRaises(texts.Misread, texts.memory, text)

    def test_a_handler_that_is_there_and_one_that_is_not(self) -> None:
        memory = texts.memory(CORE)
        memory[31] = {65: 0xFFFFF400, 66: 0xFFFFF402, 256: 0x400100, 272: 7}
        shown = words(pictures.draw_handler(memory, 1, 65))
        for word in ("0xfffff104", "0xfffff400", "0x00400100", "pc", "0xfffff440", "0x00000007", "r15"):
            self.assertIn(word, shown)
        for vector in (66, 67):
            shown = words(pictures.draw_handler(memory, 1, vector))
            self.assertIn("the entry is the address of no block: there is no handler", shown)
        self.assertEqual([frames.block(memory, 1, at) for at in (0xFFFFF000 + 4032, 0x20000000)], [None, None])

    def test_what_is_not_there_is_said(self) -> None:
        for address, told in ((0x10001000, "no page: unmapped"), (0x20000000, "no table: unmapped"),
                              (0x10000008, "frame 21, rw-, visible")):
            self.assertIn(told, words(translation.draw_address(texts.memory(CORE), 13, address)))

    def test_a_page_table_alone_is_drawn(self) -> None:
        self.assertIn("page table of partition 13", " ".join(words(pictures.draw_page_table(texts.memory(CORE), 18))))
        self.assertRaises(calling.Failed, pictures.draw_page_table, texts.memory(CORE), 17)
