"""Tests of what dev/tried says, without the prover."""

import unittest

from common.blocks import blocks
from common.calling import REPOSITORY, Failed
from . import tried
from .reading import ADMITTED, GATE, TRIED, Change, Edit, NotApplied, edited, kept_edits

SAID = blocks("said.txt", __file__)
SOURCE = SAID.pop("source").split("\n")
SAID_OF_ONE = """# a remark
{name}
    does: it is two
    file: src/lib.rt\x20
    old:   1
    new:   2
    old: 3
    new:
"""


class Tried(unittest.TestCase):
    def test_only_lines_of_an_edit_are_read_and_it_changes_a_file(self) -> None:
        text = SAID_OF_ONE.format(name="it_is_two") + SAID_OF_ONE.format(name="it_is_more: admitted")
        changes = Change("src/lib.rt", "  1", "  2"), Change("src/lib.rt", "3", "")
        self.assertEqual(list(kept_edits("pip_one", text)), [
            Edit("pip_one", TRIED, "it_is_two", changes), Edit("pip_one", ADMITTED, "it_is_more", changes)])
        for none in ((), (Change("src/none.rt", "1", "2"),), (Change("src/lib.rt", "", "2"),)):
            self.assertRaises(NotApplied, edited, REPOSITORY, Edit("pip_base", TRIED, "it_has_no_file", none))

    def test_the_function_of_a_line(self) -> None:
        for text, function in (("self.used = 0", "Cache::empty"), ("steps.tick()", "count"), ("        0", ""),
                               ("LAST: u32", None)):
            self.assertEqual(tried.function_at(SOURCE, text), function)

    def test_verdicts(self) -> None:
        for told, text in SAID.items():
            self.assertTrue(tried.verdict(text).startswith(told), tried.verdict(text))
        self.assertRaises(Failed, tried.verdict, "rt: pip_base: killed\n")
        for kind, verdict, is_due in ((TRIED, "refused: returns", True), (TRIED, "passes", False),
                                      (GATE, "refused, but names were lost: it", False), (ADMITTED, "passes", True)):
            self.assertEqual(tried.is_due(kind, verdict), is_due)
