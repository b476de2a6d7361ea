"""Tests of the menu of every exit, and of what is said of it."""

import unittest

from common.machine import against
from common.machine.model import HANDLERS, PAGE, Row
from . import every_program
from .every_program import LeftOut


def left_out() -> LeftOut:
    out = LeftOut()
    out.own, out.pages = {28, 44}, {36, 37}
    out.rows = {name: {0x40000: Row(37, 5), HANDLERS // PAGE: Row(36, 7)} for name in (28, 44)}
    out.entries = {(28, 63): {0xfffff400}}
    return out


class Menus(unittest.TestCase):
    def test_it_has_every_exit(self) -> None:
        menu = against.menu_of(every_program.text_of(left_out().menu()))
        events = {(deed.word, *deed.numbers) for deed in menu.deeds}
        self.assertEqual(len(menu.deeds), len(events))
        self.assertLessEqual({("trap", vector, 0, 0) for vector in (0, 6, 14, 17, *range(64, 256))}, events)
        self.assertLessEqual({("call", 8, 0, vector, 256) for vector in range(256)}, events)
        self.assertLessEqual({("st", 0xfffff0fc, word) for word in (0, 0x40000000, 0xfffff400)}, events)
        self.assertEqual(len(events), 196 + 256 + 3)

    def test_it_leaves_out_what_it_says(self) -> None:
        out = against.menu_of(every_program.text_of(left_out().menu())).out
        self.assertEqual(out, {b"any": [(28,), (44,)], b"free": [(36,), (37,)], b"seen": [], b"entry": [(28, 63)],
                               b"row": [(28, 0x40000, 37, 5), (28, 0xfffff, 36, 7)]})
        self.assertTrue(left_out().has(36, 62))
        self.assertFalse(left_out().has(36, 63) or left_out().has(35, 62))

    def test_a_block_over_an_entry_is_alone(self) -> None:
        words = (0, 0xfffff402, 0xfffffff0, 0x40000000, 0xfffff000, 0xfffff400, 0xfffff0fc, 0xfffff0bc)
        self.assertEqual([left_out().class_of(28, word) for word in words],
                         [0, 0, 0, 1, 2, 2, 3 + 0xfffff0fc, 3 + 0xfffff0bc])

    def test_what_programs_may_not_do_is_said(self) -> None:
        self.assertEqual(every_program.programs_of(left_out()),
                         "whatever the programs of 28 and 44 are, as long as they write to pages 36 and 37 alone; "
                         "no block of theirs lies over an entry of a handler table")
