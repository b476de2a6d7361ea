"""Tests of the tools for authors, without the program, by the cases of cases.txt. The check `unit-tests` runs them."""

from __future__ import annotations

import os
import tempfile
import unittest
from collections.abc import Iterator

from common import calling
from common.blocks import blocks, escaped
from common.machine import against, assembly
from . import asmx, why

CASES = blocks("cases.txt", __file__)
HEAD = ".frames 64\n.cpus 1\n.page 0x400000\n"


def rows(title: str) -> Iterator[tuple[bytes, str]]:
    """The lines of a block: a text, and what is said of it."""
    for line in CASES[title].splitlines():
        text, _, due = line.partition(" => ")
        yield escaped(text), due


def processed(text: str, **more: str) -> tuple[list[str], str]:
    """The assembly lines of a source after those that each has, with further files beside it, and its menu."""
    with tempfile.TemporaryDirectory() as place:
        for name, inner in {**more, "main": HEAD + text}.items():
            calling.write(os.path.join(place, name), inner.encode())
        lines, found = asmx.processed(os.path.join(place, "main"))
    return [line for _, line in lines[3:]], asmx.text_of(found.menu).decode()


class Preprocessor(unittest.TestCase):
    def refused(self, text: str) -> list[str]:
        """What is wrong with a source, from the number of the line on."""
        with self.assertRaises(asmx.Wrong) as found:
            processed(text)
        return [line.rpartition("/main:")[2] for line in str(found.exception).split("\n")]

    def test_what_a_source_becomes(self) -> None:
        for title, text in CASES.items():
            source, _, due = text.partition("=>\n")
            if title.startswith("becomes: "):
                self.assertEqual(processed(source)[0], due.splitlines(), title)
        source, _, due = CASES["has the menu"].partition("=>\n")
        self.assertEqual(processed(source), (["at:", "out r1"], due))
        self.assertEqual(processed(".include inner\nout r2\n", inner="out r1\n")[0], ["out r1", "out r2"])

    def test_what_is_refused(self) -> None:
        for text, due in rows("sources"):
            place, told = due.split(" ", 1)
            with self.subTest(due=due):
                found = self.refused(text.decode())[0]
                self.assertTrue(found.startswith(place) and told in found, found)

    def test_all_wrong_lines_are_told_in_their_order(self) -> None:
        source, _, due = CASES["is refused"].partition("=>\n")
        self.assertEqual(self.refused(source), due.splitlines())
        self.assertEqual(self.refused("j gone\n" * 23)[20:], ["and 3 lines more"])

    def test_what_is_most_likely_wrong(self) -> None:
        source, _, due = CASES["has the warnings"].partition("=>\n")
        with tempfile.TemporaryDirectory() as place:
            path = os.path.join(place, "main")
            calling.write(path, (HEAD + source).encode())
            told = [str(warning).rpartition("/main:")[2] for warning in asmx.processed(path)[1].warnings()]
        self.assertEqual(told, due.splitlines())

    def test_limits(self) -> None:
        self.assertIn("there are 1024 deeds before", self.refused(".may each ld 0\n" * 1025)[0])
        self.assertIn("there are 16 labels before", self.refused(".again x\n" * 17)[0])
        self.assertIn("more than 120 bytes", self.refused("add" + " r1" * 40)[0])
        with self.assertRaisesRegex(calling.Failed, "more than 64 files are included"):
            processed(".include one\n" * 64, one="li r1 1\n")


class Reasons(unittest.TestCase):
    def test_why_a_line_is_bad(self) -> None:
        """The last line of each text, after the first lines of its kind."""
        def last(text: bytes) -> tuple[int, str]:
            return text.count(b"\n"), ""

        for title, kind, judge, first in (
                ("scripts", why.SCRIPT, last, "boot 32 1\n"), ("first lines of scripts", why.SCRIPT, last, ""),
                ("menus", why.MENU, why.by_reference(against.menu_of), "each ld 0\n"),
                ("assembly texts", why.ASSEMBLY, why.by_reference(assembly.assemble), HEAD)):
            for line, due in rows(title):
                lines = [*first.encode().splitlines(), line]
                place, _, cause = next(why.bad_lines(kind, judge, lines))
                self.assertEqual(place, len(lines))
                self.assertTrue(f"{cause.name} {cause.column}: {cause.here}".startswith(due), (line, due))
