"""The site's rendering and its faults: what is wrong in a document stops the build."""

from __future__ import annotations

import importlib.util
import re
import unittest
from html.parser import HTMLParser
from pathlib import Path

from check import links
from common.calling import REPOSITORY, Failed
from . import known, rendering, runnable, searching, site
from .runnable import Kind

HAS_PACKAGES = all(importlib.util.find_spec(name) for name in ("markdown_it", "pygments"))
# of a document's text
NOT_SHOWN = re.compile(r"!\[[^\]]*\]\([^)]*\)|\]\([^)\s]*\)|^\s*\d+\. |^```.*$|^<!--.*-->$", re.MULTILINE)


class Reader(HTMLParser):
    """The text of a page, with its anchors, and which elements are open."""

    def __init__(self, text: str) -> None:
        super().__init__()
        self.text, self.ids = "", []                # type: str, list[str]
        self.open: list[str] = []
        self.feed(text)

    def handle_starttag(self, tag: str, attrs: list[tuple[str, str | None]]) -> None:
        self.ids += [value for name, value in attrs if name == "id" and value]
        self.open.append(tag)

    def handle_startendtag(self, tag: str, attrs: list[tuple[str, str | None]]) -> None:
        """One that is empty, as a picture."""

    def handle_endtag(self, tag: str) -> None:
        if self.open.pop() != tag:
            raise AssertionError(f"{tag} ends where another element is open")

    def handle_data(self, data: str) -> None:
        self.text += data


def letters(text: str) -> list[str]:
    """The letters and digits of a text, without its marks."""
    return re.findall(r"[^\W_]", text)


def body(text: str) -> str:
    return rendering.rendered(text, lambda _, line, code: rendering.block(code, "pip"), str, lambda *_: "").body


@unittest.skipUnless(HAS_PACKAGES, "no markdown-it-py and Pygments")
class Documents(unittest.TestCase):
    def test_elements_are_closed_no_word_is_lost_and_headings_have_the_anchors_that_links_name(self) -> None:
        for path in site.documents():
            text = (known.TOP / path).read_text(encoding="utf-8")
            reader = Reader(body(text))
            self.assertEqual(reader.open, [], path)
            self.assertEqual(letters(reader.text), letters(NOT_SHOWN.sub("", text)), path)
            anchors = [name[len(rendering.PREFIX):] for name in reader.ids]
            self.assertEqual(sorted(anchors), sorted(links.headings(str(known.TOP / path))), path)

    def test_a_link_that_leads_nowhere_is_wrong(self) -> None:
        made = site.Site()
        self.assertEqual(made.led("docs/MODEL.md", "TUTORIAL.md#answers"), "TUTORIAL.html#h-answers")
        self.assertEqual(made.wrong, [])
        made.led("docs/MODEL.md", "NOTHING.md")
        made.check_links([site.Page("a.html", "A", '<a href="b.html#h-gone">b</a>'),
                          site.Page("b.html", "B", '<h1 id="h-here">B</h1>')])
        self.assertEqual(made.wrong, ["docs/MODEL.md: NOTHING.md isn't there", "a.html: b.html#h-gone leads nowhere"])

    def test_the_syntaxes_of_editors_colour_what_is_shown(self) -> None:
        made = rendering.coloured("# a\nld 0 0x400000\nx:\n", "pip")
        self.assertEqual(made, '<span class="c"># a</span>\n<span class="k">ld</span> <span class="m">0</span> '
                               '<span class="m">0x400000</span>\n<span class="nl">x:</span>\n')

    def test_a_package_that_is_missing_is_named(self) -> None:
        rendering.NEEDED["no_such"] = "python3-no"
        self.addCleanup(rendering.NEEDED.pop, "no_such")
        with self.assertRaisesRegex(Failed, "^[^ ]+ has no no_such: install Debian's python3-no, and take /usr/bin/"):
            rendering.needed("no_such")


class Blocks(unittest.TestCase):
    def told(self, *lines: str, path: str = "docs/A.md") -> list[tuple[int, Kind | None]]:
        return [(block.line, block.kind) for block in runnable.blocks(path, "\n".join(lines) + "\n")]

    def test_each_kind_is_told_by_its_text_the_line_above_it_or_its_mark(self) -> None:
        for kind, *lines in ((Kind.SCRIPT, "boot 16 1 → boot 16 1"), (Kind.PROGRAM, ".frames 16"),
                             (Kind.SESSION, "$ ./pip script < examples/first.pip", "boot 32 1"),
                             (Kind.SESSION, "./pip asm < a.s > a.img"), (Kind.COMMANDS, "./pip asm < a.s   its image"),
                             (Kind.COMMANDS, "$ tools/every a.s 10", "yes"), (Kind.COMMANDS, "git clone . a"),
                             (None, "what is this")):
            self.assertEqual(self.told("So", "", *(f"    {line}" for line in lines)), [(3, kind)], lines)
        for mark, kind in (("output of ./lab every 100", Kind.OUTPUT), ("menu", Kind.MENU), ("grammar", Kind.PLAIN),
                           ("text", Kind.PLAIN), ("other", None)):
            self.assertEqual(self.told("So", "", f"<!-- {mark} -->", "    what is this"), [(4, kind)], mark)
        self.assertEqual(self.told("```", "a → b", "```", "- item", "", "  no block", "", "      ./pip run 1 1 < a"),
                         [(1, Kind.SCRIPT), (8, Kind.SESSION)])

    def test_what_is_no_part_of_its_file_is_refused(self) -> None:
        document = runnable.Document(Path(REPOSITORY), "docs/TUTORIAL.md")
        at = next(k for k, block in enumerate(document.blocks) if block.kind is Kind.SCRIPT and block.is_part)
        document.text = document.text.replace("peek 6 2", "peek 6 3")
        document.blocks = runnable.blocks(document.path, document.text)
        with self.assertRaisesRegex(runnable.Wrong, "this is no part of examples/tutorial/03_tables.pip"):
            document.runs(at)


class Search(unittest.TestCase):
    def test_a_word_of_a_title_weighs_more_than_many_of_a_text(self) -> None:
        self.assertEqual(searching.weights("A frame", "page page page 0x10"), {"page": 3, "frame": 20})
