"""Tests of the pages to step through. The check `unit-tests` runs them."""

from __future__ import annotations

import json
import unittest
from collections.abc import Sequence

from common.draw import test_draw, texts
from . import page, states, walk


def tree_of(core: str) -> list[walk.Partition]:
    return walk.partitions(walk.of_memory(texts.memory(core)))


def state(tree: list[walk.Partition], words: walk.Words | None = None,
          cpus: Sequence[tuple[int, states.Registers]] = ((1, None),)) -> states.State:
    return states.State(1, "line", [], "done", 32, list(cpus), tree, words or {})


class Walking(unittest.TestCase):
    def test_each_frame_has_a_kind(self) -> None:
        kinds = walk.grid(32, tree_of(test_draw.CORE))
        self.assertEqual([kinds[k] for k in (0, 1, 6, 13, 14, 17, 18, 20, 21)],
                         [("none", 0), ("descriptor", 1), ("table", 1), ("descriptor", 13), ("directory", 13),
                          ("list", 13), ("table", 13), ("second", 13), ("user", 13)])


class Changes(unittest.TestCase):
    def test_partitions_pages_and_words(self) -> None:
        tree = tree_of(test_draw.CORE)
        root = tree[0]._replace(rows=[row for row in tree[0].rows if row.vpage != 0x409])
        told = states.changes(state([root], {7: {1: 5}}), state(tree, {7: {1: 6}}))
        self.assertEqual(told, ["partition 13 is new, a child of 1", "partition 1 has frame 21 at 0x00409000",
                                "frame 7, word 1: 0x00000005 \u2192 0x00000006"])

    def test_masks_lines_and_views(self) -> None:
        root = tree_of(test_draw.CORE)[0]
        rows = [row._replace(word=row.word & ~2) if row.vpage in (0x400, 0x409) else row for row in root.rows]
        told = states.changes(state([root]), state([root._replace(masked=1, pending=5, rows=rows)]))
        self.assertEqual(told, ["partition 1 is masked", "lines that wait: 0, 2",
                                "hidden for partition 1: frames 12, 21"])

    def test_processors(self) -> None:
        told = states.changes(state([], cpus=[(1, [0] * 17)]), state([], cpus=[(13, [0] * 16 + [4])]))
        self.assertEqual(told, ["processor 0 runs partition 13", "processor 0: pc = 0x00000004"])


class Contents(unittest.TestCase):
    tree = tree_of(test_draw.CORE)

    def test_frames_that_become_configuration_are_no_change_of_words(self) -> None:
        before, now = state(self.tree[:1], {13: {0: 5}}), state(self.tree, {13: {0: 6}, 21: {1: 7}})
        self.assertEqual(states.word_changes(before, now),
                         ["frame 21, word 1 (0x00409004 of partition 1): 0x00000000 \u2192 0x00000007"])


class Pages(unittest.TestCase):
    def test_what_comes_again_is_kept_once(self) -> None:
        found = state(tree_of(test_draw.CORE))
        data = page.data("title", [found, found._replace(tree=tree_of(test_draw.CORE))])
        self.assertEqual((len(data["trees"]), len(data["partitions"]), len(data["grids"])), (1, 2, 1))
        json.dumps(data)
