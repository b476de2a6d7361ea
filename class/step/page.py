"""The page: its data, as few times as they differ, in page.html with page.css and page.js."""

from __future__ import annotations

import html
import itertools
import json
import re
from pathlib import Path
from typing import Any

from common import meanings
from . import states, walk

FILES = r"/\* ([a-z]+\.(?:css|js)) \*/|<!-- ([a-z]+\.html) -->"      # where another file stands


class Once:
    """Values that come again and again, each kept once and named by its place."""

    def __init__(self) -> None:
        self.values: list[Any] = []
        self.places: dict[str, int] = {}

    def place(self, value: object) -> int:
        key = json.dumps(value)
        if key not in self.places:
            self.places[key] = len(self.values)
            self.values.append(value)
        return self.places[key]


class Frames:
    """The words of each frame: from which step on which."""

    def __init__(self) -> None:
        self.contents = Once()
        self.found: dict[int, list[list[int]]] = {}
        self.last: walk.Words = {}

    def take(self, at: int, words: walk.Words) -> None:
        for frame in set(words) | set(self.last):
            told = words.get(frame, {})
            if told is not self.last.get(frame) and told != self.last.get(frame, {}):
                place = self.contents.place({index: told[index] for index in sorted(told)})
                self.found.setdefault(frame, []).append([at, place])
        self.last = words


def data(title: str, found: list[states.State]) -> dict[str, Any]:
    partitions, trees, grids, registers = Once(), Once(), Once(), Once()
    frames = Frames()
    steps: list[dict[str, Any]] = []
    before: states.State | None = None
    places: dict[str, Any] = {}
    for at, state in enumerate(found):
        frames.take(at, state.words)
        if before is None or state.tree is not before.tree:
            places = {"tree": trees.place([partitions.place(told_partition(x)) for x in state.tree]),
                      "grid": grids.place(runs(walk.grid(state.frames, state.tree)))}
        steps.append(dict(places, place=state.place, told=state.told, did=state.did, remarks=state.remarks,
                          answer=state.answer,
                          cpus=[[name, None if r is None else registers.place(r)] for name, r in state.cpus],
                          changed=states.changes(before, state) if before else []))
        before = state
    return {"title": title, "frames": found[0].frames, "partitions": partitions.values, "trees": trees.values,
            "grids": grids.values, "registers": registers.values, "steps": steps, "contents": frames.contents.values,
            "words": frames.found, "calls": told_calls(),
            "statuses": [name for name, _ in meanings.STATUSES.values()]}


def told_calls() -> dict[int, list[Any]]:
    """Of each call by its number its name, and its arguments as FORMATS.md has them."""
    made: dict[int, list[Any]] = {}
    for number, (name, arguments) in meanings.CALLS.items():
        parts = arguments.split(": ")[-1].split(", ")
        made[number] = [name, [] if parts == ["none"] else parts]
    return made


def told_partition(x: walk.Partition) -> dict[str, Any]:
    return {"name": x.name, "up": x.up, "depth": x.depth, "born": x.born, "masked": x.masked, "pending": x.pending,
            "directories": x.directories, "lists": x.lists,
            "tables": {table.index: [table.frames, table.entries] for table in x.tables},
            "rows": [list(row) for row in x.rows]}


def runs(kinds: list[tuple[str, int]]) -> list[list[int | str]]:
    """Equal neighbours together: kind, partition, how many."""
    return [[kind, name, len(list(group))] for (kind, name), group in itertools.groupby(kinds)]


def written(title: str, found: list[states.State]) -> str:
    """The page as a text. Its data can't end the script in which they stand: each `<` is written as an escape."""
    told = json.dumps(data(title, found), separators=(",", ":"), ensure_ascii=True).replace("<", "\\u003c")
    return filled("page.html", {"TITLE": html.escape(title, quote=True), "/* data */": told})


def filled(name: str, told: dict[str, str]) -> str:
    """A file of this folder with each mark replaced: those of `told`, and names of other files."""
    marks = "|".join(map(re.escape, told))
    return re.sub(f"{FILES}|{marks}", lambda found: told[found[0]] if found[0] in told else filled(
        found[1] or found[2], told), Path(__file__).with_name(name).read_text(encoding="utf-8"))
