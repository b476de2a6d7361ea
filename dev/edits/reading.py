"""Edits that put a wrong body into a crate: files of `must-fail/`, which the gate tries, and the blocks of the crate's
file in dev/edits/tried/."""

from __future__ import annotations

import os
from collections.abc import Iterator
from dataclasses import dataclass
from pathlib import Path

from common.blocks import parted

# The kinds of edits: those of the gate, those that the check drawn-edits tries always, now and then, and never
GATE, ALWAYS, TRIED, ADMITTED = "must-fail", "always", "tried", "admitted"
KEPT = os.path.join("dev", "edits", "tried")


class NotApplied(Exception):
    """Why an edit doesn't apply to the sources, as a sentence."""


@dataclass(frozen=True)
class Change:
    """In a file of the crate a part of one line, which occurs once, becomes another text."""

    path: str
    old: str
    new: str


@dataclass(frozen=True)
class Edit:
    crate: str
    kind: str
    name: str
    changes: tuple[Change, ...]

    @property
    def place(self) -> str:
        """The file in which it is, with its name, as messages have it."""
        if self.kind == GATE:
            return f"crates/{self.crate}/{GATE}/{self.name}.edit"
        return f"{KEPT}/{self.crate}.txt, {self.name}"


def read_changes(text: str) -> tuple[Change, ...]:
    """The changes of an edit: lines `file: PATH`, `old: TEXT` and `new: TEXT`; no other line is read."""
    path = old = ""
    changes = []
    for line in text.split("\n"):
        if line.startswith("file: "):
            path = line[len("file: "):].strip()
        elif line.startswith("old: "):
            old = line[len("old: "):]
        elif line.startswith("new:"):
            changes.append(Change(path, old, line[len("new: "):]))
            old = ""
    return tuple(changes)


def kept_edits(crate: str, text: str) -> Iterator[Edit]:
    """The edits of a crate's file: a block each, whose title is `NAME`, `NAME: always` where each commit tries it, or
    `NAME: admitted` where the contracts admit it."""
    for title, lines in parted(text).items():
        name, _, mark = title.partition(": ")
        yield Edit(crate, mark if mark in (ALWAYS, ADMITTED) else TRIED, name, read_changes(lines))


def edits_of(top: str, crate: str) -> Iterator[Edit]:
    """The edits of a crate, those of the gate first."""
    place = Path(top, "crates", crate, GATE)
    for path in sorted(place.glob("*.edit")):
        yield Edit(crate, GATE, path.stem, read_changes(path.read_text(encoding="utf-8")))
    kept = Path(top, KEPT, f"{crate}.txt")
    if kept.is_file():
        yield from kept_edits(crate, kept.read_text(encoding="utf-8"))


def all_edits(top: str) -> Iterator[Edit]:
    """The edits of all crates."""
    kept = {path.stem for path in Path(top, KEPT).glob("*.txt")}
    for crate in sorted(kept.union(os.listdir(os.path.join(top, "crates")))):
        yield from edits_of(top, crate)


def edited(top: str, edit: Edit) -> dict[str, str]:
    """The texts, by path in the crate, that an edit makes of the sources of a repository."""
    texts: dict[str, str] = {}
    for change in edit.changes:
        if change.path not in texts:
            try:
                texts[change.path] = Path(top, "crates", edit.crate, change.path).read_text(encoding="utf-8")
            except OSError:
                raise NotApplied(f"there is no file {change.path or 'named'}") from None
        text = texts[change.path]
        count = text.count(change.old) if change.old else 0
        if count != 1:
            raise NotApplied(f"{change.old.strip()!r} occurs {count} times in {change.path}")
        if change.old == change.new:
            raise NotApplied(f"{change.old.strip()!r} is replaced by itself")
        texts[change.path] = text.replace(change.old, change.new)
    if not texts:
        raise NotApplied("it changes nothing")
    return texts
