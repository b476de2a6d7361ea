"""The order of the house: no line is too wide, each public definition of specs has a remark above it, one name is one
definition's, type's or constant's, and one number names the state of all that is here."""

from __future__ import annotations

import collections
import glob
import os
import re
from collections.abc import Iterator
from pathlib import Path

from exporter import workspace
from .links import documents, without_code
from .running import REPOSITORY, Differs, ensure, folders_of, planted_for, text_of
from .sources import sources, texts

MOST = 120                              # columns of a line
# Which lines may be wider, by the ending of their file: with a text or an attribute, which `rt fmt` leaves as it is,
# and rows of tables; in a proof a text counts nothing
WIDER = {".rt": re.compile(r'"|^\s*#\['), ".md": re.compile(r"^\s*\|")}
TEXT = re.compile(r'"[^"\n]*"')
# a type or a constant of a source, but none of an impl or a trait
ITEM_LINES = re.compile(r"^(?:pub(?:\([a-z]+\))? )?(?:struct|enum|trait|type|const|static) (?!fn |_:)(\w+)",
                        re.MULTILINE)
TESTS = "pip_test_"                     # crates of tests: what a test calls its text or its steps is its file's own
DEFINITION = re.compile(r"(?:abbrev pub|unfoldable pub|pub record|pub data|pub(?=[^\s:]* :)|pub) ([^\s:(]+)")
# The operand of the form Vector: the table of instructions names a form and its operands by one word
SHARED = {("a type or a constant", "Vector")}
PLANTED = 7                             # faults of the crates that are planted


def house(program: str) -> None:
    """All is in order. That the check finds what isn't is tried first, on planted crates."""
    with planted_for("house") as place:
        if len(found := list(faults(place))) != PLANTED:
            raise Differs(f"planted crates: {found}")
    if found := list(faults(REPOSITORY)):
        raise Differs("; ".join(found))


def faults(top: str) -> Iterator[str]:
    """What is out of order in a repository."""
    places: collections.defaultdict[tuple[str, str], set[str]] = collections.defaultdict(set)
    for _, path, text in texts(top, ("specs", "proofs"), ".antt"):
        yield from wide(path, text)
        for name, is_bare in definitions(text) if os.sep + "specs" + os.sep in path else ():
            places["a definition of specs", name].add(path)
            if is_bare:
                yield f"{path}: no remark is above {name}"
    for crate, path, text in sources(top):
        yield from wide(path, text)
        for name in () if crate.startswith(TESTS) else ITEM_LINES.findall(text):
            places["a type or a constant", name].add(path)
    for folder in folders_of(top):
        for path in glob.glob(os.path.join(folder, "**", "*.py"), recursive=True):
            yield from wide(path, text_of(path))
    for path in documents(top):
        yield from wide(path, without_code(path))
    for (what, name), paths in places.items():
        if len(paths) > 1 and (what, name) not in SHARED:
            yield f"{name} is {what} in {' and '.join(sorted(paths))}"


def wide(path: str, text: str) -> Iterator[str]:
    may_be_wide = WIDER.get(os.path.splitext(path)[1])
    for line in (TEXT.sub("", text) if path.endswith(".antt") else text).split("\n"):
        if len(line) > MOST and not (may_be_wide and may_be_wide.search(line)):
            yield f"{path}: a line has more than {MOST} columns: {line[:40]}.."


def definitions(text: str) -> Iterator[tuple[str, bool]]:
    """The public definitions of a file, and whether no remark is above one."""
    before, seen = "", set()
    for line in text.split("\n"):
        found = DEFINITION.match(line)
        if found and found.group(1) not in seen:
            seen.add(found.group(1))
            if not line.startswith("pub mod "):
                yield found.group(1), not before.startswith("--")
        before = line


# One number names the state of all that is here: that of VERSION

FORM = re.compile(r"\d+\.\d+\.\d+\n")
# Which other files have it, and where
PLACES = {"CHANGELOG.md": r"^## (\S+)", "dev/bench/plain/Cargo.toml": r'^version = "(.*)"',
          "dev/bench/plain/Cargo.lock": r'name = "pip-plain"\nversion = "(.*)"',
          "tools/editors/package.json": r'^  "version": "(.*)"'}


def versions(program: str) -> None:
    """Each other place has the number, and a newest entry of CHANGELOG.md is of it. Planted texts are tried first."""
    number = text_of("VERSION")
    ensure(FORM.fullmatch(number), f"VERSION is {number!r}, and no three numbers with points between them")
    texts = {path: text_of(path) for path in PLACES}
    for path in PLACES:
        planted = {**texts, path: texts[path].replace(number.strip(), "0.0.0", 1)}
        ensure([found.split(":")[0] for found in others(number.strip(), planted)] == [path], "a planted version of "
               f"{path} isn't found")
    found = list(others(number.strip(), texts))
    if f'version = "{number.strip()}"' not in workspace.package("pip", "", Path(REPOSITORY)):
        found.append("exported crates have another")
    ensure(not found, "; ".join(found))


def others(number: str, texts: dict[str, str]) -> Iterator[str]:
    """Which texts have another number first."""
    for path, pattern in PLACES.items():
        named = re.search(pattern, texts[path], re.M)
        if not named or named[1] != number:
            yield f"{path}: {named[1] if named else 'no version'}, where VERSION says {number}"
