"""The wrong bodies of a crate: lists them, and tries some again.

    dev/tried [NAME [EDIT ..]]

Without an edit it prints crate, kind and name of each. An edit is put into a copy of the crate, which is checked over
the libraries that the last gate built here: of the crate only the function that the edit changes. Where there are none,
the crates below are copied, too, and proved first. A line says what came of it. The status is 1 if one of them isn't
refused by a goal, or is admitted and a goal refuses it."""

from __future__ import annotations

import argparse
import os
import re
import shutil
import subprocess
import tempfile
from collections.abc import Iterator
from pathlib import Path

from common import calling
from common.calling import REPOSITORY, Failed, ensure
from exporter import crates
from .reading import ADMITTED, Edit, NotApplied, edited, edits_of

UNJUDGED, SECONDS = "no verdict", 420      # a check that takes longer is ended

TOPS = {"src/lib.rt", "src/main.rt"}       # in which a crate begins
TOLD = re.compile(r"(?:note: )?\S+?:\d+:\d+: (.*)")         # a line of the prover about a place
LOST = re.compile(r"has no field|is not in scope|has no `|was not admitted")
GOAL = re.compile(r"error: `([\w-]+)`|\(`([\w-]+)`\)")
FUNCTION = re.compile(r"(\s*)(?:pub(?:\([a-z]+\))? )?(?:const )?fn (\w+)")
TYPE = re.compile(r"impl(?:<[^{]*?>)? (\w+)(?:<.*>)?(?: \{|$)")


def main() -> None:
    calling.guarded("tried", tried)


def tried() -> int:
    parser = argparse.ArgumentParser(prog="tried",
                                     description="Lists the wrong bodies of a crate, and tries some again.")
    parser.add_argument("crate", nargs="?", metavar="NAME", help="a crate")
    parser.add_argument("edits", nargs="*", metavar="EDIT", help="names of its edits, without `.edit`")
    given = parser.parse_args()
    known = chains(REPOSITORY)
    ensure(not given.crate or given.crate in known, f"crates.txt has no crate {given.crate}")
    edits = [edit for crate in ([given.crate] if given.crate else known) for edit in edits_of(REPOSITORY, crate)]
    if not given.edits:
        for edit in edits:
            print(edit.crate, edit.kind, edit.name)
        return 0
    by_name = {edit.name: edit for edit in edits}
    for name in given.edits:
        ensure(name in by_name, f"{given.crate} has no edit {name}: dev/tried {given.crate} lists them")
    is_well = True
    for edit, outcome in outcomes([by_name[name] for name in given.edits], known[given.crate]):
        print(f"{edit.crate} {edit.name}: {outcome}", flush=True)
        is_well = is_well and is_due(edit.kind, outcome)
    return int(not is_well)


def is_due(kind: str, outcome: str) -> bool:
    """Whether an edit of this kind may have this outcome. One that is admitted may lose names: it needs a proof."""
    if kind == ADMITTED:
        return outcome == "passes" or outcome.startswith("refused, but names were lost")
    return outcome.startswith("refused: ")


def chains(top: str) -> dict[str, list[str]]:
    """Each crate with itself and those below it, as crates.txt has them."""
    found = crates.crates_of(Path(top))
    return {name: sorted(crate.name for crate in crates.chosen(found, [name])) for name in found}


def outcomes(edits: list[Edit], chain: list[str]) -> Iterator[tuple[Edit, str]]:
    """What becomes of edits of one crate, which are put into a copy of it, or of it and those below it, one after
    another."""
    with tempfile.TemporaryDirectory(prefix="pip-tried-") as place:
        name = edits[0].crate
        check = over_libraries(name, chain)
        copy_crates(place, [name] if check else chain)
        for edit in edits:
            yield edit, outcome_of(edit, os.path.join(place, "crates", name), check or ["rt", "check", "--jobs", "1"])


def over_libraries(crate: str, chain: list[str]) -> list[str] | None:
    """The command that checks a crate over libraries that the last gate built here, if they are there, and the programs
    are as new as the sources."""
    libraries = {name: Path(REPOSITORY, "crates", name, "out", "rlib") for name in chain if name != crate}
    if calling.PROVED not in calling.built(calling.LAB_WRAPPER) \
            or not all((place / f"{name}.rlib").exists() for name, place in libraries.items()):
        return None
    kit = Path(os.path.realpath(shutil.which("rt") or "rt")).parent.parent
    below = crates.crates_of(Path(REPOSITORY))[crate].uses
    top = next(path for path in sorted(TOPS) if Path(REPOSITORY, "crates", crate, path).is_file())
    places = {name: libraries.get(name, kit / "rlibs") for name in ("std", *below)}
    externs = [word for name, place in places.items() for word in ("--extern", f"{name}={place / name}.rlib")]
    found = [word for place in (kit / "rlibs", *libraries.values()) for word in ("-L", f"dependency={place}")]
    return [str(kit / "bin" / "rattle"), "check", "--crate-name", crate, top, *externs, *found,
            "--antt-project", str(kit / "rattle" / "logic" / "antt-project.json"),
            "--logic-built", str(kit / "logic_built"), "--jobs", "1"]


def outcome_of(edit: Edit, crate: str, check: list[str]) -> str:
    """What becomes of an edit in a copy of its crate, which is as it was afterwards."""
    try:
        texts = edited(REPOSITORY, edit)
    except NotApplied as why:
        return f"does not apply: {why}"
    try:
        for path, text in texts.items():
            Path(crate, path).write_text(text, encoding="utf-8")
        return judged(crate, check, place_of(edit))
    finally:
        for path in texts:
            shutil.copy2(os.path.join(REPOSITORY, "crates", edit.crate, path), Path(crate, path))


def copy_crates(place: str, chain: list[str]) -> None:
    """Copies these crates with what was proved of them, which needs the times of the files."""
    os.mkdir(os.path.join(place, "crates"))
    names = [os.path.join(REPOSITORY, "crates", name) for name in chain]
    subprocess.run(["cp", "-a", "--reflink=auto", *names, os.path.join(place, "crates")], check=True)
    shutil.copy(os.path.join(REPOSITORY, "HANDLES"), place)
    lines = Path(REPOSITORY, "crates.txt").read_text(encoding="utf-8").splitlines(keepends=True)
    kept = "".join(line for line in lines if re.split("[ :]", line)[0] in chain)
    Path(place, "crates.txt").write_text(kept, encoding="utf-8")


def place_of(edit: Edit) -> str | None:
    """What of the crate has to be checked: the function that an edit changes, the module of several or of a trait's
    function, or None for the whole crate."""
    sources = [change for change in edit.changes if change.path.startswith("src/")]
    paths = {change.path for change in sources}
    if len(paths) != 1 or paths & TOPS:
        return None
    path = paths.pop()
    lines = Path(REPOSITORY, "crates", edit.crate, path).read_text(encoding="utf-8").split("\n")
    functions = {function_at(lines, change.old) for change in sources}
    function = functions.pop() if len(functions) == 1 else ""
    if function is None:
        return None
    owner, of_type, _ = function.rpartition("::")
    module = module_of(defining(edit.crate, owner) if of_type else path)
    return f"{module}::{function}" if function else module


def module_of(path: str) -> str:
    return path[len("src/"):-len(".rt")].replace("/", "::")


def defining(crate: str, name: str) -> str:
    """The path of the file that defines a type, by which the prover names the type's functions."""
    top = Path(REPOSITORY, "crates", crate)
    files = (path for path in top.glob("src/**/*") if path.is_file())
    found = (path for path in files if re.search(rf"\b(struct|enum) {name}\b", path.read_text(encoding="utf-8")))
    return str(next((path.relative_to(top) for path in found), "src/lib.rt"))


def function_at(lines: list[str], old: str) -> str | None:
    """The function of a text, with its type; empty for a trait's, and None where the text is in no function."""
    at = next((k for k, line in enumerate(lines) if old in line), 0)
    begun = next(((k, found) for k in range(at, -1, -1) if (found := FUNCTION.match(lines[k]))), None)
    if begun is None or any(line.startswith("}") for line in lines[begun[0]:at]):
        return None
    k, found = begun
    if not found[1]:
        return found[2]
    head = next((line for line in reversed(lines[:k]) if line.startswith(("impl", "trait", "pub trait"))), "")
    of = TYPE.match(head)
    return f"{of[1]}::{found[2]}" if of and " for " not in head else ""


def judged(crate: str, check: list[str], function: str | None) -> str:
    """What a check says of a crate, or of a function in it. Goals that stay open can take it long: then it says
    nothing."""
    try:
        done = subprocess.run([*check, *(["--only", function] if function else [])], cwd=crate, timeout=SECONDS,
                              stdin=subprocess.DEVNULL, stdout=subprocess.PIPE, stderr=subprocess.STDOUT,
                              encoding="utf-8", errors="replace")
    except subprocess.TimeoutExpired:
        return f"{UNJUDGED} in {SECONDS} seconds"
    if done.returncode == 0:
        return "passes"
    return verdict(done.stdout)


def verdict(text: str) -> str:
    """What the prover's output says of a crate that it didn't prove."""
    lines = text.split("\n")
    if any(re.search(r"\berror\[[\w-]+\]", line) for line in lines):
        return f"does not apply: it doesn't compile: {first(lines, 'error[')}"
    told = [line for line in lines if TOLD.match(line) and (": error" in line or "it is not proved that" in line)]
    kept = [line for line in told if not LOST.search(line)]
    goals = dict.fromkeys(found[1] or found[2] for line in kept for found in GOAL.finditer(line))
    if goals:
        return f"refused: {', '.join(goals)}"
    if told:
        return f"refused, but names were lost: {told[0]}"
    raise Failed(f"the check gives no verdict: {first(lines, 'rt: ')}")


def first(lines: list[str], mark: str) -> str:
    return next((line for line in lines if mark in line), lines[-1])
