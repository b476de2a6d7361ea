"""What the pages know of docs/ and examples/: the words of tables, the forms of lines, and the texts to choose from."""

from __future__ import annotations

import re
from pathlib import Path
from collections.abc import Iterator
from typing import Any

from authors import why
from common import meanings
from common.calling import REPOSITORY, there
from exercises import exercise
from common.machine import assembly, instructions, script
from step import page

TOP = Path(REPOSITORY)
EXAMPLES = TOP / "examples"
FIRST = "first.pip"
MOST_EDITED = 1 << 18          # bytes; a longer text is run, and not shown
BEGINNING = ".frames 64\n.cpus 1\n.page 0x400000\n"      # without these lines a program is refused


def facts() -> dict[str, Any]:
    """What the page has of the documents."""
    further: dict[bytes, tuple[int | None, ...]] = {b"boot": (script.WORD, script.WORD), b"call": ()}
    forms = {name.decode(): list(form) for name, form in {**script.FORMS, **further}.items()}
    return {"statuses": list(meanings.STATUSES.values()), "calls": page.told_calls(), "vectors": meanings.VECTORS,
            "forms": forms, "causes": meanings.CAUSES, "assembly": of_assembly(), "ends": ends(),
            "most": MOST_EDITED, "texts": [*examples(), *exercises()]}


def of_assembly() -> dict[str, Any]:
    """What each word takes that begins a line of an assembly text, and the instructions by their opcodes."""
    kinds = {opcode: (kind.name, instructions.FORMS[kind.form], kind.least, kind.most) for opcode,
             kind in instructions.KINDS.items()}
    names = [*why.DIRECTIVES, *(name.encode() for name in instructions.OPCODES)]
    limits = {**{name.decode(): told for name, told in why.LIMITS.items()},
              **{name: f"{least} to {most}" for name, _, least, most in kinds.values()}}
    return {"operands": {name.decode(): why.operands_of(name) for name in names}, "called": why.CALLED,
            "limits": limits, "ofAsmx": why.OF_ASMX,
            "like": why.LIKE, "signs": why.SIGNS, "distances": assembly.DISTANCES, "kinds": kinds}


def ends() -> dict[str, str]:
    """Of each status of the program what it means, in short."""
    found = {status: re.sub(r" \([^)]*\)", "", re.split("[:;]", when)[0]) for status, when in meanings.ENDS.items()}
    return {**found, "99": "the module stopped"}


# What there is to choose from

def examples() -> list[dict[str, str]]:
    found = [path for path in sorted(EXAMPLES.rglob("*")) if path.suffix in (".pip", ".s")
             and "solutions" not in path.parts]
    return [example(path)
            for path in sorted(found, key=lambda path: (group(path) != "Examples", group(path), path.name != FIRST))]


def group(path: Path) -> str:
    if path.parent != EXAMPLES:
        return path.parent.name.capitalize()
    return "Examples" if path.suffix == ".pip" else "Programs"


def example(path: Path) -> dict[str, str]:
    """A text, by its path, and where the answers or the trace are that are beside it."""
    is_script = path.suffix == ".pip"
    made = {"name": path.name, "group": group(path), "kind": "script" if is_script else "assembly",
            "path": path.relative_to(TOP).as_posix()}
    beside = path.with_suffix(".out" if is_script else ".run")
    return {**made, "beside": beside.relative_to(TOP).as_posix()} if beside.exists() else made


def exercises() -> Iterator[dict[str, str | bool]]:
    """Each exercise with what it asks, and the text with which one begins: of a program the lines that each has. Some
    scripts are a part of what the judge runs."""
    for name, told in exercise.sections().items():
        solution = there(next(EXAMPLES.joinpath("solutions").glob(f"{name}.*"), None),
                         f"docs/EXERCISES.md has the exercise {name}, and examples/solutions has none of it")
        is_script = solution.suffix == ".pip"
        yield {"name": "exercise " + name, "exercise": name, "group": "Exercises",
               "kind": "script" if is_script else "assembly", "text": "" if is_script else BEGINNING,
               "isPart": is_script and "\nboot " not in solution.read_text(encoding="utf-8"),
               "task": meanings.plain(told.partition("\n")[2].strip())}
