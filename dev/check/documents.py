"""Each block of the documents is told, and what runs of them gives what it shows; docs/TUTORIAL.md shows the files of
examples/tutorial/ as they are."""

from __future__ import annotations

import contextlib
import itertools
import os
import re
import sys
import tempfile
from collections.abc import Iterator, Sequence
from pathlib import Path

from common import calling
from common.machine import script
from exporter import crates
from pages import runnable, site
from .examples import script_gives
from .running import REPOSITORY, Differs, ensure, expect, part, paths, run, text_of, told_path, write, write_program

MARK = b"-- the next command --\n"
LEAST = 20               # blocks that run: a rule that tells none would pass
WITH_SESSIONS = ("README.md", "docs/FORMATS.md")      # documents in which each session runs


def blocks_are_told(program: str) -> None:
    """Of each block of each document the site and the checks know what it is; a planted one isn't told. And a build
    names as many crates as README.md has it."""
    for path, document in documents():
        if unknown := [block for block in document.blocks if block.kind is None]:
            raise Differs(f"{path}:{unknown[0].line}: nothing tells what this block is; class/pages/runnable.py says "
                          "how one is marked")
        shown = [block for block in document.blocks if block.text.startswith("$ ")] if path in WITH_SESSIONS else []
        ensure(path not in WITH_SESSIONS or shown, f"{path} has no session")
        if still := [block for block in shown if block.kind is not runnable.Kind.SESSION]:
            raise Differs(f"{path}:{still[0].line}: this session doesn't run: class/pages/runnable.py says what can")
    ensure(runnable.blocks("a.md", "So:\n\n    what is this\n")[0].kind is None, "a planted block that nothing tells "
           "isn't found")
    named = part(r"`crate \d+\s+of\s+(\d+)`", text_of("README.md"))
    count = len(crates.chosen(crates.crates_of(Path(REPOSITORY)), ["pip"]))
    ensure(named == str(count), f"README.md has a build of {named} crates, where {count} make the program")


def documents() -> Iterator[tuple[str, runnable.Document]]:
    for path in site.documents():
        yield path, runnable.Document(Path(REPOSITORY), path)


def blocks_that_run(program: str) -> None:
    """Each script and each session that is in a document alone gives what it shows, by program and reference."""
    count = 0
    with tempfile.TemporaryDirectory() as place:
        programs = both_programs(program, place)
        for path, document in documents():
            for at, block in enumerate(document.blocks):
                runs = runs_of(document, at)
                what = f"{path}, the block from line {block.line} on"
                if isinstance(runs, runnable.Script):
                    script_shows(what, runs, program)
                elif isinstance(runs, runnable.Session) and not block.source:
                    for by, pair in programs.items():
                        session_shows(what + by, runs, pair)
                count += runs is not None
    ensure(count >= LEAST, f"the documents have only {count} blocks that run")


def runs_of(document: runnable.Document, at: int) -> runnable.Runs | None:
    """What runs of a block, which is a part of the file that it names."""
    try:
        return document.runs(at)
    except runnable.Wrong as wrong:
        raise Differs(f"{document.path}: {wrong}") from None


def script_shows(what: str, runs: runnable.Script, program: str) -> None:
    """The answers of a script whose lines have them beside them, where they have one."""
    text = runs.before + "".join(f"{line}\n" for line, _ in runs.lines)
    shown = [answer for _, answer in runs.lines if answer is not None]
    status = 2 if shown[-1:] and shown[-1].startswith("bad line") else 0
    for by, (output, got) in ((", by the reference", script.run(text.encode())),
                              ("", run([program, "script"], text.encode()))):
        answers = (output or b"").decode().splitlines()
        expect(what + by, (joined(answers[len(answers) - len(shown):]), got), (joined(shown), status))


def session_shows(what: str, runs: runnable.Session, programs: dict[str, str]) -> None:
    """What the commands of a session write, where it is shown, in a folder of its own."""
    with folder_of(programs) as place:
        for name, text in runs.files.items():
            write(text, place, name)
        told = "; ".join(f"{{ {command}\n}}; s=$?; printf '%s' '{MARK.decode()}'; (exit $s)"
                         for command in [*runs.before, *(command for command, _ in runs.commands)])
        output, status = run(["sh", "-c", told], cwd=place)
        outputs = (output or b"").split(MARK)[len(runs.before):]
        for (command, due), got in zip(runs.commands, outputs):
            if due is not None:
                expect(f"{what}, '$ {command}'", (got, status), (joined(due), 0))


def joined(lines: Sequence[str]) -> bytes:
    return "".join(line + "\n" for line in lines).encode()


@contextlib.contextmanager
def folder_of(programs: dict[str, str]) -> Iterator[str]:
    """A folder with what the commands of a session name: examples/, the folders of tools, ./pip and ./lab."""
    with tempfile.TemporaryDirectory() as place:
        for folder in ("examples", "tools", "class", "dev"):
            os.symlink(os.path.join(REPOSITORY, folder), os.path.join(place, folder))
        for wrapper, program in programs.items():
            os.symlink(os.path.abspath(program), os.path.join(place, wrapper))
        yield place


def both_programs(program: str, place: str) -> dict[str, dict[str, str]]:
    """By the reference and by the programs: each pair by what a session calls them."""
    told = f'#!/bin/sh\nexec "{sys.executable}" -B "{REPOSITORY}/dev/reference/NAME" "$@"\n'
    return {", by the reference": {name: write_program(told.replace("NAME", script), place, script)
                                   for name, script in (("pip", "program.py"), ("lab", "lab.py"))},
            "": {"pip": program, "lab": calling.lab(program)}}


# The tutorial

FOLDER = "examples/tutorial/"

# What names the file of a block
TITLE = re.compile(r"^(?:From )?\[([^\]\n]+)\]\((\.\./examples/[^)\n]+)\):$", re.M)


def tutorial_sessions(program: str) -> None:
    """Each script gives its .out, and each command of a .session what stands below it, by program and reference."""
    for name in files(".pip"):
        script_gives(program, os.path.join(REPOSITORY, name))
    with tempfile.TemporaryDirectory() as place:
        programs = both_programs(program, place)
        for name in files(".session"):
            for by, pair in programs.items():
                commands_give(name, pair, by)


def commands_give(name: str, programs: dict[str, str], by: str) -> None:
    """Runs the commands of a session in a folder of its own."""
    with folder_of(programs) as place:
        text = text_of(name)
        ensure(text.startswith("$ "), f"{name} doesn't begin with a command")
        for command, shown in runnable.commands(text.split("\n")[:-1]):
            expect(f"{name}, '$ {command}'{by}", run(["sh", "-c", command], cwd=place), (joined(shown), 0))


def tutorial_blocks(program: str) -> None:
    """Each block of the tutorial is the file that it names, or after 'From' a part of it, with all answers, and all
    files are shown or linked."""
    document = runnable.Document(Path(REPOSITORY), "docs/TUTORIAL.md")
    shown = [at for at, block in enumerate(document.blocks) if block.source]
    named = TITLE.findall(document.text)
    ensure(len(shown) == len(named) == len(re.findall("^```", document.text, re.M)) // 2, "docs/TUTORIAL.md: a block "
           "doesn't name its file in the line above")
    if wrong := [title for title, name in named if title != os.path.basename(name)]:
        raise Differs(f"docs/TUTORIAL.md: the link '{wrong[0]}' leads to another file")
    for at in shown:
        is_whole(document.blocks[at], runs_of(document, at))
    linked = {f"{FOLDER}{name}" for name in re.findall(rf"\]\(\.\./{FOLDER}([^)]+)\)", document.text)}
    left_out = sorted({*files(".pip"), *files(".s"), *files(".session")} - linked)
    ensure(not left_out, f"docs/TUTORIAL.md doesn't show or link {', '.join(left_out)}")


def is_whole(block: runnable.Block, runs: runnable.Runs | None) -> None:
    """Whether a block that isn't a part shows its file, and each line of a script its answer."""
    source = str(block.source)
    lines = runs.lines if isinstance(runs, runnable.Script) else [(line, "") for line in block.text.splitlines()]
    ensure(block.is_part or [line for line, _ in lines] == text_of(source).splitlines(), "docs/TUTORIAL.md, the block "
           f"of {source}, isn't the file")
    events = [answer for line, answer in lines if line and not line.startswith("#")]
    good = itertools.takewhile(lambda answer: not str(answer).startswith("bad line"), events)
    ensure(None not in good, f"docs/TUTORIAL.md, the block of {source}, lacks an answer")


def files(ending: str) -> list[str]:
    return [told_path(path) for path in paths(f"{FOLDER}*{ending}")]
