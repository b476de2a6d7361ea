"""Judges a student's script or program by what it reaches.

    class/exercise NAME FILE [--seed STUDENT] [--again SECRET]"""

from __future__ import annotations

import argparse
import os
import re
import sys

from common import calling
from common.calling import Failed, ensure
from . import judging

PAGE_OF = os.path.join(calling.REPOSITORY, "docs", "EXERCISES.md")
# Exercises whose verdict draws something.
DRAWS = ("break-in", "sum", "child-program", "monitor", "tell-apart", "no-loss")


def main() -> None:
    parser = argparse.ArgumentParser(
        description="Judges a student's script or program by what it reaches, and gives a hint.",
        epilog="Without a file the exercise is told. The status is 0 where all goals are reached, else 1. The judge is "
               "built by cargo when it is asked first; PIP_JUDGE of the environment names one that is built.")
    parser.add_argument("name", nargs="?", metavar="NAME", help="the exercise; see --list")
    parser.add_argument("file", nargs="?", metavar="FILE",
                        help="a script, or an assembly text, also for tools/asmx; - is standard input")
    parser.add_argument("--list", action="store_true", help="the names of the exercises")
    parser.add_argument("--all-hints", action="store_true",
                        help="a hint for each goal that is missing; without it for the first")
    parser.add_argument("--script", action="store_true",
                        help="of break-in write the whole script that is run, and judge nothing")
    parser.add_argument("--seed", metavar="STUDENT",
                        help="the exercise with other addresses, words and numbers, which depend on this name alone, "
                             "whatever its case is")
    parser.add_argument("--again", metavar="SECRET", help="draw what the verdict drew that named this secret")
    calling.started(parser, work)


def work(given: argparse.Namespace) -> int:
    if given.list:
        print("\n".join(sections()))
        return 0
    if given.name not in sections():
        raise Failed(f"there is no exercise {given.name!r}: {', '.join(sections())}" if given.name
                     else "which exercise? See --list")
    ensure(not given.again or re.fullmatch("[0-9a-f]{1,16}", given.again), "--again is at most 16 digits 0 to f, as a "
           f"verdict has them, and not {given.again!r}")
    ensure(given.seed is None or given.seed.strip(), "--seed is a student's name")
    if given.file is None:
        print(told(given.name, given.seed))
        return 0
    text = calling.contents(given.file)
    if given.script:
        return write_script(given, text)
    is_program = judging.exercises()[given.name].is_program
    found = judging.judged(given.name, given.file, text, is_program, given.seed, given.again)
    print("\n".join(found.lines(given.all_hints)))
    if given.name in DRAWS and not found.refused:
        print(f"  (--again {found.secret} draws the same)")
    return 0 if found.is_whole else 1


def write_script(given: argparse.Namespace, text: bytes) -> int:
    """The whole script that is run for a student's lines."""
    ensure(given.name == "break-in", "--script is for break-in: of another exercise your script is the whole one")
    answer = judging.ask("script", given.name, given.seed, given.again or judging.drawn(), text)
    ensure(not answer.startswith("cant "), answer[len("cant "):].rstrip())
    if answer.startswith("refused "):
        raise Failed(f"line {answer.split()[1]} is refused: see tools/asmx --check {given.file}")
    sys.stdout.write(answer)
    return 0


def sections() -> dict[str, str]:
    """The exercises of docs/EXERCISES.md, by name, each with what is said of all of its group."""
    with open(PAGE_OF, encoding="utf-8") as file:
        groups = [group.split("\n### ") for group in file.read().split("\n## ")[1:]]
    found: dict[str, str] = {}
    for head, *parts in groups:
        rules = head.partition("\n")[2].strip()
        found.update((part.split("\n", 1)[0], f"{part.strip()}\n\n{rules}".rstrip()) for part in parts)
    return found


def told(name: str, seed: str | None = None) -> str:
    """The exercise's section of docs/EXERCISES.md, with the values of a seed where one is given."""
    section = sections()[name]
    if seed is None:
        return section
    retold = judging.ask("tell", name, seed, text=section.encode())
    return f"{retold}\n\n(The numbers are those of the seed {seed!r}.)"
