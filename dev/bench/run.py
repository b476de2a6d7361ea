"""Prints the instructions that the program takes for many things, and beside them those of another one.

    dev/bench/run [--program PATH] [--plain | --beside PATH] [--tables | --slopes | --growth]

They are of its start, of a line of each kind, of partitions that are made and deleted, of events that switch, of
assembly texts, of the steps of runs, of texts of frames, and of a generated load. The programs are the built ones:
build them first, by ./pip and ./lab. --program names another pip, with the lab's program beside it or in the
environment's LAB. --plain builds the plain program of dev/bench/plain by cargo, and puts its figures beside; --beside
does so for any program that has the commands of both. --tables prints the rows of the tables of docs/PERFORMANCE.md,
with times and worst inputs, too; it takes half an hour. --slopes prints those of the table of slopes, in some minutes.
--growth writes the figures of deletions that dev/bench/growth.gp draws."""

from __future__ import annotations

import argparse
import os
from collections.abc import Iterator

from common import calling
from common.calling import REPOSITORY, ensure
from reference import plain
from . import deletions, slopes, timing
from .count import PROGRAM, Counted
from .figures import Figures

PAGE = os.path.join(REPOSITORY, "docs", "PERFORMANCE.md")


def show(given: argparse.Namespace) -> None:
    path = plain.program() if given.plain else given.beside
    program = Counted(given.program)
    if given.growth:
        growth(Figures(program))
        return
    if given.tables or given.slopes:
        ensure(path is not None, "the tables have two programs: add --plain or --beside PATH")
        both = program, Counted(path, is_both=True)
        for row in slopes.rows(*both) if given.slopes else tables(*both):
            print(row, flush=True)
        return
    print(f"{'instructions of':90} {'ours':>10}" + ("" if path is None else f" {'beside':>10} {'times':>6}"))
    others = None if path is None else Figures(Counted(path, is_both=True)).figures()
    for what, ours in Figures(program).figures():
        beside = next(others)[1] if others else 0
        print(f"{what:90} {ours:10}" + (f" {beside:10} {ours / beside:6.2f}" if others else ""), flush=True)


def tables(ours: Counted, plain: Counted) -> Iterator[str]:
    """The rows of the page's tables as they are now, each by the first cell, or by both before its numbers; and then
    the worst inputs of which the page has no row."""
    both, worst = [dict(Figures(program).figures()) for program in (ours, plain)], dict.fromkeys(timing.WORST)
    for line in calling.contents(PAGE).decode().splitlines():
        name, *numbers = line.strip("| ").split(" | ")
        if name in both[0]:
            first, second = (figures[name] for figures in both)
            line = f"| {name} | {first:,} | {second:,} | {first / second:.2f} |"
        elif name in timing.TIMES:
            line = timing.row_of_times(name, ours, plain)
        elif (key := (name.strip("`"), "".join(numbers[:1]))) in worst:
            del worst[key]
            line = timing.row_of_worst(*key, ours, plain)
        elif not line.startswith("|"):
            continue
        yield line
    for key in worst:
        yield timing.row_of_worst(*key, ours, plain)


def growth(figures: Figures) -> None:
    """How the instructions of a deletion grow: a block for each curve of dev/bench/growth.gp."""
    print("# The line call 0 1, which deletes a child: how many the child has, and the instructions. Written by "
          "dev/bench/run --growth.")
    for kind, sizes in deletions.GROWTH.items():
        print(f"\n\n# {kind}")
        for size in sizes:
            print(size, figures.deleted(f"{kind}{size}"), flush=True)


def main() -> None:
    parser = argparse.ArgumentParser(description=__doc__, usage=argparse.SUPPRESS,
                                     formatter_class=argparse.RawDescriptionHelpFormatter)
    parser.add_argument("--program", default=PROGRAM, metavar="PATH", help="the program pip that is counted")
    other = parser.add_mutually_exclusive_group()
    other.add_argument("--plain", action="store_true", help="beside the plain program")
    other.add_argument("--beside", metavar="PATH", help="beside this program")
    kind = parser.add_mutually_exclusive_group()
    kind.add_argument("--tables", action="store_true", help="the rows of the tables of docs/PERFORMANCE.md")
    kind.add_argument("--slopes", action="store_true", help="the rows of the table of slopes of docs/PERFORMANCE.md")
    kind.add_argument("--growth", action="store_true", help="the figures that dev/bench/growth.gp draws")
    given = parser.parse_args()
    calling.guarded("run", lambda: show(given))
