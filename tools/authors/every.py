"""What can happen to an image or a source over all interleavings: each line in words, and its way as a trace or a
script.

    tools/every FILE STATES [FROM [DEPTH]] [--after STEPS SEED | --after NAME [SEED]]
    tools/every FILE STATES [FROM [DEPTH]] --until WORDS
    tools/every FILE STATES [FROM [DEPTH]] --trace N
    tools/every --any FILE [STATES [FROM]] [--after ..] [--to MENU]
    tools/every --report FILE [STATES [FROM]] [--after ..]

The lines are those of the program's command `every`, or of `against` where there is a menu; with --after it searches
what comes after these steps of `run`. With --any it is of every program of the monitor's children, by a menu of its
own; a report says more of the monitor. N is a line's number. A way is made again by dev/reference, of which nothing is
proved, and what it shows at its end is compared with the line.
"""

from __future__ import annotations

import argparse
import re
import sys
from typing import NamedTuple

from common import calling, meanings
from common.calling import Failed, ensure
from common.machine import against, image as images, runs, script
from common.machine.image import Image
from common.machine.model import World
from common.machine.runs import AT_FIRST, After
from debugger import building, client, rules, searching, sources
from debugger.searching import AGAIN, END, Asked, Line, Search
from . import asmx, every_program, trace, ways, why
from .ways import Menu, Way

MOST, MOST_STATES = 10_000_000, 100_000_000
DEED = re.compile(r":d(\d+)")
VALUES = re.compile(r"(\d+) (word|register) (\d+) (\d+)")


# What is told


def told_of(search: Search, only_trouble: bool, given: Given) -> list[str]:
    """Each line with its number and what it means, and the deeds of its way."""
    told = [search.head]
    for number, line in enumerate(search.lines, 1):
        if line.is_trouble or not only_trouble or given.asked.until and number == len(search.lines):
            deeds = sorted({int(deed) for deed in DEED.findall(line.way)})
            remarks = [told_meaning(line, given), *(f"d{deed}: {given.menu[deed - 1].line}" for deed in deeds)]
            remark = "; ".join(filter(None, remarks))
            told.append(f"{number:>4}  {line.step} {line.cpu} {line.text}: {line.way}{remark and '    # ' + remark}")
    told.append(f"{search.last}    # {meaning_of(search.last, bool(given.menu))}")
    return [*told, *(f"{line}    # {meaning_again(line, bool(given.menu))}" for line in search.again),
            *(f"# {line}" for line in told_beside(search, given))]


def told_meaning(line: Line, given: Given) -> str:
    kind, _, number = line.text.partition(" ")
    return f"broken: {given.asked.rules[int(number) - 1].text}" if kind == "rule" else meanings.of_answer(line.text)


def told_beside(search: Search, given: Given) -> list[str]:
    """What is open, which words and registers have most values, and what is said of rules."""
    found = [VALUES.fullmatch(line) for line in search.beside]
    values = [f"{one[1]}{' or more' * (int(one[1]) >= 1 << 16)} of {place_of(given, one[2], int(one[3]), int(one[4]))}"
              for one in found if one]
    rest = [line for line, one in zip(search.beside, found) if not one and not line.startswith("broken ")]
    if given.asked.until and not searching.is_found(search):
        rest.append(f"no line with '{given.asked.until}' was found")
    if given.asked.rules and not any(line.text.startswith("rule ") for line in search.lines):
        rest.append("no state that was found breaks a rule, by a process over the export of which nothing is proved")
    return rest + ([f"most values: {', '.join(values)}"] if values else [])


def place_of(given: Given, kind: str, first: int, second: int) -> str:
    """A word by its name, or a register."""
    if kind == "register":
        return f"r{second} of partition {first}"
    name = given.names.nearest((first, second))
    return f"{name} (f{first}:{second})" if name else f"f{first}:{second}"


def meaning_again(line: str, with_menu: bool) -> str:
    found = AGAIN.fullmatch(line)
    assert found
    if found[3] == "within":
        return "it comes, where each processor has turns and each line is raised, within so many windows of each"
    if found[1] == "comes" and found[3] == "no":
        return "after this way a loop avoids it in which each processor has turns and each line is raised"
    if found[3] == "yes":
        return "it can come again, whatever was done" + (" of the menu" if with_menu else "")
    if found[3] == "no":
        return "it never comes after this way" if found[4] else "it never comes"
    return "only a search that closes says this"


def meaning_of(last: str, with_menu: bool = False) -> str:
    found = END.fullmatch(last)
    assert found
    if found[3] == "closed":
        return "nothing else can come, " + ("whatever is done of the menu" if with_menu else "however long it runs")
    if found[4]:
        return f"nothing else can come by {found[5]} choices or fewer"
    more = {"found": "it was found, and no shorter way leads there", "ended": "it was ended there"}.get(
        found[3], f"there are more than {found[1]} states")
    return f"{more}; nothing else can come by {found[2]} choices or fewer"


class Given(NamedTuple):
    """What is searched, with its menu, and the names of its source."""

    asked: Asked
    menu: Menu
    names: sources.Source


def way_of(given: Given, line: Line) -> tuple[Image, Way]:
    image = images.read(given.asked.data)
    return image, ways.read(image, line.way, given.menu) if line.way else []


def replayed(given: Given, line: Line, is_shown: bool = False) -> tuple[World, list[str]]:
    """The world after a way, and the lines of its last choice; the choices are printed if they are to be shown."""
    image, way = way_of(given, line)
    world, lines = runs.steps(image, *given.asked.after), list[str]()
    for made in ways.made(image, way, given.menu, given.asked.after):
        world, lines = made.world, made.lines
        if is_shown:
            print(trace.line_of(made.turn, lines, given.names) if made.turn else
                  f"{made.step:>6}   line {made.choice.number} is raised")
    return world, lines


def traced(program: str, given: Given, line: Line, search: Search) -> int:
    """Prints the way choice by choice, and whether it shows what it should."""
    if given.names.warning:
        print(f"every: {given.names.warning}", file=sys.stderr)
    print("# by the reference: no proof; the last line at the right is compared with the program's")
    world, lines = replayed(given, line, True)
    print("\n".join(trace.registers_of(world)))
    if line.cpu == "-":
        return confirmed(program, given, line, search)
    if lines[-1:] != [f"{line.step} {line.cpu} {line.text}"]:
        print(f"every: the reference differs from the program: its way ends with {lines[-1:]}", file=sys.stderr)
        return 1
    print("# the program has this line, too")
    return 0


def scripted(program: str, given: Given, line: Line) -> int:
    """Prints a script that makes the same events, and whether the program answers it as the reference does."""
    text, answers = ways.script(*way_of(given, line), given.menu, given.asked.after)
    print(f"# {line.step} {line.cpu} {line.text}")
    print(text, end="")
    return 1 if answered(program, text, answers) is None else 0


def answered(program: str, text: str, answers: list[str], peeks: list[str] | None = None) -> list[str] | None:
    """What the program answers to lines after a script, if it answers the script as the reference does."""
    more = "".join(f"{peek}\n" for peek in peeks or [])
    told, status = calling.output(program, ["script"], (text + more).encode())
    lines = told.decode("ascii", "replace").splitlines()
    if (lines[:len(answers)], status) != (answers, 0):
        print("every: the program answers this script otherwise than the reference", file=sys.stderr)
        return None
    print(f"every: the program gives the {len(answers)} answers of the reference", file=sys.stderr)
    return lines[len(answers):]


def confirmed(program: str, given: Given, line: Line, search: Search) -> int:
    """Whether the program, by a script of the way, comes to a state with the words that break a rule, or to the line
    that was looked for; registers are the reference's."""
    text, answers = ways.script(*way_of(given, line), given.menu, given.asked.after)
    shown = next((told.partition(" ")[2] for told in search.beside if told.startswith("broken ")), "")
    peeks = [f"peek {word[1:].replace(':', ' ')}" for word in shown.split() if word.startswith("f")]
    found = answered(program, text, answers, peeks)
    if found is None:
        return 1
    world, lines = replayed(given, line)
    words = {peek: int(word, 0) for peek, word in zip(peeks, found)}
    wrong = rules.differing(shown, world, lambda frame, index: words[f"peek {frame} {index}"])
    if line.cpu != "-" and lines != [f"{line.step} {line.cpu} {line.text}"]:
        wrong = lines or ["no line"]
    print(f"# {'the program comes there by the way, too' if not wrong else 'BEWARE: ' + ', '.join(wrong) + ' differs'}"
          + (f": {shown}" if shown else ""))
    return 1 if wrong else 0


def main() -> None:
    parser = argparse.ArgumentParser(
        description="What can happen to an image over all interleavings, with the shortest way to each line.",
        epilog="A way is made again by the reference, of which nothing is proved. The status is 1 where that differs "
               "from the program, or a rule is broken.")
    calling.take_image(parser)
    parser.add_argument("states", metavar="STATES", nargs="?", type=calling.within(1, MOST_STATES, "STATES"),
                        help=f"room for that many states; with --any and --report {every_program.STATES} without it")
    parser.add_argument("first", metavar="FROM", nargs="?", type=calling.within(0, MOST, "FROM"),
                        help="no line comes before that many turns; without it 0")
    parser.add_argument("depth", metavar="DEPTH", nargs="?", type=calling.within(1, MOST, "DEPTH"),
                        help="at most that many choices; without it any number")
    parser.add_argument("--after", metavar="STEPS SEED", nargs="+",
                        help="begin after that many steps of run by that seed; or, by NAME and a seed, which is 1 "
                             "without it, before the first turn at that name")
    parser.add_argument("--until", metavar="WORDS", help="end at the first line with these words")
    for kind in ("never", "always"):
        parser.add_argument(f"--{kind}", metavar="RULE", action="append", default=[],
                            help=f"end at the first state that breaks this, as by a line .{kind} of a source")
    parser.add_argument("--may", metavar="MENU", help="a file with a menu, in the place of that of the source")
    parser.add_argument("--alone", action="store_true", help="without the source's menu: the partitions' programs run")
    parser.add_argument("--trouble", action="store_true", help="only lines with a refused call, a fault or a park")
    one = parser.add_mutually_exclusive_group()
    one.add_argument("--trace", metavar="N", help="the way to line N, choice by choice")
    one.add_argument("--script", metavar="N", help="the way to line N as a script for ./pip script")
    one.add_argument("--any", action="store_true", help="whether it holds whatever the children's programs are")
    one.add_argument("--report", action="store_true", help="the same, and whether each child's turn comes")
    parser.add_argument("--to", metavar="MENU", help="with --any and --report: write their menu to this file")
    calling.take_program(parser)
    calling.started(parser, work)


def given_of(given: argparse.Namespace) -> Given:
    data, source = asmx.image_of(given.program, given.file)
    ensure(not source or not given.source, "--source is for an image, and this is a source")
    source = source or given.source
    try:
        _, menu = images.parted(data)
    except images.BadImage:
        menu = b""                               # the program says what is bad
    data = data[:len(data) - len(menu)]
    text = asmx.processed(source)[1] if source else asmx.Text()
    if source and not given.source:
        menu = asmx.text_of(text.menu)
    if given.may:
        menu = calling.contents(given.may)
    menu = b"" if given.alone else menu
    for place, _, cause in why.bad_lines(why.MENU, why.by_reference(against.menu_of), script.lines(menu)):
        raise Failed(f"{given.may or given.file}: line {place} of the menu is bad: {cause.here}")
    found = against.menu_of(menu)
    asked = Asked(data, menu if any(found) else b"", given.states, given.first, given.depth,
                  after_of(given.after, data, source), given.until, (*text.rules, *more_rules(given, text)))
    return Given(asked, found.deeds, sources.read(data, source))


def more_rules(given: argparse.Namespace, text: asmx.Text) -> list[rules.Rule]:
    """The rules of the command line."""
    lines = [(f".{kind}", line) for kind in ("never", "always") for line in getattr(given, kind)]
    return [rules.rule_of([asmx.Word.at(asmx.Place(f"--{kind[1:]}", 1), 1, word) for word in (kind, *line.split())],
                          text) for kind, line in lines]


def after_of(words: list[str] | None, data: bytes, source: str | None) -> After:
    """Where a search begins: after STEPS by SEED, or where NAME is first reached, by SEED."""
    if not words:
        return AT_FIRST
    seed = calling.number(words[1] if words[1:] else "1", 1, script.WORD - 1, "SEED")
    ensure(len(words) <= 2, "--after has STEPS SEED, or NAME and a seed")
    if not asmx.NAME.fullmatch(words[0]):
        return After(calling.number(words[0], 0, MOST, "STEPS"), seed)
    steps = client.first_turn_at(building.STATES.path(), data, sources.read(data, source).named(words[0]).word, seed)
    print(f"every: {words[0]} runs first after {steps} steps by the seed {seed}", file=sys.stderr)
    return After(steps, seed)


def work(given: argparse.Namespace) -> int | None:
    ensure(given.states is not None or given.any or given.report, "STATES is missing")
    given.states = given.states or every_program.STATES
    asked = given_of(given)
    if given.any or given.report:
        found = every_program.answer(given.program, asked.asked, asked.names)
        if given.to:
            calling.write(given.to, every_program.text_of(found.out.menu()))
        print("\n".join(every_program.told(found) if given.any else
                        every_program.report(given.program, asked.asked, found)))
        return 0
    number = given.trace or given.script
    search = searching.kept(searching.kept_at(given.program, asked.asked)) if number else None
    search = search or searching.searched(given.program, asked.asked)
    if number is None:
        print("\n".join(told_of(search, given.trouble, asked)))
        is_found = searching.is_found(search)
        status = confirmed(given.program, asked, search.lines[-1], search) if is_found else search.status
        return 1 if is_found and search.lines[-1].cpu == "-" else status
    ensure(search.lines, "no line can come")
    line = search.lines[calling.number(number, 1, len(search.lines), "N") - 1]
    return traced(given.program, asked, line, search) if given.trace else scripted(given.program, asked, line)
