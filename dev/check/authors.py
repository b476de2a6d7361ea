"""The tools for authors of monitors beside the program: asmx, every, and what debug lists."""

import os
import tempfile
from unittest import mock

from authors import why
from reference import commands as reference, generate
from .running import REPOSITORY, contents, ensure, needed, number_of, paths, run, same, says, session, stand_ins, write

CASES = 300


def built_of(program: str, source: str, *parts: str) -> str:
    """The path of the image of an assembly text, which is written there."""
    return write(run([program, "asm"], contents(source))[0], *parts)


def liar(program: str, place: str, change: str) -> str:
    """The path of a program whose output is another's with a change by sed."""
    return stand_ins(os.path.join(place, "liar"), f'#!/bin/sh\n"{{program}}" "$@" | sed "{change}"\n', program)


def programs() -> list[str]:
    return paths("examples/**/*.s")


def preprocessor(program: str) -> None:
    """A text without anything new becomes the same image; a source with all that is new runs as it says."""
    with tempfile.TemporaryDirectory() as place:
        built = os.path.join(place, "out.img")
        for path in programs():
            says(program, ("asmx", path, "--image", built))
            ensure(contents(built) == run([program, "asm"], contents(path))[0], f"tools/asmx {path}: the image isn't "
                   "that of 'asm'")
        says(program, ("asmx", "tools/authors/elsewhere.asmx", "--image", built))
        trace, _ = run([program, "run", "60", "1"], contents(built))
        ensure(b"out 0x0000002a" in trace and b"out 0xffc00008" in trace, "tools/asmx: the program doesn't show 42 and "
               f"the child's address of its name: {trace!r}")
        says(program, ("asmx", "tools/authors/race.asmx", "--image", built))
        traces = [run([program, "run", "600", seed], contents(built))[0] for seed in ("2", "3")]
        same("what race.asmx shows", [b"out 0x00000020" in traces[0], b"out 0x0000001f" in traces[1]], [True, True])
    session("asmx", program)


def reasons(program: str) -> None:
    """Each generated text that is refused has a reason, at the line that the program names."""
    for command in ("script", "asm"):
        refused = 0
        for seed in range(1, CASES):
            _, text = generate.case(command, seed)
            output, status = reference.pip([command], text)
            if status == 2 and len(text) <= 1 << 24:
                refused += 1
                place = output.decode().rsplit("bad line ", 1)[1].split()[0]
                sentences, _ = why.why(program, "text", text, command == "asm")
                ensure(sentences[0].startswith(f"text:{place}:") and "\nrule: " in "\n".join(sentences),
                       f"tools/asmx --check, {command} of seed {seed}: {sentences}")
        ensure(refused >= CASES // 50, f"tools/asmx --check: only {refused} of the generated texts of {command} are "
               "refused")
    session("check", program)


def traces(program: str) -> None:
    """Each example's list has the program's lines, and names of the source; another program's lines are refused."""
    needed("cargo")
    with tempfile.TemporaryDirectory() as place:
        for path in programs():
            built = built_of(program, path, place, "a.img")
            says(program, ("debug", built, "1", "--list", "300", "--source", path), 0, "not of the same proof",
                 "the program has the same", "processor 0 runs")
        built = built_of(program, "examples/tutorial/11_sum.s", place, "sum.img")
        says(liar(program, place, "s/0x00000004/0x00000005/"), ("debug", built, "1", "--list", "20"), 1,
             "the program has other lines")
        session("list", program, IMAGE=built)


def interleavings(program: str) -> None:
    """The race's lines with their ways: as a trace, and as a script."""
    race = os.path.join(REPOSITORY, "examples", "every", "race.asmx")
    with tempfile.TemporaryDirectory() as place, mock.patch.dict(os.environ, XDG_CACHE_HOME=place):
        session("ways", program)
        ways_to_lines(program, race)
        searches_that_speak(program, race, place)


def ways_to_lines(program: str, race: str) -> None:
    lost = number_of(says(program, ("every", race, "10000")), " out 0x00000002: ")
    told = says(program, ("every", race, "10000", "--script", lost), 0, "raise 0", "answers of the reference")
    ensure(not run([program, "script"], told.encode())[1], f"tools/every --script: the program refuses {told[-300:]!r}")
    with tempfile.TemporaryDirectory() as place:
        ways_of_an_image(program, race, lost, place)
        ways_with_a_menu(program, os.path.join(place, "served.img"))


# What ends a search, with the words of the answer and its status: a line, rules of words and registers, by the way that
# is the shortest, and that the program goes, too
ENDS = ((0, "--until", "out 0x00000002", "12  71 1 out 0x00000002: 0x51 raise0 1x9 0x5 1x6\n"),
        (1, "--never", "[COUNT] == 1", "5 - rule 1: raise0 0x4    # broken: never [COUNT] == 1\n"),
        (1, "--never", "[28:0xffc01000] in 7 2 and f38:1 == 0", " - rule 1: "),
        (1, "--always", "part in 1 44", " - rule 1: 0x44    # broken: always part in 1 44\n"),
        (1, "--always", "pc != child or r5 == TIMES", "p28:5 1"))
HOLDS = (("--never", "[COUNT] > 2*TIMES"), ("--always", "28:r5 <= TIMES"),
         ("--never", "part == 28 and r4 != 0xffc01000"))


def searches_that_speak(program: str, race: str, place: str) -> None:
    """Searches that end at a line, where a rule is broken or where they are stopped; rules that hold; ways that are
    kept; and a search that the process doesn't find like the program."""
    needed("cargo")
    for status, option, what, *parts in ENDS:
        says(program, ("every", race, "10000", option, what), status, "found    #", "the program comes there", *parts)
    says(program, ("every", race, "10000", *(word for rule in HOLDS for word in rule)), 0, " depth 74 closed",
         "no state that was found breaks a rule")
    source = f".include {race}\n.never [COUNT] == 2   # as the race does\n"
    says(program, ("every", write(source, place, "ruled.asmx"), "1000"), 1, " - rule 1: ", "f38:0 2")
    says(program, ("every", race, "1650"), 0, " stopped    #", "their number falls since depth 62, where it was 131\n",
         "# most values: ")
    says(liar(program, place, "s/0x51 raise0/0x50 raise0/"), ("every", race, "10000"), 1, "differs from the program")
    counted = stand_ins(os.path.join(place, "counted"),
                        f'#!/bin/sh\necho "$1" >> "{place}/calls"\nexec "{{program}}" "$@"\n', program)
    for words in ((), ("--trace", "5"), ("--script", "5")):
        says(counted, ("every", race, "10000", *words))
    same("how often a search is made for its ways", contents(place, "calls").split().count(b"every"), 1)


def ways_with_a_menu(program: str, built: str) -> None:
    """What is searched of an image with a menu after it."""
    says(program, ("asmx", "examples/every/served.asmx", "--against", built))
    image = contents(built)
    for deed, status, due in ((b"each trap 63 0 0\n", 0, "park 1 14: 0x43 0:d1 0"),
                              (b"each trap 63 0 0\neach trap 63 0\n", 2, "line 2 of the menu is bad")):
        write(image + deed, built)
        says(program, ("every", built, "1000"), status, due)


def ways_of_an_image(program: str, race: str, lost: str, place: str) -> None:
    """The same of an image, with the names of its source."""
    built = os.path.join(place, "race.img")
    says(program, ("asmx", race, "--image", built))
    says(program, ("every", built, "10000", "--source", race, "--trace", lost), 0, "line 0 is raised", "child+1",
         "the program has this line, too", "processor 1 runs partition 1")
    says(liar(program, place, "s/out 0x00000002:/out 0x00000007:/"), ("every", built, "10000", "--trace", lost), 1,
         "the reference differs from the program")
    session("every", program, IMAGE=built)
