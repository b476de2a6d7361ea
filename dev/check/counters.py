"""No crate below the commands can make a step counter of its own: none names what one is made of.

A counter of one's own would count nothing for the caller, whose bound would then say nothing. A counter is opened from
a `Blank` of std's ledger, at the ledger `Brand` or at one that the caller has chosen. So these names are looked for,
and the module `ledger` that has them, whatever else they are called in a `use`, a type's alias or a macro's argument.
The commands may name them, and programs, which are known by their `fn main`; and so may crates of tests, on which no
other crate may stand. The search of pip_every has a counter of its own, too, and so has the copy with which a journal
begins: a search's choices are calls of a trait of pip_search, which knows no counter, so they count for
nobody."""

import os
import re
from collections.abc import Iterator

from common.blocks import blocks, escaped, parted
from .running import REPOSITORY, Differs, ensure, planted
from .sources import sources

COMMANDS = "pip_children", "pip_commands", "pip_search_commands", "pip_certificates", "pip_lab_commands"
TESTS = "pip_test_"
KERNEL = "crates/pip_mmu/src/lib.rt"
NAMES = re.compile(r"\b(?:ledger|Blank|Brand|pip_test_\w+)\b")

# What is no code, in the order in which a reader of Rust meets it: texts and remarks hide each other.
NO_CODE = re.compile(r"""
    //[^\n]* | /\*.*?\*/
    | b?r(?P<fence>\#*)".*?"(?P=fence) | b?"(?:\\.|[^"\\])*" | b?'(?:\\(?:x..|u\{[^}]*\}|.)|[^'\\\n])'
    """, re.DOTALL | re.VERBOSE)

# Where a name is another thing: in an import for clauses, in that of the trait, and as a kind of line, in code and in a
# clause.
HARMLESS = re.compile(r"""
    \bghost\s+use\b[^;]*; | \buse\s+std::sync::ledger::Ledger\s*;
    | \benum\s+\w+(?:<[^>{]*>)?\s*\{\s*Blank\b | \b(?:ScriptLine|Statement)::Blank\b(?!\s*::) | \bSome\s+Blank\b
    """, re.VERBOSE)

# The planted ways to make a counter, and the lines of pip_base that define it, those of the journal that let a caller
# pick the words of a memory and that copy them, and those of the search.
PLANTED = blocks("data/counters.txt", __file__)
DEFINITION = {path: [escaped(line).decode() for line in PLANTED.pop(path).splitlines()]
              for path in list(PLANTED) if path.startswith("crates/")}


def step_counters(program: str) -> None:
    """No crate below the commands names what a counter is made of. Planted ways to make one are tried first."""
    for title, text in PLANTED.items():
        files = parted(text) if text.startswith("crates/") else {KERNEL: f"fn leaf() {{ {text} }}\n"}
        with planted(files) as place:
            is_found = any(counters_named(place))
        ensure(is_found != title.startswith("no "), "a planted counter is found, or isn't, where it is the other way "
               f"round: {title}")
    if found := list(counters_named(REPOSITORY)):
        raise Differs(f"a step counter can be made: {', '.join(found)}")


def counters_named(top: str) -> Iterator[str]:
    """Where a crate that may not make a counter names what one is made of, or stands on a crate of tests."""
    found = programs(top)
    for crate, path, text in sources(top):
        if crate not in COMMANDS and crate not in found and not crate.startswith(TESTS):
            for name in NAMES.findall(code_of(path, text)):
                yield f"{path} names {name}"
    yield from ends_used(top, found)


def programs(top: str) -> set[str]:
    """The crates that are programs and nothing else."""
    mains = {crate for crate, path, text in sources(top) if path.endswith(os.path.join("src", "main.rt"))
             and re.search(r"\bfn\s+main\s*\(", without_texts(text))}
    return mains - {crate for crate, path, _ in sources(top) if path.endswith(os.path.join("src", "lib.rt"))}


def code_of(path: str, text: str) -> str:
    """A file's code, without what names no counter."""
    code = HARMLESS.sub(" ", without_texts(text))
    for line in DEFINITION.get(path, ()):
        code = code.replace(line, " ", 1)
    return code


def without_texts(text: str) -> str:
    """Code without its texts and remarks. Each leaves a space, as between two words."""
    return NO_CODE.sub(" ", text)


def ends_used(top: str, found: set[str]) -> Iterator[str]:
    """The crates that stand on a program, and those of no tests that stand on one of tests, by crates.txt."""
    try:
        with open(os.path.join(top, "crates.txt"), encoding="utf-8") as file:
            lines = [line.split("#")[0] for line in file]
    except FileNotFoundError:
        return
    for line in lines:
        crate, *used = line.replace(":", " ").split() or [""]
        for other in used:
            if other in found or other.startswith(TESTS) and not crate.startswith(TESTS):
                yield f"{crate} stands on {other}"
