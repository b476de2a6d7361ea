"""What a document links to in the repository, or names by its path from the top, is there; so is each contract that
PROVED.md names; and examples/README.md has a line for each file."""

from __future__ import annotations

import os
import re
from collections.abc import Iterator

from pages.rendering import anchor
from .running import REPOSITORY, Differs, ensure, paths, planted, text_of, told_path, write
from .sources import sources

LINK = re.compile(r"\]\(([^)\s]+)\)")
PATH = re.compile(r"`((?:class|crates|dev|docs|examples|tools)/[\w./-]+)`")
LEFT_OUT = {"out", ".git"}
LEFT_OUT_PATHS = ("/out/", "NAME")         # what is built, and what stands for any name


def links(program: str) -> None:
    anchors: dict[str, set[str]] = {}
    for path in documents(REPOSITORY):
        for name in PATH.findall(without_code(path)):
            ensure(any(part in name for part in LEFT_OUT_PATHS) or os.path.exists(os.path.join(REPOSITORY, name)),
                   f"{told_path(path)}: {name} isn't there")
        for target in LINK.findall(without_code(path)):
            if re.match("[a-z]+:", target):
                continue
            name, _, anchor = target.partition("#")
            place = os.path.normpath(os.path.join(os.path.dirname(path), name)) if name else path
            ensure(os.path.exists(place), f"{told_path(path)}: {target} isn't there")
            ensure(not anchor or anchor in anchors.setdefault(place, headings(place)), f"{told_path(path)}: {target} "
                   "names no heading")
    contracts()
    from . import checks        # which has this one in its list
    unknown = set(checks_named()) - set(checks.CHECKS)
    ensure(not unknown, f"documents name checks that aren't there: {', '.join(sorted(unknown))}")


def checks_named() -> Iterator[str]:
    """What documents name as checks: in a sentence, and in the last column of CONTRIBUTING's tables about checks."""
    for path in documents(REPOSITORY):
        text = text_of(path)
        yield from re.findall(r"\bcheck `([a-z-]+)`", text)
        table = r"^\|.*(?:\| check \(.*|by the check) \|\n\|[-|]+\|\n((?:\|.*\n)+)"
        for rows in re.findall(table, text, re.MULTILINE) if os.path.basename(path) == "CONTRIBUTING.md" else ():
            yield from " ".join(re.findall("`([^`]*)`",
                                           "".join(row.rsplit(" | ", 1)[1] for row in rows.splitlines()))).split()


def contracts() -> None:
    """Each contract in the table of PROVED.md is one of its crate. A planted one that isn't is tried first."""
    text = text_of("docs/PROVED.md")
    ensure(list(gone(text.replace("`soak_load`", "`soak_loads`"))) == ["pip_soak has no soak_loads"],
           "docs/PROVED.md: a contract that isn't there isn't found")
    if list(gone(text)):
        raise Differs(f"docs/PROVED.md: {', '.join(gone(text))}")


def gone(text: str) -> Iterator[str]:
    """What the table names and its crates don't declare: a function, a type, a trait, or a clause."""
    files = [(crate, told) for crate, _, told in sources(REPOSITORY)]
    for line in text.split("## Crate by crate")[1].split("\n## ")[0].split("\n"):
        crates = re.findall(r"\[(pip_\w+)\]\(", line.split(" | ")[0])
        declared = "\n".join(told for crate, told in files if crate in crates)
        for name in re.findall(r"`(?:\w+::)?(\w+)`", line.split(" | ")[1] if crates else ""):
            if not re.search(rf"\b(?:fn|struct|trait|enum|impl|ensures|requires|>) {name}\b", declared):
                yield f"{' and '.join(crates)} has no {name}"


def documents(top: str) -> Iterator[str]:
    for folder, folders, files in os.walk(top):
        folders[:] = [name for name in folders if name not in LEFT_OUT]
        yield from (os.path.join(folder, name) for name in files if name.endswith(".md"))


def without_code(path: str) -> str:
    """The lines of a document that aren't in a block of code."""
    parts = text_of(path).split("```")[::2]
    return "\n".join(line for part in parts for line in part.split("\n") if not line.startswith("    "))


def headings(path: str) -> set[str]:
    """The anchors of a document's headings."""
    titles = re.findall("^#+ (.*)$", without_code(path), re.MULTILINE)
    found: list[str] = []
    for title in titles:
        found.append(anchor(title, found))
    return set(found)


# examples/README.md has a line for each file: the first sentence of its first remark, and what stands beside it

INDEX = "examples/README.md"
FOLDERS = ("examples", "examples/every", "examples/apart", "examples/sessions", "examples/tutorial")
SHOWN = (".pip", ".s", ".asmx", ".may")          # files of their own line, by their endings
BEGIN = "<!-- the files, by dev/check/run.py --write-index -->\n"
SENTENCE = re.compile(r"(.*?[^.A-Z])(?:\.(?=\s|$)|$)")
# What stands beside scripts and programs
BESIDE = (".out", ".run", ".every", ".apart", ".against", ".again", ".comes", ".any",
          ".session")


def index(program: str) -> None:
    """The page is as the files are. That another remark, and a file more, are seen is tried first."""
    files = {"examples/one.pip": "# One: a word. Look at it.\n# More.\nboot 16 1\n", "examples/one.out": "boot 16 1\n"}
    with planted(files) as top:
        rows = list(rows_of(top, "examples"))
    ensure(rows == ["| [one.pip](one.pip) | One: a word | `out` |"], f"planted examples have the lines {rows}")
    before, _, after = text_of(INDEX).partition(BEGIN)
    ensure(after == listed(REPOSITORY), f"{INDEX} isn't as the files are: dev/check/run.py --write-index")
    endings = {os.path.splitext(path)[1] for path in paths("examples/**/*.*") if not path.endswith((".md", ".html"))}
    if missing := sorted(ending for ending in endings if f"`{ending}`" not in before):
        raise Differs(f"{INDEX} doesn't say what a file {missing[0]} is")


def rewrite() -> None:
    """Writes the lines of the files, after what the page says of their kinds."""
    before = text_of(INDEX).partition(BEGIN)[0]
    write(before + BEGIN + listed(REPOSITORY), REPOSITORY, INDEX)


def listed(top: str) -> str:
    """The lines of all files, by folder."""
    return "".join(f"\n## {folder}\n\n| file | what it shows | beside it |\n|---|---|---|\n"
                   + "".join(row + "\n" for row in rows_of(top, folder)) for folder in FOLDERS)


def rows_of(top: str, folder: str) -> Iterator[str]:
    place = os.path.join(top, folder)
    names = sorted(os.listdir(place))
    for name in (name for name in names if name.endswith(SHOWN)):
        stem = os.path.splitext(name)[0]
        beside = ", ".join(f"`{other[len(stem) + 1:]}`" for other in names if other.startswith(f"{stem}.")
                           and other.endswith(BESIDE))
        path = os.path.relpath(os.path.join(folder, name), "examples")
        yield f"| [{path}]({path}) | {first_sentence(os.path.join(place, name))} | {beside} |"


def first_sentence(path: str) -> str:
    """The first sentence of a file's first remark."""
    with open(path, encoding="utf-8") as file:
        lines = file.read().splitlines()
    remark = []
    for line in lines:
        if not line.startswith("# "):
            break
        remark.append(line[2:].strip())
    found = SENTENCE.match(" ".join(remark))
    if not found:
        raise Differs(f"{told_path(path)}: its first line isn't a remark that says what it shows")
    return found[1].replace("|", "\\|")
