"""The words that the tools show are those of docs/FORMATS.md and of tools/README.md: tools/common/meanings.json has the
rows of their tables."""

import json
import re
from typing import Any

from common import meanings
from .running import Differs, ensure, text_of, write

PAGE = "docs/FORMATS.md"
TOOLS = "tools/README.md"        # it has the lines of tools/asmx
# numbers that need a row
STATUSES, CALLS, ENDS = range(19), range(12), ("0", "1", "2", "3", "4", "5", "6", "8", "9", "10", "11")
# Causes for which a line of a script is bad, by how the first cell of its row begins
OF_LINES = {"return": "a carriage return", "mark": "a byte order mark", "spaces": "an indentation",
            "remark": "a remark after a line",
            "case": "upper case", "number": "`00`", "large": "more than eight digits", "processor": "`ld 1 0` after",
            "boot": "`boot 15 1`",
            "second": "a second `boot`", "range": "`sb 0 0x400000 256`", "form": "`load 0 0`", "count": "`ld 0`",
            "long": "121 bytes or more"}
# and a line of an assembly text, by its kind and how the second cell of its row begins
OF_TEXTS = {"asm unknown": ("unknown", "it has no form"), "asm place": ("unknown", "its form"),
            "asm head": ("unknown", "one of the two header lines"), "asm operand": ("operand", ""),
            "asm range": ("range", "a number"), "asm distance": ("range", "the distance"), "asm twice": ("twice", ""),
            "asm size": ("size", ""), "asm label": ("label", "")}
OF_MENUS = ("who", "what", "many")


def same(program: str) -> None:
    """meanings.json is what the page says. That a changed row and a lost heading are found is tried first."""
    text = text_of(PAGE)
    for planted, due in ((text.replace("| an address is 0 |", "| an address is 1 |"), "statuses"),
                         (text.replace("## Calls by number", "## Calls"), "")):
        ensure(due == found(planted), f"a planted change of docs/FORMATS.md isn't found: {due or 'a heading'}")
    if part := found(text):
        raise Differs(f"docs/FORMATS.md has other {part} than tools/common/meanings.json: run.py --write-meanings "
                      "takes those of the page")


def found(text: str) -> str:
    """The first part in which a page differs; empty where it lacks a row that is due."""
    try:
        made = of_page(text)
    except Differs:
        return ""
    return next((part for part, rows in made.items() if rows != meanings.TOLD.get(part)), "")


def rewrite() -> None:
    write(json.dumps(of_page(text_of(PAGE)), indent=1, ensure_ascii=False) + "\n", str(meanings.DATA))


def of_page(text: str) -> dict[str, Any]:
    """What the page says, part by part."""
    statuses = {row[0]: row[1:3] for row in rows(text, "## Statuses by number")}
    calls = {row[0]: row[1:3] for row in rows(text, "## Calls by number") if row[0].isdigit()}
    ends = {row[0]: row[1] for row in rows(text, "## Statuses of the program") if row[0].isdigit()}
    lacks = [*({str(k) for k in STATUSES} - set(statuses)), *({str(k) for k in CALLS} - set(calls)),
             *(set(ENDS) - set(ends))]
    if lacks:
        raise Differs(f"docs/FORMATS.md has no row of the number {lacks[0]}")
    return {"statuses": {k: told for k, told in statuses.items() if k.isdigit()},
            "calls": {k: told for k, told in calls.items() if told[0] != "none"},
            "vectors": {row[0]: row[1] for row in rows(text, "## Vectors, and what a handler gets")
                        if row[0].isdigit()}, "ends": ends, "causes": causes(text),
            "forms": first_words(rows(text, "### Forms")), "assembly": assembly(text)}


def rows(page: str, heading: str) -> list[list[str]]:
    """The cells of the table rows of a page below a heading, up to the next one, without links."""
    _, _, below = page.partition(f"\n{heading}\n")
    lines = [line for line in below.split("\n#", 1)[0].split("\n") if line.startswith("| ")]
    return [[meanings.plain(cell.strip("| ")) for cell in line.split(" | ")] for line in lines]


def first_words(table: list[list[str]]) -> dict[str, str]:
    """What each first word of a line means, where rows begin with such lines."""
    found: dict[str, str] = {}
    for row in table:
        meaning = f"{row[0]}: {'; '.join(cell for cell in row[1:] if cell)}"
        for code in re.findall(r"`([^`]+)`", row[0]) if row[0].startswith("`") else []:
            name = code.split()[0]
            found[name] = found[name] + "\n\n" + meaning if name in found else meaning
    return found


def assembly(text: str) -> dict[str, str]:
    """The same of assembly texts, with the lines of tools/asmx."""
    found = {**first_words(rows(text_of(TOOLS), "## asmx")), **first_words(rows(text, "## Assembly"))}
    for row in rows(text, "## Instructions"):
        if row[0].startswith("0x"):
            found[row[1].strip("`").split()[0]] = f"{row[1]}, {row[0]}: {row[3] if len(row) > 3 else ''}"
    return found


def causes(text: str) -> dict[str, list[str]]:
    bad, kinds = rows(text, "### Why is my line bad?"), rows(text, "### Faults of a text")
    told = {name: [row for row in bad if row[0].startswith(begins)] for name, begins in OF_LINES.items()}
    told.update({name: [row for row in kinds if row[0] == f"`{kind}`" and row[1].startswith(begins)]
                 for name, (kind, begins) in OF_TEXTS.items()})
    menus = rows(text, "### against")
    told.update({"menu " + kind: [row for row in menus if row[0] == f"`{kind}`"] for kind in OF_MENUS})
    lacks = [name for name, row in told.items() if len(row) != 1]
    ensure(not lacks, f"docs/FORMATS.md hasn't one row for {', '.join(lacks)}")
    return {name: row for name, (row,) in told.items()}
