"""What answers, faults and words of lines mean, in the words of the documents: meanings.json, which the check
`documents` compares with them."""

from __future__ import annotations

import json
import re
from pathlib import Path
from typing import Any

DATA = Path(__file__).with_name("meanings.json")
LINES = range(32, 48)            # the vectors of the interrupt lines
LINK = re.compile(r"\[([^\]]*)\]\([^)]*\)")


TOLD: Any = json.loads(DATA.read_text(encoding="utf-8"))
STATUSES: dict[int, tuple[str, str]] = {int(number): (name, told) for number, (name, told) in TOLD["statuses"].items()}
# Of each call its name and its arguments. A number without a call isn't there
CALLS: dict[int, tuple[str, str]] = {int(number): (name, told) for number, (name, told) in TOLD["calls"].items()}
# What a vector comes from, if it comes from one thing alone
VECTORS: dict[int, str] = {int(number): told for number, told in TOLD["vectors"].items()}
# Of each cause for which a line is bad the row of its table: what the line has, why that is bad, what to do
CAUSES: dict[str, list[str]] = TOLD["causes"]
ENDS: dict[str, str] = TOLD["ends"]                      # when the program ends with each status
# What each first word of a line means, of a script's and of an assembly text's, with the lines of tools/asmx
FORMS: dict[str, str] = TOLD["forms"]
ASSEMBLY: dict[str, str] = TOLD["assembly"]


def plain(text: str) -> str:
    """A text of the documents without its links."""
    return LINK.sub(r"\1", text)


def of_status(number: int) -> str:
    return ": ".join(STATUSES[number]) if number else STATUSES[0][0]


def of_vector(vector: int) -> str:
    if vector in LINES:
        return f"vector {vector}, interrupt line {vector - 32}"
    told = VECTORS.get(vector)
    return f"vector {vector}: {told}" if told and vector in (6, 14, 17) else f"vector {vector}"


def outcome_of(text: str) -> tuple[str | None, list[str]]:
    """The call that an answer, or a line of a trace without step and processor, names, and the words of its outcome."""
    words = text.split() or [""]
    return (words[1], words[2:]) if words[0] == "call" else (None, words)


def of_answer(answer: str, line: str = "") -> str:
    """An answer of a script, or a line of a trace, in words; nothing where it says all itself."""
    call, (kind, *numbers) = outcome_of(answer)
    if line.startswith("call "):
        call = line.split()[2]
    made = CALLS.get(int(call, 0), (f"call {call}",))[0] + ": " if call is not None else ""
    if kind == "reply":
        return made + of_status(int(numbers[0]))
    if kind == "switch":
        source, target, vector = numbers
        left = "an idle processor" if source == "0" else f"partition {source}"
        return f"{made}from {left} to partition {target}, {of_vector(int(vector))}"
    if kind == "park":
        return f"{of_vector(int(numbers[-1]))}; nobody takes it, and nothing runs there any more"
    return "nothing runs there" if kind == "idle" else ""
