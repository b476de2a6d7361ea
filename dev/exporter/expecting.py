"""What an export of a source has to be, word by word: worked out by rules of its own, and not by those of the exporter.

A rule is a pattern of words and what comes in their place, over a text in which each word has its kind before it (code,
a clause, a ghost item, an import for proofs, or a slot) and its line after it."""

from __future__ import annotations

import re
from collections import Counter
from collections.abc import Callable
from dataclasses import dataclass, field
from typing import Union

from .rewriting import Role
from .scanner import Word

OPENING, CLOSING = ("(", "[", "{"), (")", "]", "}")
KIT_NAMES = {"Vec", "String", "Box", "HostRuntime", "AllocGlobal", "Print"}
KIT_LINE = "use std : : prelude : : kit : : * ;"
ROOT = "# ! [ no_std ] # [ macro_use ] extern crate rattle_std as std ;"
ASKED = "# [ must_use ]"
TRACED = "# [ track_caller ]"
# The types whose calls outsiders make
OUTSIDE = r"impl (?:< .* > )?(?:Port for )?(?:Machine|RawFrames|VecFrames)(?: < .* >)?"
PAGES = "# [ allow ( non_snake_case ) ] pub mod specs ;"
NO_MAIN = "# ! [ cfg_attr ( unix , no_main ) ]"
START = ("# [ cfg ( unix ) ] mod start { # [ unsafe ( no_mangle ) ] extern \"C\" fn main ( count : i32 , first : * mut "
         "* const "
         "core : : ffi : : c_char ) - > i32 { std : : process : : started ( super : : main , count , first ) } }")


@dataclass
class Slot:
    """The place after a function's brace, where tests of what it requires may be; and where the function begins."""

    begin: int
    clauses: list[str]
    unsafe: bool
    entrance: bool


@dataclass
class Due:
    """The words that are due, the slots by the number of words before them, and what went and came, counted by kinds.
    """

    words: list[Word]
    slots: dict[int, Slot] = field(default_factory=dict)
    clauses: list[str] = field(default_factory=list)
    went: "Counter[str]" = field(default_factory=Counter)
    came: "Counter[str]" = field(default_factory=Counter)


def due(source: list[Word], role: Role) -> Due:
    """What is due for the words of a source."""
    found = Due([word for word in source if word.kind != "comment"])
    used = {word.text for word in found.words if word.kind == "code"}
    slots = dict(filter(None, (slot_of(found, place) for place in range(len(found.words)))))
    traced = {slot.begin for slot in slots.values() if slot.entrance}
    found.came["track_caller"] += len(traced)
    asked = {place for place in range(len(found.words)) if is_asked(found.words, place)}
    found.came["must_use"] += len(asked)
    told = "".join((at_line(ASKED, str(word.line)) if place in asked else "")
                   + (at_line(TRACED, str(word.line)) if place in traced else "") + as_text(word)
                   + (as_text(Word("", place, "slot")) if place in slots else "")
                   for place, word in enumerate(found.words))
    for kind, pattern, new in RULES:
        told, count = pattern.subn(new, told)
        found.went[kind] += count
    told, found.came["runtime of a main or a test"] = RUNTIME.subn(given_runtime, told)
    take(found, told, slots)
    add_head(found, role, used)
    return found


def slot_of(found: Due, place: int) -> tuple[int, Slot] | None:
    """The place of a function's brace with its slot, where a function that requires something begins there; all its
    clauses are noted."""
    words = found.words
    if words[place].text != "fn" or words[place + 1].text == "(":
        return None
    here, depth, clauses = place, 0, list[str]()
    while depth or words[here].kind != "code" or words[here].text not in ("{", ";"):
        if words[here].kind == "clause":
            clauses.append(words[here].text)
        else:
            depth += (words[here].text in OPENING) - (words[here].text in CLOSING)
        here += 1
    found.clauses += clauses
    requires = [clause for clause in clauses if clause.startswith("requires")]
    head = head_around(words, place)
    public = words[place - 1].text == "pub"
    entrance = re.fullmatch(OUTSIDE, head) is not None and (public or "Port for" in head)
    if entrance and not clauses and "Port for" in head and "cpu" in (word.text for word in words[place:here]):
        requires = ["requires { cpu < length self.now.cpus }"]       # as the trait says
    if words[here].text == ";" or not requires:
        return None
    unsafe = any(word.text == "unsafe" for word in words[here:closing_of(words, here)])
    return here, Slot(place - public, requires, unsafe, entrance)


def is_asked(words: list[Word], place: int) -> bool:
    """Whether a public function begins there that only answers: it changes nothing, and its answer is no Result."""
    texts = [word.text if word.kind == "code" else "" for word in words[place:place + 3]]
    start = place + {"fn": 1, "const": 2}.get("".join(texts[1:2]), 0)
    if texts[0] != "pub" or start == place or words[start].text != "fn":
        return False
    head, depth = list[str](), 0
    for word in words[start:]:
        if word.kind != "code" or depth == 0 and word.text in ("{", ";"):
            break
        depth += (word.text in OPENING) - (word.text in CLOSING)
        head.append(word.text)
    told = " ".join(head)
    last = told.split(" - > ")[-1]
    return last != told and " mut " not in told and not re.search(r"> \(|^(?:\S+ ){0,3}(?:Result|impl)\b", last)


def head_around(words: list[Word], place: int) -> str:
    """What is written before the brace that is open at a place: its code since the last brace or semicolon."""
    depth, head = 0, list[str]()
    while place and depth >= 0:
        place -= 1
        if words[place].kind == "code":
            depth += (words[place].text == "}") - (words[place].text == "{")
    while place and words[place - 1].text not in ("{", "}", ";", "]") and words[place - 1].kind == "code":
        place -= 1
        head.insert(0, words[place].text)
    return " ".join(head)


def closing_of(words: list[Word], place: int) -> int:
    """The place of what closes the bracket there."""
    depth = 0
    for here in range(place, len(words)):
        if words[here].kind == "code":
            depth += (words[here].text in OPENING) - (words[here].text in CLOSING)
        if depth == 0:
            return here
    return len(words)


# Words as a text

KINDS = {"code": "c", "clause": "l", "ghost": "g", "slot": "s"}
WORD = re.compile("\x1d([clgus])([^\x1f]*)\x1f(\\d+)")


def as_text(word: Word) -> str:
    is_import = word.kind == "ghost" and word.text.split()[1] == "use"
    return f"\x1d{'u' if is_import else KINDS[word.kind]}{word.text}\x1f{word.line}"


def code(told: str) -> str:
    """A pattern of words of code."""
    return "".join(f"\x1dc{re.escape(word)}\x1f\\d+" for word in told.split(" "))


def at_line(told: str, line: str) -> str:
    return "".join(f"\x1dc{word}\x1f{line}" for word in told.split(" "))


def optional(told: str) -> str:
    return f"(?:{code(told)})?"


def some(kind: str, without: str = "") -> str:
    """As few words of a kind as there may be, that have none of these characters."""
    return f"(?:\x1d{kind}[^\x1f{without}]*\x1f\\d+)*?"


ONE = "\x1dc([^\x1f]*)\x1f(\\d+)"
HEAD, LIST = some("c", "{};"), some("c", "\\]")
PUBLIC = f"(?:{code('pub')}{optional('( crate )')})?"
DERIVE = code("# [ derive (")


def drop_by_parts(found: re.Match[str]) -> str:
    """`fn drop(self) { let T { a, b } = self;` becomes `fn drop(&mut self) { let (a, b) = (..);`."""
    head, between, _, line, told = found.groups()
    parts = [word[1] for word in WORD.findall(told) if word[1] != ","]
    copies = " , ".join(f"std : : mem : : part_of_dropped ( & self . {part} )" for part in parts)
    return head + at_line("& mut self", line) + between + at_line(
        f"( {' , '.join(parts)} ) = unsafe {{ ( {copies} ) }} ;", line)


New = Union[str, Callable[["re.Match[str]"], str]]
PATTERNS: tuple[tuple[str, str, New], ...] = (
    ("impl Model", code("impl") + HEAD + code("Model for") + HEAD + code("{") + some("[gu]") + code("}"), ""),
    ("ghost use", PUBLIC + "\x1du[^\x1f]*\x1f\\d+", ""),
    ("ghost item", PUBLIC + "\x1dg[^\x1f]*\x1f\\d+", ""),
    ("clause", "\x1dl[^\x1f]*\x1f\\d+", ""),
    ("tactic", code("#") + optional("!") + code("[") + f"(?:{code('tactic')}|{code('cycle')})" + LIST + code("]"),
     ""),
    ("derive of Drop", DERIVE + code("Drop ) ]"), ""),
    ("derive of Drop", f"({DERIVE}{LIST}){code(', Drop')}", r"\1"),
    ("derive of Drop", f"({DERIVE}){code('Drop ,')}", r"\1"),
    ("bound Drop", code("+ Drop"), ""),
    ("bound Drop", code(": Drop") + f"(?={code(',')}|{code('>')}|{code(';')})", ""),
    ("drop by parts", f"({code('impl Drop for')}{HEAD}{code('{ fn drop (')}){code('self')}({code(') { let')}){ONE}"
     f"{code('{')}({HEAD}){code('} = self ;')}", drop_by_parts),
    ("runtime of expect", f"({code('. expect (')}){optional('&')}{code('rt ,')}", r"\1"))
RULES = [(kind, re.compile(pattern), new) for kind, pattern, new in PATTERNS]
# `main` and each test have no parameter, and begin with the runtime
RUNTIME = re.compile(f"((?:{code('# [ test ] fn')}{ONE}|{code('fn main')}){code('(')}){ONE}{code(': HostRuntime')}"
                     f"{optional(',')}({code(')')}{HEAD}{code('{')})")


def given_runtime(found: re.Match[str]) -> str:
    head, _, _, name, line, rest = found.groups()
    return str(head + rest + at_line(f"let {name} = std : : rt : : host ( ) ;", line))


def take(found: Due, told: str, slots: dict[int, Slot]) -> None:
    """Takes the words, and the places of the slots, from a text."""
    found.words = []
    for kind, text, line in WORD.findall(told):
        if kind == "s":
            found.slots[len(found.words)] = slots[int(line)]
        else:
            found.words.append(Word(text, int(line)))


def add_head(found: Due, role: Role, used: set[str]) -> None:
    """What a root has before its first item and after its last, and the names of the kit."""
    needs_kit = bool(used & KIT_NAMES)
    found.came["head of a crate"] += role.root
    found.came["the kit's prelude"] += needs_kit
    found.came["pages of documentation"] += role.shows
    head = " ".join([NO_MAIN] * role.program + [ROOT] * role.root + [PAGES] * role.shows
                    + [KIT_LINE] * needs_kit).split()
    place = 0
    while [word.text for word in found.words[place:place + 2]] == ["#", "!"]:
        place = closing_of(found.words, place + 2) + 1
    found.slots = {at + len(head) if at >= place else at: slot for at, slot in found.slots.items()}
    found.words[place:place] = [Word(text, 1) for text in head]
    if role.program:
        found.came["start of a program"] += 1
        found.words += [Word(text, found.words[-1].line) for text in START.split(" ")]
