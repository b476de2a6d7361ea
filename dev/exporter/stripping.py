"""Takes out of a source what is there for proofs alone, by patterns of code, and by rules for clauses, ghost items and
models. A rule is asked at a place, and answers the place after what it has dealt with."""

from __future__ import annotations

import re
from collections.abc import Callable
from typing import Union

from .pages import Names, boxed, clause_lines, escaped
from .requirements import clauses_of_trait, is_entrance, tests_of
from .source import Source
from .tokens import Token, Trouble

GONE = "\0"  # in the place of what was taken out, so that a line that is empty then goes, too


class Edits:
    """What is put in the place of which piece of a text."""

    def __init__(self, text: str) -> None:
        self.text = text
        self.all: list[tuple[int, int, str]] = []

    def put(self, start: int, end: int, new: str) -> None:
        self.all.append((start, end, new))

    def done(self) -> str:
        """The changed text. A change inside of what is taken out counts for nothing."""
        pieces: list[str] = []
        at = 0
        for start, end, new in sorted(self.all):
            if start >= at:
                pieces += [self.text[at:start], new]
                at = end
            elif end > at:
                raise Trouble("two changes overlap")
        return without_gone("".join(pieces) + self.text[at:])


def without_gone(text: str) -> str:
    """The text without lines of which nothing is left. An empty line beside them stays where it parts two others."""
    lines: list[str] = []
    beside = False
    for line in text.split("\n"):
        if GONE in line and not line.strip(GONE + " \t"):
            beside = True
            continue
        line = line.replace(GONE, "")
        if beside and not line.strip() and (not lines or not lines[-1].strip() or lines[-1].endswith("{")):
            continue                                                       # it would part nothing
        if beside and line.strip() in ("}", "},") and lines and not lines[-1].strip():
            lines.pop()
        beside = beside and not line.strip()
        lines.append(line)
    return "\n".join(lines)


# Clauses and ghost items as comments: beside a function that is documented they are part of its documentation

QUALIFIERS = ("const", "unsafe", "final")


def keep_clauses(source: Source, function: int, clauses: list[Token], edits: Edits) -> None:
    """Writes a function's clauses, and the comments among them, after its comment: as documentation where the function
    has some or is public."""
    first = function
    while source.at(first - 1).kind == "word" and source.at(first - 1).text in QUALIFIERS:
        first -= 1
    head = source.head(first)
    comments = comments_at(source, head, first)
    public = any(token.is_word("pub") for token in source.tokens[head:first])
    documented = public or any(token.text.startswith("///") for token in comments)
    inset = source.inset(source.at(head).start)
    if documented:
        lines = ([""] if comments else []) + shown(source, function, clauses)
    else:
        lines = [line.strip() if number == 0 else "    " + line.strip()
                 for clause in clauses for number, line in enumerate(clause.text.split("\n"))]
    mark = "///" if documented else "//"
    place = source.line_start(source.at(head).start)
    if comments:
        place = source.text.index("\n", comments[-1].end) + 1
    edits.put(place, place, "".join(f"{inset}{mark} {line}".rstrip() + "\n" for line in lines))


def shown(source: Source, function: int, clauses: list[Token]) -> list[str]:
    """Clauses, and the comments among them, as documentation in which each name leads to its definition."""
    references: dict[str, str] = {}
    names = source.names.without(source.parameters(function))
    lines = [line for clause in clauses for line in (
        clause_lines(clause.text) if clause.kind == "clause" else [" ".join(clause.text.split())])]
    lines = boxed(lines, names, references)
    return lines + [""] * bool(references) + [f"[{name}]: {target}" for name, target in references.items()]


def in_clauses(source: Source, place: int, edits: Edits) -> int:
    """The documentation of a trait or a type also says what it is in clauses, by its ghost items or its model."""
    name = source.at(place + 1).text
    model = re.search(rf"^impl\b[^;{{]*\bModel for {name}\b.*?^}}", source.text, re.M | re.S)
    brace = source.next_punct(place, "{;(")
    inside = Source(model[0]) if model else Source(source.text[source.at(brace).start:source.at(
        source.closing(brace)).end] if source.at(place).is_word("trait") else "")
    lines = [line for at in range(len(inside.tokens)) for line in ghost_lines(inside, at, source.names)]
    head = source.head(place)
    comments = comments_at(source, head, place)
    if lines and comments and source.at(place - 1).is_word("pub"):
        end = source.text.index("\n", comments[-1].end) + 1
        edits.put(end, end, "".join(f"/// {line}".rstrip() + "\n" for line in ["", "# In clauses", "", *lines]))
    return place + 1


def ghost_lines(source: Source, place: int, names: Names) -> list[str]:
    """A ghost item as an item of a list, with its remark."""
    found = GHOST.fullmatch(source.at(place).text) if source.at(place).kind == "ghost" else None
    if found is None:
        return []
    code = boxed([f"{found[1]}{found[2]} {' '.join(found[3].split())}"], names.without([found[1]]))
    remark = " ".join(token.text.lstrip("/ ") for token in comments_at(source, source.head(place), place))
    return [f'- <a id="ghost.{found[1]}"></a>{code[0]}', *([f"  <br>{escaped(remark)}"] if remark else [])]


def comments_at(source: Source, first: int, last: int) -> list[Token]:
    """The comments with which a head begins."""
    found: list[Token] = []
    while first < last and source.at(first).kind == "comment":
        found.append(source.at(first))
        first += 1
    return found


def keep_item(source: Source, first: int, last: int, edits: Edits) -> None:
    """Turns an item, with the comments before it, into comments that no documentation shows."""
    start = source.line_start(source.at(first).start)
    end = source.text.index("\n", source.at(last).end) + 1
    inset = len(source.inset(source.at(first).start))
    lines = (re.sub(r"^( *)///? ?", r"\1", line[inset:]) for line in source.text[start:end - 1].split("\n"))
    edits.put(start, end, "".join((" " * inset + "// " + line).rstrip() + "\n" for line in lines))


GHOST = re.compile(r"ghost (?!use\b)(\w+)(:| =) \{(.*)\};?", re.S)


# What goes

Found = re.Match[str]


def without_drop(found: Found) -> str:
    """`Drop` goes out of a list of derives: what Rust drops it drops by itself."""
    names = [name for name in re.split(r",\s*", found[1]) if name != "Drop"]
    return f"#[derive({', '.join(names)})]" if names else GONE


def drop_by_parts(found: Found) -> str:
    """`fn drop(self) { let T { a, b } = self; ..` takes the parts. Rust's `drop` is lent the value, so it copies them.
    """
    body = re.fullmatch(r"(.*fn drop\()self(\) \{\s*let )\w+ \{([^{}]*)\} = self;", found[0], re.S)
    if body is None:
        raise Trouble("a drop of another form")
    parts = [part.strip() for part in body[3].split(",") if part.strip()]
    copies = ", ".join(f"std::mem::part_of_dropped(&self.{part})" for part in parts)
    return f"{body[1]}&mut self{body[2]}({', '.join(parts)}) = unsafe {{ ({copies}) }};"


# Patterns of code, and what comes in their place
PATTERNS: tuple[tuple[str, Union[str, Callable[[Found], str]]], ...] = (
    (r"#!?\[(?:tactic|cycle)\b[^\]]*\]", GONE),
    (r"#\[derive\(([^)]*\bDrop\b[^)]*)\)\]", without_drop),
    (r"\s*\+ Drop\b|\s*: Drop(?=[,>;])", GONE),
    (r"(?<=\.expect\()&?\w+, ", ""),             # Rust's takes the message alone
    (r"\bimpl\b[^;{]*\bDrop for [^{]*\{[^;]*;", drop_by_parts))


def strip(source: Source, edits: Edits) -> None:
    """All that goes, and the tests that come in the place of clauses."""
    code = source.code()
    for pattern, new in PATTERNS:
        for found in re.finditer(pattern, code):
            edits.put(*found.span(), new if isinstance(new, str) else new(found))
    place = 0
    while place < len(source.tokens):
        token = source.tokens[place]
        rule = RULES.get(token.kind if token.kind in RULES else token.text)
        place = rule(source, place, edits) if rule else place + 1


def ghost_item(source: Source, place: int, edits: Edits) -> int:
    """An import of definitions goes; another ghost item stays as a comment."""
    token = source.at(place)
    head = source.head(place)
    if re.match(r"ghost\s+use\b", token.text):
        edits.put(source.at(head).start, token.end, GONE)
    else:
        keep_item(source, head, place, edits)
    return place + 1


def clauses(source: Source, place: int, edits: Edits) -> int:
    """The clauses of a function become comments, with the comments among them, and tests of what it requires; those of
    a closure or a loop go."""
    first, last = place, place
    while source.at(first - 1).kind == "comment":
        first -= 1
    while source.at(last + 1).kind in ("clause", "comment"):
        last += 1
    after = source.at(last + 1)
    edits.put(source.at(first - 1).end, after.start, " " if after.text == "{" else "")
    function = source.function_of(place)
    if function is not None:
        found = source.tokens[first:last + 1]
        keep_clauses(source, function, found, edits)
        if after.text == "{":
            put_tests(source, function, [token.text for token in found], last + 1, edits)
    return last + 1


def function(source: Source, place: int, edits: Edits) -> int:
    """A public function that changes nothing is called for its answer. A machine's event without clauses of its own is
    tested for what the trait requires of it."""
    if is_question(source, place):
        start = source.at(place - 1 - source.at(place - 1).is_word("const")).start
        edits.put(start, start, f"#[must_use]\n{source.inset(start)}")
    found = clauses_of_trait(source, place)
    if not found:
        return place + 1
    brace = source.next_punct(place, "{")
    if not any(token.kind == "clause" for token in source.tokens[place:brace]):
        put_tests(source, place, found, brace, edits)
    return place + 1


def is_question(source: Source, place: int) -> bool:
    """Whether a function is public, has an answer that isn't a `Result` or a reference to be changed, and is lent
    nothing to change."""
    if not source.at(place - 1 - source.at(place - 1).is_word("const")).is_word("pub"):
        return False
    tokens = source.tokens[place:source.next_punct(place, "{") + 1]
    words = ["{" if token.kind == "clause" else token.text for token in tokens]
    words = words[:words.index("{")]
    _, arrow, answer = " ".join(words).rpartition("- > ")
    return bool(arrow and "mut" not in words and "> (" not in answer
                and not re.match(r"(?:\S+ ){0,3}(?:Result|impl)\b", answer))


def put_tests(source: Source, function: int, found: list[str], brace: int, edits: Edits) -> None:
    """The tests after a function's brace; an entrance then names its caller's line."""
    edits.put(source.at(brace).end, source.at(brace).end, tests_of(source, function, found, brace))
    if is_entrance(source, function) and any(clause.startswith("requires") for clause in found):
        start = source.at(function - source.at(function - 1).is_word("pub")).start
        edits.put(start, start, f"#[track_caller]\n{source.inset(start)}")


def model(source: Source, place: int, edits: Edits) -> int:
    """An `impl Model`, which is for proofs, stays as a comment."""
    brace = source.next_punct(place, "{;),")
    if not any(token.is_word("Model") and source.at(at + 1).is_word("for")
               for at, token in enumerate(source.tokens[place:brace], place)):
        return place + 1
    closing = source.closing(brace)
    if any(token.kind not in ("ghost", "comment") for token in source.tokens[brace + 1:closing]):
        raise Trouble("a model with code")
    keep_item(source, source.head(place), closing, edits)
    return closing + 1


# By the kind or, of other tokens, the text of the token at which they may have something to say.
RULES: dict[str, Callable[[Source, int, Edits], int]] = {"ghost": ghost_item, "clause": clauses, "impl": model,
                                                        "fn": function, "trait": in_clauses, "struct": in_clauses,
                                                        "enum": in_clauses}
