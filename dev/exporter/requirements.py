"""Tests of what a function requires, as far as Rust can make them: comparisons of numbers, of frames, of lengths and of
counts."""

from __future__ import annotations

import re
from typing import NamedTuple

from .source import Source
from .tokens import Trouble

# The integers, and from where on a literal may not fit: a usize may have 32 bits.
INTEGERS = {"u8": 1 << 8, "u16": 1 << 16, "u32": 1 << 32, "u64": 1 << 64, "usize": 1 << 32}
SIGNS = {"≤": "<=", "<": "<", "≡": "==", "≢": "!="}
SLICE = re.compile(r"(& (mut )?)?(\[|str|Vec|ArrayVec|ArrayString|Processors)")
# What a name stands in, of which type it then is, and what Rust calls that, of which type. Where there is no name the
# type is empty.
NAMED: list[tuple[re.Pattern[str], re.Pattern[str], str, str]] = [
    (re.compile(text), re.compile(of_type), told, kind) for text, of_type, told, kind in (
        (r"(\w+)", r"Frame|VPage", "{}.number()", "u32"),
        (r"(\w+)(?:\.now|\.old)?\.line", r"(& )?Plan", "{}.line", "u32"),
        (r"(?:length|vec_len|array_string_len) (\w+)(?:\.now|\.old)?(?:\.items)?", SLICE.pattern + ".*", "{}.len()",
         "usize"),
        (r"length self\.(?:old|now)\.cpus()", "", "self.cpus.len()", "usize"),
        (r"P\.count (\w+)\.(?:now|old)", r"& (mut )?[PM]", "{}.cpus()", "u32"),
        (r"length \(M\.memory (\w+)\.(?:now|old)\)", r"& (mut )?[PM]", "{}.count()", "u32"))]
# What others call: there each build tests what is required, and says what is wrong at the caller's line.
ENTRANCE = re.compile(r"impl(?:<.*>)? (?:(?P<port>Port) for )?(?:Machine|RawFrames|VecFrames)\b(?:<.*>)?")
OF_PORT = "requires { cpu < length self.now.cpus }"    # of each of the trait's calls that names a processor
SENTENCES = [(re.compile(pattern), told) for pattern, told in (
    (r"cpu < length self\.(?:now|old)\.cpus", "the machine has no such processor"),
    (r"1 ≤ cpus|cpus ≤ 4", "a machine has 1 to 4 processors"),
    (r"16 ≤ n|n ≤ 4096", "a memory has 16 to 4096 frames"),
    (r"line < 16", "a line is below 16"),
    (r"vector < 256", "a vector is below 256"),
    (r"word < below_of size", "a byte is below 256"),
    (r"length cpus.items ≡ length self.old.cpus", "a machine keeps its number of processors"),
    (r"HasBooted \(M\.memory mem\)", "the memory was never booted: boot_zeros or boot of pip_kern does that"))]
BOOTED = re.compile(r"HasBooted \(M\.memory (\w+)\)")
EACH = re.compile(r"All \(λ (\w+)\. \1 < (\d+)\) (\w+)\.(?:now|old)(?:\.items)?")
FITS = re.compile(r"(\w+) < below_of (\w+)")


class Unknown(Exception):
    """A term that Rust can't make."""


class Term(NamedTuple):
    """What is added up in a side of a comparison, and its type, which a literal has not."""

    text: str
    type: str | None


def tests_of(source: Source, function: int, clauses: list[str], brace: int) -> str:
    """The tests, as lines to be put after the brace with which the body begins. Before unsafe code and at an entrance
    each is always made, else in debug builds alone."""
    body = source.tokens[brace:source.closing(brace)]
    unsafe, entrance = any(token.is_word("unsafe") for token in body), is_entrance(source, function)
    types = source.parameters(function)
    macro = "assert" if unsafe or entrance else "debug_assert"
    inset = source.inset(source.at(function).start)
    lines: list[str] = []
    for clause in clauses:
        if not clause.startswith("requires"):
            continue
        conditions = conditions_of(clause, types, unsafe)
        if unsafe and not conditions:
            raise Trouble(f"a requirement of an unsafe body of which Rust can test nothing: {clause}")
        said = f', "{sentence(clause)}"' if entrance and conditions else ""
        lines += [f"\n{inset}    {macro}!({condition}{said});" for condition in conditions]
    return "".join(lines)


def is_entrance(source: Source, function: int) -> bool:
    """Whether others call a function: a public one of a machine or of frames, or an event of a machine."""
    found = ENTRANCE.fullmatch(source.impl_of(function))
    return bool(found and (found["port"] or source.at(function - 1).is_word("pub")))


def clauses_of_trait(source: Source, function: int) -> list[str]:
    """What the trait says of an event that repeats no clause."""
    found = ENTRANCE.fullmatch(source.impl_of(function))
    return [OF_PORT] if found and found["port"] and "cpu" in source.parameters(function) else []


def sentence(clause: str) -> str:
    """What is said where an entrance's requirement isn't met."""
    part = " ".join(factors(clause)[0].split())
    told = next((told for pattern, told in SENTENCES if pattern.fullmatch(part)), None)
    if told is None:
        raise Trouble(f"a requirement of an entrance for which requirements.py has no sentence: {clause}")
    return told


def conditions_of(clause: str, types: dict[str, str], fields: bool) -> list[str]:
    """Those conditions of a clause that Rust can test as they are; of fields of `self` only where it is said."""
    found = (comparison(part, types, fields) for part in factors(clause))
    return [condition for condition in found if condition]


def factors(clause: str) -> list[str]:
    """What `×` joins in a clause, without the brackets around it."""
    body = clause[clause.index("{") + 1:clause.rindex("}")].strip()
    found, last, depth = [], 0, 0
    for at, character in enumerate(body):
        depth += (character in "([{") - (character in ")]}")
        if character == "×" and depth == 0:
            found.append(body[last:at].strip())
            last = at + 1
    found.append(body[last:].strip())
    if len(found) == 1:
        return found
    return [part[1:-1] if part.startswith("(") and part.endswith(")") else part for part in found]


def comparison(part: str, types: dict[str, str], fields: bool) -> str | None:
    """A comparison of two sums, or one of the other forms, or None where this is none that Rust can make."""
    each, fits, booted = EACH.fullmatch(part), FITS.fullmatch(part), BOOTED.fullmatch(part)
    if booted:
        return f"std::has_booted!({booted[1]})"
    if each and SLICE.match(types.get(each.group(3), "")):
        name, limit, items = each.groups()
        return f"{items}.iter().all(|{name}| *{name} < {limit})"
    if fits and types.get(fits.group(1)) == "u32" and types.get(fits.group(2)) == "Size":
        return f"matches!({fits.group(2)}, Size::Word) || {fits.group(1)} < 256"
    pieces = re.split(r" ([≤<≡≢]) ", part)
    if len(pieces) != 3:
        return None
    try:
        left, right = ([product(text.strip(), types, fields) for text in side.split(" + ")] for side in pieces[::2])
    except Unknown:
        return None
    kinds: set[str] = {term.type for term in left + right if term.type}
    if not kinds:
        return None
    least = min(INTEGERS.get(kind, 1 << 128) for kind in kinds)
    fits_all = all(int(term.text) < least for term in left + right if not term.type)     # each literal
    wide = len(kinds) > 1 or len(left + right) > 2 or not fits_all or "wide" in kinds
    return f"{joined(left, wide)} {SIGNS[pieces[1]]} {joined(right, wide)}"


def joined(side: list[Term], wide: bool) -> str:
    """A sum. A wide one is made in a type in which nothing wraps."""
    return " + ".join(re.sub(r"[^ ]*[a-z][^ ]*", r"(\g<0> as u128)", term.text) if wide and term.type else term.text
                      for term in side)


def product(text: str, types: dict[str, str], fields: bool) -> Term:
    """A term, or two of which a product or a remainder is made: a wide one, since it may wrap."""
    pieces = re.split(r" ([*%]) ", text)
    if len(pieces) != 3:
        return term(text, types, fields)
    left, right = (term(piece, types, fields) for piece in pieces[::2])
    if not (left.type or right.type):
        raise Unknown(text)
    return Term(f"{left.text} {pieces[1]} {right.text}", "wide")


def term(text: str, types: dict[str, str], fields: bool) -> Term:
    """A literal, an integer, a field of an unsafe body, or what a name stands in."""
    if number := re.fullmatch(r"(\d+)(?: \^ (\d+))?", text):
        return Term(str(int(number[1]) ** int(number[2] or 1)), None)
    if types.get(text) in INTEGERS:
        return Term(text, types[text])
    if fields and (field := re.fullmatch(r"self\.(?:now|old)\.(\w+)", text)):
        return Term(f"self.{field[1]}", "usize")
    for pattern, of_type, told, kind in NAMED:
        found = pattern.fullmatch(text)
        if found and of_type.fullmatch(types.get(found[1], "")):
            return Term(told.replace("{}", found[1]), kind)
    raise Unknown(text)


def untested(text: str) -> dict[str, list[str]]:
    """Of a source, by its public functions, the parts of what each requires that no test of the export makes."""
    source = Source(text)
    found: dict[str, list[str]] = {}
    for place, token in enumerate(source.tokens):
        function = source.function_of(place) if token.kind == "clause" and token.text.startswith("requires") else None
        if function is None or not re.search(r"\bpub (?:const )?$", text[:source.at(function).start][-16:]):
            continue
        types = source.parameters(function)
        parts = [" ".join(part.split()) for part in factors(token.text) if not comparison(part, types, False)]
        found.setdefault(source.at(function + 1).text, []).extend(parts)
    return {name: parts for name, parts in found.items() if parts}
