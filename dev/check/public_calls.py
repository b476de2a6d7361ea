"""The calls that public_calls.txt lists are public, each with the parameters, the result and the clauses that it lists,
word by word, and so are the types that they name, with their variants and public fields."""

from __future__ import annotations

import os
import re
import textwrap
from collections.abc import Iterable, Iterator

from common.blocks import blocks, parted
from exporter.tokens import braces_end
from .counters import NO_CODE
from .running import REPOSITORY, Differs, ensure, part, planted, text_of, write
from .sources import sources

LIST = os.path.join(os.path.dirname(os.path.abspath(__file__)), "public_calls.txt")
NAME = r"(?:(?:const|struct|enum) )?(\w+(?:::\w+)?)"
WIDTH = 112                                  # columns of a line of the list, after its indentation

# What is listed: of each crate its calls and types by their names, each with its lines
Items = dict[tuple[str, str], list[str]]

PLACE = "crates/pip_planted/src/lib.rt"      # of a planted library
CHANGED = blocks("data/library.txt", __file__)
PLANTED, LISTED = CHANGED.pop("library"), CHANGED.pop("list")


def public_calls(program: str) -> None:
    """Each call of the list is as it says. That each kind of change is found is tried first, on planted libraries."""
    with planted({PLACE: PLANTED}) as top:
        due = written(top, "pip_planted:\n    SIZE\n    Table::find\n    Rows::count\n    Rows::found\n    look\n")
    ensure(due == LISTED, f"a planted library is listed as {due}")
    for title, text in CHANGED.items():
        what, _, names = title.partition(": ")
        found = [difference.split(" ")[1] for difference in changes(*(
            "\n".join(line[2:] for line in text.splitlines() if line.startswith(mark)) for mark in ("- ", "+ ")))]
        ensure(found == names.split(), f"a planted change of {names or 'nothing'} is seen as one of {found}: {what}")
    if found := list(differences(REPOSITORY, text_of(LIST))):
        raise Differs("; ".join(found))


def rewrite() -> None:
    """Writes the list anew: the same calls, as the sources have them. Nothing is written where one isn't public."""
    write(written(REPOSITORY, text_of(LIST)), LIST)


def listed(text: str) -> Items:
    """What a list says. A line that is further in goes on with the one above it."""
    return {(title.rstrip(":"), part(NAME, head)): re.sub(r"\n {4,}", " ", f"{head}\n{lines}").strip().split("\n")
            for title, items in parted(text).items() for head, lines in parted(items).items()}


def is_type(head: str) -> bool:
    return head.startswith(("struct ", "enum "))


def by_sources(top: str, items: Items) -> dict[tuple[str, str], list[str] | None]:
    """The calls of a list and the types that they name, as the sources have them; None where one isn't public."""
    library = Library(top)
    calls = {key: library.call(*key) for key, lines in items.items() if not is_type(lines[0])}
    return {**calls, **library.types(calls)}


def written(top: str, text: str) -> str:
    """A list of the same calls and of the types that they name, as the sources have them, after the same remarks."""
    crates: dict[str, list[str]] = {}
    for (crate, name), lines in by_sources(top, listed(text)).items():
        if lines is None:
            raise Differs(f"{crate}: {name} isn't public")
        crates.setdefault(crate, []).extend(
            part for k, line in enumerate(lines) for part in textwrap.wrap(
                line, WIDTH, initial_indent="    " * bool(k), subsequent_indent="        ", break_long_words=False,
                break_on_hyphens=False))
    remarks = [line for line in text.split("\n") if line.startswith("#")]
    return "\n".join(remarks + [line for crate, lines in crates.items()
                                for line in (f"{crate}:", *(f"    {line}" for line in lines))]) + "\n"


def differences(top: str, text: str) -> Iterator[str]:
    """What of a list the sources don't have, and which type they have and the list doesn't."""
    items = listed(text)
    found = by_sources(top, items)
    for (crate, name), lines in items.items():
        said = found.get((crate, name))
        if said is None:
            yield f"{crate}: {name} is no longer public{', or no call names it' * is_type(lines[0])}"
        elif said != lines:
            yield (f"{crate}: {name} has {shown(said, lines)}, where the list has {shown(lines, said)}")
    for crate, name in found.keys() - items.keys():
        yield f"{crate}: {name} isn't in the list, and a call names it"


def shown(lines: list[str], others: list[str]) -> str:
    """The lines that others don't have; all, where only their order differs."""
    return " | ".join([line for line in lines if line not in others] or ["no more" if others else ""])


def changes(old: str, new: str) -> list[str]:
    """What differs from the planted library's list where a text in it is another."""
    ensure(PLANTED.count(old) == 1, f"the planted library has {old!r} {PLANTED.count(old)} times")
    with planted({PLACE: PLANTED.replace(old, new)}) as top:
        return list(differences(top, LISTED))


# Code

EXPORT = re.compile(r"\bpub\s+use\s+([^;{]*)\{?([^;}]*)")
CLAUSE = re.compile(r"\s*(?:(ghost)\s+(\w+)\s*:|(requires|ensures)(\*?)\s*(\w*))\s*(?=\{)")
# The rest of a function's head, after its name. A `;` of an array's type doesn't end it
HEAD = re.compile(r".*?(?=\b(?:ghost|requires|ensures)\b|\{|;(?!\s*\w+\s*\]))", re.S)
GENERICS = r"(?:<(?:->|[^<>]|<(?:->|[^<>]|<[^<>]*>)*>)*>)?"
# The title of a public trait, or of an `impl` of a type's own, with the name of the trait or the type
TYPE = re.compile(rf"\bpub\s+(struct|enum)\s+(\w+)\s*({GENERICS})")
TESTS = "pip_test_"
# What a list is read by: braces with what they hold, an arrow, and single characters
PIECE = re.compile(r"\{(?:[^{}]|\{(?:[^{}]|\{[^{}]*\})*\})*\}|->|.", re.S)
BLOCK = re.compile(rf"\b(?:pub\s+(?=trait\b)|(?=impl\b(?![^{{]*\bfor\b)))((trait|impl)\s*{GENERICS}\s*(\w+)[^{{;]*)")


class Code:
    """A file's code without its remarks, and also without its texts, each of which leaves as many spaces."""

    def __init__(self, text: str) -> None:
        self.bare = NO_CODE.sub(lambda found: " " * len(found[0]), text)
        self.full = NO_CODE.sub(lambda found: " " * len(found[0]) if found[0][0] == "/" else found[0], text)


class Library:
    """The code of all crates."""

    def __init__(self, top: str) -> None:
        self.files: dict[str, Code] = {}
        self.crates: dict[str, list[str]] = {}
        for crate, path, text in sources(top):
            self.files[path] = Code(text)
            self.crates.setdefault(crate, []).append(path)

    def call(self, crate: str, name: str) -> list[str] | None:
        """The lines that say what a call is: of a function, a constant, or a method. None where it isn't public."""
        owner, _, method = name.rpartition("::")
        place = self.place_of(crate, [], owner or method)
        if place is None:
            return None
        crate_of, path, own = place
        return self.method(crate_of, own, method, name) if owner else item(self.files[path], own, name)

    def method(self, crate: str, owner: str, method: str, name: str) -> list[str] | None:
        """A method of a trait, or of a type by an `impl` of its own."""
        for code in (self.files[path] for path in self.crates[crate]):
            for block in BLOCK.finditer(code.bare):
                title, kind, own = block.groups()
                public = r"\bpub\s+(?:const\s+)?" if kind == "impl" else ""
                found = own == owner and re.compile(rf"{public}\bfn\s+{method}\b").search(
                    code.bare, block.end(), braces_end(code.bare, block.end()))
                if found:
                    head, *clauses = function(code, found.end(), name)
                    return [head, f"in {tidied(title)}", *clauses]
        return None

    def types(self, calls: dict[tuple[str, str], list[str] | None]) -> Items:
        """The public types that calls name, and those that these name, with what they are made of."""
        places = {found[2]: (crate, path) for crate, paths in self.crates.items() if not crate.startswith(TESTS)
                  for path in paths for found in TYPE.finditer(self.files[path].bare)}
        rest = [name for (_, call), lines in calls.items() for name in names_in([call, *(lines or [])[:2]])]
        found: Items = {}
        while rest:
            name = rest.pop(0)
            crate, path = places.get(name, ("", ""))
            if crate and (crate, name) not in found:
                found[crate, name] = made_of(self.files[path], name)
                rest += names_in(line for line in found[crate, name] if not line.startswith("ghost "))
        order = list(self.crates)
        return dict(sorted(found.items(), key=lambda item: (order.index(item[0][0]), item[0][1])))

    def place_of(self, crate: str, module: list[str], name: str) -> tuple[str, str, str] | None:
        """The crate, the file and the name there of what a module offers under a name; None where it offers none."""
        path = os.path.join("crates", crate, "src", *(module or ["lib"])) + ".rt"
        if path not in self.files:
            return None
        code = self.files[path].bare
        for where, own, shown in exports(code):
            if shown == name:
                if where and where[0] in self.crates:
                    return self.place_of(where[0], where[1:], own)
                inside = where[1:] if where[:1] == ["crate"] else module + [part for part in where if part != "self"]
                return self.place_of(crate, inside, own)
        kinds = r"(?:const\s+fn|const|fn|struct|enum|trait)"
        return (crate, path, name) if re.search(rf"\bpub\s+{kinds}\s+{name}\b", code) else None


def exports(code: str) -> Iterator[tuple[list[str], str, str]]:
    """What the `pub use` of a file offer: the path, the name there, and the name under which it is offered."""
    for front, names in EXPORT.findall(code):
        for name in names.split(","):
            *where, last = (part.strip() for part in (front + name).split("::"))
            own, _, shown = last.partition(" as ")
            if own:
                yield where, own.strip(), (shown or own).strip()


def item(code: Code, own: str, name: str) -> list[str] | None:
    """A function or a constant of a file, under the name that it is offered by."""
    if constant := re.search(rf"\bpub\s+const\s+{own}\s*:([^=;]*)(=[^;\"]*)?", code.full):
        return [f"const {name}: {tidied(constant[1])} {in_a_line(constant[2] or '')}".rstrip(" =")]
    found = re.search(rf"\bpub\s+(?:const\s+)?fn\s+{own}\b", code.bare)
    return function(code, found.end(), name) if found else None


def function(code: Code, at: int, name: str) -> list[str]:
    """A function whose name ends at a place: its head in a line, and its clauses in order, each in a line."""
    head = HEAD.match(code.bare, at)
    assert head
    end, clauses = head.end(), []
    while clause := CLAUSE.match(code.bare, end):
        ghost, value, kind, star, told = clause.groups()
        end = braces_end(code.bare, clause.end())
        clauses.append(" ".join(filter(None, [ghost or kind + star, value or told,
                                              in_a_line(code.full[clause.end():end])])))
    return [name + tidied(head[0]).rstrip(","), *clauses]


def names_in(lines: Iterable[str]) -> list[str]:
    """What may be names of types in lines."""
    return [name for line in lines for name in re.findall(r"\b[A-Z]\w*", line)]


def made_of(code: Code, name: str) -> list[str]:
    """A struct with its public fields and those for contracts, or an enum with its variants, and what the type's
    traits say of it in contracts."""
    found = next(found for found in TYPE.finditer(code.bare) if found[2] == name)
    kind, _, generics = found.groups()
    ended = code.bare[found.end():].lstrip()
    parts: list[str] = []
    if ended.startswith("{"):
        at = code.bare.index("{", found.end())
        parts = parts_of(code.full[at + 1:braces_end(code.bare, at) - 1])
    elif ended.startswith("("):
        fields = ended[1:ended.index(";")].rpartition(")")[0]
        parts = [f"{k}: {part}" for k, part in enumerate(parts_of(fields))]
    if kind == "struct":
        parts = [part for part in parts if re.match(r"(?:\d+: )?pub |ghost ", part)]
    return [f"{kind} {name}{tidied(generics or '')}", *parts, *traits_of(code, name)]


def parts_of(text: str) -> list[str]:
    """The parts of a list with commas between them, each in a line, without attributes."""
    parts, depth = [""], 0
    for piece in PIECE.findall(re.sub(r"#\[[^\]]*\]", "", text)):
        depth += (piece in "([<") - (piece in ")]>")
        if piece == "," and depth == 0:
            parts.append("")
        else:
            parts[-1] += piece
    return [in_a_line(part) if part.strip().startswith("ghost ") else re.sub(", }", " }", tidied(part))
            for part in parts if part.strip()]


def traits_of(code: Code, name: str) -> Iterator[str]:
    """What the file of a type has for contracts in the type's traits."""
    for block in re.finditer(rf"\bimpl\s*{GENERICS}\s*(\w+)\s+for\s+{name}\b[^{{;]*", code.bare):
        end = braces_end(code.bare, block.end())
        for ghost in re.compile(r"\bghost\s+(\w+)\s*=\s*(?=\{)").finditer(code.bare, block.end(), end):
            text = code.full[ghost.end():braces_end(code.bare, ghost.end())]
            yield f"ghost {block[1]} {ghost[1]} {in_a_line(text)}"


def in_a_line(text: str) -> str:
    return re.sub(r"\s+", " ", text).strip()


def tidied(text: str) -> str:
    """Code in one line, with no comma after the last of a list."""
    return re.sub(r",? ?(?=[)\]])|,(?=>)", "", re.sub(r"(?<=[(\[<]) ", "", in_a_line(text)))
