"""The definitions and the documents as pages of rustdoc: each file of specs/ is a module, with an anchor for each
definition, and each name of a clause or of a definition leads to its own."""

from __future__ import annotations

import base64
import copy
import re
from collections.abc import Iterable
from dataclasses import dataclass, field
from pathlib import Path
from typing import TYPE_CHECKING

if TYPE_CHECKING:
    from .crates import Crate

HERE = Path(__file__).resolve().parent
KIT = ("std", "arrayvec", "byteorder", "memchr")
OF_STD = "rattle_std"
IMPORT = re.compile(r"\buse Rattle\.([\w.]+?)(?:\.\{([^}]*)\}| as (\w+))")
DEFINED = re.compile(r"^(?:\w+ )*?pub (?:record |data )?([^\W\d][\w'-]*)")
CONSTRUCTOR = re.compile(r"^  ([A-Z]\w*) :", re.M)
NAME = re.compile(r"(?<![\w.'])[^\W\d][\w']*(?:-[\w']+)*(?:\.[^\W\d][\w']*)*|(?<=⟧\.)\w+")
BOUND = re.compile(r"λ ([\w' ]+)\.|\(([\w' ]+) :|let (\w+) =")
CLAUSE = re.compile(r"(?:requires|ensures)\*? \w*")
TRAIT = re.compile(r"^pub trait (\w+)\b.*?^}", re.M | re.S)
PUBLIC = re.compile(r"^pub (?:use [\w:]+::|mod |trait |struct |enum )(?:\{([^}]*)\}|(\w+))", re.M)
BOUNDS = re.compile(r"[<,] ?([A-Z]\w*): (?:\w+ \+ )*?([A-Z]\w+)")         # of a parameter the trait
GHOST = re.compile(r"^    ghost (\w+):", re.M)
LINE = "\n"
LONG = 76                      # the letters of a clause that fit into a line of a page
TAKEN = re.compile(r"[\\`*\[\]'\"]|(?<!\w)_|_(?!\w)|<(?=[\w/!?])|&(?=[\w#])|~~")


class Names:
    """What names mean in a file of a crate: each has a path of Rust with an anchor."""

    def __init__(self, text: str = "", crate: str = "", known: Definitions | None = None) -> None:
        self.crate, self.known = crate, known or Definitions()
        self.alias: dict[str, str] = {}
        self.found: dict[str, str] = {}
        for module, names, alias in IMPORT.findall(text):
            if alias:
                self.alias[alias] = module
            for one in names.split(","):
                old, _, new = " ".join(one.split()).partition(" as ")
                self.found[new or old] = self.known.target(module, old)
        self.bounds = dict(BOUNDS.findall(text))
        for trait in TRAIT.finditer(text):
            self.found.update((name, self.known.members.get((trait[1], name), "")) for name in GHOST.findall(trait[0]))

    def target(self, name: str) -> str:
        """Where a name is defined, as this crate calls that place; "" where nothing is to be shown."""
        first, _, rest = name.partition(".")
        if first in self.alias:
            found = self.known.target(self.alias[first], rest.split(".")[0])
        elif rest and first in self.bounds and first not in self.found:
            found = self.known.members.get((self.bounds[first], rest), "")
        else:
            found = self.found.get(first, "") or self.found.get(name, "")
        return self.seen(found)

    def without(self, others: Iterable[str]) -> Names:
        """The same but for names that mean something else, as a function's parameters do."""
        found = copy.copy(self)
        found.found = {name: target for name, target in self.found.items() if name not in others}
        return found

    def own(self, name: str) -> str:
        """Where the crate's own specs/ define a name of its documentation."""
        found = {names[name] for module, names in self.known.modules.items()
                 if module.startswith(self.crate + ".") and name in names}
        return self.seen(found.pop()) if len(found) == 1 else ""

    def seen(self, target: str) -> str:
        crate, colon, rest = target.partition("::")
        if target and crate == self.crate:
            return "crate::" + rest
        return target if crate in (*self.known.uses.get(self.crate, ()), OF_STD) else ""


@dataclass
class Definitions:
    """What the crates of an export define."""

    modules: dict[str, dict[str, str]] = field(default_factory=dict)      # by `pip_model.specs.Port`
    members: dict[tuple[str, str], str] = field(default_factory=dict)     # of each trait its ghost items
    public: dict[str, set[str]] = field(default_factory=dict)             # of each crate the names of its root
    uses: dict[str, list[str]] = field(default_factory=dict)
    kit: dict[str, str] = field(default_factory=dict)

    def target(self, module: str, name: str) -> str:
        parts = module.split(".")
        if parts[0] in KIT:
            return f"{OF_STD}::specs#def.{name}" if name in self.kit else ""
        if parts[1:3] == ["specs", "declared"]:
            of_variants = parts[-1] == "TheVariants"
            kind = parts[-2] if of_variants else parts[-1]
            told = f"{parts[0]}::{kind}::{name}" if of_variants else f"{parts[0]}::{kind}"
            return told if kind in self.public.get(parts[0], ()) else ""
        return self.modules.get(module, {}).get(name, "")

    def add(self, crate: Crate) -> None:
        self.uses[crate.name] = crate.uses
        for path in specs_of(crate):
            module = f"{crate.name}::specs::{path.stem}"
            names = self.modules.setdefault(module.replace("::", "."), {})
            for block in blocks_of(path.read_text(encoding="utf-8")):
                for name in (block.name, *CONSTRUCTOR.findall(block.code)) if block.name else ():
                    names.setdefault(name, f"{module}#def.{block.name}")
        root = crate.folder / "src" / "lib.rt"
        if root.exists():
            told = PUBLIC.findall(root.read_text(encoding="utf-8"))
            self.public[crate.name] = {name.strip() for many, one in told for name in (many or one).split(",")}
        for path in crate.sources():
            for trait in TRAIT.finditer(path.read_text(encoding="utf-8")):
                if trait[1] in self.public.get(crate.name, ()):
                    self.members.update(((trait[1], name), f"{crate.name}::{trait[1]}#ghost.{name}")
                                        for name in GHOST.findall(trait[0]))


def definitions_of(crates: Iterable[Crate]) -> Definitions:
    found = Definitions(kit=dict(line.split(": ", 1) for line in
                                 (HERE / "kit_names.txt").read_text(encoding="utf-8").splitlines()))
    for crate in crates:
        found.add(crate)
    return found


def specs_of(crate: Crate) -> list[Path]:
    """The files of definitions that are to be shown; a program shows none."""
    paths = [] if crate.is_program else sorted((crate.folder / "specs").glob("*.antt"))
    return [path for path in paths if path.stem != "Lib"]


@dataclass(frozen=True)
class Block:
    """What empty lines part in a file of definitions: a remark, and the definition after it."""

    remark: str
    name: str
    code: str


def blocks_of(text: str) -> list[Block]:
    found = []
    for block in re.split(r"\n\n+", text.strip()):
        lines = [line for line in block.split("\n") if not IMPORT.match(line)]
        remark = [line for line in lines if line.startswith("--")]
        code = "\n".join(line for line in lines if not line.startswith("--"))
        named = DEFINED.match(code)
        found.append(Block(" ".join(line.lstrip("- ") for line in remark), named[1] if named else "", code))
    return found


# Text as Markdown

def escaped(text: str) -> str:
    return TAKEN.sub(r"\\\g<0>", text)


def linked(text: str, names: Names, references: dict[str, str] | None = None) -> str:
    """A text with a link at each name that is defined, by references where there is a place for them."""
    bound = {name for found in BOUND.findall(text) for one in found for name in one.split()}
    pieces, at = list[str](), 0
    begun = CLAUSE.match(text)
    for found in NAME.finditer(text, begun.end() if begun else 0):
        name = found[0]
        target = "" if name.split(".")[0] in bound else names.target(name)
        if not target:
            continue
        label = references is not None and references.setdefault(name, target) == target \
            and sum(name.lower() == other.lower() for other in references) == 1 and "'" not in name
        pieces += [escaped(text[at:found.start()]), f"[{escaped(name)}]" + ("" if label else f"({target})")]
        at = found.end()
    return "".join(pieces) + escaped(text[at:])


def clause_lines(clause: str) -> list[str]:
    """A clause in lines that fit into a box: a long one is broken at the arrows outside of its brackets."""
    text = " ".join(clause.split())
    pieces, depth = [""], 0
    for word in re.split(r"(?<= )", text):
        depth += sum(word.count(one) for one in "([{") - sum(word.count(one) for one in ")]}")
        pieces[-1] += word
        if word == "→ " and depth == 1 and len(text) > LONG:
            pieces.append("")
    return [" " * 4 * (number > 0) + piece.strip() for number, piece in enumerate(pieces)]


def boxed(lines: Iterable[str], names: Names, references: dict[str, str] | None = None) -> list[str]:
    """Lines as code with links, in which rustdoc keeps them apart, and a browser breaks those that are too long."""
    found = []
    for line in lines:
        inset = len(line) - len(line.lstrip(" "))
        found.append("&nbsp;" * inset + linked(line[inset:], names, references))
    return f"<code>{LINE.join(found)}</code>".split(LINE)


# The pages

def page(text: str, names: Names) -> str:
    """A file of definitions as Markdown."""
    pieces = []
    for block in blocks_of(text):
        if block.name:
            pieces.append(f"## {escaped(block.name)}\n\n<a id=\"def.{block.name}\"></a>")
        if block.remark:
            remark = escaped(block.remark)
            pieces.append(remark[0].upper() + remark[1:] + "." * (not remark.endswith(".")))
        if block.code:
            pieces.append("\n".join(boxed(block.code.split("\n"), names.without([block.name]))))
    return "\n\n".join(pieces) + "\n"


def crate_pages(crate: Crate, known: Definitions) -> dict[str, str]:
    """The files of a crate's definitions: a module each, and its text."""
    paths = specs_of(crate)
    files = {}
    for path in paths:
        text = path.read_text(encoding="utf-8")
        names = Names(text, crate.name, known)
        names.found.update(known.modules[f"{crate.name}.specs.{path.stem}"])
        files[f"specs/{path.stem}.md"] = page(text, names)
    if paths:
        files["src/specs.rs"] = modules("What the clauses of this crate speak of: its definitions, by files.",
                                        [path.stem for path in paths], "../specs")
    return files


def modules(told: str, names: Iterable[str], folder: str) -> str:
    """A source of empty modules that have documentation alone."""
    return f"//! {told}\n" + "".join(
        f'\n#[cfg_attr(doc, doc = include_str!("{folder}/{name}.md"))]\npub mod {name} {{}}\n' for name in names)


def std_pages(repository: Path, texts: Iterable[str], known: Definitions) -> dict[str, str]:
    """The pages of the library: the kit's names, and the documents that comments name."""
    names = sorted({name for text in texts for name in re.findall(r"docs/([A-Z]+)\.md", text)})
    found = [name for name in names if (repository / "docs" / f"{name}.md").exists()]
    files = {f"docs/{name}.md": document(repository / "docs" / f"{name}.md", found) for name in found}
    files["docs/kit.md"] = "\n".join(f'- <a id="def.{name}"></a>**{escaped(name)}**: {escaped(told)}'
                                     for name, told in known.kit.items()) + "\n"
    files["src/docs.rs"] = modules("The documents that comments name.", found, "../docs")
    files["src/specs.rs"] = ("//! Names of the kit's library that clauses and definitions use.\n"
                             '#![cfg_attr(doc, doc = include_str!("../docs/kit.md"))]\n')
    return files


def document(path: Path, shown: Iterable[str]) -> str:
    """A document for rustdoc: code has a language, pictures are in the page, and links lead to pages or go."""
    def link(found: re.Match[str]) -> str:
        text, place, anchor = found[1], found[2], found[3] or ""
        if not place and anchor or place.startswith("http"):
            return found[0]
        name = place.removesuffix(".md")
        return f"[{text}](crate::docs::{name}{anchor})" if name in shown else text

    def picture(found: re.Match[str]) -> str:
        data = base64.b64encode((path.parent / found[2]).read_bytes()).decode()
        return f"![{found[1]}](data:image/svg+xml;base64,{data})"

    text = re.sub(r"!\[([^\]]*)\]\((\w+\.svg)\)", picture, path.read_text(encoding="utf-8"))
    text = re.sub(r"(?<!!)\[([^\]]*)\]\(([^)#\s]*)(#[^)\s]*)?\)", link, text)
    text = re.sub(r"^```$(.*?)^```$", r"```text\1```", text, flags=re.M | re.S)
    return re.sub(r"(?:(?<=\n\n)|\A)(?: {4}.*\n|\n(?= {4}))+", lambda found: "```text\n" + re.sub(
        r"^ {4}", "", found[0].rstrip("\n"), flags=re.M) + "\n```\n" + "\n" * found[0].endswith("\n\n"), text)


def with_documents(text: str, names: Names) -> str:
    """A source whose documentation leads to the documents and definitions that it names."""
    def page_of(found: re.Match[str]) -> str:
        title = re.sub(r"\s+(?://[/!])?\s*", " ", found[3] or "")
        anchor = re.sub(r"[^\w -]", "", title).strip().lower().replace(" ", "-")
        return f"[docs/{found[1]}.md]({OF_STD}::docs::{found[1]}{'#' * bool(anchor)}{anchor}){found[2] or ''}"

    def comment(found: re.Match[str]) -> str:
        told = re.sub(r'docs/([A-Z]+)\.md(,\s+(?://[/!] )?\s*"([^"]+)")?', page_of, found[0])
        return re.sub(r"(?<!\[)`(\w+)`(?!\])", lambda one: f"[`{one[1]}`]({names.own(one[1])})" if names.own(one[1])
                      else one[0], told)

    return re.sub(r"(?:^ *//[/!].*\n)+", comment, text, flags=re.M)
