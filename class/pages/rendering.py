"""A document as HTML: by markdown-it-py, with the blocks coloured by Pygments, also in the repository's own syntaxes,
which are the grammars for editors."""

from __future__ import annotations

import functools
import html
import importlib
import importlib.util
import json
import re
import sys
from collections.abc import Callable, Sequence
from dataclasses import dataclass, field
from pathlib import Path
from typing import Any

from common.calling import REPOSITORY, Failed

EDITORS = Path(REPOSITORY) / "tools" / "editors"
# Of what a grammar names the classes of Pygments, by which the pages' colours go
CLASSES = {"comment": "c", "entity": "nl", "keyword.operator": "o", "keyword": "k", "support": "nf",
           "variable.language": "nb", "constant": "m", "variable": "nv", "string": "s"}
PREFIX = "h-"                  # of the anchors of headings: other parts of a page have names of their own
MARKS = (("<table>", '<div class="wide" tabindex="0"><table>'), ("</table>", "</table></div>"),
         ("<th></th>", "<td></td>"), ("<th>", '<th scope="col">'))


NEEDED = {"markdown_it": "python3-markdown-it", "pygments": "python3-pygments"}      # each with Debian's package


def missing() -> str:
    """What this Python lacks, as a sentence; empty where it lacks nothing."""
    lacked = [name for name in NEEDED if not importlib.util.find_spec(name)]
    if not lacked:
        return ""
    packages = " and ".join(NEEDED[name] for name in lacked)
    return (f"{sys.executable} has no {' and no '.join(lacked)}: install Debian's {packages}, and take "
            "/usr/bin/python3")


def needed(module: str) -> Any:
    if not importlib.util.find_spec(module.partition(".")[0]):
        raise Failed(missing())
    return importlib.import_module(module)


def markdown() -> Any:
    """The reader of documents: Markdown as pages of repositories show it, with tables."""
    return needed("markdown_it").MarkdownIt("commonmark").enable("table")


@dataclass
class Rendered:
    title: str = ""
    body: str = ""
    headings: list[tuple[int, str, str]] = field(default_factory=list)      # how deep, its text, its anchor
    sections: list[tuple[str, str, str]] = field(default_factory=list)      # of each heading the text below it, too


Code = Callable[[Rendered, int, str], str]
After = Callable[[Rendered, str], str]


def rendered(text: str, code: Code, link: Callable[[str], str], after: After) -> Rendered:
    """A document, of which `code` writes each block by its line and text, whose links lead where `link` says, and to
    which `after` adds what comes after a paragraph, or, where that is "", after a section. Both see what is before."""
    reader = markdown()
    made, found = [], Rendered()
    tokens = reader.parse(text)
    for at, token in enumerate(tokens):
        if token.type == "heading_open":
            made += added(after(found, "") if found.headings else "")
            named(found, token, shown(tokens[at + 1]))
        elif token.type == "inline":
            led(token, link)
            if tokens[at - 1].type != "heading_open":
                found.sections[-1] = (*found.sections[-1][:2], f"{found.sections[-1][2]} {shown(token)}")
        elif token.type in ("fence", "code_block"):
            found.sections[-1] = (*found.sections[-1][:2], f"{found.sections[-1][2]} {token.content}")
            token.type, token.content = "html_block", code(found, token.map[0] + 1, token.content)
        made.append(token)
        if token.type == "paragraph_close":
            made += added(after(found, tokens[at - 1].content))
    made += added(after(found, ""))
    found.body = reader.renderer.render(made, reader.options, {})
    for mark, element in MARKS:
        found.body = found.body.replace(mark, element)
    return found


def added(content: str) -> list[Any]:
    """A token that is written as it is; none of what is empty."""
    if not content:
        return []
    token = needed("markdown_it.token").Token("html_block", "", 0)
    token.content = content
    return [token]


def named(found: Rendered, token: Any, title: str) -> None:
    """Gives a heading its anchor. Of equal ones each has its own."""
    name = anchor(title, [name for _, _, name in found.headings])
    token.attrs["id"] = PREFIX + name
    found.title = found.title or title
    found.headings.append((int(token.tag[1]), title, name))
    found.sections.append((name, title, ""))


def led(token: Any, link: Callable[[str], str]) -> None:
    for child in token.children or []:
        for name in ("href", "src"):
            if name in child.attrs:
                child.attrs[name] = link(child.attrs[name])


def shown(token: Any) -> str:
    """The text of a token without its marks."""
    return "".join(" " if child.type == "softbreak" else child.content for child in token.children or [])


def anchor(title: str, before: Sequence[str] = ()) -> str:
    """The anchor of a heading after those with these: lower case, without marks, with hyphens for spaces; one that is
    there already gets a number."""
    name = re.sub(r"[^\w\- ]", "", title.lower()).replace(" ", "-")
    count = sum(re.fullmatch(re.escape(name) + r"(-[0-9]+)?", other) is not None for other in before)
    return f"{name}-{count}" if name in before else name


# Colours

def syntax(name: str) -> list[tuple[str, str]]:
    """The patterns of a grammar for editors, each with its class."""
    told = json.loads((EDITORS / f"{name}.tmLanguage.json").read_text(encoding="utf-8"))
    return [(pattern["match"], kind) for pattern in told["patterns"]
            if (kind := next((kind for scope, kind in CLASSES.items() if pattern["name"].startswith(scope)), ""))]


@functools.lru_cache(maxsize=None)
def lexer(language: str) -> Any:
    """Of Pygments, or of a grammar for editors; None where there is none of that name."""
    of = needed("pygments.lexers")
    if language in ("pip", "asmx"):
        kinds = {kind: token for token, kind in needed("pygments.token").STANDARD_TYPES.items()}
        rules = [(pattern, kinds[kind]) for pattern, kind in syntax(language)]
        rest = needed("pygments.token").Text
        base = needed("pygments.lexer").RegexLexer
        told = {"flags": re.MULTILINE, "tokens": {"root": [*rules, (r"(?s:.)", rest)]}}
        return type("OfGrammar", (base,), told)(stripnl=False)
    try:
        return of.get_lexer_by_name(language, stripnl=False) if language else None
    except needed("pygments.util").ClassNotFound:
        return None


def coloured(text: str, language: str) -> str:
    """A text in HTML, with its colours where the language has some."""
    found = lexer(language)
    if found is None:
        return html.escape(text)
    form = needed("pygments.formatters").HtmlFormatter(nowrap=True)
    made: str = needed("pygments").highlight(text, found, form)
    return made


def block(text: str, language: str = "") -> str:
    return f'<pre class="code" tabindex="0">{coloured(text, language)}</pre>\n'
