"""The documents as a site of files, in which scripts, programs, sessions and exercises run: the same text, not the same
proof.

    class/site --to FOLDER [--module FILE | --debian FOLDER]"""

from __future__ import annotations

import argparse
import base64
import gzip
import html
import json
import os
import re
import shutil
import tempfile
from collections.abc import Sequence
from dataclasses import asdict, dataclass, field
from pathlib import Path

from authors import asmx
from common import calling
from common.calling import Failed, ensure
from playground import module
from . import known, rendering, searching
from .known import TOP
from .rendering import PREFIX, Rendered
from .runnable import (Block, Document, Kind, Program, Runs, Script, Session, Wrong, commands, runs_here,
                       steps_beside)

HERE = Path(__file__).resolve().parent
# The documents that come first, in this order; the others follow by their paths
ORDER = ["README.md", *(f"docs/{name}.md" for name in (
    "TUTORIAL", "EXERCISES", "MODEL", "FORMATS", "GUARANTEES", "PROVED", "LAYERS", "GLOSSARY", "CERTIFICATES", "EXPORT",
    "LIBRARY", "PERFORMANCE", "TEACHING", "DECISIONS")), "CONTRIBUTING.md", "tools/README.md", "class/README.md"]
TUTORIAL, EXERCISES, GLOSSARY = "docs/TUTORIAL.md", "docs/EXERCISES.md", "docs/GLOSSARY.md"
TERM = re.compile(r"<tr>\n<td>(.*?)</td>\n<td>(.*?)</td>")
NO_DOCUMENTS = ("out/", "dev/exporter/")          # what is built, and what goes into an export
NO_TEXTS = (".img", ".log")                       # what commands have left among the examples
PICTURES = (".svg", ".png")
# The scripts of the pages, each made of these
SCRIPTS = {
    "views.js": ("step/views.js", *(f"playground/{name}.js" for name in (
        "meanings", "program", "keeping", "looking", "verdicts"))),
    "site.js": ("pages/finding.js", "pages/site.js"),
    "playground.js": tuple(f"playground/{name}.js" for name in (
        "asking", "rows", "texts", "stepping", "judging", "playground")),
    "worker": tuple(f"playground/{name}.js" for name in (
        "engine", "walk", "answers", "runs", "judge", "assembly", "exercise", "shell", "worker")),
}
STYLES = {"views.css": ("step/views.css",), "site.css": ("pages/site.css",),
          "playground.css": ("step/page.css", "playground/playground.css")}
# Nothing comes from elsewhere. A file's origin is no 'self' for every browser, so `file:` is named, too
OWN = "'self' file:"
POLICY = (f"default-src 'none'; script-src {OWN} 'wasm-unsafe-eval'; style-src {OWN}; img-src {OWN} data:; "
          "worker-src blob:")
MOST_PACKED = 500_000          # bytes of engine.js, which is loaded once
EXERCISE = "**Exercise.**"
MOST_TOLD = 4                  # wrong links


def main() -> None:
    parser = argparse.ArgumentParser(
        description="README and all documents as pages in which scripts, programs and exercises run: the same text, "
                    "not the same proof.",
        epilog="It needs markdown-it-py and Pygments for Python, and refuses a link that leads nowhere.")
    parser.add_argument("--to", type=Path, required=True, metavar="FOLDER", help="a new folder, or an earlier site")
    module.take_module(parser)
    calling.started(parser, lambda given: make(given.to, given.module, given.debian))


def make(to: Path, made: Path | None, debian: Path | None) -> None:
    rendering.markdown()
    rendering.lexer("")
    if to.exists() and not (to / "engine.js").is_file() and (not to.is_dir() or any(to.iterdir())):
        raise Failed(f"{to} is there, and is no site")
    with tempfile.TemporaryDirectory() as place:
        if made is None:
            made = Path(place) / "pip.wasm"
            module.make(made, debian)
        binary = made.read_bytes()
        ensure(binary.startswith(b"\0asm"), f"{made} is no module of WebAssembly")
        files = Site().files(binary)
    if to.exists():
        shutil.rmtree(to)
    to.mkdir(parents=True)
    for name, content in files.items():
        (to / name).write_bytes(content)
    print(f"{to}: {len(files)} files, {sum(map(len, files.values()))} bytes, of which engine.js has "
          f"{len(files['engine.js'])}; the same text, not the same proof")


def documents() -> list[str]:
    """The documents of the checkout in their order."""
    found = sorted(path.relative_to(TOP).as_posix() for path in TOP.rglob("*.md"))
    found = [path for path in found if not path.startswith(NO_DOCUMENTS) and "/out/" not in path]
    return [path for path in ORDER if path in found] + [path for path in found if path not in ORDER]


@dataclass
class Page:
    name: str
    title: str
    body: str
    short: str = ""                                # in the list of documents
    headings: list[tuple[int, str, str]] = field(default_factory=list)
    sections: list[tuple[str, str, str]] = field(default_factory=list)


class Site:
    def __init__(self) -> None:
        self.documents = documents()
        self.examples = {path.relative_to(TOP).as_posix(): path.read_text(encoding="utf-8")
                         for path in sorted((TOP / "examples").rglob("*"))
                         if path.is_file() and "solutions" not in path.parts and path.suffix not in NO_TEXTS}
        self.assembled = {path: asmx.text_of(asmx.processed(str(TOP / path))[0]).decode()
                          for path, text in self.examples.items()
                          if path.endswith(".asmx") and re.search(r"(?m)^\.(frames|include) ", text)}
        self.names = {path: path.replace("docs/", "").replace("/", "_").removesuffix("md") + "html"
                      for path in self.documents}
        self.names["README.md"] = "index.html"
        self.names.update((path, "example_" + path[len("examples/"):].replace("/", "_") + ".html")
                          for path in self.examples)
        self.exercises = {told["exercise"]: told for told in known.exercises()}
        self.used: dict[str, list[tuple[str, str]]] = {}       # where each example is shown: an address and a title
        self.elsewhere: set[str] = set()                       # linked files that aren't here
        self.wrong: list[str] = []

    def files(self, binary: bytes) -> dict[str, bytes]:
        """All files of the site."""
        chapters = [Chapter(self, path).page() for path in self.documents]
        pages = [*chapters, *(self.example(path) for path in self.examples), self.listing()]
        pages.append(self.outside())
        self.check_links(pages)
        if wrong := list(dict.fromkeys(self.wrong)):
            more = [f"and {len(wrong) - MOST_TOLD} more"] if len(wrong) > MOST_TOLD else []
            raise Failed("; ".join(wrong[:MOST_TOLD] + more))
        made = {page.name: self.whole(page, chapters) for page in pages}
        made["playground.html"] = filled("playground.html", {})
        syntax = json.dumps(rendering.syntax("pip"))
        made.update((name, script(name).replace("/* syntax */", syntax)) for name in SCRIPTS if name != "worker")
        made.update((name, concatenated(parts)) for name, parts in STYLES.items())
        found = searching.index([(page.name, page.title, page.sections) for page in chapters], PREFIX)
        made["index.js"] = f"window.index = {found};\n"
        made["engine.js"] = self.engine(binary)
        if len(made["engine.js"]) > MOST_PACKED:
            raise Failed(f"engine.js has {len(made['engine.js'])} bytes, and at most {MOST_PACKED} are wanted")
        pictures = {path.name: path.read_bytes() for path in (TOP / "docs").iterdir() if path.suffix in PICTURES}
        return {**{name: text.encode() for name, text in made.items()}, **pictures}

    def engine(self, binary: bytes) -> str:
        """What runs: the module, the worker around it, what it knows, and the files that commands read, also what
        tools/asmx makes of some."""
        files = {**self.examples, **{f"asmx:{path}": text for path, text in self.assembled.items()}}
        parts = {"module": binary, "worker": script("worker").encode(), "facts": json.dumps(known.facts()).encode(),
                 "files": json.dumps(files, ensure_ascii=False).encode()}
        return f"window.engine = {json.dumps({name: packed(content) for name, content in parts.items()})};\n"

    # Pages of examples

    def example(self, path: str) -> Page:
        """A file of examples/ that runs if it can, with the places where it is shown, and the files beside it."""
        text, block = self.examples[path], Block(1, self.examples[path], None)
        runs: Runs | None = None
        if path.endswith(".pip"):
            answers = iter(self.examples.get(path[:-3] + "out", "").split("\n"))
            runs = Script("", [(line, None if not line or line[0] == "#" else next(answers, None) or None)
                               for line in text.split("\n")[:-1]])
        elif path.endswith(".s"):
            runs = Program("", text, "", *steps_beside(TOP, path))
        elif path.endswith(".session") and all(runs_here(command) for command, _ in commands(lines_of(text))):
            runs = Session([], [(command, out) for command, out in commands(lines_of(text))])
        body = run(path, block, runs) if runs else rendering.block(text, "asmx" if path.endswith(".asmx") else "")
        if path in self.assembled:
            made = self.assembled[path]
            body += "<h2>As tools/asmx assembles it</h2>" + run(path, Block(1, made, None), Program(
                "", made, "", *steps_beside(TOP, path)))
        shown = "".join(f'<li><a href="{address}">{html.escape(title)}</a></li>'
                        for address, title in self.used.get(path, []))
        stem = os.path.splitext(path)[0]
        beside = "".join(f'<li><a href="{self.names[other]}">{html.escape(os.path.basename(other))}</a></li>'
                         for other in self.examples if os.path.splitext(other)[0] == stem and other != path)
        for what, items in (("It is shown in", shown), ("Beside it", beside)):
            body += f"<p>{what}:</p><ul>{items}</ul>" if items else ""
        return Page(self.names[path], path, f"<h1>{html.escape(path)}</h1>{body}")

    def listing(self) -> Page:
        page = Page("examples.html", "All examples", "<h1>All examples</h1>", "All examples")
        for folder in sorted({os.path.dirname(path) for path in self.examples}):
            name = rendering.anchor(folder)
            page.headings.append((2, folder, name))
            items = "".join(f'<li><a href="{self.names[path]}">{html.escape(os.path.basename(path))}</a></li>'
                            for path in self.examples if os.path.dirname(path) == folder)
            page.body += f'<h2 id="{PREFIX}{name}">{html.escape(folder)}/</h2><ul>{items}</ul>'
        return page

    def outside(self) -> Page:
        rows = "".join(f'<li id="{PREFIX}{rendering.anchor(path)}"><code>{html.escape(path)}</code></li>'
                       for path in sorted(self.elsewhere))
        return Page("outside.html", "In the repository", "<h1>In the repository</h1><p>These aren't in this site. They "
                    f"are in a checkout.</p><ul>{rows}</ul>")

    # Links

    def led(self, path: str, link: str) -> str:
        """Where a link of a document leads in the site."""
        if re.match("[a-z]+:", link):
            return link
        target, _, mark = link.partition("#")
        full = os.path.normpath(os.path.join(os.path.dirname(path), target)) if target else path
        mark = f"#{PREFIX}{mark}" if mark else ""
        if full in self.names:
            return self.names[full] + mark
        if full.endswith(PICTURES):
            return os.path.basename(full)
        if (TOP / full).is_dir() and any(os.path.dirname(other) == full for other in self.examples):
            return f"examples.html#{PREFIX}{rendering.anchor(full)}"
        if not (TOP / full).exists():
            self.wrong.append(f"{path}: {link} isn't there")
        self.elsewhere.add(full)
        return f"outside.html#{PREFIX}{rendering.anchor(full)}"

    def check_links(self, pages: Sequence[Page]) -> None:
        """All links between the pages lead somewhere."""
        ids = {page.name: {html.unescape(name) for name in re.findall(r' id="([^"]+)"', page.body)} for page in pages}
        for page in pages:
            for link in re.findall(r'<a [^>]*href="([^"]+)"', page.body):
                target, _, mark = html.unescape(link).partition("#")
                if not re.match("[a-z]+:", link) and (target not in ids or mark and mark not in ids[target]):
                    self.wrong.append(f"{page.name}: {link} leads nowhere")

    def whole(self, page: Page, chapters: Sequence[Page]) -> str:
        others = [*chapters, Page("examples.html", "All examples", "", "All examples")]
        current = ' aria-current="page"'
        at = next((k for k, chapter in enumerate(chapters) if chapter is page), None)
        around = "" if at is None else (
            "".join(f'<a rel="prev" href="{other.name}">&larr; {html.escape(other.title)}</a>'
                    for other in chapters[max(0, at - 1):at])
            + "".join(f'<a rel="next" href="{other.name}">{html.escape(other.title)} &rarr;</a>'
                      for other in chapters[at + 1:at + 2]))
        inside = "".join(f'<li class="h{level}"><a href="#{PREFIX}{name}">{html.escape(title)}</a></li>'
                         for level, title, name in page.headings if level in (2, 3))
        documents = "".join(f'<li><a href="{other.name}"{current if other.name == page.name else ""}>'
                            f"{html.escape(other.short)}</a></li>" for other in others)
        return filled("page.html", {"title": html.escape(page.title), "body": page.body, "inside": inside,
                                    "documents": documents, "around": around})


class Chapter:
    """A document, whose blocks run."""

    def __init__(self, site: Site, path: str) -> None:
        self.site, self.path = site, path
        self.document = Document(TOP, path)
        self.places = {block.line: at for at, block in enumerate(self.document.blocks)}
        self.source = ""                           # the script or program that was shown last

    def page(self) -> Page:
        made = rendering.rendered(self.document.text, self.block, lambda link: self.site.led(self.path, link),
                                  self.after)
        if self.path == GLOSSARY:
            made.body = TERM.sub(lambda found: self.term(made, found), made.body)
        return Page(self.site.names[self.path], made.title, made.body, short(self.path), made.headings, made.sections)

    def term(self, made: Rendered, found: re.Match[str]) -> str:
        """A row of the glossary, which the search finds by its term."""
        term, meaning = (html.unescape(re.sub("<[^>]*>", "", cell)) for cell in found.groups())
        name = f"term-{rendering.anchor(term)}"
        made.sections.append((name, term, meaning))
        return f'<tr id="{PREFIX}{name}">{found[0][len("<tr>"):]}'

    def block(self, found: Rendered, line: int, text: str) -> str:
        at = self.places.get(line, -1)
        where = f"{self.path}:{line}"
        ensure(at >= 0 and self.document.blocks[at].text == text, f"{where}: two readers of Markdown see "
               "different blocks")
        block = self.document.blocks[at]
        try:
            runs = self.document.runs(at)
        except Wrong as wrong:
            raise Failed(f"{self.path}: {wrong}") from None
        ensure(block.kind is not None, f"{where}: nothing tells what this block is")
        if block.source:
            _, title, name = found.headings[-1]
            self.site.used.setdefault(block.source, []).append(
                (f"{self.site.names[self.path]}#{PREFIX}{name}", f"{found.title}: {title}"))
            if block.source.endswith((".pip", ".s")):
                self.source = block.source
        if runs is None:
            return rendering.block(text, "console" if block.kind is Kind.COMMANDS else block.language)
        return run(where, block, runs, self.site.names.get(block.source or ""))

    def after(self, found: Rendered, paragraph: str) -> str:
        """The editor of an exercise: below its section, or, in the tutorial, below its paragraph with the file of the
        chapter."""
        title = found.headings[-1][1] if found.headings else ""
        if not paragraph:
            self.source = ""
            return self.exercise(title) if self.path == EXERCISES and title in self.site.exercises else ""
        if self.path != TUTORIAL or not paragraph.startswith(EXERCISE) or not self.source:
            return ""
        text = self.site.examples[self.source]
        runs: Runs = Script("", [(line, None) for line in lines_of(text)])
        if self.source.endswith(".s"):
            steps, seed, _ = steps_beside(TOP, self.source)
            runs = Program("", text, "", steps, seed, None)
        editor = run(f"{self.path}: {title}", Block(0, text, None, self.source), runs, self.site.names[self.source])
        return f'<details class="try"><summary>Try it with {os.path.basename(self.source)}</summary>{editor}</details>'

    def exercise(self, name: str) -> str:
        told = self.site.exercises[name]
        return element({"kind": "exercise", "name": name, "of": told["kind"], "text": told["text"],
                        "part": told["isPart"], "task": told["task"], "where": f"{self.path}: {name}"}, "")


def run(where: str, block: Block, runs: Runs, page: str | None = None) -> str:
    """A block that runs: what it is for the page, and its text for where nothing runs, as on paper."""
    is_session = isinstance(runs, Session)
    told: dict[str, object] = {"kind": type(runs).__name__.lower(), "where": where, **asdict(runs)}
    if page:
        told.update(source=block.source, page=page)
    return element(told, rendering.coloured(block.text, "console" if is_session else "pip"))


def element(told: dict[str, object], shown: str) -> str:
    data = html.escape(json.dumps(told, ensure_ascii=False))
    return f'<div class="run" data-run="{data}"><pre class="code" tabindex="0">{shown}</pre></div>\n'


def short(path: str) -> str:
    """A document's name in the list."""
    name, folder = os.path.basename(path)[:-3], os.path.dirname(path)
    return (folder or "pip").capitalize() if name == "README" else name.capitalize()


def lines_of(text: str) -> list[str]:
    return text.split("\n")[:-1]


def concatenated(parts: Sequence[str]) -> str:
    return "".join((HERE.parent / part).read_text(encoding="utf-8") for part in parts)


def script(name: str) -> str:
    """A script of the pages without its remarks."""
    return re.sub(r"(?m)^ *// .*\n", "", concatenated(SCRIPTS[name]))


def filled(name: str, told: dict[str, str]) -> str:
    """A file of this folder with what stands in two braces, and the views."""
    told = {**told, "policy": POLICY, "views": concatenated(["step/views.html"])}
    return re.sub(r"\{\{(\w+)\}\}", lambda found: told[found[1]], concatenated([f"pages/{name}"]))


def packed(content: bytes) -> str:
    """As the pages unpack it: zipped, in the letters of base64."""
    return base64.b64encode(gzip.compress(content, mtime=0)).decode()
