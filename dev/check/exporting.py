"""The export as ordinary Rust: its text is that of the sources, and, where cargo is installed, what cargo builds of it
does what the program does."""

from __future__ import annotations

import functools
import html
import os
import re
import subprocess
import tempfile
import urllib.parse
from collections.abc import Callable, Sequence
from pathlib import Path

from common import calling
from exporter import export
from .running import (REPOSITORY, Differs, Skipped, agree, called, contents, copied, ensure, expect, finished,
                      generated, needed, part, paths, run, text_of, write)

SECONDS = 900            # cargo builds everything
CASES = 200              # of each command
CASES_OF_REGISTRY = 20
FIRST_SEED = 500_000     # those of the comparison with the reference begin with 1
EDITION_KNOWN = (1, 87)  # the first cargo whose Rust has all that the export uses
WARNINGS = {"RUSTFLAGS": "-Dwarnings"}
MOVED = re.compile(r'location\.replace\("([^"]*)"')
OWN = '[package]\nname = "own"\nedition = "2024"\n\n[workspace]\n\n'


def text(program: str) -> None:
    """dev/export compares each word that it writes with the sources."""
    with tempfile.TemporaryDirectory() as place:
        written(place, "shims")
    listed()


def listed() -> None:
    """Each definition of a requirement that no test makes is in the table of docs/EXPORT.md, and no other is."""
    table = text_of("docs/EXPORT.md").split("## Requirements\n", 1)[1].split("\n## ", 1)[0]
    named = set(re.findall(r"`([A-Z][A-Za-z0-9]*[a-z][A-Za-z0-9]*)`", table))
    parts = (part for _, part in export.untested(Path(REPOSITORY), []))
    found = {re.search(r"\b[A-Z][A-Za-z0-9]*[a-z][A-Za-z0-9]*", part) for part in parts}
    due = {name.group() for name in found if name}
    ensure(due == named, f"docs/EXPORT.md, Requirements: {sorted(due - named)} isn't named, {sorted(named - due)} "
           "isn't untested")


def by_cargo(program: str) -> None:
    """All is built without a warning, all tests pass, and the programs write what those of the kit write."""
    need_cargo()
    place = exported().name
    told = cargo(place, "test", "--workspace", **WARNINGS)
    if passed(told) != tests_in(place):
        raise Differs(f"the export has {tests_in(place)} tests, and {passed(told)} of them passed")
    cargo(place, "doc", "--quiet", RUSTDOCFLAGS="-Dwarnings")
    definitions_are_found(os.path.join(place, "target", "doc"))
    built = programs(place)
    check_example(built)
    check_own_crate(place)
    agree("the exported program", calls_of(built), program, generated(FIRST_SEED, CASES))


def definitions_are_found(docs: str) -> None:
    """In the pages of rustdoc each link to a definition or a ghost item leads to one. A page that was moved names its
    new place, and hands on what is after the #."""
    pages = {os.path.normpath(path): text_of(path) for path in paths(os.path.join(docs, "**", "*.html"))}
    anchors = {path: {html.unescape(name) for name in re.findall(r' id="([^"]+)"', text)}
               for path, text in pages.items()}
    links = {(path, *urllib.parse.unquote(html.unescape(link)).split("#")) for path, text in pages.items()
             for link in re.findall(r'href="([^"]*#(?:def|ghost)\.[^"]*)"', text)}
    for path, place, anchor in links:
        target = os.path.normpath(os.path.join(os.path.dirname(path), place)) if place else path
        if moved := MOVED.search(pages.get(target, "")):
            target = os.path.normpath(os.path.join(os.path.dirname(target), moved[1]))
        if anchor not in anchors.get(target, ()):
            raise Differs(f"rustdoc: {os.path.relpath(path, docs)} leads to {place}#{anchor}, which isn't there")
    ensure(links, "rustdoc: no clause leads to a definition")


def of_registry(program: str) -> None:
    """The same programs over the public crates of cargo's registry, where it has them here."""
    need_cargo()
    with tempfile.TemporaryDirectory() as place:
        if "public crates of the registry" not in written(place, None):
            raise Skipped("no public crates for cargo")
        built = programs(place)
        check_example(built)
        agree("the exported program", calls_of(built), program, generated(FIRST_SEED, CASES_OF_REGISTRY))


def unproved(program: str) -> None:
    """./pip --unproved answers an example where nothing is built, and says that nothing is proved of it."""
    need_cargo()
    with tempfile.TemporaryDirectory() as place:
        copied(place, "pip", "lab", "VERSION", "crates.txt", "LICENSE", "crates", "dev/export", "tools/common",
               "dev/exporter", without=("proofs", "specs", "must-fail", "tried"))
        given = contents("examples/first.pip")
        done = subprocess.run([os.path.join(place, "pip"), "--unproved", "script"], input=given,
                              stdout=subprocess.PIPE, stderr=subprocess.PIPE, timeout=SECONDS)
        expect("./pip --unproved", (done.stdout, done.returncode), (contents("examples/first.out"), 0))
        told = done.stderr.decode()
        ensure(told.endswith("cargo built this program of the same text, and nothing is proved of it\n"),
               f"./pip --unproved says {told[-2000:]!r}")


def clippy(program: str) -> None:
    """cargo clippy finds nothing but what dev/exporter/lints.toml allows by name."""
    need_cargo("clippy")
    cargo(exported().name, "clippy", "--workspace", "--all-targets", "--quiet", "--", "-D", "warnings")


def miri(program: str) -> None:
    """The tests of frames, whose crate alone has unsafe code, in an interpreter that sees undefined behaviour."""
    need_cargo("miri")
    told = cargo(exported().name, "miri", "test", "-p", "pip_test_tables", "frames")
    ensure(passed(told), f"no test of frames was run:\n{told[-2000:]}")


def need_cargo(tool: str = "") -> None:
    """Skips a check for which there is no cargo, one that is too old, or one without a tool of its own."""
    needed("cargo")
    told = subprocess.run(["cargo", "--version"], stdout=subprocess.PIPE, stderr=subprocess.DEVNULL).stdout.decode()
    version = re.match(r"cargo (\d+)\.(\d+)", told)
    if not version or tuple(map(int, version.groups())) < EDITION_KNOWN:
        raise Skipped("no cargo of 1.87 or later")
    if tool and subprocess.run(["cargo", tool, "--version"], stdout=subprocess.DEVNULL,
                               stderr=subprocess.DEVNULL).returncode:
        raise Skipped(f"no cargo {tool}")


@functools.lru_cache(maxsize=None)
def exported() -> tempfile.TemporaryDirectory[str]:
    """A folder with an export, which goes when the checks end."""
    place = tempfile.TemporaryDirectory()
    written(place.name, "shims")
    return place


def written(place: str, deps: str | None) -> str:
    """Writes an export, and answers what dev/export says of it."""
    return finished("dev/export", called("export", "--to", place, *(("--deps", deps) if deps else ())), SECONDS)


def cargo(place: str, *words: str, **settings: str) -> str:
    """What a command of cargo writes that has to pass. It needs no network."""
    environment = dict(os.environ, CARGO_TARGET_DIR=os.path.join(place, "target"), CARGO_NET_OFFLINE="true", **settings)
    return finished("cargo " + words[0], ["cargo", *words], SECONDS, cwd=place, env=environment)


def passed(told: str) -> int:
    """How many tests passed by what cargo says."""
    return sum(int(count) for count in re.findall(r"^test result: ok\. (\d+) passed; 0 failed", told, re.MULTILINE))


def tests_in(place: str) -> int:
    """How many tests the files of an export have."""
    files = (path for path in Path(place).rglob("*.rs") if Path(place, "target") not in path.parents)
    return sum(len(re.findall(r"^\s*#\[test\]$", path.read_text(encoding="utf-8"), re.MULTILINE)) for path in files)


def programs(place: str) -> Callable[[str], str]:
    """Builds the programs, with tests of requirements and overflows, and answers their paths by their names."""
    cargo(place, "build", "--quiet", "-p", "pip", "-p", "pip_lab", "-p", "pip_example", **WARNINGS)
    return lambda name: os.path.join(place, "target", "debug", name)


def calls_of(built: Callable[[str], str]) -> Callable[[Sequence[str]], list[str]]:
    """How a command of these programs is called, whichever lab the environment names."""
    return lambda words: [built("pip_lab" if words[0] in calling.LAB else "pip"), *words]


def check_example(built: Callable[[str], str]) -> None:
    due = contents("crates/pip_example/stdout")
    expect("the exported example", run([built("pip_example")]), (due, 0))


def check_own_crate(export: str) -> None:
    """The crates that docs/EXPORT.md shows are built over the export, and do what the page says."""
    for title, first, told in (
            ("In a crate of your own", "use ", r"It prints `(.*?)`"),
            ("Memory of your own, without an allocator", "#![no_std]", r"It ends with status `(.*?)`")):
        shown = text_of("docs/EXPORT.md").split(f"## {title}\n")[1].split("\n## ")[0]
        code = "\n".join(line[4:] for line in shown.split("\n") if not line or line.startswith("    "))
        needs, main = code.split(first, 1)
        due = part(told, shown)
        with tempfile.TemporaryDirectory() as place:
            write(OWN + needs.replace("../pip-rust", export), place, "Cargo.toml")
            write(first + main, place, "src", "main.rs")
            cargo(place, "build", "--quiet")
            wanted = (b"", int(due)) if due.isdecimal() else (due.encode() + b"\n", 0)
            done = run([os.path.join(place, "target", "debug", "own")])
            expect(f"the crate of docs/EXPORT.md, {title}", done, wanted)
