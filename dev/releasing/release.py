"""Makes a release: what is committed, with the programs that the gate built, the site, the export, and PROOF."""

from __future__ import annotations

import argparse
import os
import re
import shutil
import sys
import tempfile
from pathlib import Path

from common import calling
from common.blocks import blocks
from common.calling import Failed, ensure
from debugger.building import SEARCHES, STATES
from exporter import building
from judge.building import JUDGE
from pages import rendering
from playground import module
from . import gate, proof, repository
from .repository import Checkout

VERSION = re.compile(r"\d+(\.\d+)*(-[a-z0-9]+)?")
# By which ./pip and ./lab see that a program is as new as the sources; one mark for what cargo built
MARKS = tuple(f"{os.path.dirname(path)}/sources-seen" for path in repository.PROVED)
UNPROVED_MARKS = ("out/sources-seen",)
EXPORT = "rust"
NO_COMPILER = "no compiler here has the target wasm32: --debian names a folder with one"
BESIDE = "pip-release"                     # beside the checkout
PACKAGE = "pip-kernel"                     # since another program of Debian is called pip
TEXTS = blocks("package.txt", __file__)


def main() -> None:
    parser = argparse.ArgumentParser(
        description="A folder and a tarball for a person without the kit and without cargo.",
        epilog="It refuses a checkout that isn't clean, and one on which 'release --gate' hasn't passed.")
    parser.add_argument("version", nargs="?", metavar="VERSION", help="as 1.2, or 1.2-rc1")
    parser.add_argument("--gate", action="store_true",
                        help="run .ci/run --all, and keep a record of it in out/; its status is the gate's")
    parser.add_argument("--unproved", action="store_true",
                        help="without a gate, of the programs that ./pip --unproved has built: the folder, PROOF, "
                             "./pip and ./lab say so")
    parser.add_argument("--to", type=Path, metavar="FOLDER",
                        help="where the folder and the tarball go, outside the checkout; without it pip-release beside "
                             "it")
    parser.add_argument("--no-page", action="store_true",
                        help="without the site, which needs a compiler with the target wasm32 and two packages of "
                             "Python; PROOF says so. It is so where one of these isn't here, too. With --gate: without "
                             "the checks of the site")
    module.take_module(parser)
    parser.add_argument("--deb", action="store_true",
                        help="make a package for Debian, too: pip-kernel, with the commands pip-kernel and pip-lab")
    calling.started(parser, lambda given: work(given, Checkout(Path(calling.REPOSITORY))))


def work(given: argparse.Namespace, found: Checkout) -> int:
    if given.gate:
        ensure(not given.version, "--gate needs no version: it runs the gate, and a release comes after it")
        return gate.run(found, given.no_page)
    if not given.version or not VERSION.fullmatch(given.version):
        raise Failed(f"a version is numbers with points between them, as 1.2, and not {given.version!r}"
                     if given.version else "which version?")
    if given.version.partition("-")[0] != (named := found.version()):
        raise Failed(f"the file VERSION says {named}: a release of {given.version} needs another commit")
    print(made(given, found, place_of(given, found)))
    return 0


def place_of(given: argparse.Namespace, found: Checkout) -> Path:
    """Where a release goes: never into the checkout, where the gate would refuse its sources."""
    to: Path = given.to or found.place.parent / BESIDE
    ensure(found.place.resolve() not in (to.resolve(), *to.resolve().parents), f"{to} is inside the checkout, where "
           "the next gate would refuse the sources of a release: choose a folder outside it")
    return to


def made(given: argparse.Namespace, found: Checkout, to: Path) -> Path:
    """Makes all in a folder of its own, which takes its place when it is whole. Answers the tarball's path."""
    name = f"pip-{given.version}{'-unproved' if given.unproved else ''}"
    folder, tarball = to / name, to / f"{name}.tar.gz"
    package = to / f"{name.replace('pip-', f'{PACKAGE}_', 1)}.deb"
    for path in (folder, tarball, package):
        ensure(not path.exists(), f"{path} is there already: a version is made once")
    found.need_clean()
    if given.unproved:
        found.need_unproved()
    record = None if given.unproved else gate.passed(found)
    to.mkdir(parents=True, exist_ok=True)
    with tempfile.TemporaryDirectory(dir=to) as place:
        top = Path(place) / name
        copied(found, top, given.unproved)
        site = make_site(given, found, top / proof.SITE)
        export(found, top / EXPORT)
        for one in (JUDGE, STATES, SEARCHES):
            say(one.what)
            one.copy(top / one.shipped.relative_to(building.REPOSITORY))
        told = proof.text(given.version, record, found, site)
        (top / "PROOF").write_text(told, encoding="utf-8")
        packed(top, Path(place) / tarball.name, found.seconds())
        if given.deb:
            for_debian(top, Path(place) / package.name, found.seconds())
            os.rename(Path(place) / package.name, package)
        os.rename(top, folder)
        os.rename(Path(place) / tarball.name, tarball)
    return tarball


# The parts

def copied(found: Checkout, top: Path, is_unproved: bool) -> None:
    """What is committed, and the programs with their marks, so that ./pip and ./lab run them, or say that they are
    unproved."""
    programs = repository.UNPROVED if is_unproved else repository.PROVED
    for name in (*found.files(), *programs):
        target = top / name
        target.parent.mkdir(parents=True, exist_ok=True)
        shutil.copy(found.place / name, target, follow_symlinks=name in programs)
    for name in programs:
        (top / name).chmod(0o755)
    for mark in UNPROVED_MARKS if is_unproved else MARKS:
        (top / mark).touch()
    if is_unproved:
        (top / calling.MARK).write_text("Nothing is proved of the programs of this release: see PROOF.\n")


def make_site(given: argparse.Namespace, found: Checkout, path: Path) -> Path | None:
    """Makes the site and answers its folder; None where it isn't wanted, or something that makes it isn't here."""
    if given.no_page or (why := lacking(given)):
        sys.stderr.write(f"release: without {path.name}/{'' if given.no_page else ', since ' + why}\n")
        return None
    parts = {"--module": given.module, "--debian": None if given.module else given.debian}
    words = [word for option, path in parts.items() if path for word in (option, str(path.resolve()))]
    run("the site", found, "class/site", "--to", str(path), *words)
    ensure((path / "index.html").is_file(), "the site isn't there: class/site made no index.html")
    return path


def lacking(given: argparse.Namespace) -> str:
    """What a site needs and isn't here; empty where all is."""
    if missing := rendering.missing():
        return missing
    return NO_COMPILER if not given.module and module.compiler_of(given.debian) is None else ""


def export(found: Checkout, path: Path) -> None:
    run("the export", found, "dev/export", "--to", str(path), "--deps", "shims")


def run(what: str, found: Checkout, tool: str, *words: str) -> None:
    say(what)
    building.run(what, [sys.executable, "-B", str(found.place / tool), *words])


def say(what: str) -> None:
    """Says what is being made."""
    print(f"release: {what}", file=sys.stderr, flush=True)


def packed(top: Path, to: Path, seconds: int) -> None:
    """The tarball, of the same bytes each time: all is as old as the commit, and no source newer than the program."""
    say("the tarball")
    for path in [*top.rglob("*"), top]:
        os.utime(path, (seconds, seconds), follow_symlinks=False)
    building.run("the tarball", ["tar", "--create", "--file", str(to), "--use-compress-program", "gzip --no-name",
                                 "--format", "gnu", "--sort", "name", "--owner", "0", "--group", "0", "--numeric-owner",
                                 "--mode", "u=rwX,go=rX", "--directory", str(top.parent), top.name])


def for_debian(top: Path, to: Path, seconds: int) -> None:
    """A package of a release: all of it is below /usr/lib, and two commands with a page of the manual lead there."""
    say("the package")
    place, version = to.parent / "debian", to.stem.partition("_")[2].replace("-", "~")
    shutil.copytree(top, place / "usr" / "lib" / PACKAGE)
    for path, text in TEXTS.items():
        (place / path).parent.mkdir(parents=True, exist_ok=True)
        (place / path).write_text(text.replace("VERSION", version), encoding="utf-8")
    (place / "usr" / "bin").mkdir()
    for command, wrapper in ((PACKAGE, "pip"), ("pip-lab", "lab")):
        (place / "usr" / "bin" / command).symlink_to(f"../lib/{PACKAGE}/{wrapper}")
    building.run("the package", ["dpkg-deb", "--root-owner-group", "--build", str(place), str(to)], None,
                 {"SOURCE_DATE_EPOCH": str(seconds)})
    shutil.rmtree(place)
