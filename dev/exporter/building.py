"""A program of a tool: a crate of its own beside an export that it uses, built by cargo where a source is newer."""

from __future__ import annotations

import os
import shutil
import subprocess
import sys
from collections.abc import Iterator, Mapping, Sequence
from dataclasses import dataclass
from pathlib import Path

from common import calling
from common.calling import ensure

REPOSITORY = Path(calling.REPOSITORY)


def files_below(folder: Path) -> Iterator[Path]:
    """The files of a folder, without what was built in it, which may be thousands."""
    for at, folders, names in os.walk(folder):
        folders[:] = [name for name in folders if name != "out"]
        yield from (Path(at, name) for name in names)


@dataclass(frozen=True)
class Program:
    """Where the crate is, with manifest.toml and src/; the crates that it uses; and what cargo is to know."""

    name: str
    what: str                # it is, as "the judge"
    source: Path
    uses: tuple[str, ...]
    features: tuple[str, ...] = ()
    without_cargo: str = ""  # what to do there

    @property
    def folder(self) -> Path:
        return REPOSITORY / "out" / self.source.name

    @property
    def built(self) -> Path:
        return self.folder / self.source.name / "target" / "release" / self.name

    @property
    def shipped(self) -> Path:
        """Where a release has the program."""
        return self.source / self.name

    def path(self) -> str:
        """The path of the program, which the environment may name, or a release has. Else it is built first where it
        isn't there, or a source is newer."""
        if not self.is_new():
            self.build()
        return os.environ.get(self.name.upper()) or str(self.shipped if self.shipped.exists() else self.built)

    def copy(self, to: Path) -> None:
        to.parent.mkdir(parents=True, exist_ok=True)
        shutil.copy(self.path(), to)

    def is_new(self) -> bool:
        if os.environ.get(self.name.upper()) or self.shipped.exists():
            return True
        if not self.built.exists():
            return False
        made = self.built.stat().st_mtime
        return all(path.stat().st_mtime <= made for path in self.sources())

    def sources(self) -> list[Path]:
        folders = [REPOSITORY / "crates", REPOSITORY / "dev" / "exporter", self.source]
        kinds = (".rt", ".rs", ".toml", ".py", ".txt")
        return [REPOSITORY / "crates.txt",
                *(path for folder in folders for path in files_below(folder) if path.suffix in kinds)]

    def files(self) -> dict[str, str]:
        """The files of the crate in an export."""
        from . import workspace              # here, since what is built doesn't need it
        place = self.source.name
        manifest = workspace.package(self.name, "", REPOSITORY) + "\n"
        manifest += (self.source / "manifest.toml").read_text(encoding="utf-8")
        files = {f"{place}/Cargo.toml": manifest,
                 f"{place}/LICENSE": (REPOSITORY / "LICENSE").read_text(encoding="utf-8")}
        return {**files, **{f"{place}/src/{path.name}": path.read_text(encoding="utf-8")
                   for path in sorted((self.source / "src").iterdir())}}

    def write(self, folder: Path, *others: Program) -> None:
        """An export of the crates that it uses, with its own crate and those of others beside them."""
        from . import crates, workspace
        found = crates.chosen(crates.crates_of(REPOSITORY), list(self.uses))
        files = workspace.files_of(found, REPOSITORY, None)
        for program in (self, *others):
            files.update(program.files())
        workspace.write(folder, files)

    def build(self) -> None:
        ensure(shutil.which("cargo"), f"{self.what} is a program that cargo builds, and there is no cargo here: "
               f"install Rust 1.87 or later{self.without_cargo}")
        print(f"building {self.what} by cargo; this takes about half a minute, once", file=sys.stderr)
        self.write(self.folder)
        words = ["cargo", "build", "--release", "--quiet", "--offline",
                 *(["--features", ",".join(self.features)] if self.features else [])]
        run(self.what, words, self.folder / self.source.name)
        os.utime(self.built)


def run(what: str, words: Sequence[str], place: Path | None = None, settings: Mapping[str, str] | None = None) -> None:
    """Runs a command that makes something, with settings of the environment, and shows what it said where it fails."""
    done = subprocess.run(words, env={**os.environ, **(settings or {})}, cwd=place, stdin=subprocess.DEVNULL,
                          stdout=subprocess.PIPE, stderr=subprocess.STDOUT)
    ensure(not done.returncode, f"{what} can't be made: {done.stdout.decode('utf-8', 'replace').strip()[-4000:]}")
