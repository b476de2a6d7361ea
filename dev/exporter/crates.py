"""The crates of a repository, by its crates.txt."""

from dataclasses import dataclass
from pathlib import Path

from .rewriting import Role
from .tokens import Trouble


@dataclass(frozen=True)
class Crate:
    """A crate with the crates whose names it uses."""

    name: str
    uses: list[str]
    folder: Path

    @property
    def is_program(self) -> bool:
        return (self.folder / "src" / "main.rt").exists()

    def sources(self) -> list[Path]:
        return sorted((self.folder / "src").rglob("*.rt"))

    def role(self, source: Path) -> Role:
        """What a source is in the crate."""
        root = source.parent == self.folder / "src" and source.name in ("lib.rt", "main.rt")
        shows = root and not self.is_program and any((self.folder / "specs").glob("*.antt"))
        return Role(root, root and source.name == "main.rt", shows)


def crates_of(repository: Path) -> dict[str, Crate]:
    """All crates by their names, in the order of crates.txt."""
    found: dict[str, Crate] = {}
    for line in (repository / "crates.txt").read_text(encoding="utf-8").splitlines():
        line = line.split("#")[0].strip()
        if line:
            name, _, uses = line.partition(":")
            name = name.split()[0]
            found[name] = Crate(name, uses.split(), repository / "crates" / name)
    return found


def chosen(crates: dict[str, Crate], only: list[str]) -> list[Crate]:
    """These crates and those that they use, in the order of crates.txt; all where none is named."""
    wanted = set(only or crates)
    unknown = sorted(wanted - set(crates))
    if unknown:
        raise Trouble(f"no crate is named {', '.join(unknown)}: crates.txt has them all")
    rest = list(wanted)
    while rest:
        below = [name for name in crates[rest.pop()].uses if name in crates and name not in wanted]
        wanted.update(below)
        rest += below
    return [crate for name, crate in crates.items() if name in wanted]
