"""The kernel as ordinary Rust: writes the crates as a workspace of cargo, and compares its text with the sources."""

import argparse
from pathlib import Path

from common import calling
from . import comparing, crates, dependencies, requirements, workspace

REPOSITORY = Path(__file__).resolve().parent.parent.parent
PROMISE = "the same text, not the same proof"


def main() -> None:
    parser = argparse.ArgumentParser(description=f"The crates as ordinary Rust, for cargo: {PROMISE}.")
    one = parser.add_mutually_exclusive_group(required=True)
    one.add_argument("--to", type=Path, metavar="FOLDER", help="a new folder, or an earlier export")
    one.add_argument("--untested", action="store_true",
                     help="write nothing: list, by public function, the parts of what it requires that a debug build "
                          "doesn't test")
    parser.add_argument("--only", nargs="+", default=[], metavar="CRATE", help="these crates and those that they use")
    parser.add_argument("--deps", choices=("registry", "shims"),
                        help="public crates from cargo's registry, or the small ones that come with this tool; without "
                             "it the registry's where cargo can get them without a network")
    parser.add_argument("--from", dest="repository", type=Path, default=REPOSITORY, metavar="FOLDER",
                        help="the checkout with the sources; without it this one")
    parser.add_argument("--compare", action="store_true", help="write nothing: compare the export that is in FOLDER")
    calling.started(parser, done)


def done(given: argparse.Namespace) -> int:
    """Does what is asked for, and answers the status: 1 where the export differs from the sources."""
    if given.untested:
        print("\n".join(f"{where}: {part}" for where, part in untested(given.repository, given.only)))
        return 0
    if not given.compare:
        export(given)
    report = comparing.compared(given.repository, given.to)
    print(report.text())
    return 1 if report.differences else 0


def untested(repository: Path, only: list[str]) -> list[tuple[str, str]]:
    """The parts of requirements that no test makes, each after its crate and its public function, but for tests."""
    found = [crate for crate in crates.chosen(crates.crates_of(repository), only)
             if not crate.name.startswith("pip_test")]
    return [(f"{crate.name}::{name}", part) for crate in found for path in crate.sources()
            for name, parts in requirements.untested(path.read_text(encoding="utf-8")).items() for part in parts]


def export(given: argparse.Namespace) -> None:
    """Writes the export, and says of what it is made."""
    found = crates.chosen(crates.crates_of(given.repository), given.only)
    config = None if given.deps == "shims" else dependencies.registry()
    if config is None and given.deps == "registry":
        config = ""  # cargo gets them by the network
    workspace.write(given.to, workspace.files_of(found, given.repository, config))
    public = "shims" if config is None else "registry"
    print(f"{len(found)} crates, public crates of the {public}: {PROMISE}")
