"""The files of an export, and the folder that holds them."""

from __future__ import annotations

import re
from pathlib import Path
from collections.abc import Iterable

from common.blocks import blocks
from . import dependencies, pages
from .crates import Crate
from .rewriting import exported
from .tokens import Trouble

HERE = Path(__file__).resolve().parent
MARK = "# An export of ordinary Rust: dev/export made it, and makes it again.\n"
PACKAGE, LIBRARY, PROFILE = blocks("manifests.txt", __file__).values()
MADE = ("crates", "shims", ".cargo")  # the folders of which nothing else is left in an export
FIRST = re.compile(r"(?://!.*\n)+")


def package(name: str, text: str, repository: Path) -> str:
    """The head of a crate's Cargo.toml, with the first sentence of its root."""
    first = FIRST.match(text)
    said = " ".join(line.lstrip("/! ") for line in first[0].splitlines()) if first else name
    said = re.split(r"(?<=[^.]{2})\.(?: |$)", re.sub(r" \(docs/[^)]*\)|`", "", said).replace('"', "'"))[0]
    version = repository / "VERSION"
    return PACKAGE.format(name=name, description=said,
                          version=version.read_text(encoding="utf-8").strip() if version.exists() else "0.1.0")


def files_of(crates: list[Crate], repository: Path, config: str | None) -> dict[str, str]:
    """All files by their paths. By a configuration of cargo public crates are the registry's, else those of shims/."""
    license_text = (repository / "LICENSE").read_text(encoding="utf-8")
    shims = sorted(path.parent.parent.name for path in dependencies.SHIMS.glob("*/src/lib.rs"))
    shims = [name for name in shims if config is None or name not in dependencies.PUBLIC]
    members = [f"crates/{crate.name}" for crate in crates] + [f"shims/{name}" for name in shims]
    names = "".join(f'    "{member}",\n' for member in members)
    lints = (HERE / "lints.toml").read_text(encoding="utf-8")
    files = {"Cargo.toml": f'{MARK}\n[workspace]\nresolver = "3"\nmembers = [\n{names}]\n\n{PROFILE}\n{lints}',
             "LICENSE": license_text, "README.md": (HERE / "export_readme.md").read_text(encoding="utf-8")}
    if config:
        files[".cargo/config.toml"] = config
    for name in shims:
        files.update(shim_files(name, repository))
    known = pages.definitions_of(crates)
    for crate in crates:
        files[f"crates/{crate.name}/Cargo.toml"] = manifest(
            crate, {other.name for other in crates}, set(shims), repository)
        files.update(source_files(crate, known))
    shown = pages.std_pages(repository, [text for name, text in files.items() if name.endswith(".rs")], known)
    files.update({f"shims/{dependencies.STD}/{name}": text for name, text in shown.items()})
    files.update({f"{member}/LICENSE": license_text for member in members})
    return files


def shim_files(name: str, repository: Path) -> dict[str, str]:
    """A small crate with its manifest, to which manifest.toml adds what it needs."""
    folder = dependencies.SHIMS / name
    more = folder / "manifest.toml"
    added = "\n" + more.read_text(encoding="utf-8") if more.exists() else ""
    root = (folder / "src" / "lib.rs").read_text(encoding="utf-8")
    files = {f"shims/{name}/Cargo.toml": package(dependencies.PACKAGES.get(name, name), root, repository) + added}
    for path in folder.rglob("*.rs"):
        files[f"shims/{path.relative_to(dependencies.SHIMS)}"] = path.read_text(encoding="utf-8")
    return files


def source_files(crate: Crate, known: pages.Definitions) -> dict[str, str]:
    files = {f"crates/{crate.name}/{name}": text for name, text in pages.crate_pages(crate, known).items()}
    for path in crate.sources():
        source = path.read_text(encoding="utf-8")
        try:
            text = exported(source, crate.role(path), pages.Names(source, crate.name, known))
        except (Trouble, ValueError) as trouble:
            raise Trouble(f"{path}: {trouble}") from None
        files[f"crates/{crate.name}/{path.relative_to(crate.folder).with_suffix('.rs')}"] = text
    return files


def manifest(crate: Crate, exported_names: Iterable[str], shims: Iterable[str], repository: Path) -> str:
    """A crate's Cargo.toml. Programs and tests need the part of the library that needs an operating system."""
    root = crate.folder / "src" / ("main.rt" if crate.is_program else "lib.rt")
    head = package(crate.name, root.read_text(encoding="utf-8"), repository)
    version = head.split('version = "')[1].split('"')[0]
    kind = f'[[bin]]\nname = "{crate.name}"\npath = "src/main.rs"\ntest = false\n' if crate.is_program \
        else LIBRARY.format(std=dependencies.STD)
    lines = [head, kind, "[dependencies]", std_line(version, crate.is_program)]
    lines += [dependency_line(crate, name, exported_names, shims, version) for name in crate.uses]
    if not crate.is_program:
        lines += ["", "[dev-dependencies]", std_line(version, True)]
    return "\n".join(lines) + "\n\n[lints]\nworkspace = true\n"


def std_line(version: str, host: bool) -> str:
    features = 'features = ["host"]' if host else "default-features = false"
    return f'{dependencies.STD} = {{ version = "{version}", path = "../../shims/{dependencies.STD}", {features} }}'


def dependency_line(crate: Crate, name: str, exported_names: Iterable[str], shims: Iterable[str], version: str) -> str:
    if name in exported_names:
        plain = "" if crate.is_program else ", default-features = false"
        return f'{name} = {{ version = "{version}", path = "../{name}"{plain} }}'
    if name in shims:
        renamed = f'package = "{dependencies.PACKAGES[name]}", ' if name in dependencies.PACKAGES else ""
        return f'{name} = {{ {renamed}version = "{version}", path = "../../shims/{name}" }}'
    if name in dependencies.PUBLIC:
        return f"{name} = {dependencies.PUBLIC[name]}"
    raise Trouble(f"{crate.name} uses {name}, for which dev/exporter/shims has nothing")


def write(folder: Path, files: dict[str, str]) -> None:
    """Makes the folder hold these files, and no other in what an export makes. A file that is so already isn't touched,
    so that cargo builds what changed alone."""
    refuse_foreign(folder)
    for name, text in files.items():
        path = folder / name
        if not path.exists() or path.read_text(encoding="utf-8") != text:
            path.parent.mkdir(parents=True, exist_ok=True)
            path.write_text(text, encoding="utf-8")
    for part in MADE:
        for path in (folder / part).rglob("*"):
            if path.is_file() and str(path.relative_to(folder)) not in files:
                path.unlink()


def refuse_foreign(folder: Path) -> None:
    """Refuses a folder that holds something else than an export."""
    if not folder.exists() or not any(folder.iterdir()):
        return
    manifest_of = folder / "Cargo.toml"
    if not manifest_of.exists() or not manifest_of.read_text(encoding="utf-8").startswith(MARK):
        raise Trouble(f"{folder} isn't empty, and no export: name another folder")
