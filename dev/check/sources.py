"""What holds of the sources beside what is proved: no clause imports in vain. And how checks read sources."""

import os
import re
from collections.abc import Iterator

from .running import REPOSITORY, ensure, planted_for, text_of

IMPORT = re.compile(r"^\s*ghost use [^{\n]*\{([^}\n]*)\};$")


def ghost_imports(program: str) -> None:
    """Each name that a clause's import brings is used in its file. A planted file is tried first."""
    with planted_for("imports") as place:
        ensure([name for _, name in imports_in_vain(place)] == ["◌<◌", "length"], "planted imports aren't found")
    found = [f"{path}: {name}" for path, name in imports_in_vain(REPOSITORY)]
    ensure(not found, f"nothing uses what is imported in {', '.join(found)}")


def imports_in_vain(top: str) -> Iterator[tuple[str, str]]:
    """The imported names that stand nowhere else in their file, with its path."""
    for _, path, text in sources(top):
        lines = text.split("\n")
        body = re.sub(r"//[^\n]*", "", "\n".join(line for line in lines if not IMPORT.match(line)))
        for names in filter(None, map(IMPORT.match, lines)):
            for name in (name.strip() for name in names.group(1).split(",")):
                if name and not is_used(name.split(" as ")[-1].strip(), body):
                    yield path, name


def is_used(name: str, body: str) -> bool:
    """Whether a name stands in a text; one with places for operands by all that stands between them."""
    if "◌" in name:
        return all(part in body for part in name.split("◌") if part)
    return re.search(rf"(?<![\w'-]){re.escape(name)}(?![\w'])", body) is not None


def sources(top: str) -> Iterator[tuple[str, str, str]]:
    """Each crate's files of code: the crate, the path from the top, and the text."""
    return texts(top, ("src",), ".rt")


def texts(top: str, parts: tuple[str, ...], ending: str) -> Iterator[tuple[str, str, str]]:
    """The files of this ending in these folders of each crate: the crate, the path, and the text."""
    crates = os.path.join(top, "crates")
    for crate in sorted(os.listdir(crates)):
        for part in parts:
            for folder, _, names in os.walk(os.path.join(crates, crate, part)):
                for name in sorted(names):
                    if name.endswith(ending):
                        path = os.path.join(folder, name)
                        yield crate, os.path.relpath(path, top), text_of(path)
