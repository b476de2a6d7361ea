"""Texts in blocks: a title at the left edge, and below it lines that are further in. A remark begins with `#`."""

from __future__ import annotations

import re
from pathlib import Path

REPEATED = re.compile(r"(.)\{(\d+)\}")


def blocks(path: str | Path, here: str = "") -> dict[str, str]:
    """The texts of a file by their titles. A path is beside the module `here`, if that is given."""
    return parted((Path(here).parent / path).read_text(encoding="utf-8"))


def parted(text: str) -> dict[str, str]:
    found: dict[str, list[str]] = {}
    lines: list[str] = []
    for line in text.splitlines():
        if line.startswith("    ") or not line:
            lines.append(line[4:])
        elif not line.startswith("#"):
            if line in found:
                raise ValueError(f"two blocks have the title {line!r}")
            lines = found[line] = []
    return {title: "\n".join(lines).strip("\n") + "\n" for title, lines in found.items()}


def repeated(text: str) -> str:
    """A text in which `x{7}` is seven x."""
    return REPEATED.sub(lambda found: found[1] * int(found[2]), text)


def escaped(line: str) -> bytes:
    """The same of a line in which a backslash begins an escape of Python, as bytes."""
    return repeated(line).encode("latin-1").decode("unicode_escape").encode("latin-1")


def listed(text: str) -> list[bytes]:
    """The lines of a block, by their escapes; `\\n` alone is an empty one."""
    return [escaped(line) if line != "\\n" else b"" for line in text.splitlines()]
