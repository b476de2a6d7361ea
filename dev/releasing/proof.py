"""The text of PROOF: what was proved of the programs of a release, by what, and what a reader may compare."""

from __future__ import annotations

from pathlib import Path

from common.blocks import blocks
from common.calling import ensure
from . import repository
from .gate import Record
from .repository import Checkout

SITE = "site"                # a folder
TEXTS = blocks("proof.txt", __file__)


def text(version: str, record: Record | None, found: Checkout, site: Path | None) -> str:
    """That of a release, for which no gate was run where there is no record of one, and which has no site where none is
    given."""
    programs = repository.PROVED if record else repository.UNPROVED
    told = {"version": version, "commit": found.commit(), "tree": found.tree(),
            "copies": TEXTS["with site" if site else "no site"].rstrip("\n").format(site=SITE)}
    if record:
        told.update(vars(record), closing="\n".join(f"          {line}" for line in record.closing),
                    trusted=trusted(found))
    sums = [(repository.sum_of(found.place / name), name) for name in programs]
    sums += [(repository.sum_of(path), f"{SITE}/{path.name}") for path in sorted(site.iterdir())] if site else []
    sums += [(repository.sum_of(found.place / name), name) for name in found.files()]
    return (TEXTS["proved" if record else "unproved"].format_map({**told, "programs": " and ".join(programs)}) + "\n"
            + TEXTS["sums"].format(sums="\n".join(f"{total}  {name}" for total, name in sums)))


def trusted(found: Checkout) -> str:
    """The section of docs/PROVED.md that says so."""
    path = found.place / "docs" / "PROVED.md"
    parts = path.read_text(encoding="utf-8").split("\n## Trusted\n")
    ensure(len(parts) == 2, f"{path} has no section 'Trusted'")
    return parts[1].split("\n## ")[0].strip()
